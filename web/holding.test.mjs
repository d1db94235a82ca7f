import assert from 'node:assert/strict';
import test from 'node:test';
import { Held, hold } from './holding.mjs';
import { until } from './testing_links.mjs';

// A browser's locks, which one page after another has, and its channels.
class Browser {
  free = Promise.resolve();
  channels = new Set();

  // A page, which is gone once it was asked to let go, unless it is deaf. It writes down what happens.
  open(name, told, { isDeaf = false, patience = 60000 } = {}) {
    const { free } = this;
    let leave = () => {};
    this.free = new Promise((done) => (leave = done));
    const request = (_, { signal }, action) => {
      const aborted = new Promise((_, failed) => signal.addEventListener('abort', () => failed(signal.reason)));
      return Promise.race([aborted, free.then(() => action())]);
    };
    const letGo = () => {
      told.push(`${name} is asked`);
      if (!isDeaf) leave();
    };
    return hold('a document', () => told.push(`${name} has it`), letGo, { locks: { request }, channel: () => this.channel(), patience });
  }

  channel() {
    const channel = { onmessage: () => {}, postMessage: () => {}, close: () => this.channels.delete(channel) };
    channel.postMessage = () => this.channels.forEach((it) => it !== channel && it.onmessage());
    this.channels.add(channel);
    return channel;
  }
}

test('the newest page has a document', async () => {
  const [browser, told] = [new Browser(), []];
  browser.open('one', told);
  await until('it has it', () => told.length === 1);
  browser.open('two', told);
  await until('the other has it', () => told.includes('two has it'));
  assert.deepEqual(told, ['one has it', 'one is asked', 'two has it']);
});

test('a page that does not let go', async () => {
  const [browser, told] = [new Browser(), []];
  browser.open('one', told, { isDeaf: true });
  await until('it has it', () => told.length === 1);
  await assert.rejects(browser.open('two', told, { patience: 50 }), Held);
  assert.ok(!told.includes('two has it'));
});
