import assert from 'node:assert/strict';
import test from 'node:test';
import { Session } from './alone/session.mjs';
import { Copy } from './copy.mjs';
import { Keeper } from './keeper.mjs';
import { NoJournal } from './peer.mjs';
import { Store } from './store.mjs';
import { administratorAndUser, exchange, module, Side } from './testing.mjs';
import { until } from './testing_links.mjs';

test('coming back', async () => {
  const [administrator, user] = administratorAndUser('Tea at four.');
  user.type(12, 12, ' Milk?');
  user.type(3, 4, '-');
  await until('all is kept', () => user.keeper.isDone);
  const again = new Side(1, user.store.bytes);
  assert.equal(again.text, 'Tea-at four. Milk?');
  assert.deepEqual(again.copy.entries, user.copy.entries);
  assert.deepEqual([...again.copy.tentative], [...user.copy.tentative]);
  again.type(0, 0, 'No names twice. ');
  again.sent = user.sent;
  exchange(administrator, again);
  assert.equal(administrator.text, again.text);
  for (const bytes of [[1], [...user.store.bytes, 0], user.store.bytes.subarray(1), [...user.store.bytes, ...user.store.bytes]]) {
    assert.throws(() => new Copy(module, 1, Uint8Array.from(bytes)), NoJournal);
  }
});

test('all is kept before a page goes', async () => {
  const [, user] = administratorAndUser('Tea at four.');
  user.keeper.keep();
  user.type(12, 12, ' Milk?');
  user.writer.flush();
  assert.ok(!user.keeper.isDone);
  assert.equal(await user.keeper.finish(), true);
  assert.equal(new Side(1, user.store.bytes).text, 'Tea at four. Milk?');
});

test('a store that fails', async () => {
  const copy = new Copy(module, 0);
  const failures = [];
  const store = { append: () => Promise.reject(new Error('no room')) };
  const keeper = new Keeper(copy, store, { kept: assert.fail, failed: (error) => failures.push(error.message) });
  copy.step('edit insert 0 a');
  await keeper.keep();
  await keeper.keep();
  assert.equal(await keeper.finish(), false);
  assert.deepEqual(failures, ['no room']);
  assert.ok(!keeper.isDone && !new Session(copy).hasNews); // what isn't kept isn't sent
});

// Rows of a store whose quota is used up are read, and stay.
test('a store that is full', async () => {
  const rows = Array.from({ length: 100 }, (_, i) => Uint8Array.of(i));
  const store = new Store({
    transaction(names, mode) {
      const made = { objectStore: () => ({ getAll: () => request(rows), clear() {}, add() {} }), error: new Error('quota') };
      made.commit = () => queueMicrotask(() => made.onabort());
      return made;
    },
  });
  const request = (result) => {
    const made = { result };
    queueMicrotask(() => made.onsuccess());
    return made;
  };
  assert.deepEqual([...(await store.read())], rows.map((it) => it[0]));
  await assert.rejects(store.append(Uint8Array.of(1)), /quota/);
});
