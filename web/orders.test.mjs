import assert from 'node:assert/strict';
import test from 'node:test';
import { NotDone, OFFLINE, Orders } from './orders.mjs';

test('orders and their answers', async () => {
  const sent = [];
  const orders = new Orders((text) => sent.push(text) > 0, () => true);
  const [first, second] = [orders.ask('admin adduser 1'), orders.ask('keys')];
  assert.deepEqual(sent, ['order 0\nadmin adduser 1', 'order 1\nkeys']);
  orders.hear({ kind: 'answer', number: 1, lines: ['keys'] });
  orders.hear({ kind: 'answer', number: 9, lines: [] }); // nobody's
  orders.hear({ kind: 'refused', number: 0, words: 'illegal 1 line 1' });
  assert.deepEqual(await second, ['keys']);
  await assert.rejects(first, (error) => error instanceof NotDone && error.words === 'illegal 1 line 1');
});

test('a long row', async () => {
  const sent = [];
  const orders = new Orders((text) => {
    const [head, ...lines] = text.split('\n');
    sent.push(lines.length);
    queueMicrotask(() => orders.hear({ kind: 'answer', number: Number(head.split(' ')[1]), lines }));
    return true;
  }, () => true);
  const lines = Array.from({ length: 130 }, (_, i) => `admin validate ${i}.1`);
  assert.deepEqual(await orders.askMany(lines), lines);
  assert.deepEqual(sent, [64, 64, 2]);
});

test('a link that is cut', async () => {
  let isLinked = true;
  const orders = new Orders(() => isLinked, () => isLinked);
  const asked = orders.ask('keys');
  orders.lose();
  isLinked = false;
  assert.ok(!orders.isLinked);
  for (const [it, words] of [[asked, ''], [orders.ask('keys'), OFFLINE]]) await assert.rejects(it, (error) => error instanceof NotDone && error.words === words && !error.isRefusal);
});
