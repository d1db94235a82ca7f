import assert from 'node:assert/strict';
import test from 'node:test';
import { isThere, Kept, leftIn, placeFor } from './left.mjs';
import { administratorAndUser, exchange } from './testing.mjs';

// The words of the requests from a place of a side's journal on, and the places at which a text has them.
function leftFrom({ copy }, from) {
  return leftIn(copy, Array.from({ length: copy.journal.count - from }, (_, i) => from + i));
}

test('what was written while away', () => {
  const [, user] = administratorAndUser('Tea at five.');
  const from = user.copy.journal.count;
  user.copy.insert(1, ' And cups.');
  user.copy.insert(2, ' And milk.');
  user.copy.insert(0, 'Ada: ');
  assert.deepEqual(leftFrom(user, from), [
    { text: 'Ada: ', old: '', before: '', after: 'Tea at five.' },
    { text: ' And cups. And milk.', old: '', before: 'Tea at five.', after: '' },
  ]);
  assert.deepEqual(leftFrom(user, user.copy.journal.count), []);
});

test('a change of a piece, and what was deleted again', () => {
  const [administrator, user] = administratorAndUser('Tea at five.');
  administrator.copy.update(0, 'Tea at six.');
  exchange(administrator, user);
  const from = user.copy.journal.count;
  user.copy.update(0, 'Tea at seven.');
  user.copy.update(0, 'Tea at eight.');
  user.copy.insert(1, 'x');
  user.copy.delete(1);
  assert.deepEqual(leftFrom(user, from), [{ text: 'Tea at eight.', old: 'Tea at six.', before: '', after: '' }]);
});

test('where words belong', () => {
  const left = { text: 'new ', old: '', before: 'Tea at ', after: 'five. And more.' };
  assert.deepEqual(placeFor('Say: Tea at five. And more.', left), { start: 12, end: 12 });
  assert.deepEqual(placeFor('Say: Tea at six.', left), { start: 12, end: 12 });
  assert.deepEqual(placeFor('Nothing of it.', left), { start: 14, end: 14 });
  assert.deepEqual(placeFor('one two three', { text: 'II', old: 'two', before: 'one ', after: ' three' }), { start: 4, end: 7 });
  assert.deepEqual(placeFor('', { text: 'a', old: '', before: '', after: '' }), { start: 0, end: 0 });
});

test('words that came in after all', () => {
  const left = { text: ' and milk', old: '', before: 'Tea at five', after: '. Bread.' };
  assert.ok(isThere('Say: Tea at five and milk. Bread. Cups.', left));
  assert.ok(!isThere('Say: Tea at five. Bread. Cups.', left));
  assert.ok(!isThere('a', { text: 'a', old: '', before: '', after: '' }));
});

test('what is kept', () => {
  const rows = new Map();
  const storage = { getItem: (key) => rows.get(key) ?? null, setItem: (key, value) => rows.set(key, value), removeItem: (key) => rows.delete(key) };
  const kept = new Kept(storage, 'left');
  const [one, two] = ['a', 'b'].map((text) => ({ text, old: '', before: '', after: '' }));
  kept.put('11', [one]);
  kept.put('11', [one]); // once more, as where the page was ended in between
  kept.put('22', [two]);
  kept.put('33', []);
  assert.deepEqual(kept.words, [one, two]);
  kept.drop(one);
  assert.deepEqual(new Kept(storage, 'left').words, [two]);
});
