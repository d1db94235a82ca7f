import assert from 'node:assert/strict';
import test from 'node:test';
import { caretAt } from './caret.mjs';
import { Ghosts } from './ghosts.mjs';
import { administratorAndUser, exchange } from './testing.mjs';

function storage() {
  const kept = new Map();
  return { getItem: (key) => kept.get(key) ?? null, setItem: (key, value) => kept.set(key, value) };
}

const told = (ghosts) => ghosts.all().map(({ offset, text, user, isRefused }) => [offset, text, user, isRefused]);

test('what was undone stands at its place', () => {
  const [administrator, user] = administratorAndUser('Tea at four.\nBring cups.');
  const kept = storage();
  const ghosts = new Ghosts(user.copy, kept, 'let go');
  user.type(12, 12, ' Milk');
  user.type(17, 17, ' and sugar');
  user.type(0, 3, 'Coffee'); // within the administrator's piece
  user.type(user.text.length, user.text.length, 'Now.');
  administrator.copy.step('admin addauth 0 - 1 idu 0');
  exchange(administrator, user);
  assert.equal(user.text, 'Tea at four.\nBring cups.');
  assert.deepEqual(told(ghosts), [[3, 'Coffee', 1, false], [12, ' Milk and sugar', 1, false], [24, 'Now.', 1, false]]);
  ghosts.letGo(ghosts.all().at(-1));
  const again = new Ghosts(user.copy, kept, 'let go'); // the page is loaded again
  assert.equal(told(again).length, 2);
});

test('what was undone and had been changed stands as it was last', () => {
  const [administrator, user] = administratorAndUser('Tea.');
  const ghosts = new Ghosts(user.copy, storage(), 'let go');
  user.type(4, 4, ' Milk');
  user.type(9, 9, ' and sugar'); // behind it
  user.type(5, 9, 'Cream');
  user.type(0, 3, 'Tee');
  user.type(0, 3, 'Thee');
  administrator.copy.step('admin addauth 0 - 1 idu 0');
  exchange(administrator, user);
  assert.deepEqual(told(ghosts), [[3, 'hee', 1, false], [4, ' Cream and sugar', 1, false]]);
  ghosts.all().forEach((it) => ghosts.letGo(it));
  assert.deepEqual(told(ghosts), []);
});

test('words that were not let in', () => {
  const [, user] = administratorAndUser('Tea at four.');
  const kept = storage();
  const ghosts = new Ghosts(user.copy, kept, 'let go');
  const at = caretAt(user.copy, 3);
  ghosts.refuse({ at, text: 'n' }, { version: 1, by: 0 }, 'denied 1 none');
  ghosts.refuse({ at, text: 'o' }, { version: 1, by: 0 }, 'denied 1 none'); // behind it: one
  ghosts.refuse({ at, text: '' }, null);
  assert.deepEqual(told(ghosts), [[3, 'no', 1, true]]);
  user.type(0, 0, 'Hot ');
  assert.deepEqual(told(ghosts), [[7, 'no', 1, true]]);
  const again = new Ghosts(user.copy, kept, 'let go'); // the page is loaded again
  assert.deepEqual(told(again), [[7, 'no', 1, true]]);
  again.refuse({ at: caretAt(user.copy, 0), text: 'x' }, null);
  again.letGo(again.all().at(-1));
  assert.deepEqual(told(again), [[0, 'x', 1, true]]);
});
