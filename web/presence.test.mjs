import assert from 'node:assert/strict';
import test from 'node:test';
import { Presence, readSelection, spelledSelection } from './presence.mjs';
import { administratorAndUser, exchange } from './testing.mjs';
import { caretAt } from './caret.mjs';
import { timed } from './testing_links.mjs';

const caret = (copy, anchor, focus) => ({ anchor: caretAt(copy, anchor), focus: caretAt(copy, focus) });

test('where somebody’s caret is', () => {
  const [administrator, user] = administratorAndUser('Tea at four.');
  assert.equal(spelledSelection(caret(user.copy, 0, 12)), '- 1.0');
  assert.equal(spelledSelection(caret(user.copy, 4, 4)), '1.0+4 1.0+4');
  for (const it of [0, 4, 12]) {
    const words = spelledSelection(caret(user.copy, it, it));
    assert.deepEqual(readSelection(administrator.copy, words), caret(administrator.copy, it, it));
  }
});

// Nobody's words break anything.
test('words that are no caret', () => {
  const [{ copy }] = administratorAndUser('Tea.');
  for (const words of ['', '1.0', '1.0 x', '1.0+ 1.0', '<b> 1.0', `1.0 ${'9'.repeat(300)}`]) assert.equal(readSelection(copy, words), null, words);
  assert.deepEqual(readSelection(copy, '1.0+999 7.7+3'), { anchor: { name: '1.0', inside: 4, piece: 'Tea.' }, focus: { name: '7.7', inside: 0, piece: '' } });
});

test('carets of others', async () => {
  const [administrator, user] = administratorAndUser('Tea at four.');
  const said = [];
  const presence = new Presence(user.copy, (it) => said.push(it));
  presence.hear({ kind: 'caret', site: 0, words: '1.0+4 1.0+6' });
  user.type(0, 0, 'Hot ');
  exchange(administrator, user);
  assert.deepEqual(presence.all().map(({ site, anchor, focus, isNew }) => [site, anchor, focus, isNew]), [[0, 8, 10, true]]);
  presence.keepOnly(new Set([1]));
  assert.deepEqual(presence.all(), []);
  await timed((pass) => {
    for (const it of [1, 2, 3]) presence.tell(it, it);
    presence.tell(4, 4);
    pass(100);
    presence.tell(4, 4); // as before
    pass(100);
    assert.equal(said.length, 1); // one telling of many moves
    presence.tellAgain();
    pass(100);
    assert.deepEqual(said, [said[0], said[0]]);
  });
});
