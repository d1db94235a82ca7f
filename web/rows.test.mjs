import assert from 'node:assert/strict';
import test from 'node:test';
import { placesOf, rowsIn } from './rows.mjs';
import { module } from './testing.mjs';
import { Peer } from './peer.mjs';

test('rows of lines', () => {
  assert.deepEqual(rowsIn(''), []);
  assert.deepEqual(rowsIn('edit insert 0 two\\swords\nedit delete 3\nedit update 12 \\n\n'), [
    { kind: 'insert', at: 0, piece: 'two words' },
    { kind: 'delete', at: 3, piece: '' },
    { kind: 'update', at: 12, piece: '\n' },
  ]);
});

test('places of what rows put in', () => {
  const rows = [
    [[], []],
    [[['insert', 2]], [2]],
    [[['insert', 2], ['insert', 0]], [3, 0]],
    [[['update', 4], ['delete', 1]], [3]],
    [[['insert', 1], ['delete', 1]], []],
    [[['update', 1], ['update', 1]], [1]],
    [[['insert', 1], ['insert', 1], ['delete', 0]], [1, 0]],
  ];
  for (const [made, wanted] of rows) assert.deepEqual(placesOf(made.map(([kind, at]) => ({ kind, at, piece: '' }))), wanted);
});

// What the peer tells of each step makes of a copy of the text the text that shows.
test('rows of a peer', () => {
  const [owner, other] = [new Peer(module, 0), new Peer(module, 1)];
  const shown = [[], []];
  const take = (site, told) => {
    for (const { kind, at, piece } of told.rows) shown[site].splice(at, kind === 'insert' ? 0 : 1, ...(kind === 'delete' ? [] : [piece]));
    return told;
  };
  const both = (site, line) => take(1 - site, [owner, other][1 - site].receive(take(site, [owner, other][site].step(line)).frame));
  both(0, 'admin adduser 1');
  both(0, 'admin addauth 0 + 1 idu 0');
  ['edit insert 0 a', 'edit insert 1 \\s', 'edit insert 1 𝟝'].forEach((it) => both(0, it));
  ['edit insert 3 b\\\\', 'edit update 0 A', 'edit delete 2'].forEach((it) => both(1, it));
  assert.deepEqual(shown, [['A', '𝟝', 'b\\'], ['A', '𝟝', 'b\\']]);
  assert.deepEqual([...owner.writers()], [1, 0, 1]);
  assert.deepEqual([0, 1, 2, 3].map((it) => owner.pieceAt(it)), ['A', '𝟝', 'b\\', null]);
  assert.deepEqual([0, 1, 2, 3].map((it) => owner.writerAt(it)), [1, 0, 1, null]);
  assert.equal(owner.count(), 3);
  both(0, 'admin addauth 0 - 1 idu 0'); // all three of his are undone
  assert.deepEqual(shown, [['a', '𝟝', ' '], ['a', '𝟝', ' ']]);
  assert.deepEqual([...other.writers()], [0, 0, 0]);
  assert.deepEqual(owner.step('edit delete 9').rows, []);
});
