import assert from 'node:assert/strict';
import test from 'node:test';
import { Pieces } from './pieces.mjs';

function made(...rows) {
  const pieces = new Pieces();
  rows.forEach(([text, user], place) => pieces.splice(place, 0, [text], user));
  return pieces;
}

const runsOf = (pieces) => pieces.runs().map(({ end, user }) => [end, user]);

test('pieces from bytes', () => {
  const texts = ['é', '𝟝x', '\n'].map((it) => Buffer.from(it));
  const pieces = Pieces.of(Buffer.concat(texts), Uint8Array.from(texts, (it) => it.length), Uint16Array.of(1, 2, 3));
  assert.equal(pieces.text, 'é𝟝x\n');
  assert.deepEqual([...pieces.sizes.subarray(0, 3)], [1, 3, 1]);
  assert.deepEqual(runsOf(pieces), [[1, 1], [4, 2], [5, 3]]);
  assert.deepEqual(pieces.behind(1), { place: 1, start: 1, end: 4 });
  assert.deepEqual(pieces.behind(5), { place: 3, start: 5, end: 5 });
});

test('whose letters', () => {
  const pieces = made(['one ', 1], ['two ', 1], ['three', 2]);
  assert.deepEqual(runsOf(pieces), [[8, 1], [13, 2]]);
  pieces.giveAuthors(1, [{ length: 1, user: 3 }, { length: 3, user: 1 }]);
  assert.deepEqual(runsOf(pieces), [[4, 1], [5, 3], [8, 1], [13, 2]]);
  pieces.splice(0, 0, ['zero '], 2); // what was changed moves with its piece
  assert.deepEqual(runsOf(pieces), [[5, 2], [9, 1], [10, 3], [13, 1], [18, 2]]);
  pieces.splice(2, 1, []);
  assert.deepEqual(runsOf(pieces), [[5, 2], [9, 1], [14, 2]]);
  assert.equal(pieces.text, 'zero one three');
  for (let i = 0; i < 600; i++) pieces.splice(1, 0, ['x'], 4);
  assert.deepEqual(runsOf(pieces), [[5, 2], [605, 4], [609, 1], [614, 2]]);
  assert.equal(pieces.text.slice(pieces.startOf(1), pieces.startOf(2)), 'x');
});

test('places near the one that was asked for last', () => {
  const pieces = new Pieces();
  /** @type {string[]} */
  const texts = [];
  for (let i = 0; i < 400; i++) {
    const place = (i * 7919) % (texts.length + 1);
    const removed = i % 3 ? 0 : Math.min(2, texts.length - place);
    const added = ['x'.repeat(1 + (i % 5)), 'yy'].slice(0, i % 4 ? 2 : 0);
    pieces.splice(place, removed, added);
    texts.splice(place, removed, ...added);
    const asked = (i * 104729) % (texts.length + 1);
    const start = texts.slice(0, asked).join('').length;
    assert.equal(pieces.startOf(asked), start);
    const end = start + (texts[asked]?.length ?? 0);
    assert.deepEqual(pieces.behind(start), { place: asked, start, end });
    if (end > start) assert.deepEqual(pieces.behind(end - 1), { place: asked, start, end });
  }
  assert.equal(pieces.text, texts.join(''));
  assert.deepEqual(pieces.behind(-1), { place: 0, start: 0, end: texts[0].length });
});
