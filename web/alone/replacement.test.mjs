import assert from 'node:assert/strict';
import test from 'node:test';
import { difference } from '../difference.mjs';
import { piecesOf } from '../testing.mjs';
import { replacement } from './replacement.mjs';

test('replacements', () => {
  const pieces = piecesOf('Tea ', 'at 𝟝our', '.');
  const rows = [
    ['Tea at five.', 1, 1, ['at ', 'five'], true, false],
    ['Tea at 𝟝our!', 2, 1, ['!'], false, false],
    ['Tea Xat 𝟝our.', 1, 0, ['X'], false, false],
    ['TeaX at 𝟝our.', 0, 1, ['Tea', 'X', ' '], true, true],
    ['Tea at 𝟝our.\nX\n', 3, 0, ['\n', 'X', '\n'], false, false],
    ['Tur.', 0, 2, ['T', 'ur'], true, true],
    ['.', 0, 2, [], false, false],
  ];
  for (const [to, at, removed, added, isFrontSplit, isBackSplit] of rows) {
    assert.deepEqual(replacement(pieces, difference(pieces.text, to)), { at, removed, added, isFrontSplit, isBackSplit });
  }
  const { removed, added } = replacement(pieces, { start: 2, end: 2, text: '' });
  assert.deepEqual([removed, added], [0, []]);
});
