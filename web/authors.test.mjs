import assert from 'node:assert/strict';
import test from 'node:test';
import { authorsOf } from './authors.mjs';

test('whose the letters of a piece are', () => {
  const rows = [
    [[['Tea at four', 1]], [[11, 1]]],
    [[['Tea at four', 1], ['Tea at five', 2]], [[8, 1], [3, 2]]],
    [[['Tea at four', 1], ['Tea at five', 2], ['Tea at five.', 1]], [[8, 1], [3, 2], [1, 1]]],
    [[['Tea at four', 1], ['Hot tea at four', 2]], [[5, 2], [10, 1]]],
    [[['Tea', 1], ['x', 2]], [[1, 2]]],
    [[['spring', 1], ['sprout', 2], ['spring', 2]], [[6, 1]]],
    [[['Tea', 1], ['T', 2]], [[1, 1]]],
    [[['Tea', 1], ['Tea, a', 2], ['Tea', 3]], [[3, 1]]],
    [[['one two', 1], ['one 2 two', 2], ['one two two', 3]], [[3, 1], [1, 2], [3, 3], [4, 1]]],
  ];
  for (const [written, wanted] of rows) {
    const found = authorsOf(written.map(([piece, user]) => ({ piece, user })));
    assert.deepEqual(found.map(({ length, user }) => [length, user]), wanted);
  }
});
