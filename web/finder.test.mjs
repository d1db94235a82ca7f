import assert from 'node:assert/strict';
import test from 'node:test';
import { placesOf, stepped } from './finder.mjs';

test('where words stand', () => {
  const rows = [
    ['Tea and tea', 'TEA', [0, 8]],
    ['aaaa', 'aa', [0, 2]],
    ['abc', '', []],
    ['abc', 'd', []],
    ['İstanbul tea', 'tea', [9]],
    ['a\nb', '\nb', [1]],
  ];
  for (const [text, words, places] of rows) assert.deepEqual(placesOf(text, words), places);
});

test('which place is next', () => {
  assert.deepEqual([[3, -1, 1], [3, 0, 1], [3, 2, 1], [3, -1, -1], [3, 0, -1], [1, -1, -1], [2, 5, 1]].map(([count, at, step]) => stepped(count, at, step)), [0, 1, 0, 2, 2, 0, 0]);
});
