import assert from 'node:assert/strict';
import test from 'node:test';
import { cut, difference, merged } from './difference.mjs';

test('differences', () => {
  const rows = [
    ['abc', 'abXc', Infinity, { start: 2, end: 2, text: 'X' }],
    ['aaa', 'aaaa', 1, { start: 2, end: 2, text: 'a' }],
    ['abc', '', Infinity, { start: 0, end: 3, text: '' }],
    ['', '𝟝', Infinity, { start: 0, end: 0, text: '𝟝' }],
    ['𝟝', '𝟝𝟞', 0, { start: 2, end: 2, text: '𝟞' }],
    ['𝟝', '𝟞', Infinity, { start: 0, end: 2, text: '𝟞' }],
    ['\u{1f600}', '\u{20600}', Infinity, { start: 0, end: 2, text: '\u{20600}' }],
    ['teh cat', 'the cat', 0, { start: 1, end: 3, text: 'he' }], // what was corrected isn't in front of the caret
  ];
  for (const [from, to, behind, wanted] of rows) assert.deepEqual(difference(from, to, behind), wanted);
});

test('both of two changes', () => {
  const rows = [
    ['one two', 'one, two', 'one two three', 'one, two three'],
    ['one two', 'one two three', 'one, two', 'one, two three'],
    ['one two', 'two', 'one', null], // both took away what stood between
    ['one two three', 'one three', 'one two three four', 'one three four'],
    ['one two', 'one 2', 'one zwei', null],
  ];
  for (const [base, mine, theirs, both] of rows) assert.equal(merged(base, mine, theirs), both, `${mine} ${theirs}`);
});

test('cutting', () => {
  assert.deepEqual(cut('a'.repeat(600)).map((it) => it.length), [255, 255, 90]);
  assert.deepEqual(cut('é'.repeat(200)).map((it) => it.length), [127, 73]);
  assert.deepEqual(cut('a\nb c\n'), ['a', '\n', 'b c', '\n']);
});
