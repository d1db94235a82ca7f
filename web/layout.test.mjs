import assert from 'node:assert/strict';
import test from 'node:test';
import { agreement, closed, countWhile, laidOut, renewed } from './layout.mjs';

const ghost = (offset, key) => ({ offset, key, keys: [key], text: key, user: 1, denial: null, answer: '', isRefused: false });
const plain = (text, more = {}) => ({ text, runs: text ? [{ start: 0, end: text.length, name: 'a' }] : [], ghosts: [], locks: [], ...more });
const lock = (start, end) => ({ start, end, name: 'locked' });

test('lines', () => {
  const runs = [{ start: 0, end: 4, name: 'a' }, { start: 4, end: 7, name: 'b' }];
  const lines = laidOut({ text: 'ab\ncd\n\n', runs, ghosts: [ghost(2, 'x'), ghost(3, 'y')], locks: [lock(3, 5)] });
  assert.deepEqual(lines.map(({ text, start, isLocked }) => [text, start, isLocked]), [['ab', 0, false], ['cd', 3, true], ['', 6, false], ['', 7, false]]);
  assert.deepEqual(lines[1].marks, [{ start: 0, end: 1, name: 'a' }, { start: 1, end: 2, name: 'b' }]);
  assert.deepEqual(lines.map(({ ghosts }) => ghosts.map(({ key }) => key)), [['x'], ['y'], [], []]);
});

test('how far two agree', () => {
  assert.equal(agreement(plain('tea'), plain('tea')), null);
  assert.deepEqual(agreement(plain('one\ntwo\n'), plain('one\nto\n')), { front: 5, back: 2 });
  assert.deepEqual(agreement(plain('aaaa'), plain('aaa')), { front: 3, back: 0 }); // no letter is counted from both ends
  const named = (name) => plain('one\ntwo', { runs: [{ start: 0, end: 5, name: 'a' }, { start: 5, end: 7, name }] });
  assert.deepEqual(agreement(named('b'), named('c')), { front: 5, back: 0 });
  assert.deepEqual(agreement(plain('one\ntwo', { locks: [lock(0, 3)] }), plain('one\ntwo')), { front: 0, back: 4 });
  assert.deepEqual(agreement(plain('one\ntwo', { ghosts: [ghost(3, 'x')] }), plain('one\ntwo')), { front: 3, back: 4 });
});

test('spans that meet', () => {
  assert.deepEqual(closed([lock(7, 9), lock(0, 3), lock(3, 5), lock(6, 6)]), [lock(0, 5), lock(7, 9)]);
  assert.equal(countWhile([1, 2, 5, 9], (it) => it < 5), 2);
});

// ---- of what is made anew between the lines that stay all lines are as if all were made

let state = 7;
function draw(below) {
  state = (Math.imul(state, 1664525) + 1013904223) >>> 0;
  return Math.floor((state / 2 ** 32) * below);
}

function drawn() {
  const text = Array.from({ length: draw(14) }, () => 'ab\n\n'[draw(4)]).join('');
  const runs = [];
  for (let start = 0; start < text.length; start = runs.at(-1).end) runs.push({ start, end: Math.min(text.length, start + 1 + draw(5)), name: 'xy'[draw(2)] });
  const ghosts = Array.from({ length: draw(3) }, () => ghost(draw(text.length + 1), 'kl'[draw(2)])).sort((a, b) => a.offset - b.offset);
  const places = Array.from({ length: 2 * draw(3) }, () => draw(text.length + 1));
  return { text, runs, ghosts, locks: closed(places.filter((_, i) => i % 2).map((it, i) => lock(Math.min(it, places[2 * i]), Math.max(it, places[2 * i])))) };
}

// Another that differs in one thing, in most cases.
function like(shown) {
  const other = drawn();
  const kind = draw(6);
  if (kind === 0) return other;
  if (kind === 1) return { ...shown, locks: other.locks.filter(({ end }) => end <= shown.text.length) };
  if (kind === 2) return { ...shown, ghosts: other.ghosts.filter(({ offset }) => offset <= shown.text.length) };
  return typed(shown, draw(shown.text.length + 1));
}

// Letters are put in at a place.
function typed({ text, runs, ghosts, locks }, at) {
  const put = 'ab\n'.slice(draw(3));
  const moved = (it) => (it > at ? it + put.length : it);
  const shift = ({ start, end, name }) => ({ start: moved(start), end: moved(end), name });
  const cut = runs.flatMap((it) => (it.start < at && at < it.end ? [{ ...it, end: at }, { ...it, start: at }] : [it])).map((it) => (it.start >= at ? { ...it, start: it.start + put.length, end: it.end + put.length } : it));
  const front = cut.filter(({ end }) => end <= at);
  return {
    text: text.slice(0, at) + put + text.slice(at),
    runs: [...front, { start: at, end: at + put.length, name: 'held' }, ...cut.slice(front.length)],
    ghosts: ghosts.map((it) => ({ ...it, offset: moved(it.offset) })),
    locks: locks.map(shift),
  };
}

const told = ({ text, start, marks, ghosts, isLocked }) => ({ text, start, marks, ghosts: ghosts.map(({ key, offset }) => [key, offset - start]), isLocked });

test('what lies between', () => {
  for (let i = 0; i < 20000; i++) {
    const [old, now] = i % 2 ? [drawn(), drawn()] : ((it) => [it, like(it)])(drawn());
    const lines = laidOut(old);
    const change = renewed(lines, old, now);
    if (!change) {
      assert.deepEqual(lines.map(told), laidOut(now).map(told));
      continue;
    }
    const { from, to, shift, made } = change;
    const behind = lines.slice(to).map(({ ghosts, ...it }) => ({ ...it, start: it.start + shift, ghosts: ghosts.map((ghost) => ({ ...ghost, offset: ghost.offset + shift })) }));
    assert.deepEqual([...lines.slice(0, from), ...made, ...behind].map(told), laidOut(now).map(told), JSON.stringify([old, now]));
  }
});
