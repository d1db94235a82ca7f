// How a text is laid out in lines, with what is marked in each. Of two texts it is told how far they agree from both ends, so that what lies
// between alone is laid out anew.

/**
 * @typedef {import('./ghosts.mjs').Ghost} Ghost
 * @typedef {{ start: number, end: number, name: string }} Span from one place of a text to another
 * @typedef {{ text: string, runs: Span[], ghosts: Ghost[], locks: Span[] }} Shown what shows: a text, whose its letters are, each run behind the one
 *   before, the words that aren't part of it, and where nothing may be written, each in the order of the text
 * @typedef {{ text: string, start: number, marks: Span[], ghosts: Ghost[], isLocked: boolean }} LaidLine a line: its text, where it begins, what is
 *   marked in it, the words that aren't part of the text, and whether nothing may be written there
 */

/**
 * How many letters of two texts are alike from the front; without end where all are.
 *
 * @param {string} from
 * @param {string} to
 */
function commonFront(from, to) {
  if (from === to) return Infinity;
  let [low, high] = [0, Math.min(from.length, to.length)];
  while (low < high) {
    const middle = (low + high + 1) >> 1;
    if (from.slice(low, middle) === to.slice(low, middle)) low = middle;
    else high = middle - 1;
  }
  return low;
}

/**
 * The same from the back.
 *
 * @param {string} from
 * @param {string} to
 */
function commonBack(from, to) {
  if (from === to) return Infinity;
  let [low, high] = [0, Math.min(from.length, to.length)];
  while (low < high) {
    const middle = (low + high + 1) >> 1;
    if (from.slice(from.length - middle, from.length - low) === to.slice(to.length - middle, to.length - low)) low = middle;
    else high = middle - 1;
  }
  return low;
}

/**
 * How far two rows of spans agree: `at` gives the spans of each, which begin one behind another. Without end where they are the same.
 *
 * @param {(i: number) => Span | undefined} at
 * @param {(i: number) => Span | undefined} other
 */
function agreed(at, other) {
  for (let i = 0; ; i++) {
    const [a, b] = [at(i), other(i)];
    if (!a || !b) return (a ?? b)?.start ?? Infinity;
    if (a.start !== b.start || a.name !== b.name) return Math.min(a.start, b.start);
    if (a.end !== b.end) return Math.min(a.end, b.end);
  }
}

/**
 * The spans of a row from the back, with their distances from the text's end.
 *
 * @param {Span[]} row
 * @param {number} length of the text
 */
const turned = (row, length) => (/** @type {number} */ i) => {
  const it = row[row.length - 1 - i];
  return it && { start: length - it.end, end: length - it.start, name: it.name };
};

/** @param {Ghost[]} ghosts */
const spansOf = (ghosts) => ghosts.map(({ offset, key, text }) => ({ start: offset, end: offset, name: `${key} ${text}` }));

/**
 * How many letters of what shows are as they were, from the front and from the back; null where all of it is.
 *
 * @param {Shown} old
 * @param {Shown} now
 */
export function agreement(old, now) {
  const [before, after] = [old, now].map(({ runs, ghosts, locks }) => [runs, spansOf(ghosts), locks]);
  const fronts = before.map((row, i) => agreed((k) => row[k], (k) => after[i][k]));
  const front = Math.min(commonFront(old.text, now.text), ...fronts);
  if (front === Infinity) return null;
  const backs = before.map((row, i) => agreed(turned(row, old.text.length), turned(after[i], now.text.length)));
  const most = Math.min(old.text.length, now.text.length);
  const least = Math.min(front, most);
  return { front: least, back: Math.min(commonBack(old.text, now.text), most - least, ...backs) };
}

/**
 * How many of a row from its front hold, where those that hold stand in front of the others.
 *
 * @template T
 * @param {T[]} row
 * @param {(it: T) => boolean} holds
 */
export function countWhile(row, holds) {
  let [low, high] = [0, row.length];
  while (low < high) {
    const middle = (low + high) >> 1;
    if (holds(row[middle])) low = middle + 1;
    else high = middle;
  }
  return low;
}

/**
 * The lines of what shows, from one place to another, at each of which a line begins or ends.
 *
 * @param {Shown} shown
 * @param {number} [from]
 * @param {number} [to]
 * @returns {LaidLine[]}
 */
export function laidOut({ text, runs, ghosts, locks }, from = 0, to = text.length) {
  const lines = [];
  let run = countWhile(runs, (it) => it.end <= from);
  let ghost = countWhile(ghosts, (it) => it.offset < from);
  for (let start = from; start <= to; ) {
    const next = text.indexOf('\n', start);
    const end = next < 0 ? text.length : next;
    const first = ghost;
    while (ghost < ghosts.length && ghosts[ghost].offset <= end) ghost++;
    while (runs[run]?.end <= start) run++;
    const isLocked = locks.some((it) => start < it.end && it.start < Math.max(end, start + 1));
    lines.push({ text: text.slice(start, end), start, marks: marksOf(runs, run, start, end), ghosts: ghosts.slice(first, ghost), isLocked });
    start = end + 1;
  }
  return lines;
}

/**
 * What becomes of the lines of a text when another one shows: those from one to another are replaced by these, and those behind begin so much later.
 * Null where nothing changed.
 *
 * @param {LaidLine[]} lines
 * @param {Shown} old
 * @param {Shown} now
 */
export function renewed(lines, old, now) {
  const same = agreement(old, now);
  if (!same) return null;
  const from = countWhile(lines, (it) => it.start + it.text.length < same.front);
  const to = countWhile(lines, (it) => old.text.length - it.start >= same.back);
  const shift = now.text.length - old.text.length;
  const end = to < lines.length ? lines[to].start - 1 + shift : now.text.length;
  return { from, to, shift, made: laidOut(now, lines[from].start, end) };
}

/**
 * What is marked in a line: the runs from one of them on, by places of the line.
 *
 * @param {Span[]} runs
 * @param {number} first
 * @param {number} start
 * @param {number} end
 */
function marksOf(runs, first, start, end) {
  const marks = [];
  for (let run = first, at = start; at < end; run++) {
    const to = Math.min(runs[run].end, end);
    marks.push({ start: at - start, end: to - start, name: runs[run].name });
    at = to;
  }
  return marks;
}

/**
 * Spans in the order of the text, those that meet or overlap as one.
 *
 * @param {Span[]} spans
 */
export function closed(spans) {
  /** @type {Span[]} */
  const all = [];
  for (const it of spans.toSorted((a, b) => a.start - b.start)) {
    const last = all.at(-1);
    if (last && it.start <= last.end) last.end = Math.max(last.end, it.end);
    else if (it.start < it.end) all.push({ ...it });
  }
  return all;
}
