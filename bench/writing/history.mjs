// What was written in this repository's documents: of each, its text after each commit that changed it, and what a writer changes to get from
// one to the next.
import { execFileSync } from 'node:child_process';
import { difference } from '../../web/difference.mjs';

const MOST_CELLS = 16e6; // of a table that compares two rows; larger ones are written anew
const LINES = /[^\n]*\n|[^\n]+/g;
const WORDS = /\s*\S+|\s+/g;

/** @typedef {{ start: number, end: number, text: string }} Change letters from one place to another are replaced */

/** @param {string[]} words */
function git(...words) {
  return execFileSync('git', words, { encoding: 'utf8', maxBuffer: 1 << 28 });
}

/**
 * The documents up to a commit, each with its texts, the first empty.
 *
 * @param {string} commit
 */
export function documents(commit) {
  const all = git('ls-tree', '-r', '--name-only', commit, 'README.md', 'docs/').split('\n').filter((it) => it.endsWith('.md'));
  return all.map((name) => ({ name, texts: ['', ...textsOf(commit, name)] }));
}

/**
 * @param {string} commit
 * @param {string} name
 */
function textsOf(commit, name) {
  const commits = git('log', '--reverse', '--format=%H', commit, '--', name).split('\n').filter(Boolean);
  return commits.map((it) => git('show', `${it}:${name}`)).map((it) => it.toWellFormed());
}

/**
 * How a text becomes another: by whole lines first, then by words within these, and of words only the letters that differ. The last comes
 * first, so that each stands where it stood in the first text.
 *
 * @param {string} from
 * @param {string} to
 * @returns {Change[]}
 */
export function changes(from, to) {
  const byLines = differing(from, to, LINES);
  const byWords = byLines.flatMap(({ start, end, text }) => moved(differing(from.slice(start, end), text, WORDS), start));
  return byWords.map((it) => narrowed(from, it)).toReversed();
}

/**
 * @param {Change[]} all
 * @param {number} by
 */
function moved(all, by) {
  return all.map(({ start, end, text }) => ({ start: start + by, end: end + by, text }));
}

/**
 * Without the letters at both ends that stay.
 *
 * @param {string} from
 * @param {Change} change
 */
function narrowed(from, { start, end, text }) {
  return moved([difference(from.slice(start, end), text)], start)[0];
}

/**
 * The parts of two texts that aren't in both, in order.
 *
 * @param {string} from
 * @param {string} to
 * @param {RegExp} parts
 */
function differing(from, to, parts) {
  const [old, made] = [from, to].map((it) => it.match(parts) ?? []);
  /** @type {Change[]} */
  const all = [];
  let at = 0; // in the first text
  let [start, text] = [0, ''];
  const put = () => (at > start || text) && all.push({ start, end: at, text });
  for (const { kind, part } of steps(old, made)) {
    if (kind === 'out') at += part.length;
    else if (kind === 'in') text += part;
    else {
      put();
      at += part.length;
      [start, text] = [at, ''];
    }
  }
  put();
  return all;
}

/**
 * How a row becomes another: what stays, goes out and comes in, as much staying as can.
 *
 * @param {string[]} old
 * @param {string[]} made
 */
function* steps(old, made) {
  const stay = staying(old, made);
  let [i, j] = [0, 0];
  while (i < old.length || j < made.length) {
    if (i < old.length && j < made.length && old[i] === made[j]) {
      j++;
      yield { kind: 'stay', part: old[i++] };
    } else if (j === made.length || (i < old.length && stay(i + 1, j) >= stay(i, j + 1))) yield { kind: 'out', part: old[i++] };
    else yield { kind: 'in', part: made[j++] };
  }
}

/**
 * How many parts can stay of two rows from places on.
 *
 * @param {string[]} old
 * @param {string[]} made
 */
function staying(old, made) {
  const width = made.length + 1;
  if ((old.length + 1) * width > MOST_CELLS) return () => 0;
  const table = new Uint16Array((old.length + 1) * width);
  for (let cell = old.length * width - 1; cell >= 0; cell--) {
    const [i, j] = [Math.floor(cell / width), cell % width];
    if (j === made.length) continue;
    table[cell] = old[i] === made[j] ? table[cell + width + 1] + 1 : Math.max(table[cell + width], table[cell + 1]);
  }
  return (i, j) => table[i * width + j];
}
