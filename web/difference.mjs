// Where a text that was typed differs from the one that was shown, and which pieces it takes.
import { MOST_PIECE_BYTES } from './limits.mjs';

const encoder = new TextEncoder();

const isHigh = (unit) => (unit & 0xfc00) === 0xd800;
const isLow = (unit) => (unit & 0xfc00) === 0xdc00;

/**
 * In units of UTF-16: `text` replaces what stands from `start` to `end`. No more than `behind` units are taken for alike at the end.
 *
 * @param {string} from
 * @param {string} to
 * @param {number} behind
 */
function differenceUpTo(from, to, behind) {
  const most = Math.min(from.length, to.length);
  let back = 0;
  while (back < Math.min(most, behind) && from.charCodeAt(from.length - 1 - back) === to.charCodeAt(to.length - 1 - back)) back++;
  if (isLow(from.charCodeAt(from.length - back)) || isLow(to.charCodeAt(to.length - back))) back--;
  let front = 0;
  while (front < most - back && from.charCodeAt(front) === to.charCodeAt(front)) front++;
  if (front && isHigh(from.charCodeAt(front - 1))) front--;
  return { start: front, end: from.length - back, text: to.slice(front, to.length - back) };
}

const sizeOf = ({ start, end, text }) => end - start + text.length;

/**
 * The difference of two texts. Among equal letters the place of the caret decides, which stands so many units in front of the end:
 * unless what was written isn't in front of it, where another difference is smaller.
 *
 * @param {string} from
 * @param {string} to
 * @param {number} [behind]
 */
export function difference(from, to, behind = Infinity) {
  const atCaret = differenceUpTo(from, to, behind);
  if (behind === Infinity || sizeOf(atCaret) < 2) return atCaret;
  const least = differenceUpTo(from, to, Infinity);
  return sizeOf(least) < sizeOf(atCaret) ? least : atCaret;
}

/**
 * A text that was changed in two ways at once, with both changes; null where they overlap.
 *
 * @param {string} base
 * @param {string} mine
 * @param {string} theirs
 */
export function merged(base, mine, theirs) {
  const [own, other] = [difference(base, mine), difference(base, theirs)];
  if (other.end <= own.start) return theirs.slice(0, theirs.length - (base.length - own.start)) + own.text + base.slice(own.end);
  if (own.end <= other.start) return base.slice(0, own.start) + own.text + theirs.slice(own.end);
  return null;
}

/**
 * The pieces that a text is written in: a line end is one of its own, so that paragraphs begin and end with pieces, and what stands
 * between two is as few as can be.
 *
 * @param {string} text
 */
export function cut(text) {
  const pieces = [];
  let size = Infinity; // of the last piece
  for (const letter of text) {
    const bytes = letter === '\n' ? MOST_PIECE_BYTES : encoder.encode(letter).length;
    if (size + bytes > MOST_PIECE_BYTES) {
      pieces.push(letter);
      size = bytes;
    } else {
      pieces[pieces.length - 1] += letter;
      size += bytes;
    }
  }
  return pieces;
}
