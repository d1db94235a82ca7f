// A caret by the name of the piece that it stands behind or in, so that it is found again whatever comes.
import { difference } from './difference.mjs';

/**
 * `inside` is how far it stands in its piece, null where it stands behind it; `name` is null at the text's start; `piece` is the piece in
 * which it stands.
 *
 * @typedef {{ name: string | null, inside: number | null, piece: string }} Caret
 * @typedef {import('./copy.mjs').Copy} Copy
 */

/**
 * @param {Copy} copy
 * @param {number} offset
 * @returns {Caret}
 */
export function caretAt({ peer, pieces }, offset) {
  const { place, start } = pieces.behind(offset);
  if (start < offset) return { name: peer.nameAt(place), inside: offset - start, piece: peer.pieceAt(place) ?? '' };
  return { name: place ? peer.nameAt(place - 1) : null, inside: null, piece: '' };
}

/**
 * Where a caret stands now: in a piece that was changed as the difference tells, and where its piece is gone at its place.
 *
 * @param {Copy} copy
 * @param {Caret} caret
 */
export function offsetOf({ peer, pieces }, { name, inside, piece }) {
  if (name === null) return 0;
  const place = peer.shownUpTo(name) ?? 0;
  if (inside === null || !place || peer.nameAt(place - 1) !== name) return pieces.startOf(place);
  const now = peer.pieceAt(place - 1) ?? '';
  return pieces.startOf(place - 1) + (now === piece ? inside : moved(inside, difference(piece, now)));
}

/**
 * Where a place of a text is after a difference: one in what was replaced goes to its end.
 *
 * @param {number} offset
 * @param {{ start: number, end: number, text: string }} change
 */
export function moved(offset, { start, end, text }) {
  if (offset <= start) return offset;
  return start + text.length + Math.max(0, offset - end);
}
