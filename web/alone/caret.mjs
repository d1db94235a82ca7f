// A caret by the name of the piece that it stands behind or in, so that it is found again whatever comes.

/**
 * `inside` is how far it stands in its piece, null where it stands behind it; `name` is null at the text's start.
 *
 * @param {import('../copy.mjs').Copy} copy
 * @param {number} offset
 */
export function caretAt({ peer, pieces }, offset) {
  const { place, start } = pieces.behind(offset);
  if (start < offset) return { offset, name: peer.nameAt(place), inside: offset - start };
  return { offset, name: place ? peer.nameAt(place - 1) : null, inside: null };
}

/**
 * Where a caret stands now. If it stood in a piece that is gone, the difference between the texts tells.
 *
 * @param {import('../copy.mjs').Copy} copy
 * @param {{ offset: number, name: string | null, inside: number | null }} caret
 * @param {{ start: number, end: number, text: string }} change
 */
export function offsetOf({ peer, pieces }, { offset, name, inside }, change) {
  if (name === null) return 0;
  const place = peer.shownUpTo(name) ?? 0;
  if (inside === null) return pieces.startOf(place);
  if (!place || peer.nameAt(place - 1) !== name) return moved(offset, change);
  return pieces.startOf(place - 1) + Math.min(inside, pieces.sizes[place - 1]);
}

/**
 * Where a place of a text is after a difference: one in what was replaced goes to its end.
 *
 * @param {number} offset
 * @param {{ start: number, end: number, text: string }} change
 */
export function moved(offset, { start, end, text }) {
  if (offset <= start) return offset;
  return start + text.length + Math.max(0, offset - end);
}
