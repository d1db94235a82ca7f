// What a text that was typed into the text area does to pieces.
import { cut } from '../difference.mjs';

/**
 * What a difference does to pieces: `removed` ones from the place `at` are replaced by `added`. The first of these is what stays of the
 * piece in which it begins where `isFrontSplit`, and the last what stays of the one in which it ends where `isBackSplit`.
 *
 * @param {import('../pieces.mjs').Pieces} pieces
 * @param {{ start: number, end: number, text: string }} change
 */
export function replacement(pieces, { start, end, text }) {
  const first = pieces.behind(start);
  const isWithin = first.start < start;
  if (start === end && (!isWithin || !text)) return { at: first.place, removed: 0, added: cut(text), isFrontSplit: false, isBackSplit: false };
  const last = pieces.behind(Math.max(start, end - 1));
  const front = pieces.text.slice(first.start, start);
  const back = pieces.text.slice(end, last.end);
  const added = [front, ...cut(text), back].filter(Boolean);
  return { at: first.place, removed: last.place + 1 - first.place, added, isFrontSplit: front !== '', isBackSplit: back !== '' };
}
