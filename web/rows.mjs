// The rows by which a peer tells what a step changed in the text that shows: each is an edit at a place, and they apply one after another.
import { unspelled } from './lines.mjs';

/** @typedef {{ kind: string, at: number, piece: string }} Row a row, with no letters where it is a delete */

/**
 * The rows that lines spell.
 *
 * @param {string} lines
 * @returns {Row[]}
 */
export function rowsIn(lines) {
  return lines.split('\n').slice(0, -1).map((line) => {
    const [, kind, at, word = ''] = line.split(' ');
    return { kind, at: Number(at), piece: unspelled(word) };
  });
}

/**
 * The places of the pieces that rows put in or changed, as they are when all rows have applied.
 *
 * @param {Row[]} rows
 */
export function placesOf(rows) {
  /** @type {number[]} */
  let places = [];
  for (const { kind, at } of rows) {
    if (kind !== 'insert') places = places.filter((it) => it !== at);
    const shift = { insert: 1, delete: -1 }[kind] ?? 0;
    places = places.map((it) => (it < at ? it : it + shift));
    if (kind !== 'delete') places.push(at);
  }
  return places;
}
