// What a device wrote that its host didn't take before the document was renewed: words with their places, which can be put in again.
import { changedBy, isEntry, requestOf } from './frames.mjs';

/**
 * Words that were written, those in whose place they stood, and the letters in front of them and behind them.
 *
 * @typedef {{ text: string, old: string, before: string, after: string }} Left
 */

const NEAR = 40; // letters on each side, by which a place is found again
const LEAST = 5; // of which so many are enough

const isBefore = (a, b) => a.stamp < b.stamp || (a.stamp === b.stamp && a.user < b.user);

/**
 * What a piece showed without these requests; '' where one of them made it.
 *
 * @param {import('./copy.mjs').Copy} copy
 * @param {string} name
 * @param {Set<string>} requests
 */
function pieceWithout(copy, name, requests) {
  if (requests.has(name)) return '';
  const others = (copy.changes.get(name) ?? []).filter((it) => !requests.has(it.name));
  const last = others.reduce((a, b) => (a === null || isBefore(a, b) ? b : a), /** @type {import('./copy.mjs').Change | null} */ (null));
  return copy.requestAt(last ? last.place : copy.placeInJournal(name)).edit.piece ?? '';
}

/**
 * The names of the requests at these places of the journal, and those of the elements that they made or changed.
 *
 * @param {import('./copy.mjs').Copy} copy
 * @param {number[]} places
 */
function namesOf({ journal }, places) {
  const frames = places.map((it) => journal.view(it)).filter((it) => !isEntry(it));
  const requests = new Set(frames.map((it) => requestOf(it).name));
  return { requests, elements: new Set(frames.map((it) => changedBy(it) ?? requestOf(it).name)) };
}

/**
 * The words that show of these requests of a copy, place by place: what stands side by side is one.
 *
 * @param {import('./copy.mjs').Copy} copy
 * @param {number[]} places of the requests in the journal
 * @returns {Left[]}
 */
export function leftIn(copy, places) {
  if (!places.length) return [];
  const { requests, elements } = namesOf(copy, places);
  const count = copy.peer.count();
  /** @type {{ text: string, old: string, at: number, place: number }[]} */
  const found = [];
  let base = ''; // the text without them
  for (let place = 0; place < count; place++) {
    const text = copy.peer.pieceAt(place) ?? '';
    const name = copy.peer.nameAt(place) ?? '';
    if (!elements.has(name)) {
      base += text;
      continue;
    }
    const old = pieceWithout(copy, name, requests);
    const last = found.at(-1);
    if (last && last.place === place - 1) Object.assign(last, { text: last.text + text, old: last.old + old, place });
    else found.push({ text, old, at: base.length, place });
    base += old;
  }
  return found.map(({ text, old, at }) => ({ text, old, before: base.slice(Math.max(0, at - NEAR), at), after: base.slice(at + old.length, at + old.length + NEAR) }));
}

/**
 * Where in a text these words belong, by what stood around them; at its end where that isn't there any more.
 *
 * @param {string} text
 * @param {Left} left
 */
export function placeFor(text, { old, before, after }) {
  for (let near = NEAR; near >= LEAST; near = Math.floor(near / 2)) {
    const [front, back] = [before.slice(-near), after.slice(0, near)];
    const at = text.indexOf(front + old + back);
    if (at >= 0 && front + old + back) return { start: at + front.length, end: at + front.length + old.length };
  }
  for (let near = NEAR; near >= LEAST; near = Math.floor(near / 2)) {
    const front = before.slice(-near);
    const at = text.indexOf(front);
    if (at >= 0 && front.length >= LEAST) return { start: at + front.length, end: at + front.length };
  }
  return { start: text.length, end: text.length };
}

/**
 * Whether a text has these words at their place: the host may have taken them without this page's having heard of it.
 *
 * @param {string} text
 * @param {Left} left
 */
export function isThere(text, { text: words, before, after }) {
  const [front, back] = [before.slice(-NEAR / 2), after.slice(0, NEAR / 2)];
  return front.length + words.length + back.length >= LEAST && text.includes(front + words + back);
}

// The words that are kept in a browser for a document, by the identities of those that were renewed. So what is kept twice stands once.
export class Kept {
  /**
   * @param {Pick<Storage, 'getItem' | 'setItem' | 'removeItem'>} storage
   * @param {string} key
   */
  constructor(storage, key) {
    this.storage = storage;
    this.key = key;
  }

  /** @returns {Record<string, Left[]>} */
  get all() {
    return JSON.parse(this.storage.getItem(this.key) ?? '{}');
  }

  // All words.
  get words() {
    return Object.values(this.all).flat();
  }

  /**
   * @param {string} identity of the document that was renewed
   * @param {Left[]} words
   */
  put(identity, words) {
    if (words.length) this.storage.setItem(this.key, JSON.stringify({ ...this.all, [identity]: words }));
  }

  /** @param {Left} gone */
  drop(gone) {
    const said = JSON.stringify(gone);
    const rest = Object.entries(this.all).map(([identity, words]) => [identity, words.filter((it) => JSON.stringify(it) !== said)]);
    this.storage.setItem(this.key, JSON.stringify(Object.fromEntries(rest.filter(([, words]) => words.length))));
  }
}
