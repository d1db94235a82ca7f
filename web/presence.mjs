// Where the others' carets are, and what they have selected. The host passes it on and nobody keeps it.
import { caretAt, offsetOf } from './caret.mjs';
import { colourOf } from './colours.mjs';
import { MOST_CARET_BYTES } from './limits.mjs';

const SOON_MS = 80; // from one telling to the next at least
export const NEW_MS = 3000; // for so long a caret that moved has its name
const WORD = /^(-|[0-9]{1,15}\.[0-9]{1,5})(?:\+([0-9]{1,3}))?$/;

/**
 * @typedef {import('./caret.mjs').Caret} Caret
 * @typedef {import('./copy.mjs').Copy} Copy
 * @typedef {{ anchor: Caret, focus: Caret }} Selected
 * @typedef {Selected & { since: number }} Told a selection, and when it was told
 */

/** @param {Caret} caret */
const spelledCaret = ({ name, inside }) => `${name ?? '-'}${inside === null ? '' : `+${inside}`}`;

/**
 * The words of a selection.
 *
 * @param {Selected} selected
 */
export function spelledSelection({ anchor, focus }) {
  return `${spelledCaret(anchor)} ${spelledCaret(focus)}`;
}

/**
 * @param {Copy} copy
 * @param {string} word
 * @returns {Caret | null}
 */
function readCaret(copy, word) {
  const [, name, inside] = WORD.exec(word) ?? [];
  if (!name) return null;
  if (name === '-') return { name: null, inside: null, piece: '' };
  if (inside === undefined) return { name, inside: null, piece: '' };
  const place = copy.placeOf(name);
  const piece = (place !== null && copy.peer.pieceAt(place)) || '';
  return { name, inside: Math.min(Number(inside), piece.length), piece };
}

/**
 * The selection that somebody told; null where the words are none.
 *
 * @param {Copy} copy
 * @param {string} words
 * @returns {Selected | null}
 */
export function readSelection(copy, words) {
  if (words.length > MOST_CARET_BYTES) return null;
  const [anchor, focus] = words.split(' ').map((it) => readCaret(copy, it));
  return anchor && focus ? { anchor, focus } : null;
}

export class Presence {
  /**
   * @param {Copy} copy
   * @param {(words: string) => void} say
   */
  constructor(copy, say) {
    this.copy = copy;
    this.say = say;
    /** @type {Map<number, Told>} by the sites of devices */
    this.others = new Map();
    this.told = ''; // what was said last
    /** @type {ReturnType<typeof setTimeout> | null} */
    this.timer = null;
    this.wanted = '';
  }

  /**
   * Says soon where the own caret is, in places of the peer's text.
   *
   * @param {number} anchor
   * @param {number} focus
   */
  tell(anchor, focus) {
    this.wanted = spelledSelection({ anchor: caretAt(this.copy, anchor), focus: caretAt(this.copy, focus) });
    if (this.wanted !== this.told) this.timer ??= setTimeout(() => this.sayNow(), SOON_MS);
  }

  sayNow() {
    this.timer = null;
    this.told = this.wanted;
    this.say(this.told);
  }

  // Whoever comes is told where the own caret is.
  tellAgain() {
    this.told = '';
    if (this.wanted) this.timer ??= setTimeout(() => this.sayNow(), SOON_MS);
  }

  /** @param {import('./protocol.mjs').Caret} heard */
  hear({ site, words }) {
    const selected = readSelection(this.copy, words);
    if (selected) this.others.set(site, { ...selected, since: Date.now() });
    else this.others.delete(site);
  }

  /**
   * Those that went have no caret.
   *
   * @param {Set<number>} sites that are here
   */
  keepOnly(sites) {
    this.others = new Map([...this.others].filter(([site]) => sites.has(site)));
  }

  // Where the others' carets stand in the peer's text.
  all() {
    return [...this.others].map(([site, { anchor, focus, since }]) => ({
      site,
      colour: colourOf(site),
      anchor: offsetOf(this.copy, anchor),
      focus: offsetOf(this.copy, focus),
      isNew: Date.now() - since < NEW_MS,
    }));
  }
}
