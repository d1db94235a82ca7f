// Words that aren't part of the text, at the places where they would stand: what was undone, and what this person wasn't let write.
import { offsetOf } from './caret.mjs';
import { difference } from './difference.mjs';

const MOST_REFUSED = 8; // words that weren't let in
const MOST_GONE = 1000; // that were let go

/**
 * `answer` is why they weren't let in, which is empty where somebody else's stand instead.
 *
 * @typedef {import('./lines.mjs').Denial} Denial
 * @typedef {{ key: string, user: number, text: string, denial: Denial | null, answer: string, caret: import('./caret.mjs').Caret }} Refused
 * @typedef {{ key: string, keys: string[], offset: number, user: number, text: string, denial: Denial | null, answer: string,
 *   isRefused: boolean }} Ghost
 * @typedef {{ key: string, keys: string[], offset: number, user: number, text: string, denial: Denial, behind: string | null }} Lost
 */

export class Ghosts {
  /**
   * @param {import('./copy.mjs').Copy} copy
   * @param {{ getItem(key: string): string | null, setItem(key: string, value: string): void }} storage keeps which were let go
   * @param {string} key
   */
  constructor(copy, storage, key) {
    this.copy = copy;
    this.storage = storage;
    this.key = key;
    /** @type {Set<string>} the names of those that were let go */
    this.gone = new Set(JSON.parse(storage.getItem(key) ?? '[]'));
    /** @type {Refused[]} they stay where the page is loaded again */
    this.refused = JSON.parse(storage.getItem(this.refusedKey) ?? '[]');
    this.count = this.refused.reduce((most, { key }) => Math.max(most, Number(key.split(' ')[1]) + 1), 0);
    /** @type {{ items: number, ghosts: Ghost[] } | null} those that stand in the text, if nothing changed since they were asked for, and how many items the journal had then */
    this.known = null;
  }

  get refusedKey() {
    return `${this.key}: refused`;
  }

  /**
   * Words that weren't let in at a place.
   *
   * @param {{ at: import('./caret.mjs').Caret, text: string }} what
   * @param {Denial | null} denial
   * @param {string} [answer]
   */
  refuse({ at: caret, text }, denial, answer = '') {
    if (!text) return;
    const last = this.refused.at(-1);
    if (last && last.answer === answer && last.caret.name === caret.name && last.caret.inside === caret.inside) last.text += text;
    else this.refused = [...this.refused.slice(1 - MOST_REFUSED), { key: `refused ${this.count++}`, user: this.copy.site, text, denial, answer, caret }];
    this.keepRefused();
  }

  keepRefused() {
    this.known = null;
    this.storage.setItem(this.refusedKey, JSON.stringify(this.refused));
  }

  /**
   * Those that stand in the text, in its order.
   *
   * @returns {Ghost[]}
   */
  all() {
    const { count } = this.copy.journal;
    if (this.known?.items !== count) this.known = { items: count, ghosts: this.ask() };
    return this.known.ghosts;
  }

  ask() {
    const undone = joined(ordered([...this.lost().values()]));
    const shown = undone.map((it) => ({ ...it, answer: '', isRefused: false }));
    return [...shown, ...this.standing()].sort((a, b) => a.offset - b.offset);
  }

  // What was undone and isn't there otherwise, by the names of elements.
  lost() {
    const { copy } = this;
    /** @type {Map<string, Lost>} */
    const all = new Map();
    for (const it of copy.undone.requests) {
      const { name, edit } = it.request;
      const element = edit.kind === 'insert' ? name : edit.name;
      if (edit.kind === 'delete' || this.gone.has(name) || copy.deleted.has(element)) continue;
      const lost = this.lostBy(it, all.get(element) ?? null);
      if (lost.text) all.set(element, lost);
      else all.delete(element);
    }
    return all;
  }

  /**
   * What was lost by a request that was undone, behind what was lost of the same element before.
   *
   * @param {{ request: import('./lines.mjs').EditRequest, denial: Denial }} undone
   * @param {Lost | null} before
   * @returns {Lost}
   */
  lostBy({ request: { name, user, edit }, denial }, before) {
    if (edit.kind === 'insert') return { key: name, keys: [name], ...this.lostPiece(name, edit.piece), user, denial, behind: edit.name };
    const keys = [...(before?.keys ?? []), name];
    if (before?.key === edit.name) return { ...before, text: edit.piece, keys }; // of a piece that isn't there either
    return { key: name, keys, ...this.lostChange(edit.name, edit.piece), user, denial, behind: null };
  }

  /**
   * A piece that was put in and isn't there: it would stand behind what shows in front of it.
   *
   * @param {string} name
   * @param {string} text
   */
  lostPiece(name, text) {
    const { peer, pieces } = this.copy;
    return { offset: pieces.startOf(peer.shownUpTo(name) ?? 0), text };
  }

  /**
   * Of a change that doesn't show, the words that it put into its piece, behind those that stand there instead.
   *
   * @param {string} name
   * @param {string} piece
   */
  lostChange(name, piece) {
    const { copy } = this;
    const place = copy.placeOf(name);
    if (place === null) return { offset: 0, text: '' };
    const { end, text } = difference(copy.peer.pieceAt(place) ?? '', piece);
    return { offset: copy.pieces.startOf(place) + end, text };
  }

  // Those that weren't let in.
  standing() {
    return this.refused.map((it) => ({ ...it, keys: [it.key], offset: offsetOf(this.copy, it.caret), isRefused: true }));
  }

  /** @param {Ghost} ghost */
  letGo({ keys }) {
    keys.forEach((it) => this.gone.add(it));
    this.refused = this.refused.filter(({ key }) => !this.gone.has(key));
    this.keepRefused();
    const kept = [...this.gone].filter((it) => !it.startsWith('refused ')).slice(-MOST_GONE);
    this.storage.setItem(this.key, JSON.stringify(kept));
  }
}

const stampOf = ({ key }) => Number(key.split('.')[0]);

/**
 * In the order in which they would stand: each right behind what it was put behind, the later in front.
 *
 * @param {Lost[]} all
 */
function ordered(all) {
  /** @type {Lost[]} */
  const row = [];
  for (const it of all.toSorted((a, b) => stampOf(a) - stampOf(b))) {
    const at = row.findIndex(({ key, offset }) => key === it.behind && offset === it.offset);
    const front = row.findIndex(({ offset }) => offset >= it.offset);
    row.splice(at >= 0 ? at + 1 : front >= 0 ? front : row.length, 0, it);
  }
  return row;
}

/**
 * Those of one user that stand together and were undone for one reason are one.
 *
 * @param {Lost[]} row
 */
function joined(row) {
  /** @type {Lost[]} */
  const all = [];
  for (const it of row) {
    const last = all.at(-1);
    const isSame = last && last.offset === it.offset && last.user === it.user && last.denial.version === it.denial.version && last.denial.by === it.denial.by;
    if (isSame) Object.assign(last, { text: last.text + it.text, keys: [...last.keys, ...it.keys] });
    else all.push({ ...it });
  }
  return all;
}
