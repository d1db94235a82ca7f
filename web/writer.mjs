// What a person writes, as edits. Keys are held for a word, a short one together with the next, or until there was none for a while, as one
// replacement that shows at once and that the peer doesn't have yet. His own edits can be undone by him, whatever came in between.
import { caretAt, offsetOf } from './caret.mjs';
import { cut, difference, merged } from './difference.mjs';
import { MOST_PIECE_BYTES } from './limits.mjs';

const HOLD_MS = 500; // without a key
const LEAST_HELD = 8; // letters, behind which the end of a word ends what is held
const MOST_HELD = 120; // letters
const MOST_UNDO = 200;
const encoder = new TextEncoder();

/**
 * Where something stands, and the letters that were to be there.
 *
 * @typedef {{ at: import('./caret.mjs').Caret, text: string }} Place
 * @typedef {{ start: number, end: number, text: string }} Hold what is held: it replaces what stands there in the peer's text
 * @typedef {{ kind: string, made: string, name?: string | null, behind?: string | null, piece?: string, old?: string }} Step
 * one own edit, with what takes it back: `made` is its name
 * @typedef {{ base: string, under: Name, made: { request: string, piece: string }[] }} Mine what this person made of a piece, on what, and
 * which change that was, by requests that didn't come back yet, the last last
 * @typedef {{ stamp: number, user: number }} Name
 */

/** @param {string} piece */
const fits = (piece) => piece !== '' && encoder.encode(piece).length <= MOST_PIECE_BYTES;

/**
 * The parts of a name.
 *
 * @param {string} name
 * @returns {Name}
 */
function nameOf(name) {
  const [stamp, user] = name.split('.').map(Number);
  return { stamp, user };
}

const isBefore = (a, b) => a.stamp < b.stamp || (a.stamp === b.stamp && a.user < b.user);
const isNear = (a, b) => a.start <= b.end && b.start <= a.end;

/**
 * Whether what was typed last ends what is held.
 *
 * @param {string} text
 * @param {string} held
 */
const isEnough = (text, held) => held.length > MOST_HELD || text === '\n' || (/\s$/.test(text) && held.length >= LEAST_HELD);

export class Writer {
  /**
   * `refused` is given the answer to an edit that wasn't made, and what would have been written where. `replaced` is given words that gave
   * way to somebody else's. `changed` is called after each change of the peer's text. `stuck` is called where an own edit can't be undone
   * any more.
   *
   * @param {import('./copy.mjs').Copy} copy
   * @param {{ refused: (answer: string, what: Place) => void, replaced: (what: Place) => void, changed: () => void, stuck?: () => void }} sides
   */
  constructor(copy, { refused, replaced, changed, stuck = () => {} }) {
    this.copy = copy;
    this.refused = refused;
    this.replaced = replaced;
    this.changed = changed;
    this.stuck = stuck;
    /** @type {{ from: import('./caret.mjs').Caret, to: import('./caret.mjs').Caret, text: string } | null} */
    this.held = null; // carets of the peer's text, whose letters in between the text replaces
    /** @type {ReturnType<typeof setTimeout> | undefined} */
    this.timer = undefined;
    this.isPaused = false; // what is held stays so
    this.isRefused = false; // of what was written last something was
    this.answer = '';
    /** @type {Step[][]} rows of steps that can be undone, the last last */
    this.past = [];
    /** @type {Step[][]} */
    this.future = [];
    /** @type {Step[]} what was made since the row began */
    this.steps = [];
    /** @type {Map<string, Mine>} by the names of pieces that this person changed and whose changes didn't come back yet */
    this.mine = new Map();
    /** @type {Place} */
    this.words = { at: { name: null, inside: null, piece: '' }, text: '' };
  }

  // ---- what shows

  // Where what is held stands in the peer's text, and how many letters it puts there.
  get hold() {
    if (!this.held) return null;
    const [start, end] = [this.held.from, this.held.to].map((it) => offsetOf(this.copy, it));
    return { start, end: Math.max(start, end), text: this.held.text };
  }

  // The text that shows, and what is held of it.
  view() {
    const { text } = this.copy.pieces;
    const { hold } = this;
    if (!hold) return { text, hold };
    return { text: text.slice(0, hold.start) + hold.text + text.slice(hold.end), hold };
  }

  /**
   * A place of the text that shows, in the peer's; within what is held its front, or its end.
   *
   * @param {number} offset
   */
  inPeer(offset, hold = this.hold) {
    if (!hold || offset <= hold.start) return offset;
    const shift = hold.end - hold.start - hold.text.length;
    return Math.max(hold.end, offset + shift);
  }

  /**
   * A place of the peer's text, in the one that shows.
   *
   * @param {number} offset
   */
  inView(offset, hold = this.hold) {
    if (!hold || offset <= hold.start) return offset;
    return Math.max(hold.start, offset - (hold.end - hold.start)) + hold.text.length;
  }

  // ---- keys

  /**
   * Letters from one place to another of the text that shows are replaced. What is typed is held where it touches what is held already.
   * Gives where the caret is then.
   *
   * @param {number} start
   * @param {number} end
   * @param {string} text
   * @param {boolean} [isTyped]
   * @returns {number}
   */
  write(start, end, text, isTyped = false) {
    const { hold } = this;
    if (hold && !isNear({ start, end }, { start: hold.start, end: hold.start + hold.text.length })) {
      this.flush();
      return this.write(start, end, text, isTyped);
    }
    const of = hold ?? { start, end: start, text: '' };
    const last = of.start + of.text.length;
    const front = start > of.start ? of.text.slice(0, start - of.start) : '';
    const back = end < last ? of.text.slice(end - of.start) : '';
    const from = Math.min(start, of.start);
    const to = end > last ? this.inPeer(end, hold) : of.end;
    const held = { from: caretAt(this.copy, from), to: caretAt(this.copy, Math.max(from, to)), text: front + text + back };
    this.held = held;
    const isDone = !isTyped || isEnough(text, held.text) || !this.seemsAllowed();
    if (!isDone) this.wait();
    return isDone && !this.flush() ? from : from + front.length + text.length;
  }

  wait() {
    clearTimeout(this.timer);
    this.timer = setTimeout(() => (this.isPaused ? this.wait() : this.flush()), HOLD_MS);
  }

  // Whether the rules, as the page reads them, allow what is held; else the peer is asked at once.
  seemsAllowed() {
    const { copy, hold } = this;
    if (!hold) return true;
    const { place, start } = copy.pieces.behind(hold.start);
    if (hold.start === hold.end && start === hold.start) return copy.may('i', place);
    return copy.may('u', place) || copy.may('d', place);
  }

  // What is held becomes edits; gives whether all of them were made.
  flush() {
    clearTimeout(this.timer);
    const { hold } = this;
    this.held = null;
    this.isRefused = false;
    if (!hold) return true;
    const old = this.copy.pieces.text.slice(hold.start, hold.end);
    const { start, end, text } = difference(old, hold.text);
    if (start === end && !text) {
      this.changed();
      return true;
    }
    this.row(this.past, () => this.replace(hold.start + start, hold.start + end, text));
    this.future = [];
    this.changed();
    return !this.isRefused;
  }

  // ---- edits

  /**
   * What stays of the pieces at both ends is kept by changing these, which is one edit each; where that isn't allowed, or a piece would be
   * too long or hold a line end, what stays is written anew, in front of what then goes. Two who change one piece at the same time
   * then don't double it: the change with the later name shows.
   *
   * @param {number} start
   * @param {number} end
   * @param {string} text
   */
  replace(start, end, text) {
    const { copy } = this;
    const { pieces } = copy;
    this.words = { at: caretAt(copy, start), text };
    const first = pieces.behind(start);
    const last = start === end ? first : pieces.behind(end - 1);
    const front = pieces.text.slice(first.start, start);
    const isWithin = start < end || front !== '';
    const back = isWithin ? pieces.text.slice(end, last.end) : '';
    if (!front && !back) return this.replaceWhole(first.place, start < end ? last.place + 1 - first.place : 0, cut(text));
    const isOne = first.place === last.place;
    if (isOne && !text.includes('\n') && fits(front + text + back) && this.isAllowed('u', [first.place])) {
      this.change(first.place, front + text + back);
    } else if (!isOne && this.isAllowed('u', [...(front ? [first.place] : []), ...(back ? [last.place] : [])])) {
      this.replaceMany(first, last, front, text, back);
    } else if (isOne && front && this.isAllowed('u', [first.place])) this.breakUp(first.place, front, text, back);
    else this.takeApart(first.place, last.place + 1 - first.place, [front, ...cut(text), back].filter(Boolean));
  }

  /**
   * @param {string} right
   * @param {number[]} places
   */
  isAllowed(right, places) {
    return places.every((it) => this.copy.may(right, it));
  }

  /**
   * Pieces in place of whole ones.
   *
   * @param {number} at
   * @param {number} removed
   * @param {string[]} added
   */
  replaceWhole(at, removed, added) {
    if (this.putIn(at, added)) this.takeOut(at + added.length, removed);
  }

  // From within one piece to within another.
  replaceMany(first, last, front, text, back) {
    if (back && !this.change(last.place, back)) return;
    const to = first.place + (front ? 1 : 0);
    const added = cut(text);
    if (!this.putIn(to, added)) return;
    if (this.takeOut(to + added.length, last.place + (back ? 0 : 1) - to) && front) this.change(first.place, front);
  }

  // A piece keeps its front, and what was behind it is written anew behind what is new.
  breakUp(place, front, text, back) {
    if (this.putIn(place + 1, [...cut(text), ...(back ? [back] : [])])) this.change(place, front);
  }

  // All parts stand before the old pieces go; where these must stay, the parts go again. One of which the page knows that it must stay is
  // tried before any part, since who may delete nothing can't take the parts away again.
  takeApart(at, removed, added) {
    const early = this.isAllowed('d', [at]) ? 0 : 1;
    if (!this.takeOut(at, early)) return;
    if (!this.putIn(at, added) || this.takeOut(at + added.length, removed - early)) return;
    for (let i = 0; i < added.length; i++) this.copy.delete(at);
  }

  putIn(at, added) {
    const { length } = this.steps;
    if (added.every((piece, i) => this.insert(at + i, piece))) return true;
    const { answer } = this;
    for (const it of this.steps.splice(length)) if (it.kind === 'insert') this.copy.delete(at);
    this.answer = answer;
    return this.refuse();
  }

  takeOut(at, removed) {
    for (let i = 0; i < removed; i++) {
      if (!this.delete(at)) return this.refuse();
    }
    return true;
  }

  change(place, piece) {
    return this.update(place, piece) || this.refuse();
  }

  refuse() {
    this.isRefused = true;
    this.refused(this.answer, this.words);
    return false;
  }

  // ---- two who change one piece

  /**
   * The host has a request of this person: who changes its piece from now on comes second there, and sees to both. What came in front of
   * it is looked at first.
   *
   * @param {string} request
   */
  cameBack(request) {
    this.merge();
    for (const [name, mine] of this.mine) {
      const at = mine.made.findIndex((it) => it.request === request);
      if (at < 0) continue;
      mine.base = mine.made[at].piece;
      mine.made.splice(0, at + 1);
      if (!mine.made.length) this.mine.delete(name);
    }
  }

  /**
   * What this person made of pieces by requests that didn't come back before the page was loaded again.
   *
   * @param {number[]} places of these in the journal, in order
   */
  resume(places) {
    const { copy } = this;
    const own = new Set(places);
    const edits = places.map((it) => copy.requestAt(it).edit);
    const names = new Set(edits.filter(({ kind }) => kind === 'update').map(({ name }) => name));
    for (const name of names) this.resumeOf(name, own);
  }

  /**
   * The same of one piece. What came of others behind it was looked at when it came.
   *
   * @param {string} name
   * @param {Set<number>} own
   */
  resumeOf(name, own) {
    const { copy } = this;
    let [shown, under] = [copy.requestAt(copy.placeInJournal(name)).edit.piece, nameOf(name)];
    /** @type {Mine | null} */
    let mine = null;
    for (const it of copy.changes.get(name) ?? []) {
      const { piece } = copy.requestAt(it.place).edit;
      if (own.has(it.place)) {
        mine ??= { base: shown, under, made: [] };
        mine.made.push({ request: it.name, piece });
      } else if (mine && !isBefore(it, mine.under)) mine = null;
      if (isBefore(under, it)) [shown, under] = [piece, it];
    }
    if (mine) this.mine.set(name, mine);
  }

  // Looks at what others changed since. Of two changes of one piece at the same time the one that comes to the host second is made
  // anew on the first, by the page that made it: it sees the other before its own comes back, and the other's page doesn't. So one page
  // alone does it, and what both took away is taken away once.
  merge() {
    for (const it of this.copy.changed.splice(0)) this.mergeIn(it);
    for (const [name, mine] of this.mine) {
      if (this.copy.placeOf(name) === null) this.giveWay(name, mine);
    }
  }

  /** @param {{ name: string, request: string }} change of somebody else */
  mergeIn({ name, request }) {
    const { copy } = this;
    const mine = this.mine.get(name);
    const place = copy.placeOf(name);
    const other = (copy.changes.get(name) ?? []).find((it) => it.name === request);
    if (!mine || place === null || !other || isBefore(other, mine.under)) return;
    const own = mine.made[mine.made.length - 1].piece;
    const theirs = copy.requestAt(other.place).edit.piece;
    if (own === theirs) return;
    const both = merged(mine.base, own, theirs);
    const isMerged = both !== null && fits(both);
    this.mine.delete(name);
    this.remake(place, isMerged ? both : theirs, theirs);
    if (!isMerged) this.tellReplaced(copy.pieces.startOf(place + 1), difference(mine.base, own).text);
  }

  /**
   * Has a piece stand at a place, made on somebody else's. It is no step that could be undone.
   *
   * @param {number} place
   * @param {string} piece
   * @param {string} theirs
   */
  remake(place, piece, theirs) {
    const { steps } = this;
    this.steps = [];
    if (this.copy.peer.pieceAt(place) !== piece) this.update(place, piece, theirs);
    this.steps = steps;
  }

  /**
   * A piece that this person changed is gone: somebody deleted it at the same time.
   *
   * @param {string} name
   * @param {Mine} mine
   */
  giveWay(name, mine) {
    this.mine.delete(name);
    const offset = this.copy.pieces.startOf(this.copy.peer.shownUpTo(name) ?? 0);
    this.tellReplaced(offset, difference(mine.base, mine.made[mine.made.length - 1].piece).text);
  }

  /**
   * @param {number} offset
   * @param {string} text
   */
  tellReplaced(offset, text) {
    if (text) this.replaced({ at: caretAt(this.copy, offset), text });
  }

  // ---- steps, and how they are undone

  /**
   * @param {string} answer
   * @param {Omit<Step, 'made'>} step
   */
  made(answer, step) {
    this.answer = answer;
    const [word, name] = answer.split(' ');
    if (word === 'done') this.steps.push({ ...step, made: name });
    return word === 'done';
  }

  /** @param {number} place */
  nameBefore(place) {
    return place ? this.copy.peer.nameAt(place - 1) : null;
  }

  /**
   * @param {number} place
   * @param {string} piece
   */
  insert(place, piece) {
    return this.made(this.copy.insert(place, piece), { kind: 'insert' });
  }

  /** @param {number} place */
  delete(place) {
    const step = { kind: 'delete', behind: this.nameBefore(place), piece: this.copy.peer.pieceAt(place) ?? '' };
    return this.made(this.copy.delete(place), step);
  }

  /**
   * @param {number} place
   * @param {string} piece
   * @param {string | null} [base] what the change is made on, where that isn't what shows
   */
  update(place, piece, base = null) {
    const { copy } = this;
    const name = copy.peer.nameAt(place) ?? '';
    const old = copy.peer.pieceAt(place) ?? '';
    const under = this.lastChangeOf(name);
    if (!this.made(copy.update(place, piece), { kind: 'update', name, old, piece })) return false;
    const mine = this.mine.get(name) ?? { base: base ?? old, under, made: [] };
    mine.made.push({ request: this.steps[this.steps.length - 1].made, piece });
    this.mine.set(name, mine);
    return true;
  }

  /**
   * The name of the last change of a piece; its own where there was none.
   *
   * @param {string} name
   * @returns {Name}
   */
  lastChangeOf(name) {
    return (this.copy.changes.get(name) ?? []).reduce((last, it) => (isBefore(last, it) ? it : last), nameOf(name));
  }

  /**
   * What an action makes is a row of steps behind others.
   *
   * @param {Step[][]} rows
   * @param {() => void} action
   */
  row(rows, action) {
    this.steps = [];
    action();
    if (this.steps.length) rows.push(this.steps);
    if (rows.length > MOST_UNDO) rows.shift();
  }

  undo() {
    this.flush();
    return this.turnBack(this.past, this.future);
  }

  redo() {
    this.flush();
    return this.turnBack(this.future, this.past);
  }

  /**
   * Takes the last row of steps back; gives the name behind which the last of them was.
   *
   * @param {Step[][]} rows
   * @param {Step[][]} others
   */
  turnBack(rows, others) {
    const steps = rows.pop();
    if (!steps) return null;
    /** @type {string | null} */
    let at = null;
    this.isRefused = false;
    this.row(others, () => {
      for (const it of steps.toReversed()) at = this.invert(it);
    });
    if (!this.steps.length && !this.isRefused) this.stuck();
    this.changed();
    return at;
  }

  /**
   * Takes a step back, if what it made is there still; gives the name behind which it was.
   *
   * @param {Step} step
   * @returns {string | null}
   */
  invert({ kind, made, behind = null, piece = '', name = null, old = '' }) {
    const { peer } = this.copy;
    const element = kind === 'insert' ? made : kind === 'update' ? name : behind;
    this.words = { at: { name: element, inside: null, piece: '' }, text: '' };
    const upTo = element === null ? 0 : peer.shownUpTo(element) ?? 0;
    if (kind === 'delete') return this.insert(upTo, piece) ? this.steps[this.steps.length - 1].made : this.deny();
    const place = upTo - 1;
    if (place < 0 || peer.nameAt(place) !== element) return null;
    if (kind === 'update') return this.changeBack(place, piece, old) ? element : null;
    const before = this.nameBefore(place);
    return this.delete(place) ? before : this.deny();
  }

  /**
   * Takes a change of the piece at a place back, whatever others changed beside it since; gives whether that could be.
   *
   * @param {number} place
   * @param {string} piece
   * @param {string} old
   */
  changeBack(place, piece, old) {
    const now = this.copy.peer.pieceAt(place) ?? '';
    const then = now === piece ? old : merged(piece, old, now);
    return then !== null && fits(then) && then !== now && this.change(place, then);
  }

  // A step that would take another back isn't allowed.
  deny() {
    this.refuse();
    return null;
  }

  // What can be undone, for a browser to keep while the page is loaded again.
  get kept() {
    return { past: this.past, future: this.future };
  }

  /** @param {{ past: Step[][], future: Step[][] } | null} kept */
  restore(kept) {
    this.past = kept?.past ?? [];
    this.future = kept?.future ?? [];
  }
}
