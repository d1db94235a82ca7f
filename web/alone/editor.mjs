// What a person types becomes steps, and what comes from others goes into the text area.
import { difference } from '../difference.mjs';
import { caretAt, moved, offsetOf } from './caret.mjs';
import { replacement } from './replacement.mjs';

const DRAIN_MS = 16; // so that a burst of messages is shown at once
const BURST_MS = 8; // of a burst at once, so that no key waits for long
const GOES_MS = 1000; // without a key in a composition: what it wrote so far goes out
const COMES_MS = 3000; // and what waits comes in, though that may end the composition
const MANY = 100; // where so many pieces change at once they aren't followed one by one

// A text as a text area has it, which knows one line end: as long, in the same places.
const inArea = (text) => text.replaceAll('\r', '\n');

export class Editor {
  // `refused` is given the answer to an edit that wasn't made, `changed` is called after each change.
  constructor(copy, area, { refused, changed }) {
    this.copy = copy;
    this.area = area;
    this.refused = refused;
    this.changed = changed;
    this.isClosed = false; // nothing more may be typed
    this.isComposing = false;
    this.isPausing = false; // a composition is under way, and for long there was no key
    this.pauses = []; // timers of a composition
    this.waiting = [];
    this.timer = null;
    this.showing = 0; // how many ms it took to show what came last
    this.show();
    area.addEventListener('compositionstart', () => this.compose());
    area.addEventListener('compositionend', () => this.endComposition());
    area.addEventListener('input', () => (this.isComposing ? this.compose() : this.typed()));
  }

  get isReadOnly() {
    return this.isClosed || this.copy.isStale;
  }

  // A composition is under way, as on a telephone while a word is written. It holds up what goes and what comes, until there was no
  // key for a while.
  compose() {
    this.stopComposing();
    this.isComposing = true;
    const rest = () => {
      this.isPausing = true;
      this.plan();
    };
    this.pauses = [setTimeout(() => this.typed(), GOES_MS), setTimeout(rest, COMES_MS)];
  }

  stopComposing() {
    this.pauses.forEach((it) => clearTimeout(it));
    this.isComposing = false;
    this.isPausing = false;
  }

  endComposition() {
    this.stopComposing();
    this.typed();
    this.plan();
  }

  // Runs an action on the copy soon, and then shows the text, so that no one types into another text than the peer's. While a
  // composition is under way it waits.
  run(action) {
    this.waiting.push(action);
    this.plan();
  }

  plan(wait = DRAIN_MS) {
    if (this.waiting.length) this.timer ??= setTimeout(() => this.drain(), wait);
  }

  // Runs what waits, as much as there is time for, and the others behind what the browser has to do: for no less time than it takes to
  // show what came.
  drain() {
    this.timer = null;
    if (this.isComposing && !this.isPausing) return;
    let count = 0;
    let now = performance.now();
    const end = now + Math.max(BURST_MS, this.showing);
    try {
      this.during(() => {
        for (; count < this.waiting.length && now < end; now = performance.now()) this.waiting[count++]();
      });
    } finally {
      this.showing = performance.now() - now;
      this.waiting.splice(0, count);
      this.plan(0);
    }
  }

  // Runs an action on the copy, and shows the text with its carets behind the pieces that they stood behind.
  during(action) {
    const { area } = this;
    const carets = [area.selectionStart, area.selectionEnd].map((it) => caretAt(this.copy, it));
    try {
      return action();
    } finally {
      this.show((caret, change) => offsetOf(this.copy, caret, change), carets);
      this.changed();
    }
  }

  // What differs between the text that showed and the one that was typed becomes edits, where something may be typed.
  typed() {
    const { area, copy } = this;
    const shown = inArea(copy.pieces.text);
    const text = area.value.toWellFormed();
    if (text === shown || this.isReadOnly) return this.show();
    const behind = area.value.length - area.selectionEnd;
    try {
      this.make(replacement(copy.pieces, difference(shown, text, behind)));
    } finally {
      this.show();
      this.changed();
    }
  }

  // What is new goes in before what it replaces goes out, so that where only one of both is allowed nothing is lost.
  make(change) {
    const { at, removed, added } = change;
    if (added.length + removed > MANY) this.copy.forgetPieces();
    if (change.isFrontSplit || change.isBackSplit) this.takeApart(change);
    else if (this.putIn(at, added) === added.length) this.takeOut(at + added.length, removed);
  }

  // A piece that is taken apart goes out when all its parts stand. Where it must stay after all these go out again, so that nothing
  // stands there twice; where only a later piece must stay its own part does. One of which the page knows that it must stay is tried
  // before any part.
  takeApart({ at, removed, added, isBackSplit }) {
    const early = this.copy.may('d', at) ? 0 : 1;
    if (this.takeOut(at, early) < early) return;
    const put = this.putIn(at, added);
    const out = put === added.length ? early + this.takeOut(at + put, removed - early) : early;
    if (out === removed) return;
    if (out === 0) this.takeBack(at, put);
    else if (isBackSplit && put === added.length) this.takeBack(at + put - 1, 1);
  }

  // Inserts pieces from a place on, up to one that isn't made: gives how many were.
  putIn(at, added) {
    const place = added.findIndex((piece, i) => !this.isMade(this.copy.insert(at + i, piece)));
    return place < 0 ? added.length : place;
  }

  // Deletes so many pieces from a place on, up to one that stays: gives how many went.
  takeOut(at, removed) {
    let count = 0;
    while (count < removed && this.isMade(this.copy.delete(at))) count++;
    return count;
  }

  // Deletes so many pieces that were just put in.
  takeBack(at, count) {
    for (let i = 0; i < count; i++) this.copy.delete(at);
  }

  isMade(answer) {
    const isMade = answer.startsWith('done ');
    if (!isMade) this.refused(answer);
    return isMade;
  }

  /**
   * The peer's text goes into the area, where another one stands there. `placed` tells where a caret goes.
   *
   * @param {(caret: any, change: ReturnType<typeof difference>) => number} [placed]
   * @param {any[]} [carets]
   */
  show(placed = moved, carets = [this.area.selectionStart, this.area.selectionEnd]) {
    const { area } = this;
    area.readOnly = this.isReadOnly;
    const text = inArea(this.copy.pieces.text);
    const { value, selectionDirection } = area;
    if (value === text) return;
    const change = difference(value, text);
    const [start, end] = carets.map((it) => placed(it, change));
    area.value = text;
    area.setSelectionRange(start, end, selectionDirection);
  }

  close() {
    this.isClosed = true;
    this.area.readOnly = true;
  }

  // The names of the first and the last piece of the paragraphs in which the selection stands; null where there is none.
  paragraph() {
    const { area, copy } = this;
    const { pieces } = copy;
    const text = inArea(pieces.text);
    const start = area.selectionStart ? text.lastIndexOf('\n', area.selectionStart - 1) + 1 : 0;
    const next = text.indexOf('\n', Math.max(start, area.selectionEnd));
    const end = next < 0 ? text.length : next;
    if (start === end) return null;
    return [start, end - 1].map((it) => copy.peer.nameAt(pieces.behind(it).place));
  }
}
