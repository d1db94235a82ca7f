// The text as a person sees and writes it: his keys go to the writer, and what shows is the peer's text with what is held.
import { caretAt, offsetOf } from './caret.mjs';
import { colourOf } from './colours.mjs';
import { difference } from './difference.mjs';
import { textIn } from './surface.mjs';

const DRAIN_MS = 16; // so that a burst of messages is shown at once
const BURST_MS = 8; // of a burst at once, so that no key waits for long
const LONG_BURST_MS = 100; // while much comes, as when the page opens
const MANY = 1000; // actions
const COMES_MS = 3000; // without a key in a composition: what waits comes in, though that may end it

/** @type {Record<string, [string, string]>} by the kinds of input that delete: which way, and how much */
const DELETES = {
  deleteContentBackward: ['backward', 'character'],
  deleteContentForward: ['forward', 'character'],
  deleteWordBackward: ['backward', 'word'],
  deleteWordForward: ['forward', 'word'],
  deleteSoftLineBackward: ['backward', 'lineboundary'],
  deleteSoftLineForward: ['forward', 'lineboundary'],
  deleteHardLineBackward: ['backward', 'paragraphboundary'],
  deleteHardLineForward: ['forward', 'paragraphboundary'],
};

/**
 * A text as lines show it, which know one line end: as long, in the same places.
 *
 * @param {string} text
 */
const inLines = (text) => text.replaceAll('\r', '\n');

export class Editor {
  /**
   * `locks` tells where in the text that shows this person may write nothing, though he may elsewhere; `changed` is called after each change.
   *
   * @param {object} parts
   * @param {import('./copy.mjs').Copy} parts.copy
   * @param {import('./writer.mjs').Writer} parts.writer
   * @param {import('./ghosts.mjs').Ghosts} parts.ghosts
   * @param {import('./surface.mjs').Surface} parts.surface
   * @param {(hold: import('./writer.mjs').Hold | null) => import('./layout.mjs').Span[]} parts.locks
   * @param {() => void} parts.changed
   */
  constructor({ copy, writer, ghosts, surface, locks, changed }) {
    this.copy = copy;
    this.writer = writer;
    this.ghosts = ghosts;
    this.surface = surface;
    this.locks = locks;
    this.changed = changed;
    this.root = surface.root;
    this.isClosed = false; // nothing more may be typed
    this.isReader = false; // this person only reads
    this.isComposing = false;
    this.isTyping = false; // by a key that writes a letter
    this.isShowing = false;
    /** @type {ReturnType<typeof setTimeout> | undefined} */
    this.pause = undefined; // of a composition
    /** @type {(() => void)[]} */
    this.waiting = [];
    /** @type {ReturnType<typeof setTimeout> | null} */
    this.timer = null;
    this.caret = { anchor: 0, focus: 0 }; // in the text that shows
    this.listen();
    this.show();
  }

  get isReadOnly() {
    return this.isClosed || this.isReader || this.copy.isStale;
  }

  listen() {
    const { root, surface } = this;
    root.addEventListener('beforeinput', (event) => this.input(event));
    root.addEventListener('input', () => (this.isComposing ? this.compose() : this.composed()));
    root.addEventListener('keydown', (event) => this.key(event));
    root.addEventListener('copy', (event) => this.give(event));
    root.addEventListener('cut', (event) => this.give(event));
    root.addEventListener('compositionstart', () => this.compose());
    document.addEventListener('pointerdown', () => surface.settle(), true);
    root.addEventListener('compositionend', () => this.isComposing && this.composed());
    root.addEventListener('blur', () => this.writer.flush());
    document.addEventListener('selectionchange', () => this.noteCaret());
    for (const it of ['pagehide', 'visibilitychange']) addEventListener(it, () => this.writer.flush());
  }

  noteCaret() {
    if (this.isComposing || this.isShowing) return;
    this.caret = this.surface.selection() ?? this.caret;
  }

  // ---- what comes

  /**
   * Runs an action on the copy soon, and then shows the text. While a word is composed it waits.
   *
   * @param {() => void} action
   */
  run(action) {
    this.waiting.push(action);
    this.plan();
  }

  plan(wait = DRAIN_MS) {
    if (this.waiting.length) this.timer ??= setTimeout(() => this.drain(), wait);
  }

  drain() {
    this.timer = null;
    if (this.isComposing) return;
    let count = 0;
    const end = performance.now() + (this.waiting.length > MANY ? LONG_BURST_MS : BURST_MS);
    try {
      this.during(() => {
        while (count < this.waiting.length && performance.now() < end) this.waiting[count++]();
        if (!this.isReadOnly) this.writer.merge();
      });
    } finally {
      this.waiting.splice(0, count);
      this.plan(0);
    }
  }

  /**
   * Runs an action on the copy, and shows the text with its carets behind the pieces that they stood behind.
   *
   * @template T
   * @param {() => T} action
   */
  during(action) {
    const { copy, writer, caret } = this;
    const { hold } = writer;
    // A caret within what is held stays there.
    const within = (it) => (hold && it >= hold.start && it <= hold.start + hold.text.length ? it - hold.start : null);
    const carets = [caret.anchor, caret.focus].map((it) => ({ inside: within(it), at: caretAt(copy, writer.inPeer(it, hold)) }));
    try {
      return action();
    } finally {
      const now = writer.hold;
      const [anchor, focus] = carets.map(({ inside, at }) => (inside !== null && now ? now.start + inside : writer.inView(offsetOf(copy, at), now)));
      this.show(anchor, focus);
      this.changed();
    }
  }

  // ---- what goes

  /** @param {KeyboardEvent} event */
  key(event) {
    this.isTyping = isLetter(event);
    if (!this.isTyping) this.surface.settle();
    if (this.isComposing && !event.isComposing) this.composed();
    if (!(event.ctrlKey || event.metaKey) || event.altKey) return;
    const key = event.key.toLowerCase();
    if (key !== 'z' && key !== 'y') return;
    event.preventDefault();
    this.turn(key === 'y' || event.shiftKey ? 'redo' : 'undo');
  }

  /**
   * Takes the last own edits back, or makes them again, and goes there.
   *
   * @param {'undo' | 'redo'} way
   */
  turn(way) {
    if (this.isReadOnly) return;
    const name = this.writer[way]();
    const at = name ? this.copy.pieces.startOf(this.copy.peer.shownUpTo(name) ?? 0) : this.caret.focus;
    this.show(at, at);
  }

  /**
   * All that isn't composed is written here, and not by the browser.
   *
   * @param {InputEvent} event
   */
  input(event) {
    const { inputType: kind } = event;
    if (kind === 'insertCompositionText' || event.isComposing) return;
    if (this.isComposing) this.composed(); // it ended without a word of that
    event.preventDefault();
    if (this.isReadOnly) return;
    if (kind === 'historyUndo' || kind === 'historyRedo') return this.turn(kind === 'historyUndo' ? 'undo' : 'redo');
    const text = textOf(event);
    if (text === null) return;
    const { start, end } = this.reach(event, kind);
    if (start === end && !text) return;
    const isTyped = kind === 'insertText' || (kind in DELETES && end - start < 3);
    this.write(start, end, inLines(text.toWellFormed()), isTyped);
    this.isTyping = false;
  }

  /**
   * @param {number} start
   * @param {number} end
   * @param {string} text
   * @param {boolean} isTyped
   */
  write(start, end, text, isTyped) {
    const at = this.writer.write(start, end, text, isTyped);
    this.show(at, at);
    this.changed();
  }

  /**
   * From where to where an input replaces.
   *
   * @param {InputEvent} event
   * @param {string} kind
   */
  reach(event, kind) {
    const range = event.getTargetRanges()[0];
    if (range && (kind === 'insertReplacementText' || kind === 'deleteByDrag' || kind === 'insertFromDrop')) {
      const [start, end] = [this.surface.offsetOf(range.startContainer, range.startOffset), this.surface.offsetOf(range.endContainer, range.endOffset)];
      if (start !== null && end !== null) return { start, end };
    }
    const now = this.surface.selection() ?? { start: this.caret.focus, end: this.caret.focus };
    if (now.start !== now.end || !(kind in DELETES)) return now;
    this.surface.settle();
    // Words that aren't part of the text are gone over.
    for (let i = 0; i < 3; i++) {
      getSelection()?.modify('extend', ...DELETES[kind]);
      const then = this.surface.selection();
      if (then && then.start !== then.end) return then;
    }
    return now;
  }

  /**
   * What is copied is the text alone, without words that aren't part of it.
   *
   * @param {ClipboardEvent} event
   */
  give(event) {
    const now = this.surface.selection();
    if (!now || now.start === now.end) return;
    event.preventDefault();
    event.clipboardData?.setData('text/plain', this.writer.view().text.slice(now.start, now.end));
    if (event.type === 'cut' && !this.isReadOnly) this.write(now.start, now.end, '', false);
  }

  // While a word is composed nothing in the text's elements is touched, since that would break it off; but not for long without a key,
  // so that what others write comes in.
  compose() {
    clearTimeout(this.pause);
    this.surface.settle();
    this.isComposing = true;
    this.writer.isPaused = true;
    this.pause = setTimeout(() => this.waiting.length && this.composed(), COMES_MS);
  }

  // What the browser wrote by itself, as while a word was composed, is read out of the page.
  composed() {
    clearTimeout(this.pause);
    this.isComposing = false;
    this.writer.isPaused = false;
    const { text } = this.writer.view();
    const now = this.surface.read();
    const caret = this.caretInPage();
    this.surface.forget();
    const { start, end, text: put } = difference(inLines(text), now, now.length - caret);
    if (this.isReadOnly || (start === end && !put)) this.show();
    else this.write(start, end, put, true);
    this.plan();
  }

  // How many letters stand in front of the caret in the page, whatever the browser made of its lines.
  caretInPage() {
    const { focusNode, focusOffset } = getSelection() ?? {};
    if (!focusNode || !this.root.contains(focusNode)) return this.surface.read().length;
    const range = document.createRange();
    range.setStart(this.root, 0);
    range.setEnd(focusNode, focusOffset ?? 0);
    const holder = document.createElement('div');
    holder.append(range.cloneContents());
    return textIn(holder).length;
  }

  // ---- what shows

  show(anchor = this.caret.anchor, focus = this.caret.focus) {
    if (this.isComposing) return;
    const { writer, surface, root } = this;
    const { text, hold } = writer.view();
    this.isShowing = true;
    const isHere = document.activeElement === root;
    this.tellReadOnly();
    const ghosts = this.ghosts.all().map((it) => ({ ...it, offset: writer.inView(it.offset, hold) }));
    root.classList.toggle('is-blank', !text && !ghosts.length);
    surface.show({ text: inLines(text), runs: this.runs(hold), ghosts, locks: this.locks(hold) });
    const [from, to] = [anchor, focus].map((it) => Math.max(0, Math.min(it, text.length)));
    this.caret = { anchor: from, focus: to };
    if (isHere && this.isTyping) surface.selectSoon(from, to);
    else if (isHere) surface.select(from, to);
    this.isShowing = false;
  }

  tellReadOnly() {
    const told = String(this.isReadOnly);
    if (this.root.getAttribute('aria-readonly') !== told) this.root.setAttribute('aria-readonly', told);
  }

  /**
   * Who wrote what shows, as highlights.
   *
   * @param {import('./writer.mjs').Hold | null} hold
   */
  runs(hold) {
    const runs = this.copy.pieces.runs().map(({ start, end, user }) => ({ start, end, name: colourOf(user) }));
    if (!hold) return runs;
    const { start, end, text } = hold;
    const shift = text.length - (end - start);
    const front = runs.filter((it) => it.start < start).map((it) => ({ ...it, end: Math.min(it.end, start) }));
    const back = runs.filter((it) => it.end > end).map((it) => ({ ...it, start: Math.max(it.start, end) + shift, end: it.end + shift }));
    return [...front, ...(text ? [{ start, end: start + text.length, name: 'held' }] : []), ...back];
  }

  close() {
    this.isClosed = true;
    this.show();
  }

  // The names of the first and the last piece of the paragraphs in which the selection stands; null where there is none.
  paragraph() {
    this.writer.flush();
    const { copy, caret } = this;
    const { pieces } = copy;
    const text = inLines(pieces.text);
    const [from, to] = [Math.min(caret.anchor, caret.focus), Math.max(caret.anchor, caret.focus)];
    const start = from ? text.lastIndexOf('\n', from - 1) + 1 : 0;
    const next = text.indexOf('\n', Math.max(start, to));
    const end = next < 0 ? text.length : next;
    if (start === end) return null;
    return [start, end - 1].map((it) => copy.peer.nameAt(pieces.behind(it).place) ?? '');
  }
}

/**
 * Whether a key writes a letter, which goes where this page knows the caret to be. All else goes by the browser's selection.
 *
 * @param {KeyboardEvent} event
 */
const isLetter = ({ key, isComposing, ctrlKey, metaKey, altKey }) => [...key].length === 1 && !isComposing && !ctrlKey && !metaKey && !altKey;

/**
 * The letters that an input writes; null where it writes nothing that a text without marks has.
 *
 * @param {InputEvent} event
 */
function textOf({ inputType: kind, data, dataTransfer }) {
  if (kind === 'insertLineBreak' || kind === 'insertParagraph') return '\n';
  if (kind.startsWith('delete')) return '';
  if (kind.startsWith('format')) return null;
  return data ?? dataTransfer?.getData('text/plain').replaceAll('\r\n', '\n') ?? null;
}
