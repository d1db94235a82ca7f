// The page of a document: a person's copy, with the text, the people, the lists, the line to the host, and the store.
import { Away } from './away.mjs';
import { offsetOf } from './caret.mjs';
import { Carets } from './carets.mjs';
import { directory } from './directory.mjs';
import { Editor } from './editor.mjs';
import { download, hide, made, of, say } from './elements.mjs';
import { Finder } from './finder.mjs';
import { Ghosts } from './ghosts.mjs';
import { Groups } from './groups.mjs';
import { Keeper } from './keeper.mjs';
import { Keys } from './keys.mjs';
import { closed } from './layout.mjs';
import { leftIn, placeFor } from './left.mjs';
import { deniedBy } from './lines.mjs';
import { Lists } from './lists.mjs';
import { Note } from './note.mjs';
import { People } from './people.mjs';
import { Presence } from './presence.mjs';
import { Protection } from './protection.mjs';
import { caretText } from './protocol.mjs';
import { Renewal } from './renewal.mjs';
import { Rules } from './rules.mjs';
import { Surface } from './surface.mjs';
import { Sync } from './sync.mjs';
import { standing } from './told.mjs';
import * as words from './words.mjs';
import { Writer } from './writer.mjs';

const NOTICE_MS = 5000; // what was undone is said for so long at least, whatever is typed
const SETTLED_MS = 5000; // an order waits for what was written for so long at most
const LOOK_MS = 50;

/**
 * Where a page is: the document's name, its identity, the address of its link, this browser's device, and what tells keys of the browser's
 * storage of it from others'.
 *
 * @typedef {{ document: string, identity: string, address: string, device: import('./device.mjs').Device, key: string }} At
 */

export class Page {
  /**
   * `seek` looks where the document is, as it isn't here any more; it gives what there is to say of it, and whether it is gone for good.
   * `renewed` is given what this page wrote and the host didn't take before the document was renewed; it keeps that, and has the page
   * open the new one. `kept` has what was kept so of earlier ones. `formers` shows who this browser was.
   *
   * @param {import('./copy.mjs').Copy} copy
   * @param {import('./store.mjs').Store} store
   * @param {import('./store.mjs').Marks} marks
   * @param {At} at
   * @param {{ seek: () => Promise<{ words: string, isOver: boolean }>, renewed: (left: import('./left.mjs').Left[]) => Promise<void>,
   *   kept: import('./left.mjs').Kept, formers: import('./former.mjs').Formers }} ways
   */
  constructor(copy, store, marks, at, { seek, renewed, kept, formers }) {
    this.copy = copy;
    this.at = at;
    this.seek = seek;
    this.renewed = renewed;
    this.formers = formers;
    this.undone = copy.undone.count; // so many edits were undone when it was said last
    this.saidUntil = 0; // what the status says stays until then
    this.hasRefused = false;
    /** @type {{ version: number, extents: import('./policy.mjs').Extent[] }} */
    this.shutBy = { version: -1, extents: [] }; // of a version of the rules, where this person may do nothing
    this.ghosts = new Ghosts(copy, localStorage, `roastcliff let go ${at.key}`);
    this.surface = new Surface(of('text'), (it) => this.ghost(it));
    this.writer = new Writer(copy, {
      refused: (...it) => this.refused(...it),
      replaced: (it) => this.replaced(it),
      changed: () => this.wrote(),
      stuck: () => this.notice(words.STUCK),
    });
    this.writer.restore(JSON.parse(sessionStorage.getItem(this.undoKey) ?? 'null'));
    this.note = new Note(this.surface, (ghost) => this.letGo(ghost));
    this.editor = new Editor({
      copy,
      writer: this.writer,
      ghosts: this.ghosts,
      surface: this.surface,
      locks: (hold) => this.locks(hold),
      changed: () => this.changed(),
    });
    this.presence = new Presence(copy, (it) => this.sync.line.say(caretText(it)));
    this.carets = new Carets(this.presence, this.surface, this.writer);
    this.finder = new Finder(this.editor);
    this.sync = this.linked(marks);
    this.writer.resume(this.sync.waiting);
    this.rules = new Rules(copy, this.editor, this.sync.line.orders, () => this.settled());
    this.people = new People(this.sync.line.orders, copy.site, () => this.keys.ask(), this.rules);
    this.groups = new Groups(copy, this.rules);
    this.protection = new Protection(copy.policy, () => this.people.own, { protect: (it) => this.rules.protect(it), group: (it) => this.groups.make(it) });
    this.keys = new Keys(this.sync.line.orders, copy.site, (all) => this.people.take(all));
    this.lists = new Lists(copy, `roastcliff seen ${at.key}`, (place) => this.rules.remove(place));
    this.renewal = new Renewal(at.document, this.sync.line.orders, () => this.settled());
    this.away = new Away(kept, copy.pieces.text, (left) => this.putIn(left));
    this.keeper = new Keeper(copy, store, { marks: () => this.sync.marks, kept: () => this.kept(), failed: (error) => this.stop(error) });
    this.open();
  }

  get undoKey() {
    return `roastcliff undo ${this.at.key}`;
  }

  /** @param {import('./store.mjs').Marks} marks */
  linked(marks) {
    const { address, identity, device } = this.at;
    return new Sync(this.copy, address, { identity, device, marks }, {
      run: (action) => this.editor.run(action),
      told: () => this.tell(),
      heard: (it) => this.hear(it),
      cameBack: (name) => this.writer.cameBack(name),
      lost: (close) => this.lost(close),
    });
  }

  open() {
    of('text').contentEditable = 'plaintext-only';
    for (const it of ['sheet', 'side', 'tools']) hide(it, false);
    this.listen();
    this.changed();
    this.tell();
  }

  listen() {
    of('text').addEventListener('beforeinput', () => Date.now() < this.saidUntil || this.hasRefused || say('status', ''));
    of('colours').addEventListener('click', () => {
      const isPlain = document.documentElement.classList.toggle('plain');
      of('colours').setAttribute('aria-pressed', String(!isPlain));
    });
    of('export').addEventListener('click', () => this.export());
    of('more').addEventListener('click', () => this.turnAside());
    document.addEventListener('selectionchange', () => this.tellCaret());
    for (const it of ['online', 'pageshow']) addEventListener(it, () => this.sync.line.hurry());
    addEventListener('pagehide', () => this.keepUndo());
    addEventListener('beforeunload', (event) => {
      this.writer.flush();
      if (!this.keeper.isDone) event.preventDefault();
    });
  }

  // ---- what the host tells

  /** @param {import('./protocol.mjs').Heard} heard */
  hear(heard) {
    if (heard.kind === 'people') this.met(heard);
    else if (heard.kind === 'here') this.showHere(new Set(heard.sites));
    else if (heard.kind === 'caret') this.presence.hear(heard);
    else if (heard.kind === 'told') this.notice(words.refusal(heard.answer, this.copy.policy));
    this.carets.show();
  }

  /** @param {import('./protocol.mjs').People} heard */
  met(heard) {
    directory.take(heard);
    localStorage.setItem(`roastcliff people ${this.at.key}`, JSON.stringify(directory.kept));
    this.editor.show();
    this.changed();
    this.formers.show();
    if (this.people.isOwner) this.keys.ask();
  }

  /** @param {Set<number>} sites */
  showHere(sites) {
    this.people.here = sites;
    this.people.show();
    this.presence.keepOnly(sites);
    this.presence.tellAgain();
  }

  /** @param {import('./closes.mjs').Close} close */
  async lost({ then }) {
    this.people.here = new Set();
    this.people.show();
    this.presence.keepOnly(new Set());
    this.carets.show();
    if (then === 'renewed') return this.giveWay();
    if (then !== 'seek' && this.sync.line.failures !== 2) return;
    const { words: told, isOver } = await this.seek();
    if (this.sync.isWelcome) return;
    this.sync.line.words = told || this.sync.line.words;
    if (isOver) this.sync.line.close();
    else this.sync.line.resume();
    this.tell();
  }

  // The document was renewed: what the host didn't take of this page is kept as words, and the new one is opened. Where that isn't there
  // yet, it is tried again.
  async giveWay() {
    this.writer.flush();
    try {
      await this.renewed(leftIn(this.copy, this.sync.waiting));
    } catch (error) {
      this.notice(error.message);
      this.sync.line.resume();
    }
  }

  /**
   * Puts words in again that were written in a document that this one renewed. Gives whether it was done.
   *
   * @param {import('./left.mjs').Left} left
   */
  putIn(left) {
    this.writer.flush();
    if (this.editor.isReader) return false;
    const { start, end } = placeFor(this.copy.pieces.text, left);
    this.writer.write(start, end, left.text);
    const isDone = this.writer.flush() && !this.writer.isRefused;
    this.editor.show();
    this.changed();
    return isDone;
  }

  // ---- what shows

  // Shows what changed, and keeps it.
  changed() {
    if (!this.keeper) return;
    this.keeper.keep();
    this.people.show();
    this.lists.show(directory.version, this.people.isOwner);
    this.groups.show(this.people.isOwner);
    this.renewal.show(this.copy.journal.count - this.copy.entries.length, this.copy.policy.version, this.people.isOwner);
    if (this.people.isOwner && this.sync.isCaughtUp) this.groups.follow();
    this.protection.show(this.people.isOwner);
    hide('keys-part', !this.people.isOwner);
    this.tellUndone();
    this.tellCaret();
    this.carets.show();
    this.tell();
    if (this.copy.isStale) say('status', words.STALE);
  }

  // A writer's edit was made, maybe by a timer.
  wrote() {
    if (!this.keeper) return;
    if (!this.writer.isRefused) this.forgetRefusal();
    this.editor.show();
    this.changed();
  }

  // How the page stands with its host.
  tell() {
    if (!this.keeper) return;
    const { isWelcome, isCaughtUp, unsaved, isHeldBack, line, role } = this.sync;
    const told = standing({ isWelcome, isCaughtUp, unsaved, isHeldBack, words: line.words || this.sync.closed, isOver: line.isOver }, this.keeper.isDone && !this.writer.held);
    say('standing', told.text);
    of('standing').dataset.kind = told.kind;
    if (this.editor.isReader !== (role === 'reader')) {
      this.editor.isReader = role === 'reader';
      this.editor.show();
    }
  }

  // Says where the caret is: to the others, and who wrote there, for who doesn't tell the colours.
  tellCaret() {
    const { copy, writer, editor, presence } = this;
    const { hold } = writer;
    const [anchor, focus] = [editor.caret.anchor, editor.caret.focus].map((it) => writer.inPeer(it, hold));
    presence.tell(anchor, focus);
    const { place, start } = copy.pieces.behind(focus - 1);
    const isThere = focus > 0 && place < copy.pieces.count;
    if (!isThere) return say('writer', '');
    let rest = focus - 1 - start;
    const user = (copy.pieces.authors.get(place) ?? []).find(({ length }) => (rest -= length) < 0)?.user ?? copy.pieces.users[place];
    say('writer', words.writer(Number(copy.peer.nameAt(place)?.split('.')[1]), user));
  }

  tellUndone() {
    const { count } = this.copy.undone;
    if (count > this.undone) this.notice(words.undoing(count - this.undone));
    this.undone = count;
  }

  /** @param {string} text that stays for a while */
  notice(text) {
    say('status', text);
    this.saidUntil = Date.now() + NOTICE_MS;
  }

  kept() {
    this.sync.send();
    this.tell();
  }

  // Waits until the host has what was written here, if it is linked.
  async settled() {
    this.writer.flush();
    for (let waited = 0; waited < SETTLED_MS && this.sync.isWelcome && this.sync.unsaved; waited += LOOK_MS) {
      await new Promise((done) => setTimeout(done, LOOK_MS));
    }
  }

  // ---- what isn't part of the text

  /**
   * @param {string} answer to an edit that wasn't made
   * @param {import('./writer.mjs').Place} what
   */
  refused(answer, what) {
    const why = words.refusal(answer, this.copy.policy);
    say('status', why);
    this.hasRefused = true;
    this.ghosts.refuse(what, deniedBy(answer), answer);
    const standing = what.text ? this.ghosts.standing().at(-1) ?? null : null;
    queueMicrotask(() => this.note.tell(this.writer.inView(offsetOf(this.copy, what.at)), why, standing));
  }

  /**
   * Somebody else's change of the same words shows, and the words that this person wrote into them don't.
   *
   * @param {import('./writer.mjs').Place} what
   */
  replaced(what) {
    this.notice(words.REPLACED);
    this.ghosts.refuse(what, null);
  }

  // What was said of an edit that wasn't made is gone when another one was.
  forgetRefusal() {
    if (this.hasRefused) say('status', '');
    this.hasRefused = false;
  }

  /** @param {import('./ghosts.mjs').Ghost} it */
  ghost(it) {
    const element = made('del', it.isRefused ? 'ghost refused' : 'ghost', it.text);
    element.contentEditable = 'false';
    element.tabIndex = 0;
    element.setAttribute('role', 'button');
    element.setAttribute('aria-label', `${words.ghost(it)}: ${it.text}`);
    const open = (event) => {
      event.preventDefault();
      event.stopPropagation();
      this.note.tell(this.surface.offsetOfElement(element), words.whyGhost(it, this.copy.policy), it, element);
    };
    element.addEventListener('mousedown', (event) => event.preventDefault());
    element.addEventListener('click', open);
    element.addEventListener('keydown', (event) => (event.key === 'Enter' || event.key === ' ') && open(event));
    return element;
  }

  /** @param {import('./ghosts.mjs').Ghost} ghost */
  letGo(ghost) {
    this.ghosts.letGo(ghost);
    this.editor.show();
  }

  /**
   * Where in the text that shows this person may do nothing, though he may elsewhere.
   *
   * @param {import('./writer.mjs').Hold | null} hold
   */
  locks(hold) {
    const { copy, writer } = this;
    const inView = (/** @type {number} */ place) => writer.inView(copy.pieces.startOf(place), hold);
    return closed(this.shut.map(({ words: [first, last] }) => ({ start: inView(copy.firstOf(first)), end: inView(copy.peer.shownUpTo(last) ?? 0), name: 'locked' })));
  }

  // The extents of paragraphs in which this person may do nothing.
  get shut() {
    const { policy, site } = this.copy;
    if (this.shutBy.version === policy.version) return this.shutBy.extents;
    const isShut = (extent) => ['i', 'd', 'u'].every((right) => !policy.allows(site, right, (it) => it.kind === 'all' || it === extent));
    this.shutBy = { version: policy.version, extents: [...policy.objects.values()].filter((it) => it.kind === 'span' && isShut(it)) };
    return this.shutBy.extents;
  }

  // ---- the rest

  turnAside() {
    const isAside = document.querySelector('main')?.classList.toggle('is-aside') ?? false;
    of('more').setAttribute('aria-expanded', String(isAside));
    say('more', isAside ? 'Text' : 'People');
  }

  // Where the store takes nothing more, nothing more may be written: it would be gone with the page.
  stop(error) {
    this.editor.close();
    this.notice(`This browser keeps nothing more (${error.message}), so nothing more can be written here. Export the text before you close the page.`);
  }

  // Ends writing, and gives whether all that was written is kept. Where the store takes nothing the page goes on as it was.
  async leave() {
    this.writer.flush();
    if (!(await this.keeper.finish())) return false;
    this.editor.close();
    this.sync.line.close();
    return this.keeper.finish();
  }

  export() {
    this.writer.flush();
    download(new TextEncoder().encode(this.copy.pieces.text), `${this.at.document}.txt`);
  }

  // What can be undone outlasts a reload.
  keepUndo() {
    try {
      sessionStorage.setItem(this.undoKey, JSON.stringify(this.writer.kept));
    } catch {
      sessionStorage.removeItem(this.undoKey);
    }
  }
}
