// A person's own copy: the peer, the frames of its journal's items, the pieces that show, the policy, and what was undone.
import { authorsOf } from './authors.mjs';
import { changedBy, deletedBy, Frames, isEntry, requestOf, split } from './frames.mjs';
import { readMessage, spelled, undoneBy } from './lines.mjs';
import { BAD, DONE, NoMemory, Peer, UNTOLD } from './peer.mjs';
import { Pieces } from './pieces.mjs';
import { MOST_TO_CONFIRM, Policy } from './policy.mjs';
import { placesOf } from './rows.mjs';
import { Undone } from './undone.mjs';

// A frame of no message: the bytes are at fault, and whoever sent them.
export class BadFrame extends Error {}

/**
 * A change of a piece: its name's parts, and where in the journal it stands.
 *
 * @typedef {{ name: string, stamp: number, user: number, place: number }} Change
 * @typedef {import('./lines.mjs').EditRequest & { isDeleted: boolean }} Lost a request that would be undone, and whether its letters are gone
 */

const ITEM = 'item ';
const MANY = 100; // where so many pieces change at once all are asked for
const EXCERPT = 24; // letters by which a paragraph is told

export class Copy {
  /**
   * The copy of a site's peer whose journal the bytes are; a fresh one for none. Throws NoJournal.
   *
   * @param {import('./peer.mjs').Module} module
   * @param {number} site
   * @param {Uint8Array} [bytes]
   */
  constructor(module, site, bytes) {
    this.peer = new Peer(module, site, bytes);
    this.site = site;
    this.journal = new Frames();
    this.kept = 0; // so many of its items are in the browser's store
    this.policy = new Policy();
    /** @type {import('./lines.mjs').Entry[]} the messages of the policy's versions */
    this.entries = [];
    /** @type {Map<string, number>} by their names, the places in the journal of those that a new version may undo */
    this.tentative = new Map();
    /** @type {Map<string, number>} by their names, the places in the journal of all requests that were looked at for it */
    this.places = new Map();
    this.looked = 0; // so many of the journal's items were
    this.undone = new Undone();
    this.isStale = false; // this site wrote before what isn't here
    /** @type {Set<string>} the names of elements that somebody deleted, whether or not it was undone */
    this.deleted = new Set();
    /** @type {Map<string, Change[]>} by the names of elements, the changes of them that weren't undone */
    this.changes = new Map();
    /** @type {{ name: string, request: string }[]} changes of elements by others that came since these were looked at */
    this.changed = [];
    /** @type {Set<string>} the names of elements whose letters may be others' since the pieces were looked at */
    this.touched = new Set();
    /** @type {Pieces | null} those that show, where they are known */
    this.shown = null;
    if (bytes) this.takeAll(bytes);
  }

  /**
   * Takes in a journal whose requests have their last states already.
   *
   * @param {Uint8Array} bytes
   */
  takeAll(bytes) {
    const undone = [];
    for (const frame of split(bytes)) {
      const place = this.journal.count;
      this.journal.append(frame);
      if (isEntry(frame)) {
        this.takeVersion(this.entryAt(place));
        continue;
      }
      this.noteTarget(frame, place);
      const denial = this.denialOf(requestOf(frame), place);
      if (denial) this.dropChange(frame);
      if (denial) undone.push({ place, denial });
    }
    undone.sort((a, b) => a.denial.version - b.denial.version);
    for (const { place, denial } of undone) this.undone.put(this.requestAt(place), denial);
    this.kept = this.journal.count;
  }

  // The pieces that show.
  get pieces() {
    this.shown ??= this.askPieces();
    return this.shown;
  }

  // The pieces that show, as the peer tells. It takes the time of the text.
  askPieces() {
    const { peer } = this;
    const pieces = Pieces.of(peer.text(), peer.sizes(), peer.writers());
    for (const name of this.changes.keys()) this.giveAuthors(pieces, name);
    this.touched.clear();
    return pieces;
  }

  /**
   * Notes whose an element is that was changed, and whose its letters are, if it shows. A change that leaves the letters as they are is in no
   * row, nor is one that is undone so, and may be another one's all the same.
   *
   * @param {Pieces} pieces
   * @param {string} name
   */
  giveAuthors(pieces, name) {
    const place = this.placeOf(name);
    if (place === null) return;
    const changes = this.changes.get(name) ?? [];
    pieces.users[place] = this.peer.writerAt(place) ?? 0;
    pieces.giveAuthors(place, changes.length ? this.authorsAt(name, changes) : null);
  }

  /**
   * The place at which an element shows; null where it doesn't.
   *
   * @param {string} name
   */
  placeOf(name) {
    const place = (this.peer.shownUpTo(name) ?? 0) - 1;
    return place >= 0 && this.peer.nameAt(place) === name ? place : null;
  }

  /**
   * Whose the letters of an element are that was changed.
   *
   * @param {string} name
   * @param {Change[]} changes
   */
  authorsAt(name, changes) {
    const places = [this.placeInJournal(name), ...changes.toSorted((a, b) => a.stamp - b.stamp || a.user - b.user).map(({ place }) => place)];
    return authorsOf(places.map((it) => this.requestAt(it)).map(({ edit, user }) => ({ piece: edit.piece, user })));
  }

  /**
   * Where in the journal the request of a name stands, which is there. Those that aren't tentative any more are looked up from the first time on
   * at which one of them is sought.
   *
   * @param {string} name
   */
  placeInJournal(name) {
    const known = this.tentative.get(name);
    if (known !== undefined) return known;
    for (; this.looked < this.journal.count; this.looked++) {
      const frame = this.journal.view(this.looked);
      if (!isEntry(frame)) this.places.set(requestOf(frame).name, this.looked);
    }
    const place = this.places.get(name);
    if (place === undefined) throw new Error(`the journal has no request ${name}`);
    return place;
  }

  /**
   * Makes a step, and takes in what the journal has since. The answer, and an error where the code isn't DONE.
   *
   * @param {string} line
   * @returns {string}
   */
  step(line) {
    const told = this.peer.step(line);
    this.takeIn(told);
    if (told.code === UNTOLD) throw new NoMemory();
    if (told.code !== DONE) throw new Error(`“${line}” is no step: a number may be too large, or there are too many.`);
    return told.answer;
  }

  /**
   * @param {number} place
   * @param {string} piece
   */
  insert(place, piece) {
    return this.step(`edit insert ${place} ${spelled(piece)}`);
  }

  /** @param {number} place */
  delete(place) {
    return this.step(`edit delete ${place}`);
  }

  /**
   * @param {number} place
   * @param {string} piece
   */
  update(place, piece) {
    return this.step(`edit update ${place} ${spelled(piece)}`);
  }

  // Has the pieces asked for anew when they are asked for next.
  forgetPieces() {
    this.shown = null;
  }

  /**
   * Whether the rules let this person do something, as far as this page reads them: delete the piece at a place (`d`), change it (`u`), or
   * put one in there (`i`).
   *
   * @param {string} right
   * @param {number} place
   */
  may(right, place) {
    return this.policy.allows(this.site, right, (extent) => (right === 'i' ? this.coversNew(extent, place) : this.covers(extent, place)));
  }

  /**
   * Whether an extent has the piece at a place.
   *
   * @param {import('./policy.mjs').Extent} extent
   * @param {number} place
   */
  covers({ kind, words }, place) {
    if (kind === 'all') return true;
    if (kind === 'span') return this.firstOf(words[0]) <= place && place < (this.peer.shownUpTo(words[1]) ?? 0);
    const name = this.peer.nameAt(place) ?? '';
    return kind === 'by' ? name.endsWith(`.${words[0]}`) : words[0].split(',').includes(name);
  }

  /**
   * Whether an extent would have a piece that this person puts in at a place.
   *
   * @param {import('./policy.mjs').Extent} extent
   * @param {number} place
   */
  coversNew({ kind, words }, place) {
    if (kind === 'span') return this.firstOf(words[0]) < place && place < (this.peer.shownUpTo(words[1]) ?? 0);
    return kind === 'all' || (kind === 'by' && Number(words[0]) === this.site);
  }

  /**
   * What would be undone if these operations were made now, as the peer says. It takes the time of the journal.
   *
   * @param {string[]} operations
   * @returns {Lost[]}
   */
  wouldUndo(operations) {
    const names = this.peer.would(operations.map((it, i) => `message entry ${this.policy.version + 1 + i} ${it}`));
    return names.map((name) => ({ ...this.requestAt(this.placeInJournal(name)), isDeleted: this.deleted.has(name) }));
  }

  /**
   * The place of the first piece that shows from an element on.
   *
   * @param {string} name
   */
  firstOf(name) {
    const upTo = this.peer.shownUpTo(name) ?? 0;
    return upTo && this.peer.nameAt(upTo - 1) === name ? upTo - 1 : upTo;
  }

  /**
   * Receives a message, and settles what is due by then.
   *
   * @param {Uint8Array} frame
   */
  receive(frame) {
    const told = this.peer.receive(frame);
    const { code, answer } = told;
    this.takeIn(told);
    if (code === BAD) throw new BadFrame();
    if (code === UNTOLD) throw new NoMemory();
    if (this.tellsOfOwn(answer)) this.isStale = true;
    while (this.step('settle') !== 'quiet');
    return answer;
  }

  /**
   * Whether an answer to a message says that this site issued it before, and doesn't have it.
   *
   * @param {string} answer
   */
  tellsOfOwn(answer) {
    if (answer.startsWith('conflict ')) return this.isOwn(readMessage(answer.slice('conflict '.length)));
    return answer === 'own site' || answer === 'own log';
  }

  /**
   * Whether a message is this site's own.
   *
   * @param {import('./lines.mjs').Message} message
   */
  isOwn(message) {
    return message.kind === 'entry' ? this.site === 0 : message.user === this.site;
  }

  // Whether the versions that are left are left for rules.
  get isReserved() {
    return this.policy.version >= MOST_TO_CONFIRM;
  }

  // Confirms all that waits for it, as long as there are versions for it.
  validateAll() {
    while (!this.isReserved && this.step('validatenext').startsWith('entry '));
  }

  /**
   * The journal's item at a place, as a message; null where it is shorter.
   *
   * @param {number} place
   */
  item(place) {
    const { answer, frame } = this.peer.step(`look ${place}`);
    return answer.startsWith(ITEM) ? { message: readMessage(answer.slice(ITEM.length)), frame } : null;
  }

  /**
   * The journal's entry at a place that has one.
   *
   * @param {number} place
   */
  entryAt(place) {
    const message = this.item(place)?.message;
    if (message?.kind !== 'entry') throw new Error(`the journal has no entry at ${place}`);
    return message;
  }

  /**
   * The journal's request at a place that has one.
   *
   * @param {number} place
   */
  requestAt(place) {
    const message = this.item(place)?.message;
    if (message?.kind !== 'request') throw new Error(`the journal has no request at ${place}`);
    return message;
  }

  /**
   * Takes in what was told of a step: the rows of what changed in the text, and what the journal has since, an item, if any. Where that ends
   * halfway, or a step couldn't be told, the pieces are asked for anew.
   *
   * @param {import('./peer.mjs').Told} told
   */
  takeIn({ code, answer, rows }) {
    try {
      if (code === UNTOLD) this.forgetPieces();
      this.followRows(rows);
      this.takeItems(answer);
      this.followAuthors();
    } catch (error) {
      this.forgetPieces();
      throw error;
    }
  }

  /**
   * Puts rows into the pieces, where they are known.
   *
   * @param {import('./rows.mjs').Row[]} rows
   */
  followRows(rows) {
    if (rows.length > MANY) this.forgetPieces();
    const { peer, shown } = this;
    if (!shown) return;
    for (const { kind, at, piece } of rows) shown.splice(at, kind === 'insert' ? 0 : 1, kind === 'delete' ? [] : [piece]);
    for (const it of placesOf(rows)) {
      shown.users[it] = peer.writerAt(it) ?? 0;
      this.touched.add(peer.nameAt(it) ?? '');
    }
  }

  // Notes whose the letters are of what was changed.
  followAuthors() {
    const { shown, touched } = this;
    if (shown) touched.forEach((it) => this.changes.has(it) && this.giveAuthors(shown, it));
    touched.clear();
  }

  /** @param {string} answer */
  takeItems(answer) {
    for (let it = this.item(this.journal.count); it; it = this.item(this.journal.count)) {
      const place = this.journal.count;
      this.journal.append(it.frame);
      if (it.message.kind === 'entry') this.takeEntry(it.message, !answer.endsWith(' undone 0'));
      else this.takeRequest(it.message, place, it.frame);
    }
  }

  /**
   * Notes which element a request deletes or changes.
   *
   * @param {Uint8Array} frame
   * @param {number} place
   */
  noteTarget(frame, place) {
    const [deleted, changed] = [deletedBy(frame), changedBy(frame)];
    if (deleted) this.deleted.add(deleted);
    if (changed) this.setChanges(changed, [...(this.changes.get(changed) ?? []), { ...requestOf(frame), place }]);
  }

  /**
   * @param {string} name
   * @param {Change[]} changes
   */
  setChanges(name, changes) {
    this.changes.set(name, changes);
    this.touched.add(name);
  }

  /**
   * Forgets the change that a request made, which was undone.
   *
   * @param {Uint8Array} frame
   */
  dropChange(frame) {
    const name = changedBy(frame);
    const { name: request } = requestOf(frame);
    if (name) this.setChanges(name, (this.changes.get(name) ?? []).filter((it) => it.name !== request));
  }

  /** @param {import('./lines.mjs').Entry} entry */
  takeVersion(entry) {
    this.policy.take(entry);
    this.entries.push(entry);
    const [kind, number, extent, first, last] = entry.op;
    if (kind !== 'addobj' || extent !== 'span') return;
    const named = this.policy.named.get(Number(number));
    if (named) named.said = this.excerpt(first, last);
  }

  /**
   * The first letters of what shows from one element to another.
   *
   * @param {string} first
   * @param {string} last
   */
  excerpt(first, last) {
    const { peer, pieces } = this;
    const letters = Array.from(pieces.text.slice(pieces.startOf(this.firstOf(first)), pieces.startOf(peer.shownUpTo(last) ?? 0)));
    return letters.length > EXCERPT ? `${letters.slice(0, EXCERPT).join('')}…` : letters.join('');
  }

  /**
   * @param {import('./lines.mjs').Entry} entry
   * @param {boolean} mayUndo
   */
  takeEntry(entry, mayUndo) {
    this.takeVersion(entry);
    const [kind, name] = entry.op;
    const asked = mayUndo ? [...this.tentative.keys()] : [];
    for (const it of kind === 'validate' ? [name] : asked) {
      const place = this.tentative.get(it);
      if (place !== undefined) this.judge(it, place);
    }
  }

  /**
   * What showed until now may be undone.
   *
   * @param {string} name
   * @param {number} place
   */
  judge(name, place) {
    const denial = this.denialOf({ user: null, name }, place);
    if (!denial) return;
    this.undone.put(this.requestAt(place), denial);
    this.dropChange(this.journal.view(place));
  }

  /**
   * @param {import('./lines.mjs').EditRequest} request
   * @param {number} place
   * @param {Uint8Array} frame
   */
  takeRequest(request, place, frame) {
    const denial = this.denialOf(request, place);
    this.noteTarget(frame, place);
    if (denial) this.dropChange(frame);
    if (denial) this.undone.put(request, denial);
    else this.noteChange(request);
  }

  /**
   * Asks the peer for the state of a request that isn't the administrator's: its denial, or null.
   *
   * @param {{ user: number | null, name: string }} request
   * @param {number} place
   */
  denialOf({ user, name }, place) {
    if (user === 0) return null;
    const state = this.peer.state(name);
    if (state === 'tentative') this.tentative.set(name, place);
    else this.tentative.delete(name);
    return undoneBy(state);
  }

  /**
   * Notes a change of an element by somebody else, for who makes a change of his own on it.
   *
   * @param {import('./lines.mjs').EditRequest} request
   */
  noteChange({ name, user, edit }) {
    if (edit.kind === 'update' && user !== this.site) this.changed.push({ name: edit.name, request: name });
  }
}
