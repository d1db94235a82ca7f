// A text, where its pieces end, in units of UTF-16 as the page counts them, and whose their letters are. A piece has at most 255 bytes, so
// its size fits a byte.

/** @typedef {{ start: number, end: number, user: number }} UserRun letters of one user, from one place of the text to another */

const FIRST_ROOM = 256;
const decoder = new TextDecoder('utf-8', { ignoreBOM: true }); // U+FEFF is a letter like others

/**
 * How many units of UTF-16 these bytes of UTF-8 make.
 *
 * @param {Uint8Array} bytes
 * @param {number} from
 * @param {number} to
 */
function unitsOf(bytes, from, to) {
  let units = 0;
  for (let at = from; at < to; at++) {
    if ((bytes[at] & 0xc0) !== 0x80) units += bytes[at] < 0xf0 ? 1 : 2;
  }
  return units;
}

/**
 * The same row with this room, of which some is moved from one place to another.
 *
 * @template {Uint8Array | Uint16Array} T
 * @param {T} row
 * @param {number} room
 * @returns {T}
 */
function roomier(row, room) {
  const larger = new /** @type {new (room: number) => T} */ (row.constructor)(room);
  larger.set(row);
  return larger;
}

export class Pieces {
  /**
   * The pieces of these sizes in bytes that a text's bytes are, and who wrote each.
   *
   * @param {Uint8Array} bytes
   * @param {Uint8Array} sizes
   * @param {Uint16Array} [users]
   */
  static of(bytes, sizes, users = new Uint16Array(0)) {
    const pieces = new Pieces();
    pieces.text = decoder.decode(bytes);
    pieces.sizes = new Uint8Array(sizes.length + FIRST_ROOM);
    pieces.users = new Uint16Array(sizes.length + FIRST_ROOM);
    pieces.users.set(users);
    pieces.count = sizes.length;
    let at = 0;
    sizes.forEach((size, place) => {
      pieces.sizes[place] = unitsOf(bytes, at, at + size);
      at += size;
    });
    return pieces;
  }

  constructor() {
    this.text = '';
    this.sizes = new Uint8Array(FIRST_ROOM);
    this.users = new Uint16Array(FIRST_ROOM); // who wrote each
    /** @type {Map<number, import('./authors.mjs').Run[]>} by their places, whose the letters of those are that were changed */
    this.authors = new Map();
    this.count = 0;
    this.known = 0; // the place that was asked for last, from which others are found, since they are mostly near
    this.knownStart = 0; // where its piece begins
    /** @type {UserRun[] | null} whose the letters are, if it was asked for since they changed last */
    this.knownRuns = null;
  }

  /**
   * Notes whose the letters of a piece are that somebody changed; null where nobody did.
   *
   * @param {number} place
   * @param {import('./authors.mjs').Run[] | null} runs
   */
  giveAuthors(place, runs) {
    if (runs) this.authors.set(place, runs);
    else this.authors.delete(place);
    this.knownRuns = null;
  }

  /**
   * Where the piece at a place begins. It takes the time of the places between this one and the one that was asked for last.
   *
   * @param {number} place
   */
  startOf(place) {
    let [at, start] = [this.known, this.knownStart];
    while (at > place) start -= this.sizes[--at];
    while (at < place) start += this.sizes[at++];
    [this.known, this.knownStart] = [at, start];
    return start;
  }

  /**
   * The first piece that ends behind a place of the text: its place, and where it begins and ends. At the text's end the place is the count.
   * It takes the time that `startOf` does.
   *
   * @param {number} offset
   */
  behind(offset) {
    let [place, start] = [this.known, this.knownStart];
    while (place > 0 && start > offset) start -= this.sizes[--place];
    while (place < this.count && start + this.sizes[place] <= offset) start += this.sizes[place++];
    [this.known, this.knownStart] = [place, start];
    return { place, start, end: start + (place < this.count ? this.sizes[place] : 0) };
  }

  /**
   * So many pieces from a place are replaced by these, which a user wrote.
   *
   * @param {number} place
   * @param {number} removed
   * @param {string[]} added
   * @param {number} [user]
   */
  splice(place, removed, added, user = 0) {
    const start = this.startOf(place);
    let end = start;
    for (let i = place; i < place + removed; i++) end += this.sizes[i];
    this.text = this.text.slice(0, start) + added.join('') + this.text.slice(end);
    this.knownRuns = null;
    this.move(place, place + removed, place + added.length);
    added.forEach((it, i) => {
      this.sizes[place + i] = it.length;
      this.users[place + i] = user;
    });
  }

  /**
   * What stands from one place on goes to another, and what stood between a first place and both is gone.
   *
   * @param {number} first
   * @param {number} from
   * @param {number} to
   */
  move(first, from, to) {
    const count = this.count + to - from;
    if (count > this.sizes.length) {
      this.sizes = roomier(this.sizes, 2 * count);
      this.users = roomier(this.users, 2 * count);
    }
    this.sizes.copyWithin(to, from, this.count);
    this.users.copyWithin(to, from, this.count);
    this.count = count;
    if (!this.authors.size) return;
    const stay = [...this.authors].filter(([place]) => place < first || place >= from);
    this.authors = new Map(stay.map(([place, runs]) => [place < first ? place : place + to - from, runs]));
  }

  /**
   * The letters of each user, one behind another, as few as can be. The first time behind a change it takes the time of the pieces.
   *
   * @returns {UserRun[]}
   */
  runs() {
    this.knownRuns ??= this.askRuns();
    return this.knownRuns;
  }

  askRuns() {
    const { sizes, users, authors } = this;
    const changed = [...authors.keys()].sort((a, b) => a - b);
    const row = new UserRuns();
    let next = 0;
    for (let place = 0; place < this.count; place++) {
      if (place !== changed[next]) row.add(sizes[place], users[place]);
      else authors.get(changed[next++])?.forEach(({ length, user }) => row.add(length, user));
    }
    return row.runs;
  }
}

// Runs of letters, of which no two beside each other are of one user.
class UserRuns {
  constructor() {
    /** @type {UserRun[]} */
    this.runs = [];
    /** @type {UserRun | null} */
    this.last = null;
    this.end = 0;
  }

  /**
   * @param {number} length
   * @param {number} user
   */
  add(length, user) {
    if (!length) return;
    const start = this.end;
    this.end += length;
    if (this.last?.user === user) this.last.end = this.end;
    else this.runs.push((this.last = { start, end: this.end, user }));
  }
}
