// Where a browser keeps the frames of a site's journal: rows of bytes in a database of their own, in the order in which they came, how
// far the page was with its host by then, and a mark where the site is stale.
import { joined } from './frames.mjs';

/** @typedef {{ from: number, back: number }} Marks how many of the host's messages are here, and how many of this device's requests came back */

const FRAMES = 'frames';
const MARKS = 'marks';
const STALE = 'stale';
const HOST = 'host';
const VERSION = 2; // of the database: the first had no marks
const MOST_ROWS = 64; // of so many one is made

/**
 * @template T
 * @param {IDBRequest<T>} request
 * @returns {Promise<T>}
 */
function result(request) {
  return new Promise((done, failed) => {
    request.onsuccess = () => done(request.result);
    request.onerror = () => failed(request.error);
  });
}

export class Store {
  /**
   * The store of a name. The browser is asked to clear it only when the person does.
   *
   * @param {string} name
   */
  static async open(name) {
    navigator.storage?.persist?.().catch(() => {});
    const request = indexedDB.open(`roastcliff ${name}`, VERSION);
    request.onupgradeneeded = ({ oldVersion }) => {
      if (!oldVersion) request.result.createObjectStore(FRAMES, { autoIncrement: true });
      request.result.createObjectStore(MARKS);
    };
    return new Store(await result(request));
  }

  /** @param {IDBDatabase} database */
  constructor(database) {
    this.database = database;
  }

  // All that was appended. Where there is no room to make one row of many these stay.
  async read() {
    const rows = await result(this.database.transaction(FRAMES).objectStore(FRAMES).getAll());
    const all = joined(rows);
    if (rows.length > MOST_ROWS) await this.change((frames) => [frames.clear(), frames.add(all)]).catch(() => {});
    return all;
  }

  /**
   * Appends frames, with how far the page is with its host by then, if it has one.
   *
   * @param {Uint8Array} bytes
   * @param {Marks | null} [marks]
   */
  append(bytes, marks = null) {
    return this.change((frames, all) => [bytes.length && frames.add(bytes), marks && all.put(marks, HOST)]);
  }

  /** @returns {Promise<Marks>} */
  async marks() {
    return (await result(this.database.transaction(MARKS).objectStore(MARKS).get(HOST))) ?? { from: 0, back: 0 };
  }

  clear() {
    return this.change((frames, marks) => [frames.clear(), marks.clear()]);
  }

  // Marks the site as stale, until all is cleared.
  mark() {
    return this.change((frames, marks) => marks.put(true, STALE));
  }

  async isMarked() {
    return Boolean(await result(this.database.transaction(MARKS).objectStore(MARKS).get(STALE)));
  }

  /**
   * Changes rows and marks all at once; it is done when they are on the disk.
   *
   * @param {(frames: IDBObjectStore, marks: IDBObjectStore) => unknown} action
   */
  change(action) {
    const transaction = this.database.transaction([FRAMES, MARKS], 'readwrite', { durability: 'strict' });
    return new Promise((done, failed) => {
      transaction.oncomplete = () => done(undefined);
      transaction.onabort = () => failed(transaction.error ?? new Error('the browser gave it up'));
      action(transaction.objectStore(FRAMES), transaction.objectStore(MARKS));
      transaction.commit();
    });
  }
}
