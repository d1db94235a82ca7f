// Frames of messages, one behind another, as docs/FORMATS.md has them.
import { DELETE_KIND, ENTRY_KIND, LENGTH_BYTES, UPDATE_KIND } from './limits.mjs';

// Behind the length, which counts the bytes behind it, and the version of the frame.
const KIND_AT = LENGTH_BYTES + 1;
const NAME_AT = KIND_AT + 1;
const STAMP_BYTES = 6;
const TARGET_AT = NAME_AT + 10; // behind the name and the version
const FIRST_ROOM = 4096;
const FIRST_COUNT = 64;

/**
 * @param {Uint8Array} bytes
 * @param {number} at
 */
function lengthAt(bytes, at) {
  return LENGTH_BYTES + new DataView(bytes.buffer, bytes.byteOffset + at).getUint32(0);
}

/**
 * The frames that bytes are, as views; what stands behind the last whole one is the last view.
 *
 * @param {Uint8Array} bytes
 */
export function* split(bytes) {
  for (let at = 0; at < bytes.length; ) {
    const end = bytes.length - at < LENGTH_BYTES ? bytes.length : Math.min(bytes.length, at + lengthAt(bytes, at));
    yield bytes.subarray(at, end);
    at = end;
  }
}

/** @param {Uint8Array} frame */
export function isEntry(frame) {
  return frame[KIND_AT] === ENTRY_KIND;
}

/**
 * A name that stands in a frame: its stamp, its user, who is the site, and as lines spell it.
 *
 * @param {Uint8Array} frame
 * @param {number} at
 */
function nameAt(frame, at) {
  const view = new DataView(frame.buffer, frame.byteOffset + at);
  const stamp = view.getUint16(0) * 2 ** 32 + view.getUint32(2);
  const user = view.getUint16(STAMP_BYTES);
  return { stamp, user, name: `${stamp}.${user}` };
}

/**
 * The name of the request of a frame.
 *
 * @param {Uint8Array} frame
 */
export function requestOf(frame) {
  return nameAt(frame, NAME_AT);
}

/**
 * The user of the request of a frame.
 *
 * @param {Uint8Array} frame
 */
export function userOf(frame) {
  return (frame[NAME_AT + STAMP_BYTES] << 8) | frame[NAME_AT + STAMP_BYTES + 1];
}

/**
 * The name of the element that the request of a frame deletes; null where it deletes none.
 *
 * @param {Uint8Array} frame
 */
export function deletedBy(frame) {
  return frame[KIND_AT] === DELETE_KIND ? nameAt(frame, TARGET_AT).name : null;
}

/**
 * The name of the element that the request of a frame changes; null where it changes none.
 *
 * @param {Uint8Array} frame
 */
export function changedBy(frame) {
  return frame[KIND_AT] === UPDATE_KIND ? nameAt(frame, TARGET_AT).name : null;
}

/**
 * Rows of bytes as one.
 *
 * @param {Uint8Array[]} rows
 */
export function joined(rows) {
  const all = new Uint8Array(rows.reduce((size, it) => size + it.length, 0));
  let at = 0;
  for (const row of rows) {
    all.set(row, at);
    at += row.length;
  }
  return all;
}

/**
 * A copy of these bytes with more room behind them.
 *
 * @template {Uint8Array | Uint32Array} T
 * @param {T} old
 * @param {number} room
 * @returns {T}
 */
function roomier(old, room) {
  const larger = new /** @type {new (room: number) => T} */ (old.constructor)(room);
  larger.set(old);
  return larger;
}

// The frames of a journal's items, in one row of bytes.
export class Frames {
  constructor() {
    this.bytes = new Uint8Array(FIRST_ROOM);
    this.ends = new Uint32Array(FIRST_COUNT);
    this.count = 0;
  }

  get size() {
    return this.startOf(this.count);
  }

  /** @param {number} place */
  startOf(place) {
    return place ? this.ends[place - 1] : 0;
  }

  /** @param {Uint8Array} frame */
  append(frame) {
    const end = this.size + frame.length;
    if (end > this.bytes.length) this.bytes = roomier(this.bytes, 2 * this.bytes.length);
    if (this.count === this.ends.length) this.ends = roomier(this.ends, 2 * this.ends.length);
    this.bytes.set(frame, end - frame.length);
    this.ends[this.count++] = end;
  }

  /** @param {number} place */
  at(place) {
    return this.slice(place, place + 1);
  }

  /**
   * The frame at a place, for at once.
   *
   * @param {number} place
   */
  view(place) {
    return this.bytes.subarray(this.startOf(place), this.ends[place]);
  }

  /**
   * The bytes of the frames at these places.
   *
   * @param {Iterable<number>} places
   */
  choose(places) {
    const chosen = new Frames();
    for (const it of places) chosen.append(this.view(it));
    return chosen.slice(0, chosen.count);
  }

  /**
   * The bytes of the frames from one place to another.
   *
   * @param {number} from
   * @param {number} to
   */
  slice(from, to) {
    return this.bytes.slice(this.startOf(from), this.startOf(to));
  }
}
