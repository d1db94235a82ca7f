// A module whose memory has 64 bits, as one whose memory has 32, for browsers that know no other. An address keeps its 64 bits everywhere but where
// the memory is used: there its lower half goes. That is the same place, since no memory of 32 bits has one whose upper half is more than zero.
// What the functions take and give stays as it is.

// The least module whose memory has 64 bits.
const LEAST_WIDE = Uint8Array.of(0, 97, 115, 109, 1, 0, 0, 0, 5, 3, 1, 4, 1);

const HEAD = 8; // bytes in front of the sections
const SECTION = { type: 1, function: 3, memory: 5, code: 10, data: 11 };
const OTHER_SECTIONS = [0, 6, 7, 12]; // custom, global, export, count of data: they say nothing of how wide the memory is
const WIDE = 4; // of a memory's limits
const MOST_PAGES = 65536;
const END = 0x0b;
const [I32, I64, F32, F64] = [0x7f, 0x7e, 0x7d, 0x7c];
const WRAP = 0xa7; // i32.wrap_i64
const [EXTEND_SIGNED, EXTEND] = [0xac, 0xad];
const [GET, SET] = [0x20, 0x21];
const [I32_CONST, I64_CONST] = [0x41, 0x42];
const [MEMORY_SIZE, MEMORY_GROW] = [0x3f, 0x40];
const [COPY, FILL] = [10, 11]; // behind the sign of many instructions
const MANY = 0xfc;

// What a function keeps for a moment where an address stands below other operands.
const KEPT = [[1, I32], [2, I64], [1, F32], [1, F64]];
const KEPT_AT = { [I32]: 0, [I64]: 1, [F32]: 3, [F64]: 4 };
const SECOND = 2;

// Whether a memory of 64 bits is known here.
export const knowsWide = () => WebAssembly.validate(LEAST_WIDE);

/** The module has something that this doesn't know. */
export class NotNarrowed extends Error {}

class Reader {
  /**
   * @param {Uint8Array} bytes
   * @param {number} at
   * @param {number} end
   */
  constructor(bytes, at = 0, end = bytes.length) {
    this.bytes = bytes;
    this.at = at;
    this.end = end;
  }

  get isDone() {
    return this.at >= this.end;
  }

  byte() {
    return this.bytes[this.at++];
  }

  // A number of few bits, of which each byte has seven.
  number() {
    let [sum, scale] = [0, 1];
    for (;;) {
      const byte = this.byte();
      sum += (byte & 127) * scale;
      if (byte < 128) return sum;
      scale *= 128;
    }
  }

  /** @param {number} count */
  skipNumbers(count) {
    for (let i = 0; i < count; i++) this.number();
  }

  /**
   * A reader of the next bytes, which are gone over.
   *
   * @param {number} size
   */
  part(size) {
    this.at += size;
    return new Reader(this.bytes, this.at - size, this.at);
  }
}

class Writer {
  constructor(room = 1024) {
    this.room = new Uint8Array(room);
    this.size = 0;
  }

  get bytes() {
    return this.room.subarray(0, this.size);
  }

  /** @param {ArrayLike<number>} bytes */
  put(bytes) {
    if (this.size + bytes.length > this.room.length) {
      const larger = new Uint8Array(2 * (this.size + bytes.length));
      larger.set(this.bytes);
      this.room = larger;
    }
    this.room.set(bytes, this.size);
    this.size += bytes.length;
  }

  /** @param {number} number */
  number(number) {
    const bytes = [];
    for (let rest = number; ; rest = Math.floor(rest / 128)) {
      if (rest < 128) return this.put([...bytes, rest]);
      bytes.push((rest % 128) | 128);
    }
  }

  /** @param {number} number that isn't below zero, written with its sign */
  signed(number) {
    this.number(number);
    if (!(this.room[this.size - 1] & 64)) return;
    this.room[this.size - 1] |= 128;
    this.put([0]);
  }

  /** @param {Writer} written its size, and itself */
  sized(written) {
    this.number(written.size);
    this.put(written.bytes);
  }
}

/** @param {number} place that has to be one in a memory of 32 bits */
function short(place) {
  if (place >= 2 ** 32) throw new NotNarrowed('a place beyond a memory of 32 bits');
  return place;
}

/**
 * Goes over what stands behind an instruction's sign, where that takes no address.
 *
 * @param {Reader} from
 * @param {number} sign
 */
function skipRest(from, sign) {
  if (sign >= 0x02 && sign <= 0x04) from.number(); // a block's type
  else if ((sign >= 0x0c && sign <= 0x0d) || sign === 0x10 || (sign >= GET && sign <= 0x24)) from.number();
  else if (sign === 0x0e) from.skipNumbers(from.number() + 1); // a branch by a table
  else if (sign === I32_CONST || sign === I64_CONST) from.number();
  else if (sign === 0x43) from.at += 4;
  else if (sign === 0x44) from.at += 8;
  else if (!(sign <= 0x01 || sign === 0x05 || sign === END || sign === 0x0f || sign === 0x1a || sign === 0x1b || (sign >= 0x45 && sign <= 0xc4))) {
    throw new NotNarrowed(`an instruction of sign ${sign}`);
  }
}

/** @param {number} sign of a store: what it puts */
function storedType(sign) {
  if (sign === 0x38) return F32;
  if (sign === 0x39) return F64;
  return sign === 0x36 || sign === 0x3a || sign === 0x3b ? I32 : I64;
}

// A function, which is gone over once.
class Body {
  /**
   * @param {Reader} from
   * @param {number} parameters
   */
  constructor(from, parameters) {
    this.from = from;
    this.to = new Writer(2 * (from.end - from.at) + 64);
    this.copied = from.at; // so far it is written
    this.kept = this.locals(parameters); // the number of the first local that is kept for a moment
  }

  /** @param {number} parameters */
  locals(parameters) {
    const { from, to } = this;
    const groups = from.number();
    const begin = from.at;
    let count = parameters;
    for (let i = 0; i < groups; i++) {
      count += from.number();
      from.byte();
    }
    to.number(groups + KEPT.length);
    to.put(from.bytes.subarray(begin, from.at));
    for (const [many, type] of KEPT) to.put([many, type]);
    this.copied = from.at;
    return count;
  }

  /**
   * Writes what was read up to a place and isn't written yet.
   *
   * @param {number} to
   */
  copy(to) {
    this.to.put(this.from.bytes.subarray(this.copied, to));
    this.copied = to;
  }

  /**
   * @param {number} sign GET or SET
   * @param {number} which of those that are kept for a moment
   */
  local(sign, which) {
    this.to.put([sign]);
    this.to.number(this.kept + which);
  }

  narrow() {
    const { from } = this;
    while (!from.isDone) this.instruction(from.at, from.byte());
    if (from.at !== from.end) throw new NotNarrowed('a function with another end');
    this.copy(from.at);
    return this.to;
  }

  /**
   * @param {number} at
   * @param {number} sign
   */
  instruction(at, sign) {
    const { from } = this;
    if (sign >= 0x28 && sign <= 0x35) this.load(at, sign);
    else if (sign >= 0x36 && sign <= 0x3e) this.store(at, sign);
    else if (sign === MEMORY_SIZE || sign === MEMORY_GROW) this.size(at, sign);
    else if (sign === MANY) this.one(at, from.number());
    else skipRest(from, sign);
  }

  /**
   * @param {number} at
   * @param {number} sign
   */
  load(at, sign) {
    this.copy(at);
    this.to.put([WRAP]);
    this.access(sign);
  }

  /**
   * @param {number} at
   * @param {number} sign
   */
  store(at, sign) {
    const kept = KEPT_AT[storedType(sign)];
    this.copy(at);
    this.local(SET, kept);
    this.to.put([WRAP]);
    this.local(GET, kept);
    this.access(sign);
  }

  /**
   * A load or a store with how it is aligned and how far behind its address it is. A number of 32 bits has five bytes at most, and one of 64 may
   * have ten for as much.
   *
   * @param {number} sign
   */
  access(sign) {
    const { from, to } = this;
    to.put([sign]);
    to.number(from.number());
    to.number(short(from.number()));
    this.copied = from.at;
  }

  /**
   * How large the memory is, or that it grows: -1 says that it didn't, and is -1 in 64 bits too.
   *
   * @param {number} at
   * @param {number} sign
   */
  size(at, sign) {
    this.copy(at);
    if (sign === MEMORY_GROW) this.to.put([WRAP]);
    this.from.number();
    this.copy(this.from.at);
    this.to.put([sign === MEMORY_GROW ? EXTEND_SIGNED : EXTEND]);
  }

  /**
   * One of many instructions behind one sign: bytes are copied or filled, or a number is cut.
   *
   * @param {number} at
   * @param {number} which
   */
  one(at, which) {
    if (which < 8) return;
    if (which !== COPY && which !== FILL) throw new NotNarrowed(`an instruction of sign ${MANY} ${which}`);
    this.copy(at);
    const below = which === COPY ? KEPT_AT[I64] : KEPT_AT[I32]; // where bytes come from, or what they are
    this.local(SET, SECOND);
    this.local(SET, below);
    this.to.put([WRAP]);
    this.local(GET, below);
    if (which === COPY) this.to.put([WRAP]);
    this.local(GET, SECOND);
    this.to.put([WRAP]);
    this.from.skipNumbers(which === COPY ? 2 : 1);
  }
}

/**
 * How many parameters the functions have, in their order.
 *
 * @param {Reader} types
 * @param {Reader} functions
 */
function parametersOf(types, functions) {
  const counts = Array.from({ length: types.number() }, () => {
    types.byte();
    const count = types.number();
    types.part(count);
    types.part(types.number());
    return count;
  });
  return Array.from({ length: functions.number() }, () => counts[functions.number()]);
}

/** @param {Reader} from */
function memory(from) {
  const to = new Writer();
  const [count, limits, least] = [from.number(), from.byte(), from.number()];
  if (count !== 1 || !(limits & WIDE)) throw new NotNarrowed('another memory');
  to.put([count, limits & ~WIDE]);
  to.number(least);
  if (limits & 1) to.number(Math.min(from.number(), MOST_PAGES));
  return to;
}

/**
 * @param {Reader} from
 * @param {number[]} parameters
 */
function code(from, parameters) {
  const to = new Writer(2 * (from.end - from.at));
  const count = from.number();
  to.number(count);
  for (let i = 0; i < count; i++) to.sized(new Body(from.part(from.number()), parameters[i]).narrow());
  return to;
}

/**
 * Where data stand at the beginning is a number of 64 bits, and of 32 now.
 *
 * @param {Reader} from
 */
function data(from) {
  const to = new Writer(from.end - from.at + 64);
  const count = from.number();
  to.number(count);
  for (let i = 0; i < count; i++) {
    const [kind, sign] = [from.byte(), from.byte()];
    const place = from.number();
    if (kind !== 0 || sign !== I64_CONST || place >= 2 ** 31 || from.byte() !== END) throw new NotNarrowed('data at another place');
    to.put([kind, I32_CONST]);
    to.signed(place);
    to.put([END]);
    const size = from.number();
    to.number(size);
    to.put(from.bytes.subarray(from.at, from.at + size));
    from.at += size;
  }
  return to;
}

/**
 * The same module with a memory of 32 bits. Takes the time of reading it once.
 *
 * @param {Uint8Array} bytes
 * @returns {Uint8Array}
 */
export function narrowed(bytes) {
  const to = new Writer(2 * bytes.length);
  to.put(bytes.subarray(0, HEAD));
  /** @type {Map<number, Reader>} */
  const known = new Map();
  for (const from = new Reader(bytes, HEAD); !from.isDone; ) {
    const id = from.byte();
    const section = from.part(from.number());
    known.set(id, new Reader(bytes, section.at, section.end));
    to.put([id]);
    to.sized(sectionOf(id, section, known));
  }
  return to.bytes;
}

/**
 * @param {number} id
 * @param {Reader} section
 * @param {Map<number, Reader>} known those in front of it, and itself
 */
function sectionOf(id, section, known) {
  if (id === SECTION.memory) return memory(section);
  if (id === SECTION.data) return data(section);
  const [types, functions] = [known.get(SECTION.type), known.get(SECTION.function)];
  if (id === SECTION.code && types && functions) return code(section, parametersOf(types, functions));
  if (id !== SECTION.type && id !== SECTION.function && !OTHER_SECTIONS.includes(id)) throw new NotNarrowed(`a section ${id}`);
  const same = new Writer(section.end - section.at);
  same.put(section.bytes.subarray(section.at, section.end));
  return same;
}
