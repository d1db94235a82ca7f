// What the tests of the page's modules share. They want web/editor.wasm.
import assert from 'node:assert/strict';
import { readFileSync } from 'node:fs';
import { Copy } from './copy.mjs';
import { split } from './frames.mjs';
import { Keeper } from './keeper.mjs';
import { Module } from './peer.mjs';
import { Pieces } from './pieces.mjs';
import { Writer } from './writer.mjs';

export const bytes = readFileSync(new URL('editor.wasm', import.meta.url));
export const module = await Module.load(bytes);
export const RULES = ['admin adduser 1', 'admin addauth 0 + 1 idu 0'];

// What a browser's store does, in memory.
export class Rows {
  bytes = Buffer.alloc(0);
  isStale = false;

  async append(row) {
    this.bytes = Buffer.concat([this.bytes, row]);
  }

  async mark() {
    this.isStale = true;
  }
}

// A person's copy with a writer and a store, and what was said of it.
export class Side {
  constructor(site, frames) {
    this.copy = new Copy(module, site, frames);
    this.store = new Rows();
    this.refusals = []; // the answers to edits that weren't made
    this.replaced = []; // words that gave way to somebody else's
    this.sent = 0; // so many items of the journal were given to others
    this.news = () => {};
    this.keeper = new Keeper(this.copy, this.store, { kept: () => this.news(), failed: assert.fail });
    this.writer = new Writer(this.copy, {
      refused: (answer) => this.refusals.push(answer),
      replaced: ({ text }) => this.replaced.push(text),
      changed: () => this.keeper.keep(),
    });
  }

  // The text as it shows.
  get text() {
    return this.writer.view().text;
  }

  // Writes a text in place of what stands from one place to another.
  type(start, end, text) {
    this.writer.write(start, end, text);
  }
}

// All frames from a place of a journal on.
export function framesOf({ copy: { journal } }, from = 0) {
  return [...split(journal.slice(from, journal.count))];
}

// Gives each what the others have that wasn't given yet.
export function exchange(...sides) {
  const news = sides.map((side) => framesOf(side, side.sent));
  sides.forEach((side, i) => {
    news.forEach((frames, j) => i !== j && frames.forEach((it) => side.copy.receive(it)));
    assert.equal(side.copy.pieces.text, Buffer.from(side.copy.peer.text()).toString());
  });
  for (const side of sides) side.sent = side.copy.journal.count;
}

export function administratorAndUser(text = '') {
  const [administrator, user] = [new Side(0), new Side(1)];
  RULES.forEach((it) => administrator.copy.step(it));
  if (text) administrator.type(0, 0, text);
  exchange(administrator, user);
  return [administrator, user];
}

// The module with at most so many pages of memory: section 5 has a flag, 4 without and 5 with a last number, and the numbers.
export function limited(bytes, most) {
  const number = (at) => {
    let value = 0;
    for (let shift = 0; ; shift += 7) {
      value |= (bytes[at] & 0x7f) << shift;
      if (bytes[at++] < 0x80) return [value, at];
    }
  };
  for (let at = 8; at < bytes.length; ) {
    const [size, body] = number(at + 1);
    if (bytes[at] === 5) {
      const least = bytes.subarray(body + 2, body + size);
      return Buffer.concat([bytes.subarray(0, at), Buffer.of(5, size + 1, 1, 5), least, Buffer.of(most), bytes.subarray(body + size)]);
    }
    at = body + size;
  }
  throw new Error('the module has no memory');
}

export function piecesOf(...texts) {
  const bytes = texts.map((it) => Buffer.from(it));
  return Pieces.of(Buffer.concat(bytes), Uint8Array.from(bytes, (it) => it.length));
}
