import assert from 'node:assert/strict';
import test from 'node:test';
import { narrowed, NotNarrowed } from './narrow.mjs';
import { Module, Peer } from './peer.mjs';
import { bytes } from './testing.mjs';

const HEAD = [0, 97, 115, 109, 1, 0, 0, 0];
const MEMORY = [5, 3, 1, 4, 1];

// A module of one function of a type, with this body, which it gives out as `f`.
function moduleOf(type, body) {
  const section = (id, content) => [id, content.length, ...content];
  const code = [0, ...body, 0x0b];
  return Uint8Array.of(...HEAD, ...section(1, [1, 0x60, ...type]), ...section(3, [1, 0]), ...MEMORY, ...section(7, [1, 1, 102, 0, 0]), ...section(10, [1, code.length, ...code]));
}

const made = async (type, body) => (await WebAssembly.instantiate(narrowed(moduleOf(type, body)))).instance.exports.f;

// Of an address the lower half counts, and what functions take and give has 64 bits as before.
test('what uses the memory', async () => {
  const stored = await made([2, 0x7e, 0x7e, 1, 0x7e], [0x20, 0, 0x20, 1, 0x37, 3, 8, 0x20, 0, 0x29, 3, 8]);
  assert.equal(stored(16n, -5n), -5n);
  assert.equal(stored(16n, 1n << 40n), 1n << 40n);
  assert.throws(() => stored(65536n, 1n), WebAssembly.RuntimeError);
  const bytes = await made([2, 0x7e, 0x7f, 1, 0x7f], [0x20, 0, 0x20, 1, 0x3a, 0, 0, 0x20, 0, 0x2d, 0, 0]);
  assert.equal(bytes(7n, 0x1ff), 0xff);
  const grown = await made([1, 0x7e, 1, 0x7e], [0x20, 0, 0x40, 0, 0x1a, 0x3f, 0]);
  assert.equal(grown(2n), 3n);
  const refused = await made([1, 0x7e, 1, 0x7e], [0x20, 0, 0x40, 0]);
  assert.deepEqual([refused(1n), refused(65536n)], [1n, -1n]);
});

test('bytes that are filled and copied', async () => {
  // Fills some bytes from the first parameter on with 7, copies as many to the second, and gives one of these.
  const copied = await made([3, 0x7e, 0x7e, 0x7e, 1, 0x7f], [0x20, 0, 0x41, 7, 0x20, 2, 0xfc, 11, 0, 0x20, 1, 0x20, 0, 0x20, 2, 0xfc, 10, 0, 0, 0x20, 1, 0x20, 2, 0x7c, 0x42, 1, 0x7d, 0x2d, 0, 0]);
  assert.equal(copied(100n, 300n, 50n), 7);
});

test('what is no such module', () => {
  assert.throws(() => narrowed(Uint8Array.of(...HEAD, 5, 3, 1, 0, 1)), NotNarrowed);
  assert.throws(() => narrowed(Uint8Array.of(...HEAD, 4, 4, 1, 0x70, 0, 1)), NotNarrowed); // a table
  assert.throws(() => narrowed(moduleOf([0, 0], [0xfe, 3, 0])), NotNarrowed);
});

test('a peer of the page’s module', async () => {
  const told = async (/** @type {boolean} */ isWide) => {
    const peer = new Peer(await Module.load(bytes, isWide), 0);
    const steps = ['admin adduser 1', 'edit insert 0 Tea\\sand\\smilk', 'edit insert 1 !', 'edit update 0 Coffee', 'edit delete 1', 'admin addauth 0 + 1 idu 0', 'look 2'];
    const answers = steps.map((it) => peer.step(it)).map(({ code, answer, frame }) => [code, answer, [...frame]]);
    return [...answers, [...peer.text()]];
  };
  assert.deepEqual(await told(false), await told(true));
});
