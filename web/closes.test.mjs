import assert from 'node:assert/strict';
import { readFileSync } from 'node:fs';
import test from 'node:test';
import { closeOf } from './closes.mjs';

// The crate that closes links has all codes.
const codes = [...readFileSync(new URL('../crates/host_link/src/ending.rt', import.meta.url), 'utf8').matchAll(/\((\d+), "/g)].map((it) => Number(it[1]));

test('each code of the host has words', () => {
  assert.equal(codes.length, 26);
  for (const code of codes) assert.match(closeOf(code).words, /^[A-Z].*\.$/, String(code));
  assert.equal(new Set(codes.map((it) => closeOf(it).words)).size, codes.length);
});

// As the protocol has it, these aren't mended by linking again.
test('what is dialled again', () => {
  for (const code of [4000, 4001, 4002, 4003, 4004, 4005, 4006, 4015]) assert.equal(closeOf(code).then, 'end');
  assert.equal(closeOf(4019).then, 'now');
  assert.equal(closeOf(4024).then, 'renewed');
  for (const code of [1001, 1006, 4007, 4008, 4009]) assert.equal(closeOf(code).then, 'again');
  assert.equal(closeOf(1006).words, '');
});
