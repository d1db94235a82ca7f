import assert from 'node:assert/strict';
import test from 'node:test';
import { wired } from './testing.mjs';

test('addresses', () => {
  const { link, wires, said } = wired();
  const rows = [
    ['', /^Type the address/],
    [' ', /^Type the address/],
    ['7000', /^This is no address of a link/],
    ['http://127.0.0.1:7000/', /^This is no address of a link/],
    ['ws://127.0.0.1:70000/', /^This is no address of a link/],
    ['ws://example.org/', /with encryption alone/],
    ['ws://[::1]:7000/', /with encryption alone/],
  ];
  for (const [address, pattern] of rows) {
    link.open(address);
    assert.match(said.at(-1), pattern, address);
  }
  assert.equal(wires.length, 0);
  for (const it of ['ws://127.0.0.1:7000/', 'ws://localhost:1/a', 'wss://example.org/']) link.open(it);
  assert.equal(wires.length, 3);
  link.close();
});
