import assert from 'node:assert/strict';
import { readFileSync } from 'node:fs';
import test from 'node:test';
import { COLOURS, colourOfPerson } from './colours.mjs';

const style = readFileSync(new URL('style.css', import.meta.url), 'utf8');

// So many people look otherwise than each other, in the text and at the side.
test('people are told apart', () => {
  const names = Array.from({ length: COLOURS }, (_, i) => colourOfPerson(i + 1));
  assert.equal(new Set(names).size, COLOURS);
  const looks = names.map((it) => new RegExp(`::highlight\\(${it}\\) \\{(.*)\\}`).exec(style)?.[1]);
  assert.ok(looks.every(Boolean));
  assert.equal(new Set(looks).size, COLOURS);
});
