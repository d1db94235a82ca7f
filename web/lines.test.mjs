import assert from 'node:assert/strict';
import test from 'node:test';
import { spelled, unspelled } from './lines.mjs';

test('spelling', () => {
  assert.equal(spelled('a\\ b\nc'), 'a\\\\\\sb\\nc');
  for (const piece of ['\\s', ' \\', '\\n\n', 'é𝟝\\\\n']) assert.equal(unspelled(spelled(piece)), piece);
});
