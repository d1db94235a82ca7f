import assert from 'node:assert/strict';
import test from 'node:test';
import { closings } from './leaving.mjs';

test('what is closed of who leaves', () => {
  const lines = ['invitation 1 1 open', 'invitation 2 7 closed', 'device 3 7 open', 'device 4 1 open', 'invitation 5 7 open', 'device 6 7 closed', 'device 8 7 open'];
  assert.deepEqual(closings(lines, 7), ['close invitation 5', 'close device 3', 'close device 8']);
  assert.deepEqual(closings(lines, 9), []);
});
