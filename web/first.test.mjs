import assert from 'node:assert/strict';
import test from 'node:test';
import { askDocument, wholeDocument } from './first.mjs';
import { switchboard } from './testing_links.mjs';

const IDENTITY = 'ab'.repeat(16);
const DEVICE = { site: 3, secret: 'cd' };
// The frames of `entry 1 adduser 3`, and of deletes of users 3 and 4, as far as it is looked at.
const ENTRY = [0, 0, 0, 8, 1, 4, 0, 0, 0, 0, 0, 0];
const request = (user) => [0, 0, 0, 20, 1, 2, 0, 0, 0, 0, 0, 1, 0, user, 0, 1, 0, 0, 0, 0, 0, 1, 0, 1];

test('all of a document', async () => {
  const { wires, dial } = switchboard();
  const told = [];
  const all = wholeDocument('ws://localhost/d/notes/link', DEVICE, (...it) => told.push(it), dial);
  wires[0].open();
  assert.deepEqual(wires[0].sent, ['hello 1 - 3 cd 0']);
  wires[0].bring(`welcome 1 ${IDENTITY} 3 2 writer 3`);
  wires[0].bring('people');
  wires[0].bring([...ENTRY, ...request(3)]);
  wires[0].bring(request(4));
  const { identity, bytes, count, own } = await all;
  assert.deepEqual([identity, count, own, bytes.length], [IDENTITY, 3, 1, 60]);
  assert.deepEqual(told.at(-1), [3, 3]);
});

test('an empty document, and none', async () => {
  const { wires, dial } = switchboard();
  const empty = wholeDocument('ws://localhost/d/notes/link', DEVICE, () => {}, dial);
  wires[0].open();
  wires[0].bring(`welcome 1 ${IDENTITY} 3 2 writer 0`);
  assert.equal((await empty).count, 0);
  for (const [code, words] of [[1006, /cannot be reached/], [4001, /does not know this device/]]) {
    const none = wholeDocument('ws://localhost/d/notes/link', DEVICE, () => {}, dial);
    wires.at(-1).cut(code);
    await assert.rejects(none, words);
  }
});

test('how a document is listed', async () => {
  const { wires, dial } = switchboard();
  const line = { name: 'plan', identity: IDENTITY, state: 'damaged' };
  const rows = [[`documents\ndocument plan ${IDENTITY} damaged`, line], ['documents', undefined], [null, null]];
  for (const [text, wanted] of rows) {
    const asked = askDocument('ws://localhost/link', DEVICE, ({ identity }) => identity === IDENTITY, dial);
    wires.at(-1).open();
    if (text) wires.at(-1).bring(text);
    else wires.at(-1).cut();
    assert.deepEqual(await asked, wanted);
  }
});
