import assert from 'node:assert/strict';
import test from 'node:test';
import { Line } from './line.mjs';
import { NotDone } from './orders.mjs';
import { switchboard, timed } from './testing_links.mjs';

const WELCOME = `welcome 1 ${'0'.repeat(32)} 3 2 writer 7`;

function lined(more = {}) {
  const { wires, dial } = switchboard();
  const heard = [];
  const line = new Line('ws://localhost/link', {
    hello: () => 'hello',
    welcomed: (it) => heard.push(it.saved),
    heard: (it) => heard.push(it.kind),
    came: (bytes) => heard.push([...bytes]),
    lost: (it) => heard.push(it.then),
    dial,
    ...more,
  });
  return { line, wires, heard };
}

test('what goes and what comes', async () => {
  const { line, wires, heard } = lined();
  const [wire] = wires;
  wire.open();
  assert.deepEqual(wire.sent, ['hello']);
  assert.equal(line.say('early'), false);
  wire.bring(WELCOME);
  wire.bring('here 3');
  wire.bring([1, 2, 3]);
  wire.bring('what is this');
  assert.deepEqual(heard, [7, 'here', [1, 2, 3], 'unknown']);
  const asked = line.orders.ask('keys');
  assert.equal(wire.sent.at(-1), 'order 0\nkeys');
  wire.bring('answer 0\nkeys');
  assert.deepEqual(await asked, ['keys']);
  line.close();
});

test('a line that is cut', async () => {
  await timed(async (pass) => {
    const { line, wires, heard } = lined();
    for (const wait of [0.5, 1, 2, 4, 8, 15, 15]) {
      const { length } = wires;
      wires.at(-1).cut();
      pass(wait * 1000 - 1);
      assert.equal(wires.length, length);
      pass(1);
      assert.equal(wires.length, length + 1, `dialled again after ${wait} s`);
    }
    wires.at(-1).open();
    wires.at(-1).bring(WELCOME);
    const asked = line.orders.ask('keys');
    wires.at(-1).cut(1001);
    assert.equal(line.words, 'The server was stopped. Go on writing: the page connects again when it is back.');
    const { length } = wires;
    pass(500);
    assert.equal(wires.length, length + 1);
    wires.at(-1).cut(4019); // at once
    pass(0);
    assert.equal(wires.length, length + 2);
    wires.at(-1).open();
    wires.at(-1).bring(WELCOME);
    assert.equal(line.words, '');
    wires.at(-1).cut(4015); // no more
    pass(60000);
    assert.equal(wires.length, length + 2);
    assert.ok(line.isOver);
    assert.match(line.words, /^An owner closed this device/);
    assert.deepEqual(heard.slice(-3), ['now', 7, 'end']);
    await assert.rejects(asked, NotDone);
  });
});

// Where the document isn't at its place any more nothing is dialled until somebody looked for it.
test('a document that is elsewhere', async () => {
  await timed((pass) => {
    const { line, wires, heard } = lined();
    wires[0].open();
    wires[0].bring(WELCOME);
    wires[0].cut(4014);
    pass(60000);
    assert.deepEqual([wires.length, heard.at(-1)], [1, 'seek']);
    line.resume();
    line.resume();
    pass(500);
    assert.equal(wires.length, 2);
    line.close();
  });
});

// Where another page of the device is linked in its place a line ends, or takes its turn again.
test('another page of the device', async () => {
  await timed((pass) => {
    for (const [takesTurns, count] of [[false, 1], [true, 2]]) {
      const { line, wires } = lined({ takesTurns });
      wires[0].open();
      wires[0].bring(WELCOME);
      wires[0].cut(4016);
      pass(1900);
      assert.equal(wires.length, 1);
      pass(200);
      assert.deepEqual([wires.length, line.isOver], [count, !takesTurns]);
      line.close();
    }
  });
});

// What comes of a line that was let go is nobody's.
test('a line that is closed', async () => {
  await timed((pass) => {
    const { line, wires, heard } = lined();
    wires[0].open();
    line.close();
    wires[0].bring(WELCOME);
    wires[0].cut();
    pass(60000);
    assert.deepEqual([wires.length, heard, wires[0].closed], [1, [], 1000]);
  });
});
