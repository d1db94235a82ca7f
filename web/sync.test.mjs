import assert from 'node:assert/strict';
import test from 'node:test';
import { split } from './frames.mjs';
import { Sync } from './sync.mjs';
import { administratorAndUser, framesOf } from './testing.mjs';
import { switchboard, timed } from './testing_links.mjs';

const IDENTITY = 'ab'.repeat(16);
const welcome = (saved, role = 'writer') => `welcome 1 ${IDENTITY} 1 1 ${role} ${saved}`;

// A user's side with a line, and the host's journal.
function linked(marks = { from: 0, back: 0 }) {
  const [administrator, user] = administratorAndUser('Tea.');
  const { wires, dial } = switchboard();
  const came = [];
  const heard = [];
  user.copy.kept = user.copy.journal.count;
  const sync = new Sync(user.copy, 'ws://localhost/link', { identity: IDENTITY, device: { site: 1, secret: 'cd' }, marks }, {
    run: (it) => it(),
    told: () => {},
    heard: (it) => heard.push(it),
    cameBack: (it) => came.push(it),
    dial,
  });
  return { administrator, user, wires, sync, came, heard };
}

// A text that is written and kept.
function write({ user: { copy } }, ...pieces) {
  for (const it of pieces) copy.insert(copy.pieces.count, it);
  copy.kept = copy.journal.count;
}

const sentIn = (message) => [...split(message)].length;

test('what comes and what goes', async () => {
  await timed((pass) => {
    const side = linked({ from: 3, back: 0 });
    const { administrator, user, wires, sync, came } = side;
    wires[0].open();
    assert.deepEqual(wires[0].sent, [`hello 1 ${IDENTITY} 1 cd 3`]);
    write(side, ' Milk', '?');
    assert.equal(sync.unsaved, 2);
    wires[0].bring(welcome(4));
    assert.equal(sentIn(wires[0].sent[1]), 2); // both in one message
    assert.ok(!sync.isCaughtUp);
    administrator.copy.insert(0, 'Hot ');
    const news = framesOf(administrator).at(-1);
    const own = framesOf(user).slice(-2);
    wires[0].bring(Buffer.concat([news, own[0]])); // several frames in one message
    assert.equal(user.copy.pieces.text, 'Hot Tea. Milk?');
    assert.deepEqual([sync.marks, sync.unsaved, sync.isCaughtUp], [{ from: 5, back: 1 }, 1, true]);
    assert.equal(came.length, 1);
    wires[0].cut();
    pass(500);
    wires[1].open();
    assert.equal(wires[1].sent[0], `hello 1 ${IDENTITY} 1 cd 5`);
    wires[1].bring(welcome(5));
    assert.equal(sentIn(wires[1].sent[1]), 1); // what didn't come back, again
    wires[1].bring(own[1]);
    assert.equal(sync.unsaved, 0);
    sync.line.close();
  });
});

test('long messages are cut', () => {
  const side = linked({ from: 3, back: 0 });
  side.wires[0].open();
  write(side, ...Array.from({ length: 400 }, () => 'x'.repeat(255)));
  side.wires[0].bring(welcome(3));
  const messages = side.wires[0].sent.slice(1);
  assert.ok(messages.length === 2 && messages.every((it) => it.length <= 65536));
  assert.equal(messages.reduce((sum, it) => sum + sentIn(it), 0), 400);
  side.sync.line.close();
});

test('who reads sends nothing', async () => {
  await timed((pass) => {
    const side = linked({ from: 3, back: 0 });
    write(side, 'a');
    side.wires[0].open();
    side.wires[0].bring(welcome(3, 'reader'));
    assert.equal(side.wires[0].sent.length, 1);
    side.wires[0].cut(4019); // another role
    pass(0);
    side.wires[1].open();
    side.wires[1].bring(welcome(3));
    assert.equal(side.wires[1].sent.length, 2);
    side.wires[1].cut(4022); // the host takes no more
    pass(1000);
    side.wires[2].open();
    side.wires[2].bring(welcome(3));
    assert.equal(side.wires[2].sent.length, 1);
    assert.equal(side.sync.unsaved, 1);
    side.sync.line.close();
  });
});

test('bytes that are no frames end the link', () => {
  const side = linked({ from: 3, back: 0 });
  side.wires[0].open();
  side.wires[0].bring(welcome(3));
  side.wires[0].bring([1, 2, 3]);
  assert.equal(side.wires[0].closed, 4002);
  assert.equal(side.sync.from, 3);
  side.sync.line.close();
});

test('what the host says', () => {
  const side = linked({ from: 3, back: 0 });
  side.wires[0].open();
  side.wires[0].bring(welcome(3));
  side.wires[0].bring('here 1 2');
  side.wires[0].bring('told history full');
  assert.deepEqual(side.heard, [{ kind: 'here', sites: [1, 2] }, { kind: 'told', answer: 'history full' }]);
  side.sync.line.close();
});
