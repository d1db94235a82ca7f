import assert from 'node:assert/strict';
import { spawn } from 'node:child_process';
import { createServer } from 'node:net';
import test from 'node:test';
import { Link } from './link.mjs';
import { opened, RULES, timed, TURN, until, wired } from './testing.mjs';

// The built program, where it is given.
const program = process.env.PROGRAM;

function freePort() {
  return new Promise((done) => {
    const server = createServer().listen(0, '127.0.0.1', () => {
      const { port } = server.address();
      server.close(() => done(port));
    });
  });
}

test('a link to the program', { skip: !program || !globalThis.WebSocket }, async () => {
  const port = await freePort();
  const run = spawn(program, ['serve', '0', String(port), '2']);
  let report = '';
  run.stdout.setEncoding('utf8');
  run.stdout.on('data', (it) => (report += it));
  const ended = new Promise((done) => run.on('close', done));
  run.stdin.end([...RULES, 'edit insert 0 Tea\\sat\\sfour.', ''].join('\n'));
  const sides = [opened(1), opened(2)];
  for (const side of sides) {
    side.link = new Link(side.copy, { run: (it) => side.editor.run(it), told: () => {}, validates: () => false });
    side.news = () => side.link.plan();
    side.link.open(`ws://127.0.0.1:${port}/`);
  }
  await until('both have the text', () => sides.every((it) => it.area.value === 'Tea at four.'));
  sides[1].area.type(0, 0, 'No.');
  sides[0].area.type(12, 12, ' <b>Milk</b>, and 𝟝.');
  await until('the other has it', () => sides[1].area.value === 'Tea at four. <b>Milk</b>, and 𝟝.');
  assert.deepEqual(sides[1].refusals, ['denied 2 none']);
  await until('it is both sides’ turn', () => sides.every((it) => !it.link.session.isListening));
  sides.forEach((it) => it.link.close());
  assert.equal(await ended, 0, report);
  assert.match(report, /\nshow Tea at four\. <b>Milk<\/b>, and 𝟝\.\nheld 0\n$/);
});

// A link that opens and is cut waits longer each time, until the program says something.
test('a link that breaks', async () => {
  const { link, wires, said } = wired();
  await timed((pass) => {
    link.open('ws://127.0.0.1:7000/');
    for (const wait of [1, 2, 4, 8, 16, 30, 30]) {
      const { length } = wires;
      wires.at(-1).open();
      wires.at(-1).cut();
      pass(wait * 1000 - 1);
      assert.equal(wires.length, length);
      pass(1);
      assert.equal(wires.length, length + 1, `dialled again after ${wait} s`);
    }
    const last = said.at(-1);
    assert.equal(last, 'There is no link. You can go on; it is dialled again.');
    wires.at(-1).cut();
    pass(30000);
    assert.equal(said.at(-1), last); // no seconds that change
    wires.at(-1).open();
    wires.at(-1).bring(TURN);
    assert.equal(said.at(-1), 'Linked.');
    wires.at(-1).cut();
    const { length } = wires;
    pass(1000);
    assert.equal(wires.length, length + 1);
    link.close();
  });
});

// A link that dies without a word is dialled again, but one whose program waits for other links isn't.
test('a link that dies', async () => {
  const { link, wires, said } = wired();
  await timed((pass) => {
    link.open('ws://localhost:7000/');
    wires[0].open();
    pass(600000);
    assert.deepEqual([wires.length, said.at(-1)], [1, 'Linked. The program has not answered yet.']);
    wires[0].bring(TURN);
    pass(900);
    assert.equal(wires[0].sent.length, 1);
    pass(200);
    assert.equal(wires[0].sent.length, 2); // a turn, so that one is due
    pass(29000);
    assert.deepEqual([wires.length, said.at(-1)], [1, 'Linked.']);
    wires[0].bring(TURN);
    link.copy.step('edit insert 0 a');
    link.copy.kept = 1;
    link.plan();
    pass(30050);
    assert.equal(wires[0].sent.length, 4); // an item and a turn
    pass(50);
    assert.deepEqual([wires.length, said.at(-1)], [1, 'Linked.']);
    pass(2000);
    assert.equal(wires.length, 2);
    assert.match(said.at(-1), /^There is no link/);
    link.close();
  });
});
