import assert from 'node:assert/strict';
import test from 'node:test';
import { administratorAndUser, exchange, framesOf, Side } from './testing.mjs';
import { timed } from './testing_links.mjs';
import * as words from './words.mjs';

const editsOf = ({ copy }) => copy.journal.count - copy.entries.length;

// Keys, one behind another, from a place on.
function keys(side, at, text) {
  for (const [i, it] of Array.from(text).entries()) side.writer.write(at + i, at + i, it, true);
}

test('keys are held for a word', async () => {
  const [administrator, user] = administratorAndUser();
  await timed((pass) => {
    keys(user, 0, 'Teacups');
    assert.deepEqual([user.text, user.copy.pieces.text, editsOf(user)], ['Teacups', '', 0]);
    keys(user, 7, ' ');
    assert.equal(editsOf(user), 1);
    keys(user, 8, 'in a'); // short words wait for the next
    assert.equal(editsOf(user), 1);
    keys(user, 12, ' box ');
    assert.equal(editsOf(user), 2);
    keys(user, 17, 'now');
    pass(400);
    assert.equal(editsOf(user), 2);
    pass(200);
    assert.deepEqual([user.copy.pieces.text, editsOf(user)], ['Teacups in a box now', 3]);
    user.writer.write(1, 7, '', true); // within a word: one change
    keys(user, 1, 'oast');
    pass(600);
    assert.deepEqual([user.copy.pieces.text, editsOf(user)], ['Toast in a box now', 4]);
    keys(user, 18, '?');
    user.writer.write(0, 0, '', true); // elsewhere: what is held goes
    assert.equal(user.copy.pieces.text, 'Toast in a box now?');
  });
  exchange(administrator, user);
});

test('what is deleted before it goes costs nothing', async () => {
  const [, user] = administratorAndUser('one ');
  await timed((pass) => {
    const before = editsOf(user);
    keys(user, 4, 'twp');
    user.writer.write(6, 7, '', true);
    keys(user, 6, 'o three');
    assert.equal(editsOf(user), before);
    keys(user, 13, ' ');
    assert.deepEqual([user.copy.pieces.text, editsOf(user) - before], ['one two three ', 1]);
    keys(user, 14, 'no');
    for (const end of [16, 15]) user.writer.write(end - 1, end, '', true);
    pass(600);
    assert.deepEqual([user.text, editsOf(user) - before], ['one two three ', 1]);
    keys(user, 14, '\n'); // a line's end goes at once
    assert.equal(editsOf(user) - before, 2);
    keys(user, 15, 'x'.repeat(300)); // in pieces that fit
    pass(600);
    assert.deepEqual([user.copy.pieces.text.length, editsOf(user) - before], [315, 5]);
  });
});

test('what others write beside what is held', async () => {
  const [administrator, user] = administratorAndUser('one two');
  await timed((pass) => {
    user.writer.write(7, 7, '!', true);
    administrator.type(0, 0, 'zero ');
    user.copy.receive(framesOf(administrator).at(-1));
    assert.equal(user.text, 'zero one two!');
    pass(600);
    assert.equal(user.copy.pieces.text, 'zero one two!');
  });
});

test('pieces that stay are changed', () => {
  const rows = [
    ['one two', 3, 4, '-', 'one-two', 1], // within a piece
    ['one two', 3, 3, '\n', 'one\n two', 3], // a line end breaks it
    ['one\ntwo\nthree', 1, 9, 'X', 'oXhree', 6], // from within one to within another
    ['one\ntwo', 0, 7, '', '', 3], // whole ones
  ];
  for (const [text, start, end, put, then, edits] of rows) {
    const [administrator, user] = administratorAndUser(text);
    const before = editsOf(user);
    user.type(start, end, put);
    assert.deepEqual([user.text, editsOf(user) - before], [then, edits], text);
    exchange(administrator, user);
    assert.equal(administrator.text, then);
  }
});

test('denied', () => {
  const [administrator, user] = administratorAndUser('ab');
  administrator.copy.step('admin addauth 0 - 1 i 0');
  exchange(administrator, user);
  user.writer.write(2, 2, 'no', true); // asked at the first key
  assert.equal(user.text, 'ab');
  assert.deepEqual(user.refusals, ['denied 3 by 3']);
  assert.equal(words.refusal(user.refusals[0], user.copy.policy), 'You may not do this here. The rule says: User 1 may not add words anywhere.');
  user.type(0, 1, ''); // he may delete
  assert.equal(user.text, 'b');
  assert.equal(words.refusal('denied 0 none', user.copy.policy), 'You may not do this here. No rule allows it.');
});

// Where a piece may not be changed nothing is lost, and nothing stands there twice.
test('a piece that must stay', () => {
  const text = 'Rent: 600 a month';
  const rows = [
    [['addauth 0 - 1 iu 0']],
    [['addauth 0 - 1 du 0']],
    [['addobj 1 by 0', 'addauth 0 - 1 du 1']],
    [['addobj 1 span 1.0 1.0', 'addauth 0 - all idu 1']],
    [['addgroup 3', 'addmember 3 1', 'addauth 0 - @3 du 0']],
  ];
  for (const [before] of rows) {
    const [administrator, user] = administratorAndUser(text);
    before.forEach((it) => assert.match(administrator.copy.step(`admin ${it}`), /^entry/));
    exchange(administrator, user);
    for (const change of [[3, 3, 'x'], [3, 4, ''], [6, 9, '700']]) {
      user.type(...change);
      assert.equal(user.text, text, `${before} ${change}`);
      assert.match(user.refusals.at(-1), /^denied/);
    }
  }
});

test('undo and redo', () => {
  const [administrator, user] = administratorAndUser('one two');
  user.type(7, 7, ' three');
  user.type(3, 4, '-');
  exchange(administrator, user);
  administrator.type(0, 0, 'zero ');
  exchange(administrator, user);
  user.writer.undo();
  assert.equal(user.text, 'zero one two three');
  user.writer.undo();
  assert.equal(user.text, 'zero one two');
  user.writer.redo();
  user.writer.redo();
  assert.equal(user.text, 'zero one-two three');
  const again = new Side(1, user.copy.journal.slice(0, user.copy.journal.count)); // the page is loaded again
  again.writer.restore(JSON.parse(JSON.stringify(user.writer.kept)));
  again.writer.undo();
  assert.equal(again.text, 'zero one two three');
});

// A change is taken back though somebody changed the same piece beside it, and it is said where it can't be.
test('undo beside others', () => {
  const [administrator, user] = administratorAndUser('one two three');
  let stuck = 0;
  user.writer.stuck = () => stuck++;
  user.type(4, 7, 'TWO');
  exchange(administrator, user);
  administrator.type(13, 13, '!');
  administrator.type(0, 3, 'ONE');
  exchange(administrator, user);
  user.writer.undo();
  assert.deepEqual([user.text, stuck], ['ONE two three!', 0]);
  user.type(4, 7, '2');
  exchange(administrator, user);
  administrator.type(4, 5, 'zwei');
  exchange(administrator, user);
  user.writer.undo();
  assert.deepEqual([user.text, stuck], ['ONE zwei three!', 1]);
});

// ---- two who change one piece at the same time

// Hands on what sides made, in this order at the host, as it gives it to all: a side's own come back to it. All of it may come in one
// message, behind which the page looks at what others changed.
function host(order) {
  for (const { side, frame, name } of order) {
    for (const it of order.sides) {
      if (it === side) it.writer.cameBack(name);
      else it.copy.receive(frame);
      if (!order.isOne) it.writer.merge();
    }
  }
  order.sides.forEach(({ writer }) => writer.merge());
}

function lastOf(side) {
  const frame = framesOf(side).at(-1);
  const { name } = side.copy.requestAt(side.copy.journal.count - 1);
  return { side, frame, name };
}

// What the two do to one piece, and what both then have, whoever is first at the host.
const BOTH = [
  ['one two three', [[0, 0, 'A '], [13, 13, ' B']], 'A one two three B'],
  ['one two three', [[4, 8, ''], [0, 3, 'ONE']], 'ONE three'],
  ['one two three', [[3, 7, ''], [13, 13, '!']], 'one three!'],
];

test('both of two changes stand', () => {
  for (const [text, changes, both] of BOTH) {
    for (const [isTurned, isOne] of [[false, false], [true, false], [false, true], [true, true]]) {
      const sides = administratorAndUser(text);
      sides.forEach(({ copy }) => copy.changed.splice(0));
      changes.forEach((it, i) => sides[i].type(...it));
      const order = sides.map(lastOf);
      if (isTurned) order.reverse();
      host(Object.assign(order, { sides, isOne }));
      // The one who comes second has made both anew, and hands that on.
      const [first, second] = order.map(({ side }) => side);
      assert.equal(second.text, both);
      const made = lastOf(second);
      assert.notEqual(made.name, order[1].name);
      host(Object.assign([made], { sides }));
      assert.equal(first.text, both, `${changes} ${isTurned} ${isOne}`);
      assert.deepEqual([first.replaced, second.replaced], [[], []]);
    }
  }
});

test('of two who change one word one stands', () => {
  for (const isTurned of [false, true]) {
    const sides = administratorAndUser('Meet at nine');
    sides[0].type(8, 12, 'seven');
    sides[1].type(8, 12, 'eight');
    const order = sides.map(lastOf);
    if (isTurned) order.reverse();
    host(Object.assign(order, { sides }));
    const [first, second] = order.map(({ side }) => side);
    const made = lastOf(second);
    if (made.name !== order[1].name) host(Object.assign([made], { sides }));
    assert.equal(first.text, second.text);
    assert.deepEqual([first.replaced, second.replaced.length], [[], 1]);
    assert.ok(!first.text.includes(second.replaced[0]));
  }
});

// The page of who comes second was closed in between: it knows again what it made, and nothing is lost without a word.
test('both of two changes stand over a reload', () => {
  for (const [text, changes, both] of BOTH) {
    const [administrator, user] = administratorAndUser(text);
    [administrator, user].forEach((it, i) => it.type(...changes[i]));
    const again = reloaded(user);
    again.copy.receive(lastOf(administrator).frame);
    again.writer.merge();
    assert.deepEqual([again.text, again.replaced], [both, []]);
    const twice = reloaded(again); // what was merged stays so
    twice.writer.merge();
    assert.equal(twice.text, both);
  }
  const [administrator, user] = administratorAndUser('Meet at nine');
  [administrator, user].forEach((it, i) => it.type(8, 12, ['seven', 'eight'][i]));
  const again = reloaded(user);
  again.copy.receive(lastOf(administrator).frame);
  again.writer.merge();
  assert.deepEqual([again.text, again.replaced], ['Meet at seven', ['eight']]);
});

// A person whose page is loaded again before the host has anything of his.
function reloaded({ copy }) {
  const again = new Side(copy.site, copy.journal.slice(0, copy.journal.count));
  const places = [...framesOf(again).keys()].filter((it) => again.copy.item(it).message.user === copy.site);
  again.writer.resume(places);
  return again;
}

test('a change of what somebody deletes', () => {
  const sides = administratorAndUser('one two');
  sides[0].type(0, 7, '');
  sides[1].type(3, 4, ' and ');
  host(Object.assign(sides.map(lastOf), { sides }));
  assert.deepEqual(sides.map(({ text }) => text), ['', '']);
  assert.deepEqual(sides[1].replaced, [' and']);
});
