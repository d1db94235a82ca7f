import assert from 'node:assert/strict';
import test from 'node:test';
import { versions } from './changes.mjs';
import { Copy } from './copy.mjs';
import { Module, NoMemory } from './peer.mjs';
import { MOST_TO_CONFIRM } from './policy.mjs';
import { administratorAndUser, bytes, exchange, framesOf, limited, Side } from './testing.mjs';
import { until } from './testing_links.mjs';
import * as words from './words.mjs';

test('undone', () => {
  const [administrator, user] = administratorAndUser('Tea.');
  user.type(4, 4, ' Now.');
  administrator.copy.step('admin addauth 0 - 1 idu 0');
  exchange(administrator, user);
  assert.equal(user.text, 'Tea.');
  const again = new Side(1, user.copy.journal.slice(0, user.copy.journal.count));
  for (const { copy } of [administrator, user, again]) {
    assert.deepEqual(copy.undone.rows.map((it) => words.undone(it, copy.policy)), [
      'User 1: 5 letters written (“\u2068 Now.\u2069”). The rule says: User 1 may not write anywhere.',
    ]);
  }
});

test('pieces of made texts', () => {
  const sides = administratorAndUser();
  const texts = ['a', 'long ', 'é𝟝\n', ''];
  for (let i = 0; i < 600; i++) {
    const side = sides[i % 2];
    const { length } = side.text;
    const start = Math.min(length, (i * 7919) % (length + 1));
    const end = Math.min(length, start + (i % 7 === 6 ? i % 9 : 0));
    side.type(start, end, texts[i % texts.length]);
    if (i % 50 === 49) side.copy.step(`edit update 0 new${i}`);
    if (i === 300) sides[0].copy.step('admin addauth 0 - 1 d 0');
    if (i % 13 === 12) exchange(...sides);
  }
  exchange(...sides);
  assert.equal(sides[0].text, sides[1].text);
  assert.ok(sides[0].copy.undone.count > 0);
});

// Where memory is wanting halfway the pieces are asked for anew.
test('pieces that are not followed', () => {
  const side = new Side(0);
  const { copy } = side;
  side.type(0, 0, 'a');
  const { peer } = copy;
  peer.writerAt = () => {
    throw new NoMemory();
  };
  assert.throws(() => copy.insert(1, 'b'), NoMemory);
  delete peer.writerAt;
  assert.equal(copy.pieces.text, 'ab');
});

// Confirming ends where versions have to be left for rules.
test('confirming', () => {
  const [administrator, user] = administratorAndUser();
  const { copy } = administrator;
  while (copy.policy.version < MOST_TO_CONFIRM - 2) copy.step(`admin ${copy.policy.users.has(2) ? 'deluser' : 'adduser'} 2`);
  for (const it of 'abc') user.type(0, 0, it);
  exchange(administrator, user);
  copy.validateAll();
  assert.equal(copy.policy.version, MOST_TO_CONFIRM);
  copy.validateAll();
  assert.equal(copy.policy.version, MOST_TO_CONFIRM);
  assert.equal(copy.tentative.size, 1);
  assert.match(copy.step('validatenext'), /^entry/);
  const shown = versions(copy.entries, copy.policy, 3);
  assert.deepEqual(shown.map((it) => it.version), [MOST_TO_CONFIRM - 3, MOST_TO_CONFIRM - 2, MOST_TO_CONFIRM - 1]);
  assert.equal(shown[2].text, `3 edits are confirmed, up to change ${MOST_TO_CONFIRM + 1}.`);
  assert.deepEqual(versions(copy.entries.slice(0, 2), copy.policy, 3).map((it) => it.text), ['User 1 may take part.', 'User 1 may write everywhere.']);
});

test('want of memory', async () => {
  const copy = new Copy(await Module.load(limited(bytes, 64)), 0);
  assert.equal(copy.pieces.text, ''); // as the page shows it from the start
  const made = () => {
    for (let i = 0; i < 100000; i++) copy.step(`edit insert ${i} x`);
  };
  assert.throws(made, NoMemory);
  const { count } = copy.pieces;
  assert.ok(count > 100 && count - copy.journal.count <= 1); // the last insert may be made and not told
  assert.equal(copy.step('settle'), 'quiet');
  assert.equal(copy.pieces.text, 'x'.repeat(count));
});

test('a site that wrote before', async () => {
  const [administrator, user] = administratorAndUser();
  user.type(0, 0, 'a');
  exchange(administrator, user);
  const again = new Side(1);
  framesOf(administrator).forEach((it) => again.copy.receive(it));
  assert.ok(again.copy.isStale);
  again.keeper.keep();
  await until('it is kept that it did', () => again.store.isStale && again.keeper.isDone);
  const changed = new Side(1);
  framesOf(administrator).slice(0, 2).forEach((it) => changed.copy.receive(it));
  changed.copy.step('edit insert 0 b');
  changed.copy.receive(framesOf(administrator).at(-1));
  assert.ok(changed.copy.isStale);
});

// Whose the letters are, in a copy that follows the edits and in one that comes back.
test('authors', () => {
  const [administrator, user] = administratorAndUser('Tea at four.');
  user.type(7, 11, 'five'); // within the administrator's piece
  exchange(administrator, user);
  administrator.type(0, 0, 'Hot ');
  exchange(administrator, user);
  const again = new Side(1, user.copy.journal.slice(0, user.copy.journal.count));
  for (const { copy } of [administrator, user, again]) {
    assert.equal(copy.pieces.text, 'Hot Tea at five.');
    assert.deepEqual(copy.pieces.runs().map(({ end, user }) => [end, user]), [[12, 0], [15, 1], [16, 0]]);
  }
  administrator.copy.step('admin addauth 0 - 1 idu 0'); // his change goes, and so his letters
  exchange(administrator, user);
  for (const { copy } of [administrator, user]) {
    assert.equal(copy.pieces.text, 'Hot Tea at four.');
    assert.deepEqual(copy.pieces.runs().map(({ end, user }) => [end, user]), [[16, 0]]);
  }
});

// A change that leaves the letters as they are, and one that is undone so, are in no row: whose the piece is changes all the same.
test('whose a piece is whose letters stay', () => {
  const [administrator, user] = administratorAndUser('Tea.');
  const sides = [administrator, user];
  const writers = () => sides.map(({ copy }) => [...copy.pieces.users.slice(0, copy.pieces.count)]);
  assert.deepEqual(writers(), [[0], [0]]);
  user.copy.update(0, 'Tea.');
  exchange(...sides);
  assert.deepEqual(writers(), [[1], [1]]);
  user.copy.update(0, 'Milk.');
  user.copy.update(0, 'Tea.');
  exchange(...sides);
  administrator.copy.step('admin addauth 0 - 1 idu 0');
  exchange(...sides);
  assert.deepEqual(sides.map(({ text }) => text), ['Tea.', 'Tea.']);
  assert.deepEqual(writers(), [[0], [0]]);
});

// What would be undone is what is undone.
test('what would be undone', () => {
  const [administrator, user] = administratorAndUser('Tea.');
  user.type(4, 4, ' Milk.');
  user.type(0, 4, '');
  exchange(administrator, user);
  const { copy } = user;
  const before = copy.journal.count;
  const gone = copy.wouldUndo(['addauth 0 - 1 idu 0']);
  assert.deepEqual([gone.map(({ user }) => user), copy.journal.count, copy.undone.count], [[1, 1], before, 0]);
  assert.equal(words.wouldUndo(gone), '2 edits of user 1 would be undone: “\u2068 Milk.\u2069”');
  assert.deepEqual(gone.map(({ name }) => copy.peer.state(name)), ['tentative', 'tentative']);
  assert.deepEqual(copy.wouldUndo(['adduser 9', 'addauth 0 - 1 idu 0']), gone);
  assert.deepEqual([copy.wouldUndo(['adduser 9']), copy.wouldUndo([])], [[], []]);
  assert.throws(() => copy.wouldUndo(['adduser 9', 'no operation']));
  administrator.copy.step('admin addauth 0 - 1 idu 0');
  exchange(administrator, user);
  assert.equal(copy.undone.count, 2);
});
