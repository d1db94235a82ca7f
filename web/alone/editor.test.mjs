import assert from 'node:assert/strict';
import test from 'node:test';
import { administratorAndUser, exchange, framesOf, opened, RULES, timed, until } from './testing.mjs';
import * as words from '../words.mjs';

// Where a caret of one goes by what another does: the text, the carets, what is replaced by what, and the carets behind it.
const CARETS = [
  ['one two', [4, 7], [3, 3, ' 𝟝'], [7, 10]],
  ['aaa', [2, 2], [3, 3, 'a'], [2, 2]],
  ['aaa', [2, 2], [1, 1, 'a'], [3, 3]],
  ['aaa', [2, 2], [2, 2, 'a'], [2, 2]],
  ['aaa', [2, 2], [0, 1, ''], [1, 1]],
  ['aaa', [2, 2], [2, 3, ''], [2, 2]],
  ['aaa', [2, 2], [1, 2, ''], [1, 1]],
  ['aaa', [0, 3], [0, 0, 'a'], [0, 4]],
  ['abc', [1, 2], [0, 3, ''], [0, 0]],
  ['𝟝𝟝', [2, 2], [0, 2, ''], [0, 0]],
];

test('typing pasting cutting and undoing', () => {
  const [administrator, user] = administratorAndUser('Tea at four.\nBring cups.');
  const { area } = administrator;
  assert.equal(administrator.copy.journal.count, RULES.length + 3); // a paste is a piece for each line, and its end
  area.type(7, 11, '𝟝');
  exchange(administrator, user);
  assert.equal(user.area.value, 'Tea at 𝟝.\nBring cups.');
  area.type(7, 9, 'four'); // as the browser's undo does
  exchange(administrator, user);
  assert.equal(user.area.value, 'Tea at four.\nBring cups.');
  const before = administrator.copy.journal.count;
  area.type(0, area.value.length, '');
  exchange(administrator, user);
  assert.equal(user.area.value, '');
  assert.equal(administrator.copy.journal.count - before, 5);
});

test('composing', () => {
  const [administrator, user] = administratorAndUser();
  const before = user.copy.journal.count;
  user.area.dispatchEvent(new Event('compositionstart'));
  user.area.type(0, 0, 'k');
  user.area.type(0, 1, 'か');
  assert.equal(user.copy.journal.count, before);
  user.area.dispatchEvent(new Event('compositionend'));
  exchange(administrator, user);
  assert.equal(administrator.area.value, 'か');
});

// A composition that is given up, and a letter that is typed over itself, take no piece apart.
test('nothing typed', () => {
  const [administrator] = administratorAndUser('Tea at four.');
  const { area, copy } = administrator;
  const before = copy.journal.count;
  area.dispatchEvent(new Event('compositionstart'));
  area.type(4, 4, 'k');
  area.type(4, 5, '');
  area.dispatchEvent(new Event('compositionend'));
  area.type(4, 5, 'a');
  assert.equal(copy.journal.count, before);
  assert.equal(copy.pieces.count, 1);
});

// While a word is composed it goes out behind a second without a key, and what waits comes in behind three.
test('pausing within a composition', async () => {
  const [administrator, user] = administratorAndUser('Tea');
  await timed((pass) => {
    const before = user.copy.journal.count;
    user.area.dispatchEvent(new Event('compositionstart'));
    user.area.type(3, 3, 's');
    administrator.area.type(0, 0, 'A ');
    user.editor.run(() => user.copy.receive(framesOf(administrator).at(-1)));
    pass(900);
    assert.equal(user.copy.journal.count, before);
    user.area.type(4, 4, '!');
    pass(900);
    assert.equal(user.copy.journal.count, before);
    pass(200);
    assert.equal(user.copy.pieces.text, 'Teas!');
    assert.equal(user.area.value, 'Teas!');
    pass(2000);
    assert.equal(user.area.value, 'A Teas!');
    user.area.type(7, 7, '?');
    user.area.dispatchEvent(new Event('compositionend'));
    assert.equal(user.copy.pieces.text, 'A Teas!?');
    user.area.dispatchEvent(new Event('compositionstart'));
    user.area.type(8, 8, '?');
    user.editor.close();
    pass(1000);
    assert.equal(user.area.value, 'A Teas!?');
  });
});

// What waits is run in short parts, and in the order in which it came.
test('a burst', async () => {
  const { editor } = opened(0);
  let [changes, next] = [0, 0];
  editor.changed = () => changes++;
  const busy = () => {
    for (const end = performance.now() + 2; performance.now() < end; );
  };
  for (let i = 0; i < 40; i++) editor.run(() => [busy(), assert.equal(next++, i)]);
  await until('all is run', () => next === 40);
  assert.ok(changes > 1);
  editor.run(() => assert.fail('told'));
  editor.run(() => (next = 0));
  editor.plan = () => {};
  assert.throws(() => editor.drain(), /told/);
  editor.drain();
  assert.deepEqual([next, editor.waiting.length], [0, 0]);
  delete editor.plan;
  const begun = performance.now();
  for (let i = 0; i < 300000; i++) editor.run(() => next++);
  await until('many are run', () => next === 300000);
  assert.ok(performance.now() - begun < 8000, `${performance.now() - begun} ms`);
});

// U+FEFF at a text's beginning is a letter like others.
test('a mark of byte order', () => {
  const [{ copy }] = administratorAndUser('\ufeffTea');
  const again = opened(0, copy.journal.slice(0, copy.journal.count));
  again.area.type(4, 4, '!');
  again.area.type(4, 5, '?');
  assert.equal(again.area.value, '\ufeffTea?');
  assert.equal(Buffer.from(again.copy.peer.text()).toString(), '\ufeffTea?');
});

// Where many pieces go they aren't followed one by one.
test('many at once', () => {
  const [administrator, user] = administratorAndUser();
  const { area, copy } = administrator;
  for (let i = 0; i < 150; i++) copy.step(`edit insert ${i} x`);
  administrator.editor.show();
  let asked = 0;
  copy.peer.count = () => assert.fail('a piece is followed');
  copy.peer.sizes = () => (asked++, Object.getPrototypeOf(copy.peer).sizes.call(copy.peer));
  area.type(1, 149, '');
  assert.equal(asked, 1);
  delete copy.peer.count;
  exchange(administrator, user);
  assert.equal(user.area.value, 'xx');
});

test('odd letters', () => {
  const [administrator] = administratorAndUser();
  administrator.area.type(0, 0, '\ud835');
  assert.equal(administrator.area.value, '\ufffd');
  administrator.editor.during(() => administrator.copy.step('edit insert 0 a\r\\nb')); // a text area has no CR
  administrator.area.value = 'a\n\nb\ufffd';
  administrator.area.type(4, 4, 'X');
  assert.equal(administrator.copy.pieces.text, 'a\r\nbX\ufffd');
});

test('carets', async () => {
  for (const [text, carets, change, wanted] of CARETS) {
    const [administrator, user] = administratorAndUser();
    for (const letter of Array.from(text).toReversed()) administrator.area.type(0, 0, letter);
    exchange(administrator, user);
    user.area.setSelectionRange(...carets);
    administrator.area.type(...change);
    exchange(administrator, user);
    assert.deepEqual(user.area.carets, wanted, `${text} ${carets} ${change}`);
  }
});

test('carets in pieces', async () => {
  const [administrator, user] = administratorAndUser('one two');
  user.area.setSelectionRange(1, 5);
  administrator.area.type(0, 0, 'X');
  exchange(administrator, user);
  assert.deepEqual(user.area.carets, [2, 6]);
  administrator.area.type(4, 4, 'Y'); // takes the piece apart
  exchange(administrator, user);
  assert.equal(user.area.value, 'XoneY two');
  assert.deepEqual(user.area.carets, [2, 7]);
  user.editor.run(() => user.copy.receive(administrator.copy.step('edit insert 0 Z') && framesOf(administrator).at(-1)));
  await until('the text shows', () => user.area.value === 'ZXoneY two');
  assert.deepEqual(user.area.carets, [3, 8]);
});

test('denied', () => {
  const [administrator, user] = administratorAndUser();
  user.area.type(0, 0, 'a');
  user.area.type(1, 1, 'b');
  exchange(administrator, user);
  administrator.copy.step('validatenext');
  administrator.copy.step('validatenext');
  administrator.copy.step('admin addauth 0 - 1 i 0');
  exchange(administrator, user);
  user.area.type(2, 2, 'no');
  assert.equal(user.area.value, 'ab');
  assert.deepEqual(user.refusals, ['denied 5 by 5']);
  assert.equal(
    words.refusal(user.refusals[0], user.copy.policy),
    'You may not do this here. The rule says: User 1 may not add words anywhere.',
  );
  user.area.type(0, 1, ''); // he may delete
  assert.equal(user.area.value, 'b');
  user.area.type(0, 1, 'x'); // what would be replaced stays
  assert.equal(user.area.value, 'b');
  assert.equal(words.refusal('denied 0 none', user.copy.policy), 'You may not do this here. No rule allows it.');
});

test('denied within a piece', () => {
  for (const rights of ['i', 'd']) {
    const [administrator, user] = administratorAndUser('one two');
    administrator.copy.step('admin delauth 0');
    administrator.copy.step(`admin addauth 0 + 1 ${rights} 0`);
    exchange(administrator, user);
    user.area.type(3, 4, '-');
    assert.equal(user.area.value, 'one two');
    assert.deepEqual(user.refusals, ['denied 4 none']);
  }
});

// Where a piece may not be taken apart nothing is lost, and nothing stands there twice. `before` are rules that forbid it.
test('a piece that must stay', () => {
  const text = 'Rent: 600 a month';
  const rows = [
    [['addauth 0 - 1 i 0'], 3, 3],
    [['addauth 0 - 1 d 0'], 3, 3],
    [['addobj 1 by 0', 'addauth 0 - 1 d 1'], 4, 4],
    [['addobj 1 by 1', 'addauth 0 - 1 i 1'], 4, 4],
    [['addobj 1 elems 1.0', 'addauth 0 - all d 1'], 4, 4],
    [['addobj 1 span 1.0 1.0', 'addauth 0 - all id 1'], 4, 4],
    [['addgroup 3', 'addmember 3 1', 'addauth 0 - @3 d 0'], 5, 5],
  ];
  for (const [before, version, by] of rows) {
    const [administrator, user] = administratorAndUser(text);
    before.forEach((it) => assert.match(administrator.copy.step(`admin ${it}`), /^entry/));
    exchange(administrator, user);
    for (const change of [[3, 3, 'x'], [3, 4, ''], [6, 9, '700']]) {
      user.area.type(...change);
      assert.equal(user.area.value, text, before);
      assert.equal(user.refusals.at(-1), `denied ${version} by ${by}`);
    }
  }
});

// Of two pieces in which a selection begins and ends the second may have to stay.
test('a second piece that must stay', () => {
  const [administrator, user] = administratorAndUser('three four');
  user.area.type(0, 0, 'one two');
  exchange(administrator, user);
  administrator.copy.step('admin addobj 1 by 0');
  administrator.copy.step('admin addauth 0 - 1 d 1');
  exchange(administrator, user);
  user.area.type(3, 12, '-');
  assert.equal(user.area.value, 'one-three four');
  assert.deepEqual(user.refusals, ['denied 4 by 4']);
});

// In the middle of a paragraph of many pieces, in which nothing may be deleted, no part is left either.
test('a paragraph that must stay', () => {
  const [administrator, user] = administratorAndUser();
  for (const it of ['one ', 'two three', ' four']) administrator.area.type(administrator.area.value.length, administrator.area.value.length, it);
  const ends = administrator.editor.paragraph().join(' ');
  administrator.copy.step(`admin addobj 1 span ${ends}`);
  administrator.copy.step('admin addauth 0 - 1 d 1');
  exchange(administrator, user);
  user.area.type(6, 7, 'x');
  assert.equal(user.area.value, 'one two three four');
  assert.deepEqual(user.refusals, ['denied 4 by 4']);
});

test('paragraphs', () => {
  const [administrator, user] = administratorAndUser('one\ntwo\n\nthree');
  const { area, editor, copy } = administrator;
  const rows = [[0, 0, 'one'], [3, 3, 'one'], [4, 4, 'two'], [7, 7, 'two'], [8, 8, null], [9, 9, 'three'], [14, 14, 'three'], [2, 5, 'one\ntwo']];
  for (const [start, end, text] of rows) {
    area.setSelectionRange(start, end);
    const ends = editor.paragraph()?.map((it) => copy.peer.shownUpTo(it));
    const found = ends ? copy.pieces.text.slice(copy.pieces.startOf(ends[0] - 1), copy.pieces.startOf(ends[1])) : null;
    assert.equal(found, text);
  }
  area.setSelectionRange(5, 5);
  copy.step(`admin addobj 1 span ${editor.paragraph().join(' ')}`);
  copy.step('admin addauth 0 - all idu 1');
  exchange(administrator, user);
  user.area.type(5, 6, '');
  assert.equal(user.area.value, 'one\ntwo\n\nthree');
  assert.match(words.refusal(user.refusals[0], user.copy.policy), /Nobody may write in the paragraph “\u2068two\u2069”\./);
  user.area.type(0, 1, 'O');
  assert.equal(user.area.value, 'One\ntwo\n\nthree');
});
