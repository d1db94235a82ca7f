import assert from 'node:assert/strict';
import test from 'node:test';
import { BadFrame } from '../copy.mjs';
import { Session } from './session.mjs';
import { framesOf, opened, RULES, until } from './testing.mjs';

test('sessions', async () => {
  const [administrator, user] = [opened(0), opened(1)];
  RULES.forEach((it) => administrator.copy.step(it));
  administrator.area.type(0, 0, 'Tea.');
  user.area.type(0, 0, 'not allowed yet');
  // The side that serves: what comes it receives, and behind a turn it sends all that it has, and a turn.
  const came = [];
  const session = new Session(user.copy, (it) => came.push(it), () => false);
  const serve = () => {
    for (const it of came.splice(0)) it.length > 6 && administrator.copy.receive(it);
    user.editor.during(() => framesOf(administrator).forEach((it) => session.take(it)));
    session.take(Uint8Array.of(0, 0, 0, 2, 1, 5));
  };
  session.begin();
  serve();
  assert.equal(user.area.value, 'Tea.');
  user.area.type(4, 4, ' Milk.');
  await until('all is kept', () => user.keeper.isDone);
  assert.ok(session.hasNews);
  session.begin();
  serve();
  assert.equal(administrator.copy.pieces.text, 'Tea. Milk.');
  assert.throws(() => session.take(Uint8Array.of(1)), BadFrame); // it isn't the other side's turn
  session.begin();
  assert.throws(() => session.take(Uint8Array.of(0, 0, 0, 1)), BadFrame);
  session.take(Uint8Array.of(0, 0, 0, 2, 1, 6));
  assert.ok(session.isOver);
});
