import assert from 'node:assert/strict';
import test from 'node:test';
import { split } from '../frames.mjs';
import { having, lacking } from './having.mjs';
import { administratorAndUser } from './testing.mjs';

test('what one lacks', () => {
  const [administrator, user] = administratorAndUser('Tea.');
  const all = administrator.copy.journal;
  const given = (told) => [...split(all.choose(lacking(all, all.count, told)))].length;
  assert.equal(given(having(user.copy.journal, user.copy.journal.count)), 0);
  administrator.area.type(4, 4, ' Milk.');
  administrator.copy.step('admin adduser 2');
  assert.equal(given(having(user.copy.journal, user.copy.journal.count)), 2);
  const told = { entries: 3, sites: new Map([[0, { count: 1, last: 2 }]]) }; // he lacks the first
  assert.equal(given(told), 2);
  for (const it of [null, {}, { sites: new Map([[0, null]]) }]) assert.equal(given(it), all.count);
});
