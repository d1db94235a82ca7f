import assert from 'node:assert/strict';
import test from 'node:test';
import { directory } from './directory.mjs';
import { Policy } from './policy.mjs';
import { administratorAndUser, exchange } from './testing.mjs';
import * as words from './words.mjs';

const PEOPLE = {
  kind: 'people',
  people: [{ person: 1, role: 'owner', name: 'Ada Lund' }, { person: 2, role: 'writer', name: 'Bea Okafor' }],
  devices: [1, 2, 2].map((person, i) => ({ site: i + 1, person, isOpen: true })),
};

// What an action says while people are known, without the signs around names.
function known(action) {
  directory.take(PEOPLE);
  try {
    return JSON.parse(JSON.stringify(action()).replace(/[\u2068\u2069]/g, ''));
  } finally {
    directory.take({ kind: 'people', people: [], devices: [] });
  }
}

function made(...operations) {
  const policy = new Policy();
  operations.forEach((it, i) => policy.take({ kind: 'entry', version: i + 1, op: it.split(' ') }));
  return policy;
}

// What others wrote turns nothing around it.
test('letters that turn', () => {
  const [administrator, user] = administratorAndUser();
  user.type(0, 0, '\u202e\u2069abc');
  administrator.copy.step('admin addauth 0 - 1 idu 0');
  exchange(administrator, user);
  const { copy } = administrator;
  assert.match(words.undone(copy.undone.rows[0], copy.policy), /\(“\u2068abc\u2069”\)/);
  assert.equal(words.undoing(1), '1 edit was undone. “Undone, and why” has more.');
});

test('rules', () => {
  const policy = made('addauth 0 + all idu 0', 'addauth 0 - @2 idu 0', 'addobj 1 span 1.2 3.2', 'addauth 0 - all idu 1', 'addobj 2 by 3', 'addauth 0 + 1,2 id 2', 'addauth 0 - @1,2 u 0');
  policy.named.get(1).said = 'The budget is 900 euros.';
  assert.deepEqual(known(() => policy.authorizations.map((it) => words.rule(it, policy))), [
    'Ada Lund and Bea Okafor may not change words anywhere.',
    'Ada Lund and Bea Okafor may add words or delete in what Bea Okafor wrote.',
    'Nobody may write in the paragraph “The budget is 900 euros.”',
    'Bea Okafor may not write anywhere.',
    'Everybody may write everywhere.',
  ]);
  assert.equal(words.rule(policy.authorizations[3], policy), 'Group 2 may not write anywhere.');
  assert.equal(known(() => words.reason({ version: 7, by: 2 }, policy)), 'The rule says: Bea Okafor may not write anywhere.');
  assert.equal(words.reason({ version: 7, by: 0 }, policy), 'No rule allows it.');
});

test('powers', () => {
  const policy = made('addauth 0 + all idu 0', 'addobj 1 span 1.2 3.2', 'addauth 0 - all idu 1', 'addauth 0 + @1 idu 1', 'addauth 2 - @3 d 0', 'addauth 0 - @4 du 0');
  policy.named.get(1).said = 'Tea';
  const of = (group) => known(() => words.powers((right, covers) => policy.allowsGroup(group, right, covers), policy));
  assert.equal(of(1), 'may write');
  assert.equal(of(2), 'may write, but in the paragraph “Tea” only read');
  assert.equal(of(3), 'may add words and change words, but in the paragraph “Tea” only read');
  assert.equal(of(4), 'may add words, but in the paragraph “Tea” only read');
});

test('names', () => {
  assert.deepEqual(['Ada Lund', 'bea', 'Jean Paul van Dam', '𝟝 x'].map(words.initials), ['AL', 'B', 'JD', '𝟝X']);
  assert.equal(words.capital('\u2068ada\u2069 may'), '\u2068Ada\u2069 may');
  assert.deepEqual(known(() => [words.person(3), words.person(7), words.group(1), words.person(0)]), ['Bea Okafor', 'device 7', 'Ada Lund', 'the server']);
  assert.deepEqual([words.person(7), words.person(0)], ['user 7', 'the administrator']);
  assert.equal(known(() => words.writer(2, 3)), 'At the caret: written by Bea Okafor.');
  assert.equal(known(() => words.writer(1, 2)), 'At the caret: written by Bea Okafor, in words that Ada Lund began.');
});

test('renewals', () => {
  assert.deepEqual([[99_999, 11_999], [100_000, 0], [0, 12_000]].map((it) => words.isDue(...it)), [false, true, true]);
  const left = { text: 'at six', old: '', before: 'Tea ', after: '' };
  assert.equal(words.leftWords(left), '“\u2068at six\u2069”, behind “\u2068Tea \u2069”.');
  assert.equal(words.leftWords({ ...left, old: 'at five', before: '' }), '“\u2068at six\u2069”, in place of “\u2068at five\u2069”, at the beginning.');
});
