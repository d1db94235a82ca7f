import assert from 'node:assert/strict';
import test from 'node:test';
import { directory } from './directory.mjs';
import { groupsOf, joining, moving } from './groups.mjs';
import { Policy } from './policy.mjs';
import * as words from './words.mjs';

const PEOPLE = ['Ada', 'Bea', 'Cy'].map((name, i) => ({ person: i + 1, role: /** @type {const} */ ('writer'), name }));
const DEVICES = [1, 2, 2, 3].map((person, i) => ({ site: i + 4, person, isOpen: true }));
const HAD = ['adduser 4', 'addgroup 1', 'addmember 1 4', 'adduser 5', 'addgroup 2', 'addmember 2 5', 'addgroup 65535', 'addmember 65535 4', 'addmember 65535 5'];

function made(operations) {
  const policy = new Policy();
  operations.forEach((it, i) => policy.take({ kind: 'entry', version: i + 1, op: it.split(' ') }));
  return policy;
}

const plain = (/** @type {string} */ it) => it.replace(/[\u2068\u2069]/g, '');

test('groups of people', () => {
  assert.deepEqual(groupsOf(made(HAD)), []); // nobody is known yet
  directory.take({ kind: 'people', people: PEOPLE, devices: DEVICES });
  const policy = made([...HAD, 'addauth 0 + @3,65535 idu 0']);
  assert.deepEqual(groupsOf(policy), [65535]);
  assert.equal(plain(words.rule(policy.authorizations[0], policy)), 'Cy and the group of Ada and Bea may write everywhere.');
  assert.equal(plain(words.makingGroup([1, 2], [3])), 'What is the group of Ada and Bea called? Cy can be put in later, after the first visit.');
  assert.equal(plain(words.groupTold(65535, policy)), 'The group of Ada and Bea.');
  assert.deepEqual(joining(policy, 65535, [1, 2, 3]), []); // the rules know no other device
  const later = made([...HAD, 'adduser 6', 'addmember 2 6', 'adduser 7']);
  assert.deepEqual(joining(later, 65535, directory.personsOf(later.groups.get(65535) ?? [])), ['addmember 65535 6']);
  assert.deepEqual(joining(later, 65534, [3]), ['addmember 65534 7']);
});

// The host keeps the name as that of a person whom nobody is, whose number the group has.
test('groups with names', () => {
  const people = [...PEOPLE, { person: 4, role: /** @type {const} */ ('reader'), name: 'Cooks (group)' }];
  directory.take({ kind: 'people', people, devices: DEVICES });
  const policy = made([...HAD, 'addgroup 4', 'addmember 4 5', 'addmember 4 7', 'adduser 7', 'addauth 0 + @1,4 idu 0', 'delmember 4 7']);
  assert.deepEqual(groupsOf(policy), [4, 65535]);
  assert.deepEqual(directory.persons.map(({ name }) => name), ['Ada', 'Bea', 'Cy']);
  assert.equal(plain(words.rule(policy.authorizations[0], policy)), 'Ada and the group “Cooks” may write everywhere.');
  assert.equal(plain(words.groupTold(4, policy)), 'The group “Cooks”: Bea.');
  assert.equal(plain(words.groupTold(4, made(HAD))), 'The group “Cooks” has no members.');
  assert.deepEqual([directory.groupCalled('Cooks'), directory.groupCalled('Ada'), directory.groupName(1)], [4, null, null]);
});

test('a group gets another number', () => {
  const rules = ['addauth 0 - all idu 0', 'addauth 0 + @3,65535 id 0', 'addobj 1 by 4', 'addauth 1 - @2 u 1', 'addauth 0 - @65535 u 0,1'];
  const policy = made([...HAD, ...rules]);
  const operations = moving(policy, 65535, 9);
  assert.deepEqual(operations, [
    'addgroup 9', 'addmember 9 4', 'addmember 9 5',
    'addauth 0 - @9 u 0,1', 'delauth 1',
    'addauth 1 + @3,9 id 0', 'delauth 2',
    'delgroup 65535',
  ]);
  const told = (/** @type {Policy} */ it) => it.authorizations.map((one) => words.rule(one, it));
  const before = told(policy);
  operations.forEach((it, i) => policy.take({ kind: 'entry', version: 99 + i, op: it.split(' ') }));
  assert.deepEqual(told(policy), before);
  assert.ok(!policy.groups.has(65535));
});
