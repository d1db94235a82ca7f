import assert from 'node:assert/strict';
import test from 'node:test';
import { change, versions } from './changes.mjs';
import { directory } from './directory.mjs';
import { Policy } from './policy.mjs';

const PEOPLE = ['Ada', 'Bea', 'Cy'].map((name, i) => ({ person: i + 1, role: /** @type {const} */ ('writer'), name }));
const DEVICES = [1, 2, 2, 3, 2, 2].map((person, i) => ({ site: i + 1, person, isOpen: true }));

// What is told of operations, with the versions at which the lines begin and without the signs around names.
function told(operations, most = 99) {
  const policy = new Policy();
  const entries = operations.map((it, i) => ({ kind: /** @type {const} */ ('entry'), version: i + 1, op: it.split(' ') }));
  entries.forEach((it) => policy.take(it));
  return versions(entries, policy, most).map(({ version, text }) => [version, text.replace(/[\u2068\u2069]/g, '')]);
}

function known(action) {
  directory.take({ kind: 'people', people: PEOPLE, devices: DEVICES });
  try {
    return action();
  } finally {
    directory.take({ kind: 'people', people: [], devices: [] });
  }
}

// An invitation is one line, whatever it takes in the rules.
test('who comes', () => {
  const came = ['adduser 1', 'addgroup 1', 'addmember 1 1', 'addauth 0 + all idu 0', 'adduser 2', 'addgroup 2', 'addmember 2 2', 'adduser 3', 'addmember 2 3'];
  assert.deepEqual(known(() => told(came)), [
    [1, 'Ada takes part.'],
    [4, 'Everybody may write everywhere.'],
    [5, 'Bea takes part with 2 devices.'],
  ]);
  const later = ['addauth 0 - @2 idu 0', 'adduser 5', 'addmember 2 5', 'addauth 0 - @3 idu 0', 'adduser 5', 'addmember 2 5', 'adduser 6', 'addmember 2 6', 'adduser 9'];
  assert.deepEqual(known(() => told([...came, ...later]).slice(3)), [
    [10, 'Bea may not write anywhere.'],
    [11, 'The rules for Bea hold on one more device.'],
    [13, 'Cy may not write anywhere.'],
    [14, 'The rules for Bea hold on 2 more devices.'],
    [18, 'Device 9 may take part.'],
  ]);
});

test('groups', () => {
  const operations = ['addgroup 65535', 'addmember 65535 1', 'addmember 65535 2', 'addmember 65535 3', 'delauth 0', 'addmember 65535 4', 'addgroup 65534'];
  assert.deepEqual(known(() => told(operations)), [
    [1, 'A group is made of Ada and Bea.'],
    [5, 'Rule 1 of the list is gone.'],
    [6, 'The rules for the group of Ada, Bea and Cy hold for Cy too.'],
    [7, 'A group is made.'],
  ]);
  assert.deepEqual(known(() => told(['delgroup 65535', 'delgroup 2'])), [[1, 'A group is taken away.'], [2, 'There is no Bea in the rules any more.']]);
  assert.deepEqual(told(['addgroup 7', 'addmember 7 1']), [[1, 'There may be rules for group 7.'], [2, 'The rules for group 7 hold for user 1 too.']]);
});

test('what was confirmed', () => {
  const operations = ['validate 1.2', 'adduser 9', 'validate 3.1', 'validate 4.1'];
  assert.deepEqual(known(() => told(operations)), [[1, 'An edit of Bea is confirmed.'], [2, 'Device 9 may take part.'], [3, '2 edits are confirmed, up to change 4.']]);
  assert.deepEqual(known(() => told(operations, 1)), [[3, '2 edits are confirmed, up to change 4.']]);
});

test('what is gone', () => {
  const policy = new Policy();
  const of = (version, op) => change({ kind: 'entry', version, op: op.split(' ') }, policy);
  policy.take({ kind: 'entry', version: 1, op: 'addobj 1 elems 1.2'.split(' ') });
  assert.equal(of(2, 'delobj 1'), 'Rules are not about part 1 (single letters) any more.');
  assert.equal(of(3, 'deluser 4'), 'User 4 may take part no more.');
  assert.equal(known(() => of(3, 'deluser 4')).replace(/[\u2068\u2069]/g, ''), 'Cy takes part with one device less.');
  assert.equal(known(() => of(4, 'delmember 2 3')).replace(/[\u2068\u2069]/g, ''), 'The rules for Bea do not hold for one of the devices any more.');
});
