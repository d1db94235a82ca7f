import assert from 'node:assert/strict';
import test from 'node:test';
import { Directory, groupNameIn, keptGroupName, MOST_GROUP_NAME, MOST_NAME } from './directory.mjs';

test('who is known', () => {
  const known = new Directory();
  assert.equal(known.personOf(1), null);
  const told = {
    people: [{ person: 1, role: 'owner', name: 'Ada Lund' }, { person: 2, role: 'writer', name: 'Bea Okafor' }],
    devices: [{ site: 1, person: 1, isOpen: false }, { site: 2, person: 2, isOpen: false }, { site: 3, person: 1, isOpen: true }],
  };
  known.take({ kind: 'people', ...told });
  assert.deepEqual([known.personOf(3), known.nameOf(1), known.nameOf(3)], [1, 'Ada Lund', null]);
  assert.ok(known.isSame(1, 3) && known.isSame(9, 9));
  assert.ok(!known.isSame(1, 2) && !known.isSame(8, 9));
  assert.deepEqual(known.kept, told);
  assert.ok(known.hasCome(2) && !known.hasCome(3));
  assert.deepEqual([1, 2, 3].map((it) => known.isRemoved(it)), [false, true, false]);
  known.take({ kind: 'people', ...told });
  assert.equal(known.version, 1);
});

// Somebody who is called as a group is, and has come, is somebody.
test('names of groups', () => {
  assert.equal(groupNameIn(keptGroupName('Cooks')), 'Cooks');
  assert.equal(groupNameIn('Cooks'), null);
  assert.equal(keptGroupName('x'.repeat(MOST_GROUP_NAME)).length, MOST_NAME);
  const known = new Directory();
  const people = ['Ada', 'Cooks (group)', 'Bea (group)'].map((name, i) => ({ person: i + 1, role: /** @type {const} */ ('reader'), name }));
  known.take({ kind: 'people', people, devices: [{ site: 1, person: 3, isOpen: false }] });
  assert.deepEqual([1, 2, 3, 4].map((it) => known.groupName(it)), [null, 'Cooks', null, null]);
  assert.deepEqual(known.persons.map(({ person }) => person), [1, 3]);
  assert.deepEqual([known.groupCalled('Cooks'), known.groupCalled('Bea')], [2, null]);
});
