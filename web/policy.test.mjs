import assert from 'node:assert/strict';
import test from 'node:test';
import { Policy } from './policy.mjs';

// The policy that operations make.
function made(...operations) {
  const policy = new Policy();
  operations.forEach((it, i) => policy.take({ kind: 'entry', version: i + 1, op: it.split(' ') }));
  return policy;
}

const everywhere = ({ kind }) => kind === 'all';

test('what a policy allows', () => {
  const policy = made('addauth 0 + all idu 0', 'adduser 4', 'addgroup 2', 'addmember 2 4', 'addauth 0 - @2 id 0', 'addobj 1 span 1.4 2.4', 'addauth 0 + 4 i 1');
  const inPart = (it) => it.kind === 'all' || it === policy.objects.get(1);
  assert.deepEqual(['i', 'd', 'u'].map((it) => policy.allows(4, it, everywhere)), [false, false, true]);
  assert.ok(policy.allows(4, 'i', inPart) && !policy.allows(4, 'd', inPart));
  assert.ok(!policy.allows(5, 'u', everywhere)); // who takes no part
  assert.ok(policy.allows(0, 'i', everywhere));
  assert.deepEqual(['i', 'd', 'u'].map((it) => policy.allowsGroup(2, it, everywhere)), [false, false, true]);
  assert.ok(policy.allowsGroup(3, 'i', everywhere)); // a person without a device
  assert.ok(policy.allowsGroup(2, 'i', everywhere, policy.authorizations.toSpliced(1, 1)));
});

test('who is in two groups', () => {
  const policy = made('adduser 4', 'addgroup 2', 'addmember 2 4', 'addgroup 65535', 'addmember 65535 4', 'addauth 0 + @65535 i 0');
  assert.deepEqual([2, 3].map((it) => policy.allowsGroup(it, 'i', everywhere)), [true, false]);
});

test('numbers', () => {
  const policy = made('addobj 1 span 1.4 2.4', 'delobj 1', 'adduser 4', 'deluser 4');
  assert.equal(policy.freeObject(), 2);
  assert.ok(policy.known.has(4) && !policy.users.has(4));
});
