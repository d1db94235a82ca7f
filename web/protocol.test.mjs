import assert from 'node:assert/strict';
import test from 'node:test';
import { caretText, helloText, joinText, orderText, readDocuments, readKeys, readText } from './protocol.mjs';

const IDENTITY = '0123456789abcdef0123456789abcdef';

test('what a page says', () => {
  const device = { site: 3, secret: 'ab' };
  assert.equal(joinText('cd'), 'join 1 cd');
  assert.equal(helloText(device), 'hello 1 - 3 ab 0');
  assert.equal(helloText(device, IDENTITY, 12), `hello 1 ${IDENTITY} 3 ab 12`);
  assert.equal(orderText(7, ['admin adduser 1', 'admin deluser 1']), 'order 7\nadmin adduser 1\nadmin deluser 1');
  assert.equal(caretText('3.1 -'), 'caret 3.1 -');
});

test('what a host says', () => {
  const rows = [
    ['device 4 ab', { kind: 'device', site: 4, secret: 'ab' }],
    [`welcome 1 ${IDENTITY} 4 2 writer 90`, { kind: 'welcome', identity: IDENTITY, site: 4, person: 2, role: 'writer', saved: 90 }],
    ['told conflict request 1.4 3 delete 1.2', { kind: 'told', answer: 'conflict request 1.4 3 delete 1.2' }],
    ['answer 7\nentry 3 undone 0\nentry 4 undone 2', { kind: 'answer', number: 7, lines: ['entry 3 undone 0', 'entry 4 undone 2'] }],
    ['refused 8 illegal 6 line 2', { kind: 'refused', number: 8, words: 'illegal 6 line 2' }],
    ['here', { kind: 'here', sites: [] }],
    ['here 1 4 4', { kind: 'here', sites: [1, 4, 4] }],
    ['caret 4 3.1 - x', { kind: 'caret', site: 4, words: '3.1 - x' }],
    ['something else', { kind: 'unknown' }],
    ['constructor', { kind: 'unknown' }],
    ['', { kind: 'unknown' }],
  ];
  for (const [text, wanted] of rows) assert.deepEqual(readText(text), wanted);
});

test('people documents and keys', () => {
  assert.deepEqual(readText('people\nperson 1 owner Ada van der Lund\nperson 2 reader Cai\ndevice 1 1\ndevice 2 1 closed'), {
    kind: 'people',
    people: [{ person: 1, role: 'owner', name: 'Ada van der Lund' }, { person: 2, role: 'reader', name: 'Cai' }],
    devices: [{ site: 1, person: 1, isOpen: true }, { site: 2, person: 1, isOpen: false }],
  });
  const lines = [`document notes ${IDENTITY} open`, `document plan-2 ${IDENTITY} damaged`];
  const documents = [{ name: 'notes', identity: IDENTITY, state: 'open' }, { name: 'plan-2', identity: IDENTITY, state: 'damaged' }];
  assert.deepEqual(readDocuments(lines), documents);
  assert.deepEqual(readText(['documents', ...lines].join('\n')), { kind: 'documents', documents });
  assert.deepEqual(readKeys(['invitation 1 1 open', 'device 2 1 closed']), [
    { kind: 'invitation', number: 1, person: 1, isOpen: true },
    { kind: 'device', number: 2, person: 1, isOpen: false },
  ]);
});
