import assert from 'node:assert/strict';
import test from 'node:test';
import { documentPath, linkAddress, placeOf } from './places.mjs';

const SECRET = '0123456789abcdef0123456789abcdef';

test('where a page is', () => {
  const rows = [
    ['/', '', { base: '/', document: null, secret: null }],
    ['/', `#${SECRET}`, { base: '/', document: null, secret: SECRET }],
    ['/index.html', '', { base: '/', document: null, secret: null }],
    ['/d/notes/', '', { base: '/', document: 'notes', secret: null }],
    ['/team/d/plan-2/', `#${SECRET}`, { base: '/team/', document: 'plan-2', secret: SECRET }],
    ['/team/', '#site=1', { base: '/team/', document: null, secret: null }],
    ['/d/Notes/', '', { base: '/d/Notes/', document: null, secret: null }],
  ];
  for (const [pathname, hash, wanted] of rows) assert.deepEqual(placeOf({ pathname, hash }), wanted, pathname);
});

test('addresses of links', () => {
  const plain = { protocol: 'http:', host: 'localhost:7000' };
  assert.equal(linkAddress(plain, '/', null), 'ws://localhost:7000/link');
  assert.equal(linkAddress(plain, '/', 'notes'), 'ws://localhost:7000/d/notes/link');
  assert.equal(linkAddress({ protocol: 'https:', host: 'x.org' }, '/team/', 'notes'), 'wss://x.org/team/d/notes/link');
  assert.equal(documentPath('/team/', 'notes'), '/team/d/notes/');
});
