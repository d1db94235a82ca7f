import assert from 'node:assert/strict';
import test from 'node:test';
import { deviceAt, forgetFormer, formersAt, join, keepDevice, replaceDevice } from './device.mjs';
import { switchboard } from './testing_links.mjs';

// What a browser's storage does.
function emptyStorage() {
  const kept = new Map();
  return /** @type {any} */ ({ getItem: (key) => kept.get(key) ?? null, setItem: (key, value) => kept.set(key, value) });
}

test('a device is kept', () => {
  const storage = emptyStorage();
  assert.equal(deviceAt('/', storage), null);
  keepDevice('/', { site: 3, secret: 'ab' }, storage);
  keepDevice('/team/', { site: 1, secret: 'cd' }, storage);
  assert.deepEqual(deviceAt('/', storage), { site: 3, secret: 'ab' });
  assert.deepEqual(deviceAt('/team/', storage), { site: 1, secret: 'cd' });
});

// Who goes back is no former one any more, and who was left is.
test('a device that gave way', () => {
  const storage = emptyStorage();
  const [ada, bea] = [{ site: 3, secret: 'ab' }, { site: 5, secret: 'cd' }];
  assert.deepEqual(formersAt('/', storage), []);
  keepDevice('/', ada, storage);
  replaceDevice('/', bea, 'Ada', storage);
  assert.deepEqual([deviceAt('/', storage), formersAt('/', storage)], [bea, [{ ...ada, name: 'Ada' }]]);
  assert.deepEqual(formersAt('/team/', storage), []);
  replaceDevice('/', formersAt('/', storage)[0], 'Bea', storage);
  assert.deepEqual([deviceAt('/', storage), formersAt('/', storage)], [ada, [{ ...bea, name: 'Bea' }]]);
  replaceDevice('/', { ...ada, secret: 'ef' }, 'Ada', storage);
  assert.deepEqual([deviceAt('/', storage), formersAt('/', storage)], [{ ...ada, secret: 'ef' }, [{ ...bea, name: 'Bea' }]]);
  forgetFormer('/', bea.site, storage);
  assert.deepEqual(formersAt('/', storage), []);
  for (let site = 10; site < 30; site++) replaceDevice('/', { site, secret: 'aa' }, 'Ada', storage);
  assert.deepEqual(formersAt('/', storage).map(({ site }) => site), [28, 27, 26, 25, 24, 23, 22, 21]);
});

test('a device is made', async () => {
  const { wires, dial } = switchboard();
  const made = join('ws://localhost/link', 'ef', dial);
  wires[0].open();
  assert.deepEqual(wires[0].sent, ['join 1 ef']);
  wires[0].bring('device 4 ab');
  assert.deepEqual(await made, { site: 4, secret: 'ab' });
});

test('an invitation that is closed', async () => {
  const { wires, dial } = switchboard();
  for (const [code, words] of [[4001, /This invitation is not open/], [1006, /The server cannot be reached/], [4012, /memory/]]) {
    const made = join('ws://localhost/link', 'ef', dial);
    wires.at(-1).cut(code);
    await assert.rejects(made, words);
  }
});
