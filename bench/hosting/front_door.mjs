// Measures what a new user waits for: from a clone to a host that answers, and to two people who write in a browser. Outside the suite.
//
//   node bench/hosting/front_door.mjs CHROMIUM [FOLDER]
//
// The clone is made in FOLDER, which isn't there yet and is removed at the end: a folder beside the system's temporary ones, if none is named.
// It tells the seconds of each step, with the load of the machine at its end.
import assert from 'node:assert/strict';
import { execFileSync, spawn } from 'node:child_process';
import { existsSync, mkdtempSync, rmSync } from 'node:fs';
import { createServer } from 'node:http';
import { loadavg, tmpdir } from 'node:os';
import { join } from 'node:path';
import { fileURLToPath } from 'node:url';
import { Browser, pause } from '../../.ci/devtools.mjs';

const [chromium, folder = join(mkdtempSync(join(tmpdir(), 'front-door-')), 'clone')] = process.argv.slice(2);
const TOP = fileURLToPath(new URL('../..', import.meta.url));
const SIZE = { width: 1180, height: 760 };
const LOOK_MS = 50;
const PATIENCE_MS = 3600000; // for a build beside other work

let begun = performance.now();

// Tells how long a step took, and begins the next one.
function tell(step) {
  const now = performance.now();
  console.log(`${((now - begun) / 1000).toFixed(1).padStart(7)} s  ${step} (load ${loadavg()[0].toFixed(1)})`);
  begun = now;
}

async function until(what, holds) {
  const end = Date.now() + PATIENCE_MS;
  while (!(await holds())) {
    assert.ok(Date.now() < end, `it never came that ${what}`);
    await pause(LOOK_MS);
  }
}

async function freePort() {
  const server = createServer();
  await new Promise((done) => server.listen(0, '127.0.0.1', done));
  const { port } = server.address();
  await new Promise((done) => server.close(done));
  return port;
}

// Starts the host by the front door. It gives the process, and what it says: each line of standard error as it comes.
function front(port) {
  const run = spawn('./roastcliff', ['host', 'notes/', '--port', String(port)], { cwd: folder, detached: true, stdio: ['ignore', 'pipe', 'pipe'] });
  const host = { run, errors: '', printed: '' };
  run.stdout.on('data', (data) => (host.printed += data));
  run.stderr.on('data', (data) => (host.errors += data));
  return host;
}

const answers = (port) => fetch(`http://localhost:${port}/healthz`).then((it) => it.ok, () => false);

async function stop({ run }) {
  if (run.exitCode !== null || run.signalCode !== null) return;
  const ended = new Promise((done) => run.once('exit', done));
  process.kill(-run.pid);
  await ended;
}

async function open(browser, address) {
  const page = await browser.page(address, await browser.profile(), SIZE);
  await until('it is saved', async () => (await page.value(`document.getElementById('standing')?.textContent`)) === 'Saved');
  await page.value('document.getElementById("text").focus(), null');
  return page;
}

const shows = (page, words) => until(`it shows ${words}`, async () => (await page.value('page.surface.read()')).includes(words));

async function write(browser, invitation) {
  const ada = await open(browser, invitation);
  tell('the owner’s page is open');
  await ada.value(`document.getElementById('new-name').value = 'Bea', document.querySelector('#new-person button').click(), null`);
  await until('there is an address', () => ada.value(`document.getElementById('invited-address').value`));
  const bea = await open(browser, await ada.value(`document.getElementById('invited-address').value`));
  tell('a second person is invited, and her page is open');
  await ada.value('document.getElementById("text").focus(), null');
  await Promise.all([ada.type('Tea at four. '), bea.type('Bring cups. ')]);
  await Promise.all([shows(ada, 'Bring cups.'), shows(bea, 'Tea at four.')]);
  tell('each shows what the other wrote');
}

async function measure(port) {
  execFileSync('git', ['clone', '--quiet', TOP, folder]);
  tell('git clone');
  let host = front(port);
  hosts.push(host);
  await until('the page’s module is made', () => existsSync(join(folder, 'web', 'editor.wasm')) || host.run.exitCode !== null);
  tell('./roastcliff host: the page’s module is made');
  await until('the host answers', () => answers(port) || host.run.exitCode !== null);
  tell('the host is built beside it, and answers');
  assert.equal(host.run.exitCode, null, host.errors);
  const browser = new Browser(chromium);
  try {
    await write(browser, host.printed.trim());
  } finally {
    await browser.close();
  }
  await stop(host);
  begun = performance.now();
  host = front(port);
  hosts.push(host);
  await until('the host answers', () => answers(port));
  tell('a second call answers');
}

const hosts = [];
try {
  await measure(await freePort());
} finally {
  await Promise.all(hosts.map(stop));
  rmSync(folder, { recursive: true, force: true });
}
