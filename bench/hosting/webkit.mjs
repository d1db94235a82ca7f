// Tries the page of a team in WebKit, of which Safari is built, at a running host, beside one in Chromium: somebody writes by keys, takes back, and
// loses his right. Outside the suite. It wants Debian's libwebkit2gtk-4.1-0, xvfb and xdotool.
//
//   node bench/hosting/webkit.mjs CHROMIUM HOST
//
// HOST is the built program of a host. What WebKit shows is known by what comes to the page in Chromium, since nothing of WebKit's own drives it.
import assert from 'node:assert/strict';
import { execFileSync, spawn } from 'node:child_process';
import { mkdtempSync, rmSync } from 'node:fs';
import { tmpdir } from 'node:os';
import { join } from 'node:path';
import { Browser, pause } from '../../.ci/devtools.mjs';
import { Host, until } from '../../.ci/running_host.mjs';

const MINIBROWSER = '/usr/lib/x86_64-linux-gnu/webkit2gtk-4.1/MiniBrowser';
const DISPLAY = `:${90 + (process.pid % 100)}`;
const SIZE = { width: 900, height: 700 };
const SCREEN = '1000x760x24';
const BEGIN_MS = 1500;
const KEY_MS = 80;
const IN_TEXT = ['200', '220']; // of the screen

// What is done by keys, and what the text is then. A word is typed, and what begins with a sign is a key.
const STEPS = [
  ['abc def', 'abc def'],
  ['=Return', 'abc def\n'],
  ['ghi', 'abc def\nghi'],
  ['=BackSpace', 'abc def\ngh'],
  ['=Left', 'abc def\ngh'],
  ['=Delete', 'abc def\ng'],
  ['=ctrl+z', 'abc def\ngh'],
  ['=ctrl+shift+z', 'abc def\ng'],
  ['=ctrl+BackSpace', 'abc def\n'],
  ['=ctrl+a', 'abc def\n'],
  ['Tea. ', 'Tea. '],
];

class Kit {
  constructor() {
    this.home = mkdtempSync(join(tmpdir(), 'webkit-'));
    const env = { ...process.env, DISPLAY, HOME: this.home, XDG_RUNTIME_DIR: this.home, DBUS_SESSION_BUS_ADDRESS: 'disabled:' };
    this.env = { ...env, LIBGL_ALWAYS_SOFTWARE: '1', NO_AT_BRIDGE: '1', GDK_BACKEND: 'x11', GIO_USE_VFS: 'local', GSETTINGS_BACKEND: 'memory' };
    this.runs = [];
    this.start('Xvfb', DISPLAY, '-screen', '0', SCREEN, '-nolisten', 'tcp');
  }

  start(...[program, ...words]) {
    this.runs.push(spawn(program, words, { env: this.env, detached: true, stdio: 'ignore' }));
  }

  do(...words) {
    return execFileSync('xdotool', words, { env: this.env, stdio: ['ignore', 'pipe', 'ignore'] }).toString().trim();
  }

  // Clicks into the text; there is no manager of windows, so the window is told that keys are its own.
  async begin() {
    this.do('windowfocus', this.do('search', '--onlyvisible', '--class', 'MiniBrowser').split('\n').at(-1));
    await pause(KEY_MS);
    this.do('mousemove', ...IN_TEXT, 'click', '1');
    await pause(BEGIN_MS);
  }

  step(what) {
    return what.startsWith('=') ? this.do('key', what.slice(1)) : this.do('type', '--delay', String(KEY_MS), what);
  }

  close() {
    for (const { pid } of this.runs) {
      try {
        process.kill(-pid, 'SIGKILL');
      } catch {
        // it is gone
      }
    }
    rmSync(this.home, { recursive: true, force: true, maxRetries: 10, retryDelay: 100 });
  }
}

const said = (page, id) => page.value(`(document.getElementById('${id}')?.textContent ?? '').replace(/[\\u2068\\u2069]/g, '')`);
const shows = (page, text) => until(async () => `it shows ${JSON.stringify(text)}: ${JSON.stringify(await page.value('page.surface.read()'))}`, async () => (await page.value('page.surface.read()')) === text);
const address = `document.getElementById('invited-address').value`;

async function play(kit, browser, invitation) {
  const ada = await browser.page(invitation, await browser.profile(), SIZE);
  await until('it is saved', async () => (await said(ada, 'standing')) === 'Saved');
  await ada.value(`document.getElementById('new-name').value = 'Bea', document.querySelector('#new-person button').click(), null`);
  await until('there is an address', () => ada.value(address));
  await pause(BEGIN_MS);
  kit.start(MINIBROWSER, await ada.value(address));
  await until('Bea is here', async () => /Bea · here now/.test(await said(ada, 'people')));
  await pause(BEGIN_MS);
  await kit.begin();
  for (const [what, text] of STEPS) {
    kit.step(what);
    await pause(BEGIN_MS);
    await shows(ada, text);
  }
  await ada.value('document.getElementById("text").focus(), page.surface.select(0), null');
  await ada.type('Hello. ');
  await pause(BEGIN_MS);
  kit.step('More.');
  await shows(ada, 'Hello. Tea. More.');
  await ada.value(`[...document.querySelectorAll('#people button')].find((it) => it.getAttribute('aria-label') === 'Forbid writing: Bea').click(), null`);
  await until('it is asked', () => ada.value('document.getElementById("question").open'));
  await ada.value(`document.getElementById('question-yes').click(), null`);
  await shows(ada, 'Hello. ');
  await pause(BEGIN_MS);
  kit.step('No.');
  await pause(BEGIN_MS);
  await shows(ada, 'Hello. ');
  assert.deepEqual(ada.faults, []);
}

async function main() {
  const [chromium, program] = process.argv.slice(2);
  const [kit, browser, host] = [new Kit(), new Browser(chromium), await Host.start(program, 'text')];
  try {
    await play(kit, browser, host.invitation);
    console.log(`webkit: ${STEPS.length} steps by keys in WebKit came to Chromium as they are to, and a right went`);
    return 0;
  } catch (error) {
    console.log(`webkit: ${error.stack}`);
    return 1;
  } finally {
    kit.close();
    await browser.close();
    await host.close();
  }
}

process.exit(await main());
