// Tries the page of a team in headless Firefox at a running host, beside one in Chromium: two people write to each other, one of them comes back,
// and loses his right while he is offline.
//
//   node --experimental-websocket .ci/firefox_tests.mjs FIREFOX CHROMIUM HOST [PICTURE]
//
// HOST is the built program of a host. With PICTURE what Firefox shows in the end is kept there.
import assert from 'node:assert/strict';
import { spawn } from 'node:child_process';
import { mkdtempSync, rmSync, writeFileSync } from 'node:fs';
import { tmpdir } from 'node:os';
import { join } from 'node:path';
import { Browser } from './devtools.mjs';
import { freePort, Host, until } from './running_host.mjs';

const SIZE = { width: 1100, height: 800 };
const NOWHERE = 'ws://localhost:1/'; // where a link leads that is cut
const CODES = { Backspace: '\uE003', Enter: '\uE007', Home: '\uE011' };

// Firefox, driven by WebDriver BiDi over a WebSocket.
class Fox {
  static async start(program) {
    const fox = new Fox();
    fox.folder = mkdtempSync(join(tmpdir(), 'firefox-'));
    fox.port = await freePort();
    fox.run = spawn(program, ['--headless', '--no-remote', '--profile', fox.folder, '--remote-debugging-port', String(fox.port)], { detached: true, stdio: 'ignore' });
    process.once('exit', () => fox.close());
    fox.waiting = new Map();
    fox.count = 0;
    fox.faults = [];
    await until('Firefox listens', () => fox.dial());
    await fox.call('session.new', { capabilities: {} });
    await fox.call('session.subscribe', { events: ['log.entryAdded'] });
    fox.context = (await fox.call('browsingContext.create', { type: 'tab' })).context;
    return fox;
  }

  dial() {
    const socket = new WebSocket(`ws://127.0.0.1:${this.port}/session`);
    return new Promise((done) => {
      socket.addEventListener('open', () => done((this.socket = socket)));
      socket.addEventListener('error', () => done(null));
      socket.addEventListener('message', ({ data }) => this.take(JSON.parse(data)));
    });
  }

  take({ id, type, result, error, message, method, params }) {
    if (method === 'log.entryAdded' && params.level === 'error') this.faults.push(params.text);
    const { done, failed } = this.waiting.get(id) ?? {};
    this.waiting.delete(id);
    if (type === 'error') failed?.(new Error(`${error}: ${message}`));
    else done?.(result);
  }

  call(method, params) {
    const id = ++this.count;
    this.socket.send(JSON.stringify({ id, method, params }));
    return new Promise((done, failed) => this.waiting.set(id, { done, failed }));
  }

  go(address) {
    return this.call('browsingContext.navigate', { context: this.context, url: address, wait: 'complete' });
  }

  async value(expression) {
    const told = await this.call('script.evaluate', { expression: `JSON.stringify(${expression})`, target: { context: this.context }, awaitPromise: true });
    if (told.type === 'exception') throw new Error(told.exceptionDetails.text);
    return told.result.value === undefined ? undefined : JSON.parse(told.result.value);
  }

  // Clicks near the start of an element.
  async click(id) {
    const { x, y } = await this.value(`(({ x, y }) => ({ x: Math.ceil(x) + 40, y: Math.ceil(y) + 40 }))(document.getElementById('${id}').getBoundingClientRect())`);
    const actions = [{ type: 'pointerMove', x, y }, { type: 'pointerDown', button: 0 }, { type: 'pointerUp', button: 0 }];
    return this.call('input.performActions', { context: this.context, actions: [{ type: 'pointer', id: 'mouse', parameters: { pointerType: 'mouse' }, actions }] });
  }

  press(value) {
    const actions = [{ type: 'keyDown', value }, { type: 'keyUp', value }];
    return this.call('input.performActions', { context: this.context, actions: [{ type: 'key', id: 'keys', actions }] });
  }

  async type(text) {
    for (const it of text) await this.press(it === '\n' ? CODES.Enter : it);
  }

  async picture() {
    const { data } = await this.call('browsingContext.captureScreenshot', { context: this.context });
    return Buffer.from(data, 'base64');
  }

  // Kills it with all that it began, and removes its profile.
  close() {
    try {
      process.kill(-this.run.pid, 'SIGKILL');
    } catch {
      // it is gone
    }
    rmSync(this.folder, { recursive: true, force: true, maxRetries: 10, retryDelay: 100 });
  }
}

const said = (page, id) => page.value(`(document.getElementById('${id}')?.textContent ?? '').replace(/[\\u2068\\u2069]/g, '')`);
const says = (page, id, pattern) => until(async () => `it says ${pattern} in ${id}: ${await said(page, id)} ${await said(page, 'opening-words')}`, async () => pattern.test(await said(page, id)));
const saved = (page) => says(page, 'standing', /^Saved$/);
const shows = (page, text) => until(async () => `it shows ${JSON.stringify(text)}: ${JSON.stringify(await page.value('page.surface.read()'))}`, async () => (await page.value('page.surface.read()')) === text);
const press = (page, label) => page.value(`([...document.querySelectorAll('#people button')].find((it) => it.getAttribute('aria-label') === '${label}').click(), null)`);

const address = `document.getElementById('invited-address').value`;

// The owner, in Chromium, invites somebody who has Firefox.
async function open(fox, browser, invitation) {
  const ada = await browser.page(invitation, await browser.profile(), SIZE);
  await saved(ada);
  await ada.value(`(document.getElementById('new-name').value = 'Bea', document.querySelector('#new-person button').click(), null)`);
  await until('there is an address', () => ada.value(address));
  await fox.go(await ada.value(address));
  await saved(fox);
  await says(fox, 'people', /Bea · you/);
  return ada;
}

// Both write, and each sees what the other wrote.
async function write(fox, ada) {
  await fox.call('browsingContext.activate', { context: fox.context });
  await fox.click('text');
  await fox.type('From Firefox.\nTwo lines');
  await shows(ada, 'From Firefox.\nTwo lines');
  for (const it of [CODES.Backspace, CODES.Backspace, CODES.Home]) await fox.press(it);
  await fox.type('My ');
  await shows(ada, 'From Firefox.\nMy Two lin');
  await ada.value('document.getElementById("text").focus(), page.surface.select(0), null');
  await ada.type('Hello. ');
  await shows(fox, 'Hello. From Firefox.\nMy Two lin');
  await fox.type('x');
  await shows(ada, 'Hello. From Firefox.\nMy xTwo lin');
  await saved(fox);
  assert.deepEqual(await fox.value(`[...CSS.highlights].filter(([name, it]) => name.startsWith('by-') && it.size).map(([name]) => name).sort()`), ['by-0', 'by-1']);
}

// The page is loaded anew, and has all of it.
async function comeBack(fox) {
  await fox.value('(globalThis.isOld = true, null)');
  await fox.call('browsingContext.reload', { context: fox.context, wait: 'complete' });
  await until('another page is there', () => fox.value('!globalThis.isOld && Boolean(globalThis.page)'));
  await saved(fox);
  await shows(fox, 'Hello. From Firefox.\nMy xTwo lin');
}

// What is written offline, without the right any more, stands struck through with the rule.
async function lose(fox, ada) {
  await fox.value(`(page.sync.line.dial = () => new WebSocket('${NOWHERE}'), page.sync.line.socket.close(), null)`);
  await says(fox, 'standing', /^Offline/);
  await fox.click('text');
  await fox.press(CODES.Home);
  await fox.type('Late. ');
  await says(fox, 'standing', /edits? of yours waits? in this browser/);
  await press(ada, 'Forbid writing: Bea');
  await until('the question is there', () => ada.value('document.getElementById("question").open'));
  await ada.value('(document.getElementById("question-yes").click(), null)');
  await fox.value('(page.sync.line.dial = (it) => new WebSocket(it), page.sync.line.hurry(), null)');
  for (const it of [fox, ada]) await shows(it, 'Hello. ');
  const struck = await fox.value(`[...document.querySelectorAll('.ghost')].map((it) => it.textContent).join('')`);
  assert.ok(['Late. ', 'From Firefox.', 'Two lin'].every((it) => struck.includes(it)), struck);
  await fox.value(`(document.querySelector('.ghost').click(), null)`);
  await says(fox, 'note-text', /^Undone words of Bea\. The rule says: Bea may not write anywhere\.$/);
}

async function main() {
  const [firefox, chromium, program, picture] = process.argv.slice(2);
  const [host, browser, fox] = [await Host.start(program, 'text'), new Browser(chromium), await Fox.start(firefox)];
  try {
    const ada = await open(fox, browser, host.invitation);
    await write(fox, ada);
    await comeBack(fox);
    await lose(fox, ada);
    if (picture) writeFileSync(picture, await fox.picture());
    assert.deepEqual([...fox.faults, ...ada.faults].filter((it) => !it.includes(NOWHERE)), []);
    console.log(`firefox: ${/Firefox.*/.exec(await fox.value('navigator.userAgent'))} beside Chromium: both wrote, one came back, and lost his right while he was offline`);
  } finally {
    fox.close();
    await browser.close();
    await host.close();
  }
}

main().then(
  () => process.exit(0),
  (error) => {
    console.log(`firefox: ${error.stack}`);
    process.exit(1);
  },
);
