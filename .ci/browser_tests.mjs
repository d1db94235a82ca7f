// Tries the page for trying alone in headless Chromium, by keys as a person presses them.
//
//   node .ci/browser_tests.mjs CHROMIUM [--program PROGRAM] [--only TRY,TRY] [--picture FILE] [--speed]
//
// With the built program two pages also talk to its `serve`. With --only these tries alone are made. With --picture pages of the try
// a_link_that_is_lost are kept as pictures: as docs/page.png user 1's, and beside it as docs/page-administrator.png the administrator's.
// With --speed what the page costs is measured and nothing is tried.
import assert from 'node:assert/strict';
import { spawn } from 'node:child_process';
import { mkdtempSync, readFileSync, readdirSync, rmSync, writeFileSync } from 'node:fs';
import { createServer } from 'node:http';
import { tmpdir } from 'node:os';
import { extname, join } from 'node:path';
import { Browser, CONTROL, SHIFT, pause } from './devtools.mjs';
import { measure } from './page_speed.mjs';

const PATIENCE_MS = 60000; // for what has to come, on a machine with much other work
const WHOLE_MS = 280000; // for all of it
const STEP_MS = 40;
const FRAME = '<!doctype html><iframe src="/alone/?site=9"></iframe>';
const KINDS = { '.html': 'text/html', '.mjs': 'text/javascript', '.css': 'text/css', '.wasm': 'application/wasm' };
const WEB = new URL('../web/', import.meta.url);
const DESK = { width: 900, height: 1000 };
const TELEPHONE = { width: 390, height: 844, isMobile: true };
const MARKUP = '<img src=x onerror=alert(1)><script>alert(2)</script>';

function option(name) {
  const at = process.argv.indexOf(name);
  return at < 0 ? null : process.argv[at + 1] ?? '';
}

async function until(what, holds) {
  const end = Date.now() + PATIENCE_MS;
  while (!(await holds())) {
    if (Date.now() > end) assert.fail(`it never came that ${await (typeof what === 'string' ? what : what())}`);
    await pause(STEP_MS);
  }
}

// ---- what pages and programs are

// The folder web/, to be had from this machine alone, with a page that frames it.
async function serveFolder() {
  const server = createServer(({ url }, response) => {
    const name = new URL(url, 'http://localhost').pathname.slice(1).replace(/^$|(?<=\/)$/, 'index.html');
    try {
      const bytes = name === 'frame.html' ? FRAME : readFileSync(new URL(name, WEB));
      response.writeHead(200, { 'content-type': KINDS[extname(name)] ?? 'application/octet-stream' }).end(bytes);
    } catch {
      response.writeHead(404).end();
    }
  });
  await new Promise((done) => server.listen(0, '127.0.0.1', done));
  return server;
}

// One person's page.
class Sheet {
  static async open(world, profile, site) {
    const sheet = new Sheet(world, site);
    sheet.page = await world.browser.page(sheet.address(), profile, DESK);
    await sheet.isOpen();
    return sheet;
  }

  constructor(world, site) {
    this.world = world;
    this.site = site;
  }

  address(more = '') {
    return `${this.world.address}alone/?site=${this.site}${more}`;
  }

  // Whether what was loaded since the mark was set is open, or said that it isn't.
  isOpen() {
    return until(`page ${this.site} is open`, async () => /^(This page|The editor is not)/.test(await this.said('who')));
  }

  // Loads another address, or the same again.
  async load(address = null) {
    await this.page.value('document.getElementById("who").textContent = ""');
    await (address ? this.page.go(address) : this.page.reload());
    await this.isOpen();
  }

  // The text of an element, but for the signs around what somebody wrote.
  said(id) {
    return this.page.value(`(document.getElementById(${JSON.stringify(id)})?.textContent ?? '').replace(/[\\u2068\\u2069]/g, '')`);
  }

  // The text in the text area.
  text() {
    return this.page.value('document.getElementById("text").value');
  }

  carets() {
    return this.page.value('[text.selectionStart, text.selectionEnd]');
  }

  focus(id) {
    return this.page.value(`document.getElementById(${JSON.stringify(id)}).focus()`);
  }

  // Goes to a place of the text by keys, and selects from there to another.
  async select(start, end = start) {
    await this.focus('text');
    await this.page.key('Home', CONTROL, ['moveToBeginningOfDocument']);
    for (let i = 0; i < start; i++) await this.page.key('ArrowRight');
    for (let i = start; i < end; i++) await this.page.key('ArrowRight', SHIFT);
  }

  // Writes behind the text.
  async append(text) {
    await this.focus('text');
    await this.page.key('End', CONTROL, ['moveToEndOfDocument']);
    await this.page.type(text);
  }

  // Whether an expression holds in the page.
  async holds(expression) {
    assert.equal(await this.page.value(`Boolean(${expression})`), true, expression);
  }

  // Presses a button by the keyboard.
  async press(selector) {
    await this.page.value(`document.querySelector(${JSON.stringify(selector)}).focus()`);
    await this.page.key('Enter');
  }

  has(text) {
    const what = async () => `page ${this.site} has ${JSON.stringify(text)}: it has ${JSON.stringify(await this.text())}`;
    return until(what, async () => (await this.text()) === text);
  }

  says(id, pattern) {
    const what = async () => `page ${this.site} says ${pattern} in ${id}: it says ${JSON.stringify(await this.said(id))}`;
    return until(what, async () => pattern.test(await this.said(id)));
  }

  async close() {
    assert.deepEqual(this.page.faults, [], `page ${this.site} has no faults`);
    await this.page.close();
  }
}

// A run of the program's `serve`.
class Program {
  constructor(path, site, port, links) {
    this.run = spawn(path, ['serve', site, port, links].map(String), { stdio: ['pipe', 'pipe', 'ignore'] });
    this.report = '';
    this.run.stdout.setEncoding('utf8');
    this.run.stdout.on('data', (it) => (this.report += it));
    this.ended = new Promise((done) => this.run.once('close', done));
    this.run.stdin.end();
  }

  stop() {
    this.run.kill('SIGKILL');
    return this.ended;
  }
}

async function freePort() {
  const server = createServer();
  await new Promise((done) => server.listen(0, '127.0.0.1', done));
  const { port } = server.address();
  await new Promise((done) => server.close(done));
  return port;
}

// The pages of the administrator and of user 1, who may write, in one browser.
async function pair(world) {
  const administrator = await Sheet.open(world, world.profile, 0);
  const user = await Sheet.open(world, world.profile, 1);
  await administrator.press('#people-form button[value=adduser]');
  await administrator.press('#rule-form button[value="+"]');
  await user.says('rules', /^User 1 may write everywhere\./);
  return { administrator, user };
}

// Both have this text alone.
async function begin(administrator, user, text) {
  await administrator.select(0);
  await administrator.page.key('a', CONTROL, ['selectAll']);
  await administrator.page.key('Backspace');
  await administrator.page.type(text);
  await user.has(text);
}

// The least contrast of the text area's edge, where nothing may be written, to what lies on both sides of it.
const CONTRAST = `(() => {
  text.readOnly = true;
  const { borderTopColor, backgroundColor, opacity } = getComputedStyle(text);
  const ground = getComputedStyle(document.body).backgroundColor;
  text.readOnly = false;
  const parts = (color) => color.match(/[0-9.]+/g).slice(0, 3).map(Number);
  const over = (color) => parts(color).map((it, i) => opacity * it + (1 - opacity) * parts(ground)[i]);
  const light = (all) => all.map((it) => (it / 255 <= 0.04045 ? it / 3294.6 : ((it / 255 + 0.055) / 1.055) ** 2.4)).reduce((sum, it, i) => sum + it * [0.2126, 0.7152, 0.0722][i], 0);
  const contrast = (a, b) => (Math.max(light(a), light(b)) + 0.05) / (Math.min(light(a), light(b)) + 0.05);
  return Math.min(contrast(over(borderTopColor), over(backgroundColor)), contrast(over(borderTopColor), parts(ground)));
})()`;

// ---- what is tried

// Where the carets of a user go by what the administrator does: the text, the carets, what he selects, what he types there, and the
// carets behind it. All counts are of letters.
const CARETS = [
  ['one two', [4, 7], [3, 3], ' x', [6, 9]],
  ['aaa', [2, 2], [3, 3], 'a', [2, 2]],
  ['aaa', [2, 2], [1, 1], 'a', [3, 3]],
  ['aaa', [2, 2], [2, 2], 'a', [2, 2]],
  ['aaa', [2, 2], [2, 3], '', [2, 2]],
  ['aaa', [2, 2], [1, 2], '', [1, 1]],
  ['aaa', [0, 3], [0, 0], 'a', [0, 4]],
  ['abc', [1, 2], [0, 3], '', [0, 0]],
  ['a\nb', [2, 3], [1, 1], '\n', [3, 4]],
];

async function caret(administrator, user, [text, carets, [start, end], typed, wanted]) {
  await begin(administrator, user, text);
  await user.select(...carets);
  await administrator.select(start, end);
  if (start < end) await administrator.page.key('Backspace');
  await administrator.page.type(typed);
  await user.has(text.slice(0, start) + typed + text.slice(end));
  assert.deepEqual(await user.carets(), wanted, `${text} ${carets} ${start} ${end} ${typed}`);
}

const tries = {
  async carets({ administrator, user }) {
    for (const row of CARETS) await caret(administrator, user, row);
  },

  async typing_pasting_composing_and_undoing({ administrator, user }) {
    await begin(administrator, user, 'Tea');
    await user.append(' at four.');
    await administrator.has('Tea at four.');
    await user.page.insert('\nBring cups.'); // as a paste
    await administrator.has('Tea at four.\nBring cups.');
    await user.page.call('Input.imeSetComposition', { text: 'ka', selectionStart: 2, selectionEnd: 2 });
    await user.page.insert('か');
    await administrator.has('Tea at four.\nBring cups.か');
    await user.page.key('z', CONTROL, ['undo']);
    await administrator.has('Tea at four.\nBring cups.');
  },

  async forbidding_and_markup({ administrator, user }) {
    await begin(administrator, user, '');
    await user.focus('text');
    await user.page.insert(MARKUP);
    await administrator.has(MARKUP);
    await administrator.press('#rule-form button[value="-"]');
    await user.says('undone', /^User 1: [0-9]+ letters written[^]*The rule says: User 1 may not write anywhere\./);
    await user.says('status', /^[0-9]+ edits? (was|were) undone\./);
    await user.has('');
    for (const { page } of [administrator, user]) {
      assert.deepEqual([await page.value('document.querySelectorAll("img, script:not([src])").length'), page.asked], [0, []]);
    }
    await administrator.press('#rules button');
    await user.says('rules', /^User 1 may write/);
  },

  async protecting_and_denying({ administrator, user }) {
    await begin(administrator, user, 'Rent: 600.\nFood: 20.');
    await administrator.select(2);
    await administrator.press('#protect');
    await user.says('rules', /^Nobody may write in the paragraph “Rent: 600\.”/);
    await user.select(6, 7);
    await user.page.type('5');
    await user.says('status', /^You may not do this here\. The rule says: Nobody may write in the paragraph “Rent: 600\.”/);
    await user.append('!?');
    await administrator.has('Rent: 600.\nFood: 20.!?');
    await administrator.press('#validate-all');
    await administrator.says('status', /^[0-9]+ edits? (is|are) confirmed\.$/);
    await administrator.says('versions', /[0-9]+ edits are confirmed, up to change [0-9]+\.$/);
    await administrator.holds('document.getElementById("versions").lastElementChild.value < Number(/[0-9]+(?= of the rules)/.exec(who.textContent)[0])');
  },

  // Who stands at a rule or in a list with the keyboard stays there when there is another version of the rules.
  async staying_with_the_keyboard({ administrator, user }) {
    await begin(administrator, user, '');
    await user.append('a');
    await administrator.has('a');
    await administrator.page.value('globalThis.rule = document.querySelector("#rules button"), rule.focus(), validate.click()');
    await administrator.says('status', /^Version [0-9]+: An edit of/);
    await administrator.holds('document.activeElement === rule');
    await administrator.page.value('document.querySelector("#rule-form button[value=\'-\']").click()');
    await user.says('rules', /^User 1 may not/);
    await administrator.holds('document.activeElement.getAttribute("aria-label") === "Remove rule 2"');
    await administrator.press('#rules button');
    await user.says('rules', /^(?!User 1 may not)/);
    await administrator.holds('document.activeElement.matches("#rules li:first-child button")');
  },

  // What the administrator wrote in another browser makes a page that lacks it stale, for good, and it changes no rules.
  async a_page_that_is_stale({ administrator }, world) {
    const frames = await administrator.page.value("import('../store.mjs').then(({ Store }) => Store.open('site 0')).then((it) => it.read()).then((it) => [...it])");
    const other = await Sheet.open(world, await world.browser.profile(), 0);
    await other.holds('!powers.disabled && !validates.checked');
    await other.append('mine');
    await other.page.value(`new BroadcastChannel('roastcliff').postMessage(Uint8Array.from(${JSON.stringify(frames)}))`);
    for (let times = 0; times < 2; times++) {
      await other.says('status', /^This person wrote before/);
      await other.holds('powers.disabled && text.readOnly && validate.matches(":disabled") && !document.querySelector("#rules button")');
      await until('it is kept', () => other.page.value("import('../store.mjs').then(({ Store }) => Store.open('site 0')).then((it) => it.isMarked())"));
      await other.load();
    }
    await other.close();
  },

  // A browser that keeps nothing more lets nothing more be changed.
  async a_store_that_takes_no_more({ administrator }) {
    await administrator.page.value("import('../store.mjs').then(({ Store }) => (Store.prototype.append = () => Promise.reject(new Error('no room'))))");
    await administrator.append('x');
    await administrator.says('status', /^This browser keeps nothing more \(no room\)/);
    await administrator.holds('powers.disabled && text.readOnly && !document.querySelector("#rules button")');
    await administrator.load();
    await administrator.holds('!powers.disabled && document.querySelector("#rules button")');
  },

  // Both names of this machine are one origin to the page, it isn't shown within another, and its title says whose it is.
  async where_it_is({ user }, world) {
    await user.holds('document.title === "Roastcliff: user 1"');
    const other = await Sheet.open(world, await world.browser.profile(), 7);
    await other.load(other.address().replace('localhost', '127.0.0.1'));
    await until('it is at localhost', () => other.page.value('location.href').then((it) => it === other.address()));
    await other.says('who', /^This page is user 7\./);
    await other.page.go(`${world.address}frame.html`);
    await until('it says why it is not open', () => other.page.value('document.querySelector("iframe")?.contentDocument.getElementById("status")?.textContent.startsWith("This page is shown within another one")'));
    await other.close();
  },

  // An address that the page may not dial is told, and a page that comes back as it was left dials again.
  async dialling({ user }) {
    await user.page.value('address.value = "ws://example.org/", document.querySelector("#link-form button").click()');
    await user.says('link-status', /with encryption alone/);
    await user.page.value('address.value = "ws://127.0.0.1:1/", document.querySelector("#link-form button").click()');
    await user.says('link-status', /^There is no link\. You can go on/);
    await user.page.value('dispatchEvent(new PageTransitionEvent("pagehide", { persisted: true }))');
    await user.says('link-status', /^There is no link\.$/);
    await user.page.value('dispatchEvent(new PageTransitionEvent("pageshow", { persisted: true }))');
    await user.says('link-status', /^There is no link\. You can go on/);
    await user.press('#unlink');
    await user.says('link-status', /^There is no link\.$/);
  },

  async coming_back({ administrator, user }) {
    await begin(administrator, user, 'Tea.');
    for (const it of [user, administrator]) {
      await it.load();
      await it.says('status', /^This page is back/);
      await it.has('Tea.');
      await it.says('rules', /User 1 may write everywhere\./);
    }
    await user.append(' Milk?');
    await administrator.has('Tea. Milk?');
    await administrator.append(' Yes.');
    await user.has('Tea. Milk? Yes.');
  },

  async one_page_of_a_person({ administrator, user }) {
    await administrator.load(user.address());
    await administrator.says('status', /^Another page of this browser is user 1 already\./);
    await administrator.load(administrator.address());
    await begin(administrator, user, 'a');
  },

  async a_telephone_and_the_dark({ administrator: { page } }) {
    await page.resize(TELEPHONE);
    assert.ok((await page.value('document.documentElement.scrollWidth')) <= TELEPHONE.width);
    const unnamed = '[...document.querySelectorAll("input, select, textarea, button")].filter((it) => !it.labels?.length && !it.textContent.trim()).length';
    assert.equal(await page.value(unnamed), 0);
    const ground = () => page.value('getComputedStyle(document.body).backgroundColor');
    const light = await ground();
    const inThe = (value) => page.call('Emulation.setEmulatedMedia', { features: [{ name: 'prefers-color-scheme', value }] });
    assert.ok((await page.value(CONTRAST)) >= 3);
    await inThe('dark');
    assert.notEqual(await ground(), light);
    assert.ok((await page.value(CONTRAST)) >= 3);
    await inThe('light');
    await page.resize(DESK);
  },

  async the_keyboard_alone({ administrator: { page } }) {
    await page.value('globalThis.reached = new Set(), addEventListener("focusin", ({ target }) => reached.add(target)), null');
    const rest = '[...document.querySelectorAll("input, select, textarea, button")].filter((it) => it.offsetParent && !reached.has(it)).length';
    const count = await page.value(rest);
    for (let i = 0; i <= count + 1; i++) await page.key('Tab');
    assert.equal(await page.value(rest), 0);
  },

  async a_link_that_is_lost({ administrator, user }, world) {
    if (world.program) await lost(administrator, user, world);
  },

  async a_store_that_is_no_journal({ user }, world) {
    await user.page.value("import('../store.mjs').then(({ Store }) => Store.open('site 1')).then((it) => it.append(Uint8Array.of(1, 2, 3)))");
    await user.load();
    await user.says('status', /is no journal/);
    await world.browser.call('Browser.setDownloadBehavior', { behavior: 'allow', browserContextId: world.profile, downloadPath: world.folder });
    await user.press('#download-damaged');
    await until('the bytes are there', () => readdirSync(world.folder).includes('site-1.damaged'));
    assert.deepEqual([...readFileSync(join(world.folder, 'site-1.damaged')).subarray(-3)], [1, 2, 3]);
    await user.press('#start-over');
    await user.says('who', /^This page is user 1\. /);
    assert.match(user.page.asked.join(), /^Start over\?/);
  },
};

// Two pages that know each other by a program alone, which is lost and comes again; meanwhile one is forbidden to write.
async function lost(administrator, user, world) {
  const sheets = [administrator, user];
  const port = await freePort();
  const first = world.run(2, port, 2);
  for (const it of sheets) {
    await it.page.before('BroadcastChannel = class { postMessage() {} }');
    await it.load(it.address(`&link=${port}`));
  }
  for (const it of sheets) await it.says('link-status', /^Linked\./);
  await begin(administrator, user, 'Tea at four.');
  await user.append(' Milk?');
  await administrator.has('Tea at four. Milk?');
  await first.stop();
  for (const it of sheets) await it.says('link-status', /^There is no link\. You can go on/);
  await administrator.press('#validate-all');
  await administrator.press('#rule-form button[value="-"]');
  if (world.picture) await show(world.picture.replace(/(\.png)?$/, '-administrator.png'), administrator, 2, 1100);
  await administrator.append(' Yes.');
  await user.append(' And bread.');
  await user.has('Tea at four. Milk? And bread.');
  const second = world.run(2, port, 2);
  for (const it of sheets) await it.has('Tea at four. Milk? Yes.');
  await user.says('undone', /^User 1: 11 letters written \(“ And bread\.”\)\. The rule says: /);
  await user.append('No');
  await user.says('status', /^You may not do this here\. The rule says: /);
  if (world.picture) await show(world.picture, user, 4, 870);
  for (const it of sheets) await it.press('#unlink');
  assert.equal(await second.ended, 0);
  assert.match(second.report, /\nshow Tea at four\. Milk\? Yes\.\nheld 0\n/);
  for (const it of sheets) {
    await it.load(it.address());
    await it.has('Tea at four. Milk? Yes.');
  }
}

// Keeps a page as a picture, with so many lines of text.
async function show(file, sheet, rows, height) {
  await sheet.page.value(`text.rows = ${rows}`);
  await sheet.page.resize({ width: 720, height });
  await sheet.page.value('scrollTo(0, 0)');
  writeFileSync(file, await sheet.page.picture());
}

// Runs the tries that are asked for, one after another on the same two pages.
async function runAll(world) {
  const chosen = option('--only')?.split(',') ?? Object.keys(tries);
  world.profile = await world.browser.profile();
  const sheets = await pair(world);
  let failed = 0;
  for (const name of chosen) {
    try {
      await tries[name](sheets, world);
    } catch (error) {
      failed++;
      console.log(`page: in the browser: ${name}: ${error.stack}`);
    }
  }
  for (const it of Object.values(sheets)) await it.close();
  if (!failed) console.log(`page: ${chosen.length} tries in Chromium${world.program ? '' : ', none over a link, since there is no program here'}`);
  return failed ? 1 : 0;
}

// The browser, the folder that it shows, and the programs that it talks to.
async function opened(server) {
  const programs = [];
  const path = option('--program');
  return {
    browser: new Browser(process.argv[2]),
    address: `http://localhost:${server.address().port}/`,
    folder: mkdtempSync(join(tmpdir(), 'page-files-')),
    picture: option('--picture'),
    program: path,
    programs,
    run(...words) {
      programs.push(new Program(path, ...words));
      return programs.at(-1);
    },
  };
}

async function main() {
  for (const it of ['SIGTERM', 'SIGINT']) process.once(it, () => process.exit(1));
  const world = await opened(await serveFolder());
  process.once('exit', () => world.programs.forEach((it) => it.stop()));
  const isSpeed = process.argv.includes('--speed');
  const late = pause(isSpeed ? 3 * WHOLE_MS : WHOLE_MS).then(() => null);
  let status = 1;
  try {
    status = await Promise.race([isSpeed ? measure(world) : runAll(world), late]);
    if (status === null) console.log(`page: the tries in the browser take more than ${WHOLE_MS / 1000} s`);
  } catch (error) {
    console.log(`page: in the browser: ${error.stack}`);
  } finally {
    await world.browser.close();
    rmSync(world.folder, { recursive: true, force: true });
  }
  process.exit(status ?? 1);
}

await main();
