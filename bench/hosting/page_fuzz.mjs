// Two or three people press keys at random in one document at a running host, each now and then without a link or with the page loaded anew,
// while the owner takes rights away and gives them back, and protects paragraphs. The module of all but the owner has a memory of 32 bits. In
// the end all pages show the same, each what its peer has, and the host has that too. Outside the suite.
//
//   node bench/hosting/page_fuzz.mjs CHROMIUM HOST [--seeds FIRST-LAST] [--rounds N] [--side-by-side N] [--ended FILE]
//
// HOST is the built program of a host. Each seed is a team at a host of its own: of two where it is even, else of three. FILE has a line for each
// seed that ended; who calls it again goes on behind these.
import assert from 'node:assert/strict';
import { appendFileSync, existsSync, readFileSync } from 'node:fs';
import { Browser, pause } from '../../.ci/devtools.mjs';
import { Host, until } from '../../.ci/running_host.mjs';
import { act, Dice, endQuestion, order } from './random_keys.mjs';

const SIZE = { width: 900, height: 700 };
const SETTLE_MS = 700;
const ORDER_IN = 6; // rounds
const RESTART_IN = 60;
const NAMES = ['Bea', 'Cy'];
const PATIENCE_MS = 240000; // beside other work
const NARROW = 'WebAssembly.validate = () => false'; // as in a browser that knows no memory of 64 bits

function option(name, usual) {
  const at = process.argv.indexOf(name);
  return at < 0 ? usual : process.argv[at + 1];
}

const ROUNDS = Number(option('--rounds', 60));
const standing = (page) => page.value(`document.getElementById('standing')?.textContent`);

const saved = (page) => until(async () => `it is saved: ${await page.value('document.body.innerText.slice(0, 400)')} ${page.faults.slice(0, 3).join(' // ')}`, async () => (await standing(page)) === 'Saved', PATIENCE_MS);

async function open(browser, address, before = '') {
  const page = await browser.page('about:blank', await browser.profile(), SIZE);
  if (before) await page.before(before);
  await page.go(address);
  await saved(page);
  await page.value('document.getElementById("text").focus(), null');
  return page;
}

async function invite(browser, ada, name) {
  const address = `document.getElementById('invited-address').value`;
  const before = await ada.value(address);
  await ada.value(`document.getElementById('new-name').value = '${name}', document.querySelector('#new-person button').click(), null`);
  await until('there is an address', async () => (await ada.value(address)) !== before, PATIENCE_MS);
  return open(browser, await ada.value(address), NARROW);
}

// What a page shows, what its peer has, how long its journal is, and whether it knows the pieces and who wrote each.
const TOLD = `(() => {
  const { peer, pieces, journal } = page.copy;
  const text = new TextDecoder('utf-8', { ignoreBOM: true }).decode(peer.text());
  const writers = peer.writers();
  const users = pieces.users.slice(0, pieces.count).every((it, i) => it === writers[i]);
  return { shown: page.surface.read(), text, items: journal.count, isKnown: users && pieces.text === text && peer.count() === pieces.count };
})()`;

// A team of a seed at work.
class Team {
  constructor(browser, program, seed) {
    this.browser = browser;
    this.program = program;
    this.seed = seed;
    this.dice = new Dice(seed);
    this.trace = [];
  }

  async begin() {
    this.host = await Host.start(this.program, 'text');
    const ada = await open(this.browser, this.host.invitation);
    this.pages = [ada];
    for (const name of NAMES.slice(0, 1 + (this.seed % 2))) this.pages.push(await invite(this.browser, ada, name));
    this.dices = this.pages.map((_, i) => new Dice(1000 * this.seed + i));
    await ada.value('document.getElementById("text").focus(), null');
  }

  async play() {
    for (let round = 0; round < ROUNDS; round++) {
      const acts = await Promise.all(this.pages.map((it, i) => this.turn(it, i)));
      this.trace.push(acts.join(' | '));
      if (this.dice.draw(ORDER_IN) === 0) await pause(this.dice.draw(500));
      if (this.dice.draw(RESTART_IN) === 0) await this.restart();
      await Promise.all(this.pages.map((it) => this.look(it)));
    }
    return this.end();
  }

  // The owner orders something now and then; else each writes.
  turn(page, i) {
    const dice = this.dices[i];
    const orders = i === 0 && dice.draw(ORDER_IN) === 0;
    return orders ? order(page, dice, this.pages.length) : act(page, dice);
  }

  async restart() {
    this.trace.push('the host is killed');
    await this.host.stop();
    await pause(this.dice.draw(400));
    await this.host.run();
  }

  async look(page) {
    const [shown, held] = await page.value('[page.surface.read(), page.writer.view().text.replaceAll("\\r", "\\n")]');
    assert.equal(shown, held, `what the page of ${this.pages.indexOf(page)} shows; its faults: ${page.faults.join(' // ')}`);
  }

  async end() {
    for (const it of this.pages) await endQuestion(it, 'no');
    for (const it of this.pages) await it.value('page.writer.flush(), page.sync.line.dial = (it) => new WebSocket(it), page.sync.line.hurry(), null');
    for (let i = 0; i < 3; i++) {
      for (const it of this.pages) await saved(it);
      await pause(SETTLE_MS);
    }
    const told = await Promise.all(this.pages.map((it) => it.value(TOLD)));
    const [{ text, items }] = told;
    for (const it of told) assert.deepEqual(it, { shown: text.replaceAll('\r', '\n'), text, items, isKnown: true });
    assert.equal(await this.host.text(await this.pages[0].value('page.at.device')), text);
    assert.deepEqual(this.pages.flatMap(({ faults }) => faults), []);
    const undone = await this.pages[0].value('page.copy.undone.count');
    return `${this.pages.length} people alike, ${text.length} letters, ${items} messages, ${undone} undone`;
  }

  async close() {
    await Promise.all((this.pages ?? []).map((it) => it.close()));
    await this.host?.close();
  }
}

// Plays a seed, and tells how it ended.
async function ended(browser, program, seed) {
  const team = new Team(browser, program, seed);
  try {
    await team.begin();
    return `seed ${seed}: ${await team.play()}`;
  } catch (error) {
    console.log(`page_fuzz: seed ${seed}: ${error.stack}\n${team.trace.slice(-12).join('\n')}`);
    return `seed ${seed}: FAILED behind ${team.trace.length} rounds: ${error.message.split('\n')[0]}`;
  } finally {
    await team.close();
  }
}

async function main() {
  const [chromium, program] = process.argv.slice(2);
  const [first, last = first] = option('--seeds', '1').split('-').map(Number);
  const file = option('--ended', '');
  const before = file && existsSync(file) ? readFileSync(file, 'utf8').split('\n').filter(Boolean) : [];
  const known = new Set(before.map((it) => Number(/^seed (\d+):/.exec(it)?.[1])));
  const seeds = Array.from({ length: last - first + 1 }, (_, i) => first + i).filter((it) => !known.has(it));
  const browser = new Browser(chromium);
  const lines = before;
  const work = async () => {
    for (let seed = seeds.shift(); seed !== undefined; seed = seeds.shift()) {
      lines.push(await ended(browser, program, seed));
      console.log(`page_fuzz: ${lines.at(-1)}`);
      if (file) appendFileSync(file, `${lines.at(-1)}\n`);
    }
  };
  try {
    await Promise.all(Array.from({ length: Number(option('--side-by-side', 1)) }, work));
  } finally {
    await browser.close();
  }
  const failed = lines.filter((it) => it.includes('FAILED'));
  console.log(`page_fuzz: ${lines.length} seeds ended, ${lines.length - failed.length} of them alike`);
  process.exit(failed.length ? 1 : 0);
}

await main();
