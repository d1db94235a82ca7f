// Measures the page of a team with long texts, in headless Chromium at a running host: opening from nothing and again, a key, and what somebody
// else writes. Outside the suite.
//
//   node bench/hosting/long_texts.mjs CHROMIUM HOST [LETTERS ..]
//
// HOST is the built program of a host, and web/editor.wasm the module that the page runs. Without a number it is 10,000 and 100,000 letters. Each
// letter is a piece of its own, and each sixtieth a line end. It prints a table of Markdown, and the load of the machine.
import { loadavg } from 'node:os';
import { Browser, pause } from '../../.ci/devtools.mjs';
import { Host, until } from '../../.ci/running_host.mjs';

const SIZE = { width: 1100, height: 800 };
const USUAL = [10000, 100000];
const AT_ONCE = 4000; // pieces that are written before the host has them
const KEYS = 120;
const WORD = 'stone'; // no letter of it twice in a row: behind such a one the browser has its caret in place by itself
const PAUSE_MS = 60;
const PATIENCE_MS = 300000;

// Notes when a page shows its text, and when it says that it is saved.
const NOTE_OPENING = `globalThis.opened = {};
  addEventListener('DOMContentLoaded', () => {
    const note = (name, it, holds) => new MutationObserver(() => holds() && (opened[name] ??= performance.now())).observe(it, { attributes: true, childList: true, characterData: true, subtree: true });
    const [sheet, standing] = ['sheet', 'standing'].map((it) => document.getElementById(it));
    note('shown', sheet, () => !sheet.hidden);
    note('saved', standing, () => standing.textContent === 'Saved');
  });`;

// Notes how long the page's listeners work on each key, and how long it takes to the screen.
const NOTE_KEYS = `globalThis.took = { own: [], screen: [], word: [] }; (() => {
  const text = document.getElementById('text');
  let [own, begun, isWord] = [0, 0, false];
  const from = (it, name) => it.addEventListener(name, () => (begun = performance.now()), true);
  const to = (it, name) => it.addEventListener(name, () => (own += performance.now() - begun));
  addEventListener('keydown', (event) => {
    [own, begun, isWord] = [0, performance.now(), event.key === ' '];
    const { timeStamp } = event;
    const channel = new MessageChannel();
    channel.port1.onmessage = () => { took.screen.push(performance.now() - timeStamp), (isWord ? took.word : took.own).push(own); };
    requestAnimationFrame(() => channel.port2.postMessage(0));
  }, true);
  to(window, 'keydown');
  from(window, 'beforeinput');
  to(window, 'beforeinput');
  from(window, 'selectionchange');
  to(document, 'selectionchange');
  text.focus();
})(), null`;

// Notes how long the page works on each burst of frames that comes.
const NOTE_FRAMES = `globalThis.frames = []; (() => {
  const { editor } = page;
  const old = editor.drain;
  editor.drain = () => { const before = performance.now(); old.call(editor); frames.push(performance.now() - before); };
})(), null`;

const saved = (page) => until(async () => `it is saved: ${await page.value('document.body.innerText.slice(0, 200)')}`, async () => (await page.value(`document.getElementById('standing')?.textContent`)) === 'Saved', PATIENCE_MS);

function middle(row) {
  const sorted = row.toSorted((a, b) => a - b);
  const at = (share) => sorted[Math.min(sorted.length - 1, Math.floor(share * sorted.length))];
  return `${at(0.5).toFixed(1)}, ${at(0.95).toFixed(1)}`;
}

// What the page's thread takes of the processor while something is done so many times, each time in milliseconds: scripts, layout and styles, all.
async function processor(page, times, action) {
  await page.call('Performance.enable', { timeDomain: 'threadTicks' });
  const now = async () => Object.fromEntries((await page.call('Performance.getMetrics')).metrics.map(({ name, value }) => [name, value]));
  const before = await now();
  await action();
  const after = await now();
  const took = (...names) => ((1000 * names.reduce((sum, it) => sum + after[it] - before[it], 0)) / times).toFixed(1);
  return [took('ScriptDuration'), took('LayoutDuration', 'RecalcStyleDuration'), took('TaskDuration')].join(', ');
}

const seconds = (ms) => (ms / 1000).toFixed(2);

// Writes so many letters, each a piece.
async function fill(page, letters) {
  for (let from = 0; from < letters; from += AT_ONCE) {
    const to = Math.min(letters, from + AT_ONCE);
    await page.value(`{
      for (let i = ${from}; i < ${to}; i++) page.copy.peer.step('edit insert ' + i + ' ' + (i % 60 === 59 ? '\\\\n' : 'x'));
      page.copy.takeIn({ code: 0, answer: '', rows: [] });
      page.copy.forgetPieces();
      page.editor.show();
      page.changed();
      page.tell();
      null;
    }`);
    await saved(page);
  }
}

// Invites somebody, and opens the document in another profile, with nothing of it; then once more.
async function open(browser, ada) {
  await ada.value(`document.getElementById('new-name').value = 'Bea', document.querySelector('#new-person button').click(), null`);
  await until('there is an address', () => ada.value(`document.getElementById('invited-address').value`));
  const bea = await browser.page('about:blank', await browser.profile(), SIZE);
  await bea.before(NOTE_OPENING);
  await bea.go(await ada.value(`document.getElementById('invited-address').value`));
  await saved(bea);
  const first = await bea.value('opened');
  await bea.call('HeapProfiler.collectGarbage');
  const heap = (await bea.call('Runtime.getHeapUsage')).usedSize;
  const module = await bea.value('page.copy.peer.module.exports.memory.buffer.byteLength');
  await bea.reload();
  await pause(200);
  await saved(bea);
  const again = await bea.value('opened');
  return { bea, rows: [
    ['opened from nothing: until the text shows, until it is saved, s', `${seconds(first.shown)}, ${seconds(first.saved)}`],
    ['opened again, from the browser’s store, s', `${seconds(again.shown)}, ${seconds(again.saved)}`],
    ['memory of the module, and of JavaScript, MB', `${(module / 1e6).toFixed(0)}, ${(heap / 1e6).toFixed(0)}`],
  ] };
}

async function keys(bea, letters) {
  await bea.value(NOTE_KEYS);
  await bea.value(`page.surface.select(${letters >> 1}), document.getSelection().focusNode.parentElement.scrollIntoView({ block: 'center' }), null`);
  await pause(500);
  const took = await processor(bea, KEYS, async () => {
    for (let i = 0; i < KEYS; i++) {
      await bea.key(WORD[i % (WORD.length + 1)] ?? 'Space');
      await pause(PAUSE_MS);
    }
  });
  await saved(bea);
  const { own, word, screen } = await bea.value('took');
  return [
    ['of the processor for a key, ms: scripts, layout and styles, all', took],
    ['a key’s own work, ms', middle(own)],
    ['that of a space, which may end a word, ms', middle(word)],
    ['from a key to the screen, ms', middle(screen)],
  ];
}

async function frames(ada, bea, letters) {
  await bea.value(NOTE_FRAMES);
  const took = await processor(bea, KEYS, async () => {
    for (let i = 0; i < KEYS; i++) {
      await ada.value(`page.editor.write(${Math.floor(letters / 3)}, ${Math.floor(letters / 3)}, 'word ', false), null`);
      await pause(PAUSE_MS);
    }
    await saved(bea);
  });
  return [
    ['what somebody else wrote, shown, ms', middle(await bea.value('frames'))],
    ['of the processor for it, ms: scripts, layout and styles, all', took],
  ];
}

async function measure(browser, program, letters) {
  const host = await Host.start(program, 'long');
  try {
    const ada = await browser.page(host.invitation, await browser.profile(), SIZE);
    await saved(ada);
    await fill(ada, letters);
    const { bea, rows } = await open(browser, ada);
    const asked = await ada.value(`(() => { const before = performance.now(); page.copy.wouldUndo(['addauth 0 - @2 idu 0']); return performance.now() - before; })()`);
    const all = [...rows, ...(await keys(bea, letters)), ...(await frames(ada, bea, letters)), ['what a rule would undo, asked of a second peer, ms', asked.toFixed(0)]];
    for (const it of [ada, bea]) await it.close();
    return all;
  } finally {
    await host.close();
  }
}

async function main() {
  const [chromium, program, ...counts] = process.argv.slice(2);
  const all = counts.length ? counts.map(Number) : USUAL;
  const browser = new Browser(chromium);
  const columns = [];
  try {
    for (const it of all) columns.push(await measure(browser, program, it));
  } finally {
    await browser.close();
  }
  console.log(`| | ${all.map((it) => `${it.toLocaleString('en')} letters`).join(' | ')} |\n|${'---|'.repeat(all.length + 1)}`);
  columns[0].forEach(([name], i) => console.log(`| ${name} | ${columns.map((it) => it[i][1]).join(' | ')} |`));
  console.log(`Load: ${loadavg().map((it) => it.toFixed(1)).join(', ')}. Of two figures of a time in milliseconds the first is that in the middle, the second that of 95 in 100.`);
}

await main();
