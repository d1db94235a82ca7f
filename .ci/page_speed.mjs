// What the page costs in a browser: a key, a frame that comes, and coming back, with texts of so many letters.
import { pause } from './devtools.mjs';

const KEYS = 100;
const FRAMES = 100;
const SMALL = 10000;
const LARGE = 100000;
const PATIENCE_MS = 120000;

// Puts a text of so many letters, each a piece that user 1 wrote, into the store of site 0, and keeps its bytes in the page.
function filled(count) {
  return `globalThis.isFilled = false; (async () => {
    const { Module } = await import('../peer.mjs');
    const { Copy } = await import('../copy.mjs');
    const { Store } = await import('../store.mjs');
    const module = async () => Module.load(await (await fetch('../editor.wasm')).arrayBuffer());
    const rules = new Copy(await module(), 0);
    ['admin adduser 1', 'admin addauth 0 + 1 idu 0'].forEach((it) => rules.step(it));
    const copy = new Copy(await module(), 1, rules.journal.slice(0, rules.journal.count));
    for (let i = 0; i < ${count}; i++) copy.peer.step('edit insert ' + i + ' ' + (i % 60 === 59 ? '\\\\n' : 'x'));
    copy.takeIn('');
    const store = await Store.open('site 0');
    await store.clear();
    await store.append(copy.journal.slice(0, copy.journal.count));
    globalThis.isFilled = true;
  })(), null`;
}

// Notes when the page is back.
const NOTE = `addEventListener('DOMContentLoaded', () => {
  const status = document.getElementById('status');
  new MutationObserver(() => (globalThis.back ??= status.textContent.startsWith('This page is back') ? performance.now() : null)).observe(status, { childList: true });
});`;

// Notes how long a key takes until its answer is there, which is what listeners behind the page's see.
const KEY = `globalThis.took = []; (() => {
  let pressed = 0;
  addEventListener('keydown', () => (pressed = performance.now()), true);
  text.addEventListener('input', () => took.push(performance.now() - pressed));
})()`;

// Notes how long each call of a function of the editor takes.
function noted(name) {
  return `import('./editor.mjs').then(({ Editor }) => {
    const calls = (globalThis.${name} = []);
    const old = Editor.prototype.${name};
    Editor.prototype.${name} = function (...words) {
      const before = performance.now();
      old.call(this, ...words);
      calls.push(performance.now() - before);
    };
  })`;
}

// Writes letters in another copy of the page's journal, and posts each as another page does.
const COMES = `globalThis.isSent = false; (async () => {
  const { Module } = await import('../peer.mjs');
  const { Copy } = await import('../copy.mjs');
  const { Store } = await import('../store.mjs');
  const bytes = await (await Store.open('site 0')).read();
  const copy = new Copy(await Module.load(await (await fetch('../editor.wasm')).arrayBuffer()), 1, bytes);
  const channel = new BroadcastChannel('roastcliff');
  for (let i = 0; i < ${FRAMES}; i++) {
    copy.insert((i * 7919) % copy.pieces.count, 'y');
    channel.postMessage(copy.journal.at(copy.journal.count - 1));
    await new Promise((done) => setTimeout(done, 40));
  }
  globalThis.isSent = true;
})(), null`;

function middle(all) {
  const sorted = all.toSorted((a, b) => a - b);
  const at = (share) => sorted[Math.min(sorted.length - 1, Math.floor(share * sorted.length))].toFixed(2);
  return `${at(0.5)} ms in the middle, ${at(0.95)} ms of 95 in 100, ${sorted.length} times`;
}

// How many bytes the memories of modules have in a page.
async function memories(page) {
  const { result } = await page.call('Runtime.evaluate', { expression: 'WebAssembly.Memory.prototype' });
  const { objects } = await page.call('Runtime.queryObjects', { prototypeObjectId: result.objectId });
  const functionDeclaration = 'function () { return this.reduce((sum, it) => sum + it.buffer.byteLength, 0); }';
  return (await page.call('Runtime.callFunctionOn', { objectId: objects.objectId, functionDeclaration, returnByValue: true })).result.value;
}

// What an expression gives as soon as it gives something.
async function given(page, expression) {
  let value = null;
  for (let waited = 0; !value && waited < PATIENCE_MS; waited += 100) {
    await pause(100);
    value = await page.value(expression);
  }
  return value;
}

async function open(page, count) {
  await page.value(filled(count));
  await given(page, 'globalThis.isFilled');
  await page.reload();
  const back = await given(page, 'globalThis.back');
  await page.call('HeapProfiler.collectGarbage');
  const heap = (await page.call('Runtime.getHeapUsage')).usedSize;
  console.log(`${count} letters: back ${Math.round(back)} ms after the page was asked for; ${(await memories(page)) / 1e6} MB of the module, ${(heap / 1e6).toFixed(1)} MB of JavaScript`);
}

async function keys(page, count) {
  await page.value(KEY);
  await page.value(noted('typed'));
  await page.value('text.focus(), text.setSelectionRange(5000, 5000)');
  for (let i = 0; i < KEYS; i++) {
    await page.key('z');
    await pause(20);
  }
  console.log(`${count} letters: a key to its answer ${middle(await page.value('took'))}; of that the page ${middle(await page.value('typed'))}`);
}

async function frames(page, count) {
  await page.value(noted('drain'));
  await page.value(COMES);
  await given(page, 'globalThis.isSent');
  await pause(500);
  console.log(`${count} letters: a frame into the text area ${middle(await page.value('drain'))}`);
}

export async function measure({ browser, address }) {
  const page = await browser.page(`${address}alone/?site=0`, await browser.profile(), { width: 900, height: 1000 });
  await page.before(NOTE);
  for (const count of [SMALL, LARGE]) {
    await open(page, count);
    await keys(page, count);
    await frames(page, count);
  }
  return 0;
}
