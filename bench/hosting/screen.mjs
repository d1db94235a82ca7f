// Measures how long it takes from a key at one page to the screen of another, in headless Chromium at a running host. Outside the suite.
//
//   node bench/hosting/screen.mjs CHROMIUM HOST [ROUNDS]
//
// HOST is the built program of a host, and web/editor.wasm the module that the pages run. Two people have a document open. One of them types a
// letter and waits, 100 times if not told otherwise, and then as many words that are so long that a page sends them with their space. It prints
// the middle of all times, and what 99 of 100 are below, in milliseconds, and the load of the machine.
import { loadavg } from 'node:os';
import { Browser, pause } from '../../.ci/devtools.mjs';
import { Host, until } from '../../.ci/running_host.mjs';

const SIZE = { width: 1100, height: 800 };
const WORD = 9; // letters, with its space, which a page doesn't hold back
const BETWEEN_KEYS_MS = 40;
const BETWEEN_ROUNDS_MS = 150;

// Notes when the last key came, on the clock that all pages of the machine have.
const NOTE_KEYS = `globalThis.keyed = 0; addEventListener('keydown', ({ timeStamp }) => (keyed = performance.timeOrigin + timeStamp), true);
  document.getElementById('text').focus(), null`;

// Notes when the text had a length first, behind the frame that drew it.
const NOTE_SHOWN = `globalThis.shown = new Map(); (() => {
  const text = document.getElementById('text');
  new MutationObserver(() => {
    const { length } = page.surface.read();
    const { port1, port2 } = new MessageChannel();
    port1.onmessage = () => shown.has(length) || shown.set(length, performance.timeOrigin + performance.now());
    requestAnimationFrame(() => port2.postMessage(0));
  }).observe(text, { childList: true, characterData: true, subtree: true });
})(), null`;

const saved = (page) => until('it is saved', async () => (await page.value(`document.getElementById('standing')?.textContent`)) === 'Saved');

// The page of the owner, and that of somebody whom she invites.
async function open(browser, host) {
  const ada = await browser.page(host.invitation, await browser.profile(), SIZE);
  await saved(ada);
  await ada.value(`document.getElementById('new-name').value = 'Bea', document.querySelector('#new-person button').click(), null`);
  await until('there is an address', () => ada.value(`document.getElementById('invited-address').value`));
  const bea = await browser.page(await ada.value(`document.getElementById('invited-address').value`), await browser.profile(), SIZE);
  await saved(bea);
  return [ada, bea];
}

/**
 * The milliseconds from the last key of each round to the other's screen: of a letter alone, or of a word and its space.
 *
 * @param {number} rounds
 * @param {number} letters of a round
 */
async function measure(ada, bea, rounds, letters) {
  const times = [];
  for (let round = 0; round < rounds; round++) {
    const wanted = (await ada.value('page.surface.read().length')) + letters;
    for (let letter = 0; letter < letters; letter++) {
      await ada.key(letters > 1 && letter + 1 === letters ? 'Space' : 'k');
      if (letter + 1 < letters) await pause(BETWEEN_KEYS_MS);
    }
    await until('it shows', () => bea.value(`shown.has(${wanted})`));
    times.push((await bea.value(`shown.get(${wanted})`)) - (await ada.value('keyed')));
    await pause(BETWEEN_ROUNDS_MS);
  }
  const sorted = times.toSorted((a, b) => a - b);
  return [0.5, 0.99].map((share) => sorted[Math.floor(share * sorted.length)].toFixed(0)).join(', ');
}

const [chromium, program, rounds = '100'] = process.argv.slice(2);
const host = await Host.start(program, 'notes');
const browser = new Browser(chromium);
try {
  const [ada, bea] = await open(browser, host);
  await ada.value(NOTE_KEYS);
  await bea.value(NOTE_SHOWN);
  for (const letters of [1, WORD]) console.log(`${letters} letters: ${await measure(ada, bea, Number(rounds), letters)} ms (load ${loadavg()[0].toFixed(1)})`);
} finally {
  await browser.close();
  await host.close();
}
