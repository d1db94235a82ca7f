// One page is one person's peer: `?site=3` is person 3, `?site=0` the administrator, `&link=7000` a port to dial at once.
import { Module, NoJournal, NoMemory } from '../peer.mjs';
import { Copy } from '../copy.mjs';
import { download, of, say } from '../elements.mjs';
import { MOST_SITES } from '../limits.mjs';
import { Page } from './page.mjs';
import { Store } from '../store.mjs';
import * as words from '../words.mjs';

const LAST_PORT = 65535;
const OTHER_NAMES = ['127.0.0.1', '[::1]'];
const LOCK_PATIENCE_MS = 4000; // a page that is loaded again waits for itself to be gone

const DAMAGED = 'What this browser kept for this person is no journal, so the page cannot come back from it. Nothing of it was changed.';
const FRAMED = 'This page is shown within another one, which could have you press what you do not see. Open it by itself.';
const SURE = 'Start over? What was kept is deleted. If others have what was written here, take another number instead: a fresh page gives old names to new edits.';

function numberIn(name, last) {
  const word = new URLSearchParams(location.search).get(name) ?? '';
  return /^(0|[1-9][0-9]{0,4})$/.test(word) && Number(word) <= last ? Number(word) : null;
}

async function load() {
  const response = await fetch('../editor.wasm');
  if (!response.ok) throw new Error('There is no editor.wasm here: web/build makes it.');
  try {
    return await Module.load(await response.arrayBuffer());
  } catch (error) {
    throw new Error(`This browser cannot run the editor: it needs WebAssembly. (${error.message})`);
  }
}

function tell(error) {
  say('status', error instanceof NoMemory ? 'Memory is wanting. What was asked for was not done, or it is not told.' : error.message);
}

// What was kept is no journal: the person decides.
function offer(store, bytes, site) {
  say('who', `This page is ${words.person(site)}. It is not open.`);
  say('status', DAMAGED);
  of('damaged').hidden = false;
  of('download-damaged').addEventListener('click', () => download(bytes, `site-${site}.damaged`));
  of('start-over').addEventListener('click', async () => {
    if (!confirm(SURE)) return;
    try {
      await store.clear();
      location.reload();
    } catch (error) {
      say('status', `It was not deleted: ${error.message}`);
    }
  });
}

// Opens the page, with what this browser kept of it.
async function open(site) {
  const module = await load();
  const store = await Store.open(`site ${site}`);
  const bytes = await store.read();
  let copy;
  try {
    copy = new Copy(module, site, bytes);
  } catch (error) {
    if (!(error instanceof NoJournal)) throw error;
    return offer(store, bytes, site);
  }
  copy.isStale = await store.isMarked();
  const page = new Page(copy, store);
  if (bytes.length && !copy.isStale) say('status', 'This page is back with what this browser kept.');
  const port = numberIn('link', LAST_PORT);
  if (!port) return;
  const address = of('address', HTMLInputElement);
  address.value = `ws://127.0.0.1:${port}/`;
  page.link.open(address.value);
}

// Runs an action while this browser has no other page of the site.
async function alone(site, action) {
  const signal = /** @type {any} */ (AbortSignal).timeout(LOCK_PATIENCE_MS);
  try {
    await navigator.locks.request(`roastcliff site ${site}`, { signal }, async () => {
      action().catch(fail);
      await new Promise(() => {}); // the lock is held as long as the page is there
    });
  } catch (error) {
    if (error !== signal.reason) throw error;
    throw new Error(`Another page of this browser is ${words.person(site)} already. Close it, or take another number.`);
  }
}

// A browser takes other names of this machine for other origins, each with pages and a store of its own, so that one person could
// have two pages. So the page goes to one of them.
function goesToLocalhost() {
  if (!OTHER_NAMES.includes(location.hostname)) return false;
  const address = new URL(location.href);
  address.hostname = 'localhost';
  location.replace(address);
  return true;
}

async function start() {
  if (top !== self) throw new Error(FRAMED);
  if (goesToLocalhost()) return;
  const site = numberIn('site', MOST_SITES - 1);
  if (site === null) throw new Error('Whose page is this? Put ?site=1 behind the address, with the number of a person; 0 is the administrator.');
  if (!navigator.locks) throw new Error('Open this page from localhost or over https: it cannot tell here whether the person has another page.');
  document.title = `Roastcliff: ${words.person(site)}`;
  await alone(site, () => open(site));
}

function fail(error) {
  say('who', 'The editor is not open.');
  tell(error);
}

addEventListener('error', (event) => tell(event.error ?? new Error(event.message)));
addEventListener('unhandledrejection', ({ reason }) => tell(reason instanceof Error ? reason : new Error(String(reason))));
start().catch(fail);
