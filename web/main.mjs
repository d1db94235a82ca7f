// Opens the page, in a browser that can show it: that of a document, or that of the house of documents. Whose it is the browser's device says,
// which an invitation makes.
import { Copy } from './copy.mjs';
import { deviceAt, join, keepDevice } from './device.mjs';
import { directory } from './directory.mjs';
import { hide, of, say } from './elements.mjs';
import { become, Formers, waysBack } from './former.mjs';
import { askDocument, wholeDocument } from './first.mjs';
import { Held, hold } from './holding.mjs';
import { House } from './house.mjs';
import { Kept } from './left.mjs';
import { browserOf } from './needs.mjs';
import { damaged, NotOpen, tellNotOpen } from './opening.mjs';
import { Page } from './page.mjs';
import { Module, NoJournal, NoMemory } from './peer.mjs';
import { documentPath, linkAddress, placeOf } from './places.mjs';
import { Store } from './store.mjs';
import { notOpened } from './told.mjs';

/**
 * @typedef {import('./device.mjs').Device} Device
 * @typedef {{ base: string, document: string }} Spot a document of a house
 */

const OTHER_NAMES = ['127.0.0.1', '[::1]'];
const UNREAD = '0'.repeat(32); // the identity of a document whose host can't read it
const ELSEWHERE = 'roastcliff elsewhere'; // by which a page that is loaded again knows that another one goes on

const UNINVITED = 'Open the address of your invitation. An owner of the documents gives it to you.';
const FRAMED = 'This page is shown within another one, which could have you press what you do not see. Open it by itself.';
const GOES_ON = 'You opened this document in another page of this browser, and it goes on there. All that you wrote here is kept.';
const OPEN_ALREADY = 'Another page of this browser has this document open, and does not let it go. Go on there, or close it first.';
const NONE_HERE = 'This team has no document of this name.';
const ARCHIVED = 'This document was archived by an owner. What this browser has of it stays here: export the text to keep it.';

/** @param {Error} error */
function tell(error) {
  say('status', error instanceof NoMemory ? 'This browser gave the page too little memory. Look whether what you did last is there, and load the page again.' : error.message);
}

async function load() {
  const response = await fetch('editor.wasm');
  if (!response.ok) throw new Error('The server has no editor for this page. Tell whoever runs it that editor.wasm is missing.');
  try {
    return await Module.load(await response.arrayBuffer());
  } catch (error) {
    throw new Error(`This browser cannot run the editor, though it says that it can. Tell whoever runs the server. (${error.message})`);
  }
}

// ---- whose page it is

// Keeps all that this page has, as it is about to begin anew; gives whether that was done.
async function leave() {
  /** @type {Page | undefined} */
  const page = Reflect.get(globalThis, 'page');
  return page ? page.leave() : true;
}

/**
 * This browser's device at a house, made of an invitation where it has none.
 *
 * @param {import('./places.mjs').Place} place
 * @returns {Promise<Device>}
 */
async function deviceFor({ base, document, secret }) {
  const known = deviceAt(base);
  if (!secret && !known) throw new NotOpen(UNINVITED);
  const made = () => join(linkAddress(location, base, document), secret ?? '');
  if (known) {
    if (secret) offerInvitation(async () => become(base, await made(), leave));
    return known;
  }
  const device = await made();
  keepDevice(base, device);
  return device;
}

/**
 * A browser that takes part already goes on as before. An invitation would make it somebody else's device, or another one of its person: that is
 * told first.
 *
 * @param {() => Promise<unknown>} use
 */
function offerInvitation(use) {
  hide('invited-here', false);
  of('leave-invitation').addEventListener('click', () => hide('invited-here', true));
  of('use-invitation').addEventListener('click', () => use().catch(tell));
}

/**
 * Tells why the page isn't open. A browser that can't open it as who it is may be again who it was.
 *
 * @param {Error} error
 */
const notOpen = (error) => tellNotOpen(error, waysBack(placeOf(location).base));

// ---- a document

/** @param {Spot} spot */
const keyOf = ({ base, document }) => `${base} ${document}`;

/**
 * @param {string} identity
 * @param {Device} device
 */
const storeOf = (identity, { site }) => Store.open(`document ${identity} device ${site}`);

/**
 * What this browser has of a document: its identity, its store, and the frames of its journal. Where it has nothing all is asked for of the
 * host. Where this device wrote before what this browser has lost, that is marked.
 *
 * @param {Spot} spot
 * @param {Device} device
 */
async function kept(spot, device) {
  const known = localStorage.getItem(`roastcliff identity ${keyOf(spot)}`);
  const store = known ? await storeOf(known, device) : null;
  const bytes = (await store?.read()) ?? new Uint8Array(0);
  if (known && store && bytes.length) return { identity: known, store, bytes };
  const tellCount = (count, saved) => say('standing', saved > 1000 && saved < Infinity ? `Opening… ${Math.floor((100 * count) / saved)} %` : 'Opening…');
  const whole = await wholeDocument(linkAddress(location, spot.base, spot.document), device, tellCount).catch((error) => tellWhy(spot, device, error));
  localStorage.setItem(`roastcliff identity ${keyOf(spot)}`, whole.identity);
  return storedWhole(whole, device);
}

/**
 * Keeps all that the host has of a document in this browser, unless it is there.
 *
 * @param {import('./first.mjs').Whole} whole
 * @param {Device} device
 */
async function storedWhole(whole, device) {
  const store = await storeOf(whole.identity, device);
  const old = await store.read();
  if (old.length) return { identity: whole.identity, store, bytes: old }; // it had another name
  await store.append(whole.bytes, { from: whole.count, back: whole.own });
  if (whole.own) await store.mark();
  return { identity: whole.identity, store, bytes: whole.bytes };
}

// What was written in documents of this name that were renewed, and that their host didn't take.
const leftOf = (/** @type {Spot} */ spot) => new Kept(localStorage, `roastcliff left ${keyOf(spot)}`);

/**
 * Opens the document that took the place of one of an identity. What stays of that is kept first.
 *
 * @param {Spot} spot
 * @param {Device} device
 * @param {string} identity
 * @param {import('./left.mjs').Left[]} left
 */
async function openRenewed(spot, device, identity, left) {
  const whole = await wholeDocument(linkAddress(location, spot.base, spot.document), device, () => {});
  await storedWhole(whole, device);
  leftOf(spot).put(identity, left);
  localStorage.setItem(`roastcliff identity ${keyOf(spot)}`, whole.identity);
  location.reload();
}

/**
 * @param {Module} module
 * @param {Device} device
 * @param {{ store: Store, bytes: Uint8Array }} had
 * @param {string} name
 */
async function copyOf(module, device, { store, bytes }, name) {
  try {
    const copy = new Copy(module, device.site, bytes);
    copy.isStale = await store.isMarked();
    return copy;
  } catch (error) {
    throw error instanceof NoJournal ? damaged(store, bytes, name) : error;
  }
}

/**
 * Says why a document can't be had, as far as the house tells it.
 *
 * @param {Spot} spot
 * @param {Device} device
 * @param {Error} error
 * @returns {Promise<never>}
 */
async function tellWhy(spot, device, error) {
  const line = await askDocument(linkAddress(location, spot.base, null), device, ({ name }) => name === spot.document);
  const words = line ? notOpened(line.state, false) : line === undefined ? NONE_HERE : '';
  throw words ? new NotOpen(words, [{ word: 'All documents', act: () => location.assign(spot.base) }]) : error;
}

/**
 * Goes to the document of an identity, where that has another name; else gives what there is to say of it, and whether it is gone for good.
 *
 * @param {Spot} spot
 * @param {Device} device
 * @param {string} identity
 */
async function seek(spot, device, identity) {
  const isIt = (it) => it.identity === identity || (it.identity === UNREAD && it.name === spot.document);
  const line = await askDocument(linkAddress(location, spot.base, null), device, isIt);
  if (line === undefined) return { words: ARCHIVED, isOver: true };
  if (line === null || line.name === spot.document) return { words: line ? notOpened(line.state, true) : '', isOver: false };
  localStorage.setItem(`roastcliff identity ${keyOf({ ...spot, document: line.name })}`, identity);
  localStorage.removeItem(`roastcliff identity ${keyOf(spot)}`);
  location.replace(documentPath(spot.base, line.name));
  return { words: '', isOver: false };
}

/**
 * @param {Spot} spot
 * @param {Device} device
 */
async function openDocument(spot, device) {
  const module = await load();
  const had = await kept(spot, device);
  const copy = await copyOf(module, device, had, spot.document);
  const key = `${had.identity} ${device.site}`;
  directory.take({ kind: 'people', ...JSON.parse(localStorage.getItem(`roastcliff people ${key}`) ?? '{"people":[],"devices":[]}') });
  const address = linkAddress(location, spot.base, spot.document);
  const at = { document: spot.document, identity: had.identity, address, device, key };
  const ways = {
    seek: () => seek(spot, device, had.identity),
    renewed: (left) => openRenewed(spot, device, had.identity, left),
    kept: leftOf(spot),
    formers: new Formers(spot.base, leave),
  };
  const page = new Page(copy, had.store, await had.store.marks(), at, ways);
  Object.assign(globalThis, { page }); // for who tries it by a script
}

// Opens this page anew.
const again = () => ({ word: 'Go on here', act: () => location.reload() });

// This page gives the document to a newer one: it keeps all that it has, and begins anew as one that knows of the other.
async function letGo() {
  if (!(await leave())) return;
  sessionStorage.setItem(ELSEWHERE, 'yes');
  location.reload();
}

/**
 * Opens a document, which other pages of this browser let go then.
 *
 * @param {Spot} spot
 * @param {Device} device
 */
async function openAlone(spot, device) {
  const isElsewhere = sessionStorage.getItem(ELSEWHERE) !== null;
  sessionStorage.removeItem(ELSEWHERE);
  if (isElsewhere) throw new NotOpen(GOES_ON, [again()]);
  try {
    await hold(`roastcliff document ${keyOf(spot)}`, () => openDocument(spot, device).catch(notOpen), letGo);
  } catch (error) {
    throw error instanceof Held ? new NotOpen(OPEN_ALREADY, [again()]) : error;
  }
}

// ---- the page

// Who tries without a host gets the page for that.
function goesAlone() {
  const isAlone = new URLSearchParams(location.search).has('site');
  if (isAlone) location.replace(`alone/${location.search}`);
  return isAlone;
}

// A browser takes other names of this machine for other origins, each with devices and stores of its own. So the page goes to one of them.
function goesToLocalhost() {
  if (!OTHER_NAMES.includes(location.hostname)) return false;
  const address = new URL(location.href);
  address.hostname = 'localhost';
  location.replace(address);
  return true;
}

/**
 * Opens the house; who was just invited goes on to its document, where there is one alone.
 *
 * @param {string} base
 * @param {Device} device
 * @param {boolean} isNew
 */
function openHouse(base, device, isNew) {
  const house = new House(base, linkAddress(location, base, null), device, new Formers(base, leave));
  Object.assign(globalThis, { house });
  if (isNew) house.documents.goToOnly();
}

// What is built as Safari is sets the caret elsewhere where a line isn't laid out yet, so there all lines are.
function laysAll() {
  const { kind } = browserOf(navigator);
  document.documentElement.classList.toggle('lays-all', kind === 'safari' || kind === 'touch');
}

async function start() {
  if (top !== self) throw new NotOpen(FRAMED);
  if (goesAlone() || goesToLocalhost()) return;
  laysAll();
  const place = placeOf(location);
  const { base, document: name } = place;
  if (location.hash) history.replaceState(null, '', location.pathname);
  const home = of('home', HTMLAnchorElement);
  const isNew = !deviceAt(base);
  const device = await deviceFor(place);
  if (name === null) return openHouse(base, device, isNew);
  home.href = base;
  home.title = 'All documents';
  say('title', name);
  document.title = `${name} – Roastcliff`;
  await openAlone({ base, document: name }, device);
}

// An invitation that is opened where the page is already changes the end of its address alone.
addEventListener('hashchange', () => location.reload());
addEventListener('error', (event) => tell(event.error ?? new Error(event.message)));
addEventListener('unhandledrejection', ({ reason }) => tell(reason instanceof Error ? reason : new Error(String(reason))));
start().catch(notOpen);
