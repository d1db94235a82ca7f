// What the page needs of a browser, looked up before anything else is read or asked of a host, so that no invitation is used by a browser that
// can't show the page. This module is written as older browsers read it.

// The versions that have all of it. Older ones may lack other things than those that are looked up.
const FIRST = { chromium: 111, firefox: 140, safari: 18, touch: 18 };
const STILL_THERE = 'Nothing was asked of the server, and an invitation in the address can still be used.';
const INSECURE = 'Open this page from localhost or over https: elsewhere it cannot keep what you write, nor tell whether you have another page.';

/**
 * @typedef {{ what: string, isThere: () => boolean, remedy?: string }} Need what the browser can't do without it, and what to do where another
 * browser isn't the remedy
 * @typedef {'touch' | 'safari' | 'firefox' | 'chromium' | 'other'} Kind of a browser: `touch` is any on an iPhone or iPad
 * @typedef {{ kind: Kind, version: number }} Browser
 */

/** @type {Record<string, (version: number) => string>} */
const NAMES = {
  chromium: (version) => `Chrome ${version}, or built as that is`,
  firefox: (version) => `Firefox ${version}`,
  safari: (version) => `Safari ${version}`,
  touch: (version) => `a browser of iOS ${version}, where all are built as Safari is, whatever they are called`,
};

/** @type {Need[]} */
const NEEDS = [
  { what: 'run the program that decides what stands in the text (WebAssembly)', isThere: () => Boolean(self.WebAssembly && self.BigInt) },
  { what: 'colour words by who wrote them (highlights)', isThere: () => Boolean(self.CSS) && 'highlights' in CSS },
  { what: 'take a text without marks (plaintext-only)', isThere: canBePlain },
  { what: 'tell whether you have the document open twice (Web Locks)', isThere: () => 'locks' in navigator },
  {
    what: 'keep anything for this page (IndexedDB)',
    isThere: canKeep,
    remedy: 'If you told it to keep no cookies and no data, allow them for this address in its settings, and load the page again.',
  },
];

function canBePlain() {
  const it = document.createElement('div');
  it.setAttribute('contenteditable', 'plaintext-only');
  return it.contentEditable === 'plaintext-only';
}

// A browser that is told to keep nothing throws where it is asked for its store.
function canKeep() {
  try {
    return Boolean(self.indexedDB && self.localStorage && self.sessionStorage);
  } catch (_) {
    return false;
  }
}

/**
 * Which browser this is. All on an iPhone or iPad are built as Safari is there, whatever they are called; an iPad may say that it is a Mac.
 *
 * @param {{ userAgent: string, maxTouchPoints?: number }} navigator
 * @returns {Browser}
 */
export function browserOf({ userAgent, maxTouchPoints = 0 }) {
  /** @param {RegExp} pattern */
  const version = (pattern) => Number((pattern.exec(userAgent) || [])[1] || 0);
  if (/iPhone|iPad|iPod/.test(userAgent) || (/Macintosh/.test(userAgent) && maxTouchPoints > 1)) return { kind: 'touch', version: version(/OS (\d+)_/) };
  if (/Firefox\/\d/.test(userAgent)) return { kind: 'firefox', version: version(/Firefox\/(\d+)/) };
  if (/Chrom(e|ium)\/\d/.test(userAgent)) return { kind: 'chromium', version: version(/Chrom(?:e|ium)\/(\d+)/) };
  if (/Safari\//.test(userAgent)) return { kind: 'safari', version: version(/Version\/(\d+)/) };
  return { kind: 'other', version: 0 };
}

/**
 * What the person may do, whose browser lacks something.
 *
 * @param {Browser} browser
 */
export function whatToDo({ kind, version }) {
  if (kind === 'other') return `Open the address in Chrome, Edge or Chromium from version ${FIRST.chromium}, in Firefox from version ${FIRST.firefox}, or in Safari from version ${FIRST.safari}.`;
  if (version < FIRST[kind]) return `It is ${NAMES[kind](version)}, and from version ${FIRST[kind]} on it can: update it, and open the address again.`;
  return `It is new enough, so this may be turned off in its settings, or by whoever set up this computer. Turn it on, or open the address in another browser.`;
}

/**
 * What is told where a browser lacks something, with what to do; '' where it has all.
 *
 * @param {Need[]} [needs]
 * @param {{ userAgent: string, maxTouchPoints?: number }} [navigator]
 */
export function lacking(needs = NEEDS, navigator = self.navigator) {
  const missing = needs.filter(({ isThere }) => !isThere());
  if (!missing.length) return '';
  const whats = missing.map(({ what }) => what);
  const last = whats.length > 1 ? `${whats.slice(0, -1).join(', ')} or ${whats[whats.length - 1]}` : whats[0];
  const remedies = missing.map(({ remedy }) => remedy);
  const act = remedies.every((it) => it !== undefined) ? remedies.join(' ') : whatToDo(browserOf(navigator));
  return `This browser cannot show the page: it cannot ${last}. ${act} ${STILL_THERE}`;
}

// What is told where the page can't be shown; '' where it can. Browsers give much of it only where nobody can read along.
export function whyNot() {
  return self.isSecureContext ? lacking() : INSECURE;
}
