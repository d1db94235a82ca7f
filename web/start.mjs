// What runs first. The rest of the page is read only by a browser that can show it; older ones may not even read it. Where a part of it didn't come,
// as from a server that has much to do, the page is loaded again.
import { whyNot } from './needs.mjs';

const UNREAD = 'The page could not be loaded whole. Look whether you are connected, and load it again. If that does not help, tell whoever runs the server.';
const LOADS = 'roastcliff loads'; // how often the page was loaded in vain
const MOST_LOADS = 3;
const WAIT_MS = 500;

/**
 * @param {string} id
 * @param {string} text
 */
function say(id, text) {
  const it = document.getElementById(id);
  if (it) it.textContent = text;
}

/** @param {string} words */
function tell(words) {
  const [standing, opening] = ['standing', 'opening'].map((it) => document.getElementById(it));
  if (standing) standing.setAttribute('data-kind', 'bad');
  if (opening) opening.hidden = false;
  say('standing', 'Not open');
  say('opening-words', words);
}

/** @param {Error} error */
function loadAgain(error) {
  const count = Number(sessionStorage.getItem(LOADS) || 0) + 1;
  sessionStorage.setItem(LOADS, String(count));
  if (count > MOST_LOADS) tell(`${UNREAD} (${error.message})`);
  else setTimeout(() => location.reload(), WAIT_MS * count);
}

const words = whyNot();
if (words) tell(words);
else import('./main.mjs').then(() => sessionStorage.removeItem(LOADS), loadAgain);
