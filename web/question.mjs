// The page's questions in front of an order: whether rules are to change, and what something is to be called. Where there is no link nothing
// can be ordered, so that is told, and nothing asked.
import { MOST_NAME } from './directory.mjs';
import { hide, of, say } from './elements.mjs';
import { NotDone, OFFLINE } from './orders.mjs';
import { notDone } from './told.mjs';

/**
 * Whether something can be ordered now; where not, that is told.
 *
 * @param {import('./orders.mjs').Orders} orders
 */
function canOrder({ isLinked }) {
  if (!isLinked) say('status', notDone(OFFLINE));
  return isLinked;
}

/**
 * Orders something, and says why where it wasn't done. Gives the lines of the answer, or null.
 *
 * @param {import('./orders.mjs').Orders} orders
 * @param {string} line
 */
export async function order(orders, line) {
  try {
    return await orders.ask(line);
  } catch (error) {
    if (!(error instanceof NotDone)) throw error;
    say('status', notDone(error.words));
    return null;
  }
}

/**
 * Shows a dialog; gives the value of the button by which it was closed, which is '' where it was left.
 *
 * @param {string} id
 * @returns {Promise<string>}
 */
async function shown(id) {
  const dialog = of(id, HTMLDialogElement);
  dialog.returnValue = '';
  dialog.showModal();
  await new Promise((done) => dialog.addEventListener('close', done, { once: true }));
  return dialog.returnValue;
}

/**
 * Asks whether something is to be ordered, which would undo something; gives `yes`, `keep`, or another word where it isn't.
 *
 * @param {import('./orders.mjs').Orders} orders
 * @param {{ title: string, undone: string, more?: string, yes: string, keep?: string | null }} question
 */
export async function ask(orders, { title, undone, more = '', yes, keep = null }) {
  if (!canOrder(orders)) return '';
  say('question-title', title);
  say('question-undone', undone);
  say('question-more', more);
  say('question-yes', yes);
  say('question-keep', keep ?? '');
  hide('question-keep', keep === null);
  return shown('question');
}

/**
 * Asks for words of an order; gives them, or '' where there are none.
 *
 * @param {import('./orders.mjs').Orders} orders
 * @param {string} title
 * @param {string} words that stand there
 * @param {string} yes
 * @param {number} [most] so many letters there may be
 */
export async function askWords(orders, title, words, yes, most = MOST_NAME) {
  if (!canOrder(orders)) return '';
  say('wording-yes', yes);
  const label = document.querySelector('#wording-title label');
  if (label) label.textContent = title;
  const input = of('wording-words', HTMLInputElement);
  input.maxLength = most;
  input.value = words;
  input.select();
  return (await shown('wording')) === 'yes' ? input.value.trim() : '';
}
