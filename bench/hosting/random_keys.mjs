// What somebody does at random in a page of a document: he writes, deletes, selects, composes, undoes, loses the link and loads the page anew; and
// what an owner orders at random. All of it follows from dice, but for the moments at which things come.
import { CONTROL, pause, SHIFT } from '../../.ci/devtools.mjs';
import { until } from '../../.ci/running_host.mjs';

const WORDS = ['tea', ' cup ', 'x', 'milk\n', 'é', ' and', '\n', '👍🏽', 'שלום '];
const PASTED = 'a line that is pasted 𝟝 \nand another\r\n\nwith marks <b> \u202e';
const MASK = (1n << 64n) - 1n;
const PATIENCE_MS = 240000; // beside other work

export class Dice {
  /** @param {number} seed */
  constructor(seed) {
    this.state = (BigInt(seed) + 88172645463325252n) & MASK;
    for (let i = 0; i < 9; i++) this.draw(2); // near seeds begin alike
  }

  /** @param {number} below */
  draw(below) {
    this.state ^= (this.state << 13n) & MASK;
    this.state ^= this.state >> 7n;
    this.state ^= (this.state << 17n) & MASK;
    return Number(this.state % BigInt(below));
  }

  /**
   * @template T
   * @param {T[]} row
   */
  one(row) {
    return row[this.draw(row.length)];
  }
}

// ---- what anybody does

// Selects some letters from a place on, none of them in halves.
async function selectSome(page, dice, most = 12) {
  const [from, count] = [dice.draw(100000), dice.draw(most)];
  await page.value(`{
    const letters = Array.from(page.writer.view().text);
    const from = ${from} % (letters.length + 1);
    const [start, end] = [from, from + ${count}].map((it) => letters.slice(0, it).join('').length);
    page.surface.select(start, end);
    null;
  }`);
}

async function compose(page, dice) {
  await page.call('Input.imeSetComposition', { text: 'ni', selectionStart: 2, selectionEnd: 2 });
  await pause(dice.draw(60));
  await page.insert('你');
}

// The link is cut, or comes again.
function turnLink(page) {
  const again = 'page.sync.line.dial = (it) => new WebSocket(it), page.sync.line.hurry()';
  const cut = `page.sync.line.dial = () => new WebSocket('ws://localhost:1/'), page.sync.line.socket?.close()`;
  return page.value(`page.sync.line.dial.toString().includes('1/') ? (${again}) : (${cut}), null`);
}

// The page is loaded anew; it is open again when it shows a text, with a link or without.
async function reload(page) {
  await page.value('globalThis.isOld = true, null');
  await page.reload();
  await until(async () => `the page is back: ${await page.value('document.body.innerText.slice(0, 200)')}`, () => page.value('!globalThis.isOld && Boolean(globalThis.page) && !document.getElementById("sheet").hidden'), PATIENCE_MS);
  await page.value('document.getElementById("text").focus(), null');
}

// Words that aren't part of the text are let go.
async function letGo(page, dice) {
  const which = dice.draw(1000);
  await page.value(`{ const all = document.querySelectorAll('.ghost'), it = all[${which} % all.length]; if (it) it.click(), document.getElementById('note-go').click(); null }`);
  await page.value('document.getElementById("text").focus(), null');
}

const ACTS = [
  { name: 'type', weight: 18, act: (page, dice) => page.type(dice.one(WORDS)) },
  { name: 'go', weight: 4, act: (page, dice) => selectSome(page, dice, 1) },
  { name: 'backspace', weight: 4, act: (page) => page.key('Backspace') },
  { name: 'delete', weight: 2, act: (page) => page.key('Delete') },
  { name: 'word back', weight: 2, act: (page) => page.key('Backspace', CONTROL, ['deleteWordBackward']) },
  { name: 'cut', weight: 1, act: async (page, dice) => (await selectSome(page, dice), page.key('Backspace')) },
  { name: 'paste', weight: 1, act: async (page, dice) => (await selectSome(page, dice), page.insert(PASTED)) },
  { name: 'type over', weight: 2, act: async (page, dice) => (await selectSome(page, dice, 40), page.type(dice.one(WORDS))) },
  { name: 'undo', weight: 2, act: (page) => page.key('z', CONTROL) },
  { name: 'redo', weight: 2, act: (page) => page.key('z', CONTROL | SHIFT) },
  { name: 'compose', weight: 2, act: compose },
  { name: 'link', weight: 3, act: turnLink },
  { name: 'let go', weight: 1, act: letGo },
  { name: 'reload', weight: 1, act: reload },
];
const BAG = ACTS.flatMap((it) => Array.from({ length: it.weight }, () => it));

/**
 * Does something in a page; gives what.
 *
 * @param {import('../../.ci/devtools.mjs').Page} page
 * @param {Dice} dice
 */
export async function act(page, dice) {
  const it = dice.one(BAG);
  await it.act(page, dice);
  return it.name;
}

// ---- what an owner orders

/**
 * Answers the question of a page, if it asks one.
 *
 * @param {import('../../.ci/devtools.mjs').Page} page
 * @param {'yes' | 'keep' | 'no'} answer
 */
export async function endQuestion(page, answer) {
  await page.value(`{ const it = document.getElementById('question'); if (it.open) { const asked = document.getElementById('question-${answer}'); (asked.hidden ? document.getElementById('question-yes') : asked).click(); } null }`);
}

function call(dice, count) {
  const person = 1 + dice.draw(count);
  const others = Array.from({ length: count }, (_, i) => i + 1).filter(() => dice.draw(2));
  const kind = dice.draw(10);
  if (kind < 3) return `page.rules.allow(${person}, false)`;
  if (kind < 7) return `page.rules.allow(${person}, true)`;
  if (kind < 9) return `page.rules.protect([${others}])`;
  return `(page.copy.policy.authorizations.length > 1 && page.rules.remove(${dice.draw(1000)} % page.copy.policy.authorizations.length))`;
}

/**
 * Orders something at random as an owner of a house of so many people, and answers what the page asks; gives what.
 *
 * @param {import('../../.ci/devtools.mjs').Page} page
 * @param {Dice} dice
 * @param {number} count
 */
export async function order(page, dice, count) {
  const ordered = call(dice, count);
  const answer = dice.one(/** @type {const} */ (['yes', 'yes', 'keep', 'no']));
  await page.value('document.getElementById("text").focus(), null');
  await selectSome(page, dice, 1);
  await pause(30); // until the page knows where the caret is
  await page.value(`globalThis.isOrdering = true, Promise.resolve(${ordered}).finally(() => (globalThis.isOrdering = false)), null`);
  await endQuestion(page, answer);
  await until('the order is answered', () => page.value('!globalThis.isOrdering'), PATIENCE_MS);
  await page.value('document.getElementById("text").focus(), null');
  return `${ordered}: ${answer}`;
}
