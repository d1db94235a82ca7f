// Takes the picture of a team: a page of a host in headless Chromium, beside the screens of terminals. It does what lines on its input say, each
// in JSON, and answers each by a line:
//
//   {"open": ADDRESS}            opens a page
//   {"insert": TEXT}             writes at the end of its text
//   {"picture": FILE, "screens": [{"name", "text"} ..]}   TEXT is as tmux captures it, with colours
import { writeFileSync } from 'node:fs';
import { createInterface } from 'node:readline';
import { Browser, CONTROL, pause } from '../devtools.mjs';

const SIZE = { width: 760, height: 820 };
const COLOURS = ['#2e3436', '#cc0000', '#4e9a06', '#c4a000', '#3465a4', '#75507b', '#06989a', '#d3d7cf'];
const BRIGHT = ['#555753', '#ef2929', '#8ae234', '#fce94f', '#729fcf', '#ad7fa8', '#34e2e2', '#eeeeec'];

const escaped = (text) => text.replace(/[&<>]/g, (it) => ({ '&': '&amp;', '<': '&lt;', '>': '&gt;' })[it]);

/** The colour of a number of 256. */
function colourOf(number) {
  if (number < 8) return COLOURS[number];
  if (number < 16) return BRIGHT[number - 8];
  if (number > 231) return `rgb(${Array(3).fill(8 + 10 * (number - 232)).join()})`;
  const part = (it) => (it ? 55 + 40 * it : 0);
  const at = number - 16;
  return `rgb(${[part(Math.floor(at / 36)), part(Math.floor(at / 6) % 6), part(at % 6)].join()})`;
}

/** What a look becomes by the codes of a sequence. */
function lookBy(look, codes) {
  const [code, kind, number] = codes;
  if (code === 38 && kind === 5) return lookBy({ ...look, ink: colourOf(number) }, codes.slice(3));
  if (code === 48 && kind === 5) return lookBy({ ...look, paper: colourOf(number) }, codes.slice(3));
  if (code === undefined) return look;
  return lookBy(lookByOne(look, code), codes.slice(1));
}

function lookByOne(look, code) {
  if (code === 0) return {};
  if (code === 1) return { ...look, weight: 'bold' };
  if (code === 7) return { ...look, isTurned: true };
  if (code === 27) return { ...look, isTurned: false };
  if (code >= 30 && code < 38) return { ...look, ink: COLOURS[code - 30] };
  if (code >= 40 && code < 48) return { ...look, paper: COLOURS[code - 40] };
  if (code >= 90 && code < 98) return { ...look, ink: BRIGHT[code - 90] };
  if (code >= 100 && code < 108) return { ...look, paper: BRIGHT[code - 100] };
  if (code === 39) return { ...look, ink: undefined };
  return code === 49 ? { ...look, paper: undefined } : look;
}

function styleOf({ ink = '#222', paper = 'transparent', weight = 'normal', isTurned = false }) {
  const [front, back] = isTurned ? [paper === 'transparent' ? '#fff' : paper, ink] : [ink, paper];
  return `color:${front};background:${back};font-weight:${weight}`;
}

/** A captured screen as markup. */
function markupOf(screen) {
  let look = {};
  return screen.split(/\x1b\[([0-9;]*)m/).map((part, at) => {
    if (at % 2 === 0) return part && `<span style="${styleOf(look)}">${escaped(part)}</span>`;
    look = lookBy(look, part.split(';').map(Number));
    return '';
  }).join('');
}

const STYLE = `body { margin: 0; padding: 16px; display: flex; gap: 16px; font: 14px sans-serif; background: #dfe3e8; }
  figure { margin: 0 0 16px; } figcaption { padding: 0 0 6px; font-weight: bold; }
  img { display: block; width: ${SIZE.width}px; border: 1px solid #999; }
  pre { margin: 0; padding: 8px; background: #fdfdfb; border: 1px solid #999; font: 13px/17px "DejaVu Sans Mono", monospace; }`;

/** The page of a picture, and the screens beside it. */
function sheetOf(picture, screens) {
  const shown = screens.map(({ name, text }) => `<figure><figcaption>${escaped(name)}</figcaption><pre>${markupOf(text)}</pre></figure>`);
  const page = `<figure><figcaption>Ada, in a browser</figcaption><img src="data:image/png;base64,${picture}"></figure>`;
  return `<!doctype html><meta charset="utf-8"><style>${STYLE}</style>${page}<div>${shown.join('')}</div>`;
}

const browser = new Browser(process.argv[2]);
let page;

const deeds = {
  async open({ open }) {
    page = await browser.page(open, await browser.profile(), SIZE);
    while (await page.value('document.querySelector("#text")?.contentEditable ?? "false"') === 'false') await pause(100);
    await pause(1000);
  },
  async insert({ insert }) {
    await page.value('document.querySelector("#text").focus()');
    await page.key('End', CONTROL, ['moveToEndOfDocument']);
    await page.type(insert);
    await pause(1000);
  },
  async picture({ picture, screens }) {
    const taken = await page.picture();
    const sheet = await browser.page('about:blank', await browser.profile(), { width: 1630, height: 900 });
    await sheet.value(`document.write(${JSON.stringify(sheetOf(taken.toString('base64'), screens))})`);
    await pause(500);
    writeFileSync(picture, await sheet.picture());
  },
};

for await (const line of createInterface({ input: process.stdin })) {
  const order = JSON.parse(line);
  const deed = Object.keys(deeds).find((it) => it in order);
  await deeds[deed](order);
  console.log('done');
}
await browser.close();
