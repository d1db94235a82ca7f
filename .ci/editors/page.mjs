// Lets a check drive the page of a document in headless Chromium: it does what a line says, and answers in a line. A line is a list in JSON:
// ["open", ADDRESS], ["text"], ["change", START, END, TEXT] in letters, by keys as a person does it, ["undo"], ["saved"], or ["cut"], which ends the
// link. What couldn't be done is answered by {"wrong": WORDS}.
//
//   node .ci/editors/page.mjs CHROMIUM
import { createInterface } from 'node:readline';
import { Browser, CONTROL, pause } from '../devtools.mjs';
import { until } from '../running_host.mjs';

const SIZE = { width: 760, height: 820 };

const browser = new Browser(process.argv[2]);
let page;

const isSaved = async () => (await page.value(`document.getElementById('standing')?.textContent`)) === 'Saved';

const deeds = {
  async open(address) {
    page = await browser.page(address, await browser.profile(), SIZE);
    await until('the page is open', isSaved);
    return true;
  },
  text: () => page.value('page.writer.view().text'),
  // The letters are selected, and typed over or deleted.
  async change(start, end, put) {
    const place = (count) => `Array.from(page.writer.view().text).slice(0, ${count}).join('').length`;
    await page.value(`document.getElementById('text').focus(), page.surface.select(${place(start)}, ${place(end)}), null`);
    await pause(10);
    if (put) await page.insert(put);
    else await page.key('Backspace');
    return true;
  },
  async undo() {
    await page.key('z', CONTROL);
    return true;
  },
  saved: isSaved,
  cut: () => page.value('page.sync.line.socket?.close(), true'),
};

for await (const line of createInterface({ input: process.stdin })) {
  const [name, ...words] = JSON.parse(line);
  const answer = await deeds[name](...words).catch((error) => ({ wrong: error.message }));
  console.log(JSON.stringify(page?.faults.length ? { wrong: page.faults.join(' // ') } : answer));
}
await browser.close();
