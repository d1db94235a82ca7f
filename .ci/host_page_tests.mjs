// Tries the page of a team in headless Chromium at a running host: people in profiles of their own, who write by keys.
//
//   node .ci/host_page_tests.mjs CHROMIUM HOST [--pictures FOLDER] [--seconds N] [--times]
//
// HOST is the built program of a host. With --pictures pages are kept as pictures. All of it has to be done in N seconds. With --times it is
// told how long each try took.
import assert from 'node:assert/strict';
import { mkdirSync, readFileSync, writeFileSync } from 'node:fs';
import { join } from 'node:path';
import { fileURLToPath } from 'node:url';
import { Browser, CONTROL, pause } from './devtools.mjs';
import { Host, until } from './running_host.mjs';

const USUAL_SECONDS = 230; // for all of it
const HELD_MS = 700; // by then what was typed is an edit
const DESK = { width: 1180, height: 760 };
const SMALL = { width: 640, height: 480 };
const TELEPHONE = { width: 390, height: 760, isMobile: true };
const MARKUP = '<img src=x onerror=alert(1)><b>x</b> \u202eabc';
const START = 'Plan for the spring fair\nThe budget is 900 euros.\nWho brings what:\n';
const BEAS = 'Bea: tables and tea. ';
const TURNING = '\u202eaeB'; // a name that would turn what stands behind it
const HEBREW = 'דנה <i>';
const SAFARI = 'Mozilla/5.0 (Macintosh; Intel Mac OS X 10_15_7) AppleWebKit/605.1.15 (KHTML, like Gecko) Version/16.1 Safari/605.1.15';
const NARROW = 'WebAssembly.validate = () => false'; // as in a browser that knows no memory of 64 bits
const LEAST_FINGER = 43; // pixels
const LEAST_SHIFT = 0.001; // of a layout, as browsers count it
const TUTORIAL = fileURLToPath(new URL('../docs/TUTORIAL.md', import.meta.url));

/** @type {Set<string>} what the tries saw of the pages: words that they said, and controls that were pressed */
const seen = new Set();

// Notes what a page said.
function noted(text) {
  seen.add(text);
  return text;
}

function option(name) {
  const at = process.argv.indexOf(name);
  return at < 0 ? null : process.argv[at + 1] ?? '';
}

// A person's page.
class Sheet {
  // `before` is a script that runs before those of the page.
  static async open(world, address, size = DESK, known = null, before = '') {
    const profile = known ?? (await world.browser.profile());
    await world.browser.call('Browser.grantPermissions', { permissions: ['clipboardReadWrite', 'clipboardSanitizedWrite'], browserContextId: profile });
    const sheet = new Sheet();
    sheet.world = world;
    sheet.profile = profile;
    sheet.page = await world.browser.page(before ? 'about:blank' : address, profile, size);
    if (before) await sheet.page.before(before);
    if (before) await sheet.page.go(address);
    await sheet.isSaved();
    return sheet;
  }

  value(expression) {
    return this.page.value(expression);
  }

  // The text of an element, but for the signs around what somebody wrote.
  async said(id) {
    return noted(await this.value(`(document.getElementById(${JSON.stringify(id)})?.textContent ?? '').replace(/[\\u2068\\u2069]/g, '')`));
  }

  async says(id, pattern) {
    const what = async () => `the page says ${pattern} in ${id}: it says ${JSON.stringify(await this.said(id))}, and ${JSON.stringify(await this.said('status'))} ${this.page.faults}`;
    await until(what, async () => pattern.test(await this.said(id)));
  }

  isSaved() {
    const what = async () => `it is saved: ${await this.said('standing')} ${await this.said('opening-words')} ${await this.said('status')} ${this.page.faults}`;
    return until(what, async () => (await this.said('standing')) === 'Saved');
  }

  async text() {
    return noted(await this.value('page.surface.read()'));
  }

  async shows(text) {
    const what = async () => `the page shows ${JSON.stringify(text)}: it shows ${JSON.stringify(await this.text())} ${this.page.faults}`;
    await until(what, async () => (await this.text()) === text);
    assert.equal(await this.value('page.writer.view().text'), text);
  }

  holds(what, expression) {
    return until(what, () => this.value(`Boolean(${expression})`));
  }

  focus() {
    return this.value('document.getElementById("text").focus(), null');
  }

  async end() {
    await this.focus();
    await this.page.key('End', CONTROL, ['moveToEndOfDocument']);
  }

  async goTo(offset, to = offset) {
    await this.focus();
    await this.value(`page.surface.select(${offset}, ${to}), null`);
    await pause(30);
  }

  async click(selector) {
    noted(await this.value(`{ const it = document.querySelector(${JSON.stringify(selector)}); it.click(), it.textContent }`));
  }

  // Taps the middle of the first element of a selector.
  async tap(selector) {
    await this.page.tap(await this.value(`{ const it = document.querySelector(${JSON.stringify(selector)}).getBoundingClientRect(); ({ x: it.x + it.width / 2, y: it.y + it.height / 2 }) }`));
  }

  // Gives another name to who has this one.
  async rename(from, to) {
    await this.press('people', `Rename ${from}`);
    await this.fill('wording-words', to);
    await this.click('#wording-yes');
  }

  // Presses the button of this name for screen readers, below an element.
  async press(id, label) {
    const sought = `[...document.querySelectorAll('#${id} button')].find((it) => it.getAttribute('aria-label').replace(/[\\u2068\\u2069]/g, '') === ${JSON.stringify(label)})`;
    noted(await this.value(`{ const it = ${sought}, word = it.textContent; it.click(), word }`));
  }

  // Chooses what is called so in the list of a selector.
  choose(selector, text) {
    return this.value(`{ const list = document.querySelector(${JSON.stringify(selector)}); list.value = [...list.options].find((it) => it.textContent === ${JSON.stringify(text)}).value, list.dispatchEvent(new Event('change')); null }`);
  }

  async fill(id, text) {
    await this.value(`document.getElementById(${JSON.stringify(id)}).select(), null`);
    await this.page.insert(text);
  }

  async offline() {
    await this.value(`page.sync.line.dial = () => new WebSocket('ws://localhost:1/'), page.sync.line.socket.close(), null`);
    await this.says('standing', /^Offline/);
  }

  async online() {
    await this.value('page.sync.line.dial = (it) => new WebSocket(it), page.sync.line.hurry(), null');
    await this.isSaved();
  }

  // Loads the page anew; it is another one then, however long that takes.
  reload() {
    return this.anew(() => this.page.reload());
  }

  // Waits until an action has had the page loaded anew.
  async anew(action) {
    await this.value('globalThis.isOld = true, null');
    await action();
    await this.holds('another page is there', '!globalThis.isOld');
  }

  edits() {
    return this.value('page.copy.journal.count - page.copy.entries.length');
  }

  async ghosts() {
    const words = await this.value(`[...document.querySelectorAll('.ghost')].map((it) => it.textContent)`);
    noted(words.join(''));
    return words;
  }

  // What the question asks, once it is there.
  async question() {
    await this.holds('the question is there', 'document.getElementById("question").open');
    return `${await this.said('question-title')} | ${await this.said('question-undone')}`;
  }

  // Keeps the page as a picture, where pictures are wanted; of a size of its own where an action brings about what it shows.
  async picture(name, act = null, size = SMALL) {
    const folder = option('--pictures');
    if (!folder) return;
    if (act) await this.page.resize(size);
    await act?.();
    mkdirSync(folder, { recursive: true });
    await pause(200);
    writeFileSync(join(folder, `${name}.png`), await this.page.picture());
    if (act) await this.page.resize(DESK);
  }

  async close() {
    assert.deepEqual(this.page.faults, []);
    await this.page.close();
  }
}

// ---- what is tried, one behind another

const tries = {
  async an_invitation_makes_a_device(world) {
    const ada = await Sheet.open(world, world.host.invitation);
    assert.equal(await ada.value('location.pathname + location.hash'), '/d/fair/');
    assert.match(await ada.value('localStorage.getItem("roastcliff device /")'), /^\{"site":1,"secret":"[0-9a-f]{32}"\}$/);
    await ada.says('people', /Owner · you/);
    await ada.holds('a blank document says what to do', `document.getElementById('text').classList.contains('is-blank')`);
    noted(await ada.value(`document.getElementById('text').dataset.blank`));
    await ada.picture('blank');
    await ada.rename('Owner', 'Ada Lund');
    await ada.says('people', /Ada Lund · you/);
    world.ada = ada;
  },

  async a_second_person_is_invited(world) {
    const { ada } = world;
    await ada.fill('new-name', 'Bea Okafor');
    await ada.click('#new-person button');
    await ada.holds('there is an address', `document.getElementById('invited-address').value`);
    await ada.says('invited-label', /^Give this address to Bea Okafor, and to nobody else$/);
    const address = await ada.value(`document.getElementById('invited-address').value`);
    assert.match(address, /^http:\/\/localhost:[0-9]+\/#[0-9a-f]{32}$/);
    world.bea = await Sheet.open(world, address, DESK, null, NARROW);
    world.address = address;
    await ada.says('people', /Bea Okafor · here now/);
    await ada.value(`document.getElementById('invited').hidden = true, null`);
  },

  // What a browser lacks is told with what to do in it, and neither the host nor the rest of the page is asked for.
  async a_browser_that_lacks_something(world) {
    const page = await world.browser.page('about:blank', await world.browser.profile(), DESK);
    const sheet = Object.assign(new Sheet(), { world, page });
    await page.call('Emulation.setUserAgentOverride', { userAgent: SAFARI });
    await page.before('delete CSS.highlights');
    await page.go(world.address);
    await sheet.says('opening-words', /^This browser cannot show the page: it cannot colour words by who wrote them \(highlights\)\. It is Safari 16, and from version 18 on it can: .* an invitation in the address can still be used\.$/);
    assert.equal(await sheet.said('standing'), 'Not open');
    assert.equal(await sheet.value('location.href'), world.address);
    assert.deepEqual(await sheet.value(`performance.getEntriesByType('resource').map(({ name }) => name.split('/').at(-1)).filter((it) => /mjs$/.test(it) && it !== 'main.mjs').sort()`), ['needs.mjs', 'start.mjs']);
    await sheet.picture('lacking', async () => {});
    await sheet.close();
    const keys = await world.ada.value(`page.sync.line.orders.ask('keys')`); // Bea is the second person
    assert.equal(keys.filter((it) => /^device .* 2 open$/.test(it)).length, 1);
  },

  // A part of the page that doesn't come at once is asked for again; where it never comes that is told.
  async a_part_that_does_not_come(world) {
    const page = await world.browser.page('about:blank', await world.browser.profile(), DESK);
    const sheet = Object.assign(new Sheet(), { world, page });
    let failing = 1;
    world.browser.listeners.push(({ method, params, sessionId }) => {
      if (sessionId !== page.session || method !== 'Fetch.requestPaused') return;
      const { requestId } = params;
      page.call(...(failing-- > 0 ? ['Fetch.failRequest', { requestId, errorReason: 'ConnectionReset' }] : ['Fetch.continueRequest', { requestId }])).catch(() => {});
    });
    await page.call('Fetch.enable', { patterns: [{ urlPattern: '*/places.mjs' }] });
    await page.go(world.address.split('#')[0]);
    await sheet.says('opening-words', /^Open the address of your invitation\./);
    assert.equal(await sheet.value('sessionStorage.length'), 0);
    failing = 9;
    await page.reload();
    await sheet.says('opening-words', /^The page could not be loaded whole\./);
    assert.equal(failing, 9 - 4);
    await sheet.close();
  },

  // Who opens somebody else's invitation goes on as before, and is told what using it does.
  async an_invitation_of_somebody_else(world) {
    const { ada, bea, address } = world;
    await ada.close();
    world.ada = await Sheet.open(world, address.replace('/#', '/d/fair/#'), DESK, ada.profile);
    await world.ada.holds('the invitation is offered', `!document.getElementById('invited-here').hidden`);
    await world.ada.says('invited-words', /^You are Ada Lund in this browser\. .* you can go back under “Who this browser was”\.$/);
    await world.ada.says('leave-invitation', /^Go on as Ada Lund$/);
    await world.ada.click('#leave-invitation');
    await world.ada.says('people', /Ada Lund · you/);
    await bea.says('people', /Ada Lund · here now/);
  },

  async both_write(world) {
    const { ada, bea } = world;
    await ada.focus();
    await ada.page.type(START);
    await bea.shows(START);
    await ada.isSaved();
    assert.ok((await ada.edits()) < 25, 'words go out as edits, not letters');
    await bea.end();
    await bea.page.type(BEAS);
    await ada.shows(START + BEAS);
    await bea.isSaved();
    await ada.holds('the other’s caret is there', `[...document.querySelectorAll('.caret-name')].some((it) => it.textContent.includes('Bea Okafor'))`);
    await ada.goTo((START + BEAS).length);
    await ada.says('writer', /^At the caret: written by Bea Okafor\.$/);
  },

  // Keys show at once, and become one edit; what was deleted before costs nothing.
  async keys_are_held(world) {
    const { ada, bea } = world;
    const before = await ada.edits();
    await ada.end();
    await Promise.all([ada.page.type('Tulpi'), ada.page.key('Backspace'), ada.page.key('Backspace'), ada.page.type('ips')]);
    assert.equal(await ada.text(), `${START}${BEAS}Tulips`);
    await bea.shows(`${START}${BEAS}Tulips`);
    assert.equal((await ada.edits()) - before, 1);
    await ada.page.key('z', CONTROL);
    await bea.shows(START + BEAS);
    await ada.isSaved();
  },

  async within_a_word(world) {
    const { ada, bea } = world;
    const before = await bea.edits();
    await bea.goTo('Plan for the spring'.length);
    const back = Array.from({ length: 3 }, () => bea.page.key('Backspace'));
    await Promise.all([...back, bea.page.type('out')]);
    await ada.shows((START + BEAS).replace('spring', 'sprout'));
    assert.equal((await bea.edits()) - before, 1);
    await ada.goTo('Plan for the sprout'.length);
    await ada.says('writer', /^At the caret: written by Bea Okafor, in words that Ada Lund began\.$/);
    await bea.page.key('z', CONTROL);
    await ada.shows(START + BEAS);
    await ada.isSaved();
    await ada.picture('two-people');
  },

  async two_in_one_line(world) {
    const { ada, bea } = world;
    const line = 'The gate opens at nine, and the music begins at noon.';
    const before = START + BEAS;
    await ada.end();
    await ada.page.insert(line);
    await ada.value('page.writer.flush(), null');
    await bea.shows(before + line);
    await bea.offline();
    await bea.goTo(before.length + 'The gate opens at nine'.length);
    await bea.page.type(' sharp');
    await ada.goTo(before.length + 'The '.length);
    await ada.page.type('south ');
    await pause(HELD_MS);
    await bea.online();
    const both = `${before}The south gate opens at nine sharp, and the music begins at noon.`;
    for (const it of [bea, ada]) await it.shows(both);
    await ada.goTo(before.length, both.length);
    await ada.page.key('Backspace');
    await bea.shows(before);
  },

  async two_change_one_word(world) {
    const { ada, bea } = world;
    const before = START + BEAS;
    await ada.end();
    await ada.page.type('Meet at nine ');
    const at = before.length + 'Meet at '.length;
    await bea.shows(`${before}Meet at nine `);
    await bea.offline();
    for (const [it, word] of [[ada, 'seven'], [bea, 'eight']]) {
      await it.goTo(at, at + 4);
      await it.page.insert(word);
      await pause(HELD_MS);
    }
    await bea.online();
    await bea.shows(`${before}Meet at seven `);
    await ada.shows(`${before}Meet at seven `);
    assert.deepEqual([await ada.ghosts(), await bea.ghosts()], [[], ['eight']]);
    await bea.says('status', /^Somebody changed the same words/);
    await bea.click('.ghost');
    await bea.click('#note-go');
    await ada.goTo(before.length, `${before}Meet at seven `.length);
    await ada.page.key('Backspace');
    await bea.shows(before);
  },

  // What others write in a line in which a word is composed comes in, though that ends the composition, and nothing of either is lost.
  async composing_in_a_line_that_changes(world) {
    const { ada, bea } = world;
    const before = START + BEAS;
    await bea.end();
    await bea.page.call('Input.imeSetComposition', { text: 'ni', selectionStart: 2, selectionEnd: 2 });
    await ada.end();
    await ada.page.type('Jam. ');
    for (const it of [ada, bea]) await until('both are there', async () => [`${before}Jam. ni`, `${before}niJam. `].includes(await it.text()));
    assert.equal(await bea.value('page.editor.isComposing'), false);
    await bea.isSaved();
    await ada.goTo(before.length, before.length + 7);
    await ada.page.key('Backspace');
    await bea.shows(before);
  },

  // Enter goes on to the next place, and writes nothing; what was found is selected where the form is closed.
  async looking_for_words(world) {
    const { ada } = world;
    const before = START + BEAS;
    await ada.click('#find-open');
    await ada.page.insert('THE');
    await ada.says('find-count', /^1 of 2 places$/);
    for (const count of [1, 2, 1]) {
      await ada.page.key('Enter');
      await ada.says('find-count', new RegExp(`^${count} of 2 places$`));
      assert.equal(await ada.value('document.activeElement.id'), 'find-words');
    }
    await ada.click('#find button[value=previous]');
    await ada.says('find-count', /^2 of 2 places$/);
    assert.equal(await ada.value('String(page.finder.range)'), 'The');
    await ada.value(`document.getElementById('find-words').focus(), null`);
    await ada.page.key('Escape');
    assert.deepEqual(await ada.value('[String(getSelection()), document.activeElement.id, page.finder.range.collapsed]'), ['The', 'text', true]);
    await ada.shows(before);
  },

  // A text is as high as its lines are, though what is far off isn't laid out, and what is looked for there comes to be seen.
  async a_long_text(world) {
    const { ada, bea } = world;
    const before = START + BEAS;
    const lines = Array.from({ length: 300 }, (_, i) => `Line ${i} of many.\n`).join('');
    await ada.end();
    await ada.page.insert(lines);
    for (const it of [ada, bea]) await it.shows(before + lines);
    await bea.reload();
    await bea.isSaved();
    const [height, line] = await bea.value(`[document.getElementById('text').scrollHeight, page.surface.rectOf(0).height]`);
    assert.ok(Math.abs(height / (304 * 32) - 1) < 0.02, `${height} ${line}`);
    await bea.click('#find-open');
    await bea.page.insert('line 290 ');
    await bea.page.key('Enter');
    const isSeen = `(({ top, bottom }) => top > 60 && bottom < innerHeight)(page.finder.range.getBoundingClientRect())`;
    await bea.holds('what was found is seen', isSeen);
    await bea.page.key('Escape');
    await bea.page.type('Here');
    for (const it of [ada, bea]) await it.shows(before + lines.replace('Line 290 ', 'Here'));
    await bea.end();
    await bea.holds('the end is seen', '(({ bottom }) => bottom > 0 && bottom <= innerHeight)(page.surface.rectOf(page.surface.end))');
    await ada.goTo(before.length, before.length + lines.length);
    await ada.page.key('Backspace');
    for (const it of [ada, bea]) await it.shows(before);
  },

  async markup_and_turning_signs(world) {
    const { ada, bea } = world;
    const before = START + BEAS;
    await ada.end();
    await ada.page.insert(MARKUP);
    await bea.shows(before + MARKUP);
    await ada.rename('Bea Okafor', '<b>Bea</b>');
    await bea.says('people', /<b>Bea<\/b> · you/);
    await ada.rename('<b>Bea</b>', TURNING);
    await ada.says('status', /^The server did not take it\. A name has /);
    await ada.rename('<b>Bea</b>', HEBREW);
    await bea.says('people', /דנה <i> · you/);
    await ada.press('people', `Invite again: ${HEBREW}`);
    await ada.says('status', /^There is an invitation for דנה <i>\./);
    assert.ok((await ada.value(`document.getElementById('status').textContent`)).includes(`\u2068${HEBREW}\u2069`), 'what runs the other way is isolated');
    for (const it of [ada, bea]) assert.equal(await it.value(`document.querySelectorAll('img, b, i, script:not([src])').length`), 0);
    await ada.rename(HEBREW, 'Bea Okafor');
    await bea.says('people', /Bea Okafor · you/);
    await ada.focus();
    await ada.page.key('z', CONTROL);
    await bea.shows(before);
  },

  async a_paragraph_is_protected(world) {
    const { ada, bea } = world;
    await ada.goTo('Plan for the spring fair\nThe bud'.length);
    await ada.click('#protect');
    assert.equal(await ada.question(), 'Let nobody but Ada Lund write in the paragraph “The budget is 900 euros.”? | No edit would be undone.');
    await ada.click('#question-yes');
    await bea.holds('it is locked', `document.querySelectorAll('.locked').length === 1`);
    await bea.goTo('Plan for the spring fair\nThe budget is '.length);
    await bea.page.type('only ');
    await bea.says('note-text', /^You may not do this here\. The rule says: Nobody may write in the paragraph “The budget is 900 euros\.”$/);
    await bea.shows(START + BEAS);
    assert.deepEqual(await bea.ghosts(), ['only ']);
    await bea.picture('denied-at-its-place');
    await bea.click('#note-go');
    assert.deepEqual(await bea.ghosts(), []);
    assert.equal(await ada.value(`document.querySelectorAll('.locked').length`), 0);
  },

  async a_right_goes_while_one_is_offline(world) {
    const { ada, bea } = world;
    await bea.offline();
    await bea.end();
    await bea.page.type('And a brass band. ');
    await bea.says('standing', /^Offline\. [2-9] edits of yours wait in this browser\.$/);
    await bea.picture('offline');
    await ada.press('people', 'Forbid writing: Bea Okafor');
    assert.match(await ada.question(), /^Forbid Bea Okafor to write\? \| [0-9]+ edits of Bea Okafor would be undone: “Bea: tables and tea\.”$/);
    await ada.picture('question');
    await ada.click('#question-yes');
    await ada.says('people', /Bea OkaforMay only read|May only read/);
    await bea.online();
    for (const it of [ada, bea]) await it.shows(START);
    await bea.says('status', /^[0-9]+ edits were undone\./);
    assert.equal((await bea.ghosts()).join(''), `${BEAS}And a brass band. `);
    await bea.value(`[...document.querySelectorAll('.ghost')].at(-1).click(), null`);
    await bea.says('note-text', /^Undone words of Bea Okafor\. The rule says: Bea Okafor may not write anywhere\.$/);
    await bea.picture('undone-at-its-place');
    await bea.click('#note-copy');
    await bea.says('status', /copied/);
    assert.equal(await bea.value('navigator.clipboard.readText()'), (await bea.ghosts()).at(-1));
    await bea.click('#note-close');
    await ada.picture('after-a-rule');
    await bea.picture('undone-small', async () => {
      await bea.value(`[...document.querySelectorAll('.ghost')].at(-1).click(), null`);
    });
    await bea.click('#note-close');
    await ada.picture('after-a-rule-small', () => ada.goTo(START.length));
  },

  // What an owner can't do apart is told before anything is asked.
  async an_owner_who_is_offline(world) {
    const { ada } = world;
    await ada.offline();
    for (const it of ['Rename Bea Okafor', 'Allow writing: Bea Okafor', 'Remove Bea Okafor', 'Invite again: Bea Okafor']) {
      await ada.value(`document.getElementById('status').textContent = '', null`);
      await ada.press('people', it);
      await ada.says('status', /^You are offline\. People, documents and rules can be changed only while /);
      assert.ok(await ada.value(`![...document.querySelectorAll('dialog')].some((it) => it.open)`), it);
    }
    await ada.online();
  },

  // A right is given back, and taken again so that what was written stays: it is confirmed first.
  async what_was_written_is_kept(world) {
    const { ada, bea } = world;
    await ada.press('people', 'Allow writing: Bea Okafor');
    await ada.question();
    await ada.click('#question-yes');
    await bea.says('people', /Bea Okafor · youMay write/);
    await bea.end();
    await bea.page.type('Cups and plates. ');
    await ada.shows(`${START}Cups and plates. `);
    await bea.isSaved();
    await ada.press('people', 'Forbid writing: Bea Okafor');
    assert.match(await ada.question(), /[2-9] edits of Bea Okafor would be undone: “Cups and plates\.”$/);
    await ada.click('#question-keep');
    await bea.says('people', /Bea Okafor · youMay only read/);
    await bea.shows(`${START}Cups and plates. `);
    await bea.isSaved();
    world.text = `${START}Cups and plates. `;
  },

  // Who may only read composes a word: it is struck through at its place. His note is reached and left by keys.
  async the_keyboard_alone(world) {
    const { bea } = world;
    await bea.end();
    await bea.page.call('Input.imeSetComposition', { text: 'ni', selectionStart: 2, selectionEnd: 2 });
    await bea.page.insert('你好');
    await bea.holds('the note is there', `!document.getElementById('note').hidden`);
    await bea.shows(world.text);
    assert.equal(await bea.value(`[...document.querySelectorAll('.ghost.refused')].map((it) => it.textContent).join()`), '你好');
    await bea.focus();
    for (let i = 0; i < 9 && !(await bea.value(`document.activeElement.matches('.ghost.refused')`)); i++) await bea.page.key('Tab');
    await bea.page.key('Enter');
    assert.equal(await bea.value('document.activeElement.id'), 'note');
    assert.notEqual(await bea.value('getComputedStyle(document.activeElement).outlineStyle'), 'none');
    await bea.page.key('Escape');
    assert.ok(await bea.value(`document.getElementById('note').hidden && document.activeElement.matches('.ghost.refused')`));
  },

  async it_comes_back(world) {
    const { bea, ada } = world;
    await ada.end();
    await ada.page.type('Bye. ');
    await ada.isSaved();
    for (const it of [ada, bea]) {
      const before = await it.text();
      await it.reload();
      await it.isSaved();
      await it.shows(before);
    }
    await ada.focus();
    await ada.page.key('z', CONTROL); // undo outlasts it
    for (const it of [ada, bea]) await it.shows(world.text);
    await bea.says('people', /Ada Lund · here now/);
  },

  // The newest page of a browser has the document, with all that was written in the one before, and that one can have it back.
  async two_pages_of_one_browser(world) {
    const { bea, ada } = world;
    await ada.press('people', 'Allow writing: Bea Okafor');
    await ada.question();
    await ada.click('#question-yes');
    await bea.says('people', /Bea Okafor · youMay write/);
    await bea.end();
    await bea.page.type('Two');
    const page = await world.browser.page(`http://localhost:${world.host.port}/d/fair/`, bea.profile, DESK);
    const newer = Object.assign(new Sheet(), { world, page, profile: bea.profile });
    await newer.isSaved();
    for (const it of [newer, ada]) await it.shows(`${world.text}Two`);
    await bea.says('opening-words', /^You opened this document in another page of this browser, and it goes on there\./);
    await newer.end();
    await newer.page.type(' pages. ');
    await newer.isSaved();
    await bea.anew(() => bea.click('#opening-acts button'));
    await bea.isSaved();
    for (const it of [bea, ada]) await it.shows(`${world.text}Two pages. `);
    await newer.says('opening-words', /^You opened this document in another page/);
    await newer.close();
    world.text += 'Two pages. ';
  },

  async a_host_that_is_restarted(world) {
    const { ada, bea, host } = world;
    await host.stop();
    for (const it of [ada, bea]) await it.says('standing', /^Offline/);
    await ada.end();
    await ada.page.type('Now. ');
    await ada.says('standing', /^Offline\. 1 edit of yours waits in this browser\.$/);
    await host.run();
    world.text += 'Now. ';
    for (const it of [ada, bea]) await it.isSaved();
    await bea.shows(world.text);
  },

  // What the host can't open each page goes on with, and says why.
  async a_file_that_is_damaged(world) {
    const { ada, bea, host } = world;
    await host.stop();
    const file = join(host.folder, 'fair', 'fair', 'steps');
    const bytes = readFileSync(file);
    writeFileSync(file, Buffer.concat([Buffer.of(bytes[0] ^ 8), bytes.subarray(1)]));
    await host.run();
    for (const it of [ada, bea]) await it.says('standing', /^The server cannot open this document: its file is damaged\. Tell whoever runs it\. Your copy is kept here/);
    await ada.picture('damaged-at-the-host');
    await host.stop();
    writeFileSync(file, bytes);
    await host.run();
    for (const it of [ada, bea]) await it.isSaved();
  },

  async documents(world) {
    const { ada, bea, host } = world;
    const house = await world.browser.page(`http://localhost:${host.port}/`, ada.profile, DESK);
    const sheet = Object.assign(new Sheet(), { world, page: house, profile: ada.profile });
    await sheet.says('document-list', /fair/);
    await sheet.fill('new-document-name', 'Übung 2');
    await sheet.says('new-document-told', /^It will be called ubung-2\.$/);
    await sheet.click('#new-document button');
    await sheet.says('document-list', /ubung-2/);
    await sheet.picture('documents');
    await sheet.press('document-list', 'Archive ubung-2');
    await sheet.question();
    await sheet.click('#question-yes');
    await sheet.says('document-list', /^(?!.*ubung-2)/);
    // Who has a document open goes along when it is given another name.
    await sheet.press('document-list', 'Rename fair');
    await sheet.fill('wording-words', 'spring-fair');
    await sheet.click('#wording-yes');
    await sheet.says('document-list', /spring-fair/);
    for (const it of [ada, bea]) {
      await it.holds('it goes along', `location.pathname === '/d/spring-fair/'`);
      await it.isSaved();
      await it.shows(world.text);
    }
    await sheet.close();
  },

  // What is told on a telephone in the dark: nothing is cut off, and every control has a name.
  async a_telephone_in_the_dark(world) {
    const { bea } = world;
    await bea.page.call('Emulation.setEmulatedMedia', { features: [{ name: 'prefers-color-scheme', value: 'dark' }] });
    await bea.page.resize(TELEPHONE);
    await pause(100);
    await bea.picture('telephone');
    assert.ok((await bea.value('document.documentElement.scrollWidth')) <= TELEPHONE.width);
    await bea.click('#more');
    assert.ok((await bea.value('document.documentElement.scrollWidth')) <= TELEPHONE.width);
    await bea.picture('telephone-people');
    await bea.click('#more');
    await bea.page.resize(DESK);
    for (const it of [world.ada, bea]) {
      const { nodes } = await it.page.call('Accessibility.getFullAXTree');
      const unnamed = nodes.filter(({ ignored, role, name }) => !ignored && ['button', 'textbox', 'combobox', 'checkbox', 'searchbox', 'link'].includes(role?.value) && !name?.value);
      assert.deepEqual(unnamed.map(({ role }) => role.value), []);
    }
  },

  // On a telephone by fingers alone: a tap sets the caret, a keyboard on the screen writes, and what is tapped is large enough.
  async by_touch(world) {
    const { bea, ada } = world;
    await bea.page.resize(TELEPHONE);
    await bea.page.fingers(true);
    const offset = 'Plan for the spring'.length;
    await bea.value(`page.surface.select(0), document.activeElement.blur(), null`);
    await bea.page.tap(await bea.value(`{ const it = page.surface.rectOf(${offset}); ({ x: it.x, y: it.y + it.height / 2 }) }`));
    await bea.holds('the caret is there', `document.activeElement.id === 'text' && page.surface.selection()?.focus === ${offset}`);
    await bea.page.call('Input.imeSetComposition', { text: ' fe', selectionStart: 3, selectionEnd: 3 });
    await bea.page.insert(' fest');
    const changed = world.text.replace('spring', 'spring fest');
    for (const it of [bea, ada]) await it.shows(changed);
    await bea.page.key('z', CONTROL);
    for (const it of [bea, ada]) await it.shows(world.text);
    await bea.tap('#more');
    await bea.holds('people show', `document.querySelector('main').classList.contains('is-aside') && document.getElementById('people').getClientRects().length`);
    const small = await bea.value(`[...document.querySelectorAll('button, select, input:not([type=checkbox])')].filter((it) => it.checkVisibility() && it.getBoundingClientRect().height < ${LEAST_FINGER}).map((it) => it.textContent)`);
    assert.deepEqual(small, []);
    assert.ok((await bea.value('document.documentElement.scrollWidth')) <= TELEPHONE.width);
    await bea.tap('#more');
    await bea.page.fingers(false);
    await bea.page.resize(DESK);
  },

  // By the tabulator all controls are reached, in the order in which they stand, each with a name and a mark that shows: that of the text is the
  // caret.
  async the_order_of_focus(world) {
    const { ada } = world;
    await ada.value(`document.getElementById('home').focus(), null`);
    const stops = [];
    for (let i = 0; i < 120; i++) {
      const [isBack, stop] = await ada.value(`{ const it = document.activeElement; if (it !== document.body) it.dataset.stop ??= ${i}; [it.dataset.stop !== '${i}', { name: (it.getAttribute('aria-label') ?? it.labels?.[0]?.textContent ?? it.textContent).trim(), isMarked: it.isContentEditable || getComputedStyle(it).outlineStyle !== 'none', isSeen: it.getClientRects().length > 0, top: it === document.body }] }`);
      if (isBack || stop.top) break;
      stops.push(stop);
      await ada.page.key('Tab');
    }
    assert.ok(stops.length > 12);
    assert.deepEqual(stops.slice(1).filter((it) => !it.name || !it.isMarked || !it.isSeen), []); // the first was set by a script
    const order = await ada.value(`[...document.querySelectorAll('[data-stop]')].map((it) => Number(it.dataset.stop))`);
    assert.deepEqual(order, order.toSorted((a, b) => a - b), stops.map(({ name }) => name).join(' | '));
    const missed = await ada.value(`[...document.querySelectorAll('a[href], button, input, select, summary, [contenteditable]:not([contenteditable=false])')].filter((it) => it.checkVisibility() && !it.dataset.stop && !(it.type === 'radio')).map((it) => it.outerHTML.slice(0, 90))`);
    assert.deepEqual(missed, []);
  },

  // Paper has the text and nothing else.
  async what_is_printed(world) {
    const { bea } = world;
    await bea.page.call('Emulation.setEmulatedMedia', { media: 'print' });
    assert.equal((await bea.value('document.body.innerText')).trim(), world.text.trim());
    await bea.page.call('Emulation.setEmulatedMedia', { media: '' });
  },

  async a_role_and_a_device(world) {
    const { ada, bea } = world;
    await ada.value(`{ const list = [...document.querySelectorAll('#people select')].find((it) => it.getAttribute('aria-label').includes('Bea Okafor')); list.value = 'reader', list.dispatchEvent(new Event('change')); null }`);
    await ada.question();
    await ada.click('#question-yes');
    await bea.holds('she may only read', `document.getElementById('text').getAttribute('aria-readonly') === 'true'`);
    await bea.isSaved();
    await ada.isSaved();
    await ada.value(`document.getElementById('keys-part').open = true, null`);
    await ada.says('keys', /Device 2 of Bea Okafor/);
    await ada.press('keys', 'Close device 2 of Bea Okafor');
    await ada.question();
    await ada.click('#question-yes');
    await bea.says('standing', /^An owner closed this device\. Ask for a new invitation/);
    await ada.isSaved();
  },

  // Who leaves can't come in any more, and what that person wrote stays.
  async a_person_leaves(world) {
    const { ada } = world;
    await ada.fill('new-name', 'Cy Brandt');
    await ada.click('#new-person button');
    await ada.says('invited-label', /Cy Brandt/);
    const cy = await Sheet.open(world, await ada.value(`document.getElementById('invited-address').value`));
    await cy.end();
    await cy.page.type('Cy was here. ');
    await ada.shows(`${world.text}Cy was here. `);
    await cy.isSaved();
    // Who has which device is told once a second at most.
    await ada.says('here', /Cy Brandt/);
    const version = await ada.value('page.copy.policy.version');
    await ada.press('people', 'Remove Cy Brandt');
    assert.match(await ada.question(), /^Remove Cy Brandt\? \| All devices and invitations of Cy Brandt are closed\. What is written can stay, .* edits? of Cy Brandt would be undone: “Cy was here\.”$/);
    assert.equal(await ada.value(`document.querySelector('#question button:not([hidden])').id`), 'question-keep');
    await ada.click('#question-keep');
    await cy.says('standing', /^An owner closed this device\./);
    await ada.says('status', /^Cy Brandt is removed: /);
    await ada.isSaved();
    await ada.says('people', /Cy Brandt · removed/);
    await ada.shows(`${world.text}Cy was here. `);
    assert.equal(await ada.value('page.copy.policy.version'), version);
    const keys = await ada.value(`page.sync.line.orders.ask('keys')`); // Cy is the third person
    assert.deepEqual(keys.filter((it) => / 3 (open|closed)$/.test(it)).map((it) => it.split(' ')[3]), ['closed', 'closed']);
    await ada.picture('removed');
    await cy.close();
  },

  // Who is invited again is the same person with another device, and may leave once more, with all that was written undone.
  async a_person_returns(world) {
    const { ada } = world;
    const address = `document.getElementById('invited-address').value`;
    const before = await ada.value(address);
    await ada.press('people', 'Invite again: Cy Brandt');
    await ada.holds('there is another address', `${address} !== ${JSON.stringify(before)}`);
    const cy = await Sheet.open(world, await ada.value(address));
    await ada.says('people', /Cy Brandt · here now/);
    await cy.end();
    await cy.page.type('And again. ');
    await ada.shows(`${world.text}Cy was here. And again. `);
    await cy.isSaved();
    world.cy = cy;
    world.text += 'Cy was here. And again. ';
  },

  // A rule names a group, and is about whoever is in it.
  async a_group(world) {
    const { ada, cy } = world;
    const boxOf = (name) => `[...document.querySelectorAll('#protect-whom label')].find((it) => it.textContent.includes(${JSON.stringify(name)})).querySelector('input')`;
    await ada.value(`${boxOf('Cy Brandt')}.click(), null`);
    await ada.click('#make-group');
    await ada.says('wording-title', /^What is the group of Ada Lund and Cy Brandt called\?$/);
    await ada.fill('wording-words', 'Cooks');
    await ada.click('#wording-yes');
    await ada.says('groups', /^The group “Cooks”: Ada Lund and Cy Brandt\./);
    for (const it of ['Ada Lund', 'Cy Brandt', 'The group “']) await ada.value(`${boxOf(it)}.click(), null`);
    await ada.goTo(3);
    await ada.click('#protect');
    assert.match(await ada.question(), /^Let nobody but the group “Cooks” write in the paragraph “Plan for the spring fair”\? \| 2 edits of Bea Okafor would be undone/); // a word, and its undoing
    await ada.click('#question-yes');
    await cy.says('rules', /The group “Cooks” may write in the paragraph “Plan for the spring fair”\./);
    await cy.says('people', /Cy Brandt · youMay write, but in the paragraph “The budget is 900 euros\.” only read\./);
    await ada.picture('group');
    await ada.choose('#groups select', 'Cy Brandt');
    assert.match(await ada.question(), /^Take Cy Brandt out of the group “Cooks”\? \|/);
    await ada.click('#question-yes');
    await cy.holds('it is locked', `document.querySelectorAll('.locked').length === 2`);
  },

  // All pages know what a group is called. A name is nobody's, and no person's is like one; a group of before groups had names is given one.
  async a_group_is_called(world) {
    const { ada, cy } = world;
    const named = async (/** @type {string} */ title, name) => {
      await ada.says('wording-title', new RegExp(`^What is ${title} called\\?$`));
      await ada.fill('wording-words', name);
      await ada.click('#wording-yes');
    };
    await ada.choose('#groups select', 'Give it another name…');
    await named('the group “Cooks”', 'Bakers');
    for (const it of [ada, cy]) {
      await it.says('groups', /^The group “Bakers”: Ada Lund\./);
      await it.says('rules', /The group “Bakers” may write in the paragraph “Plan for the spring fair”\./);
      assert.doesNotMatch(await it.said('people'), /Bakers|Cooks/);
    }
    const version = await ada.value('page.copy.policy.version');
    await ada.value(`page.rules.make(['addgroup 65535', 'addmember 65535 1', 'addauth 0 + @65535 idu 0']), null`);
    await cy.says('rules', /^The group of Ada Lund may write everywhere\./);
    await ada.choose('#groups li:last-child select', 'Give it a name…');
    await named('the group of Ada Lund', 'Bakers');
    await ada.says('status', /^There is a group “Bakers” in this document already\./);
    await ada.choose('#groups li:last-child select', 'Give it a name…');
    await named('the group of Ada Lund', 'Tasters');
    await cy.says('rules', /^The group “Tasters” may write everywhere\./);
    await ada.says('groups', /The group “Tasters”: Ada Lund\./);
    assert.equal(await ada.value('page.copy.policy.version'), version + 8);
    await ada.fill('new-name', 'Tea (group)');
    await ada.click('#new-person button');
    await ada.says('status', /^A name that ends with “\(group\)” is one of a group\./);
    await ada.value(`document.getElementById('new-name').value = '', null`);
    await ada.press('rules', 'Remove rule 1');
    await ada.question();
    await ada.click('#question-yes');
    await cy.says('rules', /^(?!.*Tasters)/);
  },

  // Neither the head nor the place of the text moved since the page was opened, whoever came, went, wrote or was told something.
  async nothing_moves(world) {
    const moved = await world.cy.value(`new Promise((done) => {
      const stays = new Set([...document.querySelectorAll('#sheet, #text, header, header > *')]);
      const told = (it) => it.sources.filter(({ node }) => stays.has(node)).map(({ node }) => (node.id || node.nodeName) + ' ' + it.value);
      new PerformanceObserver((list) => done(list.getEntries().filter(({ value }) => value > ${LEAST_SHIFT}).flatMap(told))).observe({ type: 'layout-shift', buffered: true });
      setTimeout(() => done([]), 300);
    })`);
    assert.deepEqual(moved, []);
  },

  // What the browser keeps is full, and then damaged: nothing more is written that would be lost, and what the host has comes again.
  async a_store_that_fails(world) {
    const { cy } = world;
    await cy.value(`page.keeper.store.append(Uint8Array.of(0, 0, 0, 9, 9)), null`);
    await cy.value(`page.keeper.store.append = () => Promise.reject(new Error('no room')), null`);
    await cy.end();
    await cy.page.type('Lost? ');
    await cy.says('status', /^This browser keeps nothing more \(no room\), so nothing more can be written here\./);
    assert.equal(await cy.value(`document.getElementById('text').getAttribute('aria-readonly')`), 'true');
    await cy.picture('store-full');
    await cy.reload();
    await cy.says('opening-words', /^What this browser kept of this document cannot be read/);
    await cy.picture('store-damaged');
    await cy.value(`[...document.querySelectorAll('#opening-acts button')].find((it) => it.textContent === 'Start over').click(), null`);
    await cy.says('status', /^This browser wrote in this document before, and has lost what it had of it\./);
    await cy.shows(world.text);
  },

  async a_person_leaves_for_good(world) {
    const { ada, cy } = world;
    await ada.press('people', 'Remove Cy Brandt');
    await ada.question();
    await ada.click('#question-yes');
    world.text = world.text.replace('Cy was here. And again. ', '');
    await ada.shows(world.text);
    assert.ok((await ada.ghosts()).join('').includes('Cy was here. And again. '));
    await ada.says('people', /Cy Brandt · removed/);
    await ada.press('people', 'Invite again: Cy Brandt');
    await ada.says('status', /The rules let Cy Brandt only read here, until you press “Allow writing”\.$/);
    await cy.close();
  },

  // Who was away goes on in the new document, and has the words that the host didn't take, to put them in again.
  async a_document_is_renewed(world) {
    const { ada } = world;
    const away = ' Written while away.';
    await ada.fill('new-name', 'Dee Roth');
    await ada.click('#new-person button');
    await ada.says('invited-label', /Dee Roth/);
    const dee = await Sheet.open(world, await ada.value(`document.getElementById('invited-address').value`));
    await dee.shows(world.text);
    await dee.offline();
    await dee.end();
    await dee.page.type(away);
    await pause(HELD_MS);
    const renewed = async (it) => {
      await it.holds('another page is there', '!globalThis.isOld && globalThis.page');
      await it.isSaved();
      await it.shows(world.text);
    };
    for (const it of [ada, dee]) await it.value('globalThis.isOld = true, null');
    await ada.value('page.renewal.order(), null');
    await ada.question();
    await ada.click('#question-yes');
    await renewed(ada);
    assert.equal(await ada.value('document.getElementById("left-part").hidden'), true);
    await dee.value('page.sync.line.dial = (it) => new WebSocket(it), page.sync.line.hurry(), null');
    await renewed(dee);
    await dee.says('left', /Written while away/);
    await dee.picture('renewed');
    await dee.click('#left-all');
    world.text += away;
    for (const it of [ada, dee]) await it.shows(world.text);
    await dee.holds('nothing is left', 'document.getElementById("left-part").hidden');
    await dee.reload();
    await dee.isSaved();
    await dee.shows(world.text);
    world.dee = dee;
  },

  // A browser that becomes somebody else's by an invitation goes back to who it was, and sends what waited there; it forgets on demand. The
  // invitation is opened in the page that is there, of which only the address changes.
  async a_browser_goes_back(world) {
    const { ada, dee } = world;
    const waiting = ' This waits.';
    await ada.fill('new-name', 'Eli Noor');
    await ada.click('#new-person button');
    await ada.says('invited-label', /Eli Noor/);
    const address = await ada.value(`document.getElementById('invited-address').value`);
    await dee.anew(() => dee.value(`location.hash = ${JSON.stringify(address)}.split('#')[1], null`));
    await dee.isSaved();
    await dee.says('invited-words', /^You are Dee Roth in this browser\./);
    await dee.offline();
    await dee.end();
    await dee.page.type(waiting);
    await dee.anew(() => dee.click('#use-invitation'));
    await dee.isSaved();
    await dee.says('people', /Eli Noor · you/);
    await dee.shows(world.text);
    await dee.says('former-part', /Go back to being Dee Roth/);
    await dee.value(`document.getElementById('former-part').scrollIntoView({ block: 'center' }), null`);
    await dee.picture('former');
    await dee.anew(() => dee.press('formers', 'Go back to being Dee Roth'));
    await dee.isSaved();
    await dee.says('people', /Dee Roth · you/);
    world.text += waiting;
    for (const it of [ada, dee]) await it.shows(world.text);
    await dee.press('formers', 'Forget Eli Noor');
    await dee.holds('nobody is left', `document.getElementById('former-part').hidden`);
    assert.match(dee.page.asked.at(-1).replace(/[\u2068\u2069]/g, ''), /^Forget that this browser was Eli Noor\?/);
    assert.equal(await dee.value(`localStorage.getItem('roastcliff former devices /')`), '[]');
    await dee.close();
  },

  // Each colour of letters against each ground behind them, and of edges, in both schemes.
  async contrasts(world) {
    for (const scheme of ['light', 'dark']) {
      await world.ada.page.call('Emulation.setEmulatedMedia', { features: [{ name: 'prefers-color-scheme', value: scheme }] });
      const low = await world.ada.value(`{
        const style = getComputedStyle(document.documentElement);
        const channel = (it) => (it <= 0.04045 ? it / 12.92 : ((it + 0.055) / 1.055) ** 2.4);
        const light = (name) => [1, 3, 5].map((at) => channel(parseInt(style.getPropertyValue('--' + name).trim().slice(at, at + 2), 16) / 255)).reduce((sum, it, i) => sum + it * [0.2126, 0.7152, 0.0722][i], 0);
        const ratio = (a, b) => ((high, low) => (high + 0.05) / (low + 0.05))(...[light(a), light(b)].sort((a, b) => b - a));
        const grounds = ['ground', 'field', ...Array.from({ length: 8 }, (_, i) => 'by-' + i)];
        const letters = [...grounds.map((it) => ['ink', it]), ...['faint', 'mark', 'good', 'bad'].flatMap((it) => [[it, 'ground'], [it, 'field']])];
        const edges = [['strong', 'ground'], ['strong', 'field'], ['mark', 'ground']];
        [...letters.map((it) => [...it, 4.5]), ...edges.map((it) => [...it, 3])].filter(([a, b, least]) => !(ratio(a, b) >= least)).map(([a, b]) => a + ' on ' + b + ': ' + ratio(a, b).toFixed(2));
      }`);
      assert.deepEqual(low, [], scheme);
    }
    await world.ada.page.call('Emulation.setEmulatedMedia', { features: [] });
  },

  // Whatever the tutorial has in quotation marks, of two people in a browser, a page has said, and it has what is to be pressed.
  async what_the_tutorial_says() {
    const section = readFileSync(TUTORIAL, 'utf8').split('\n## ')[1].replace(/<[^>]*>/g, '');
    const told = [/"([^"]+)"/g, /presses \*\*([^*]+)\*\*/g].flatMap((it) => [...section.matchAll(it)].map(([, words]) => words));
    const plain = (/** @type {string} */ it) => it.replace(/[0-9]+/g, 'N');
    const all = plain([...seen].join('\n'));
    assert.ok(told.length > 15);
    assert.deepEqual(told.filter((it) => !all.includes(plain(it))), []);
  },
};

// ---- all of it

async function runAll(world) {
  for (const [name, action] of Object.entries(tries)) {
    const begun = Date.now();
    try {
      await action(world);
    } catch (error) {
      console.log(`host_page: ${name}: ${error.stack}`);
      return 1; // those behind it stand on it
    }
    if (process.argv.includes('--times')) console.log(`host_page: ${name}: ${Date.now() - begun} ms`);
  }
  for (const it of [world.ada, world.bea]) await it.close();
  console.log(`host_page: ${Object.keys(tries).length} tries of two people at a running host, in Chromium`);
  return 0;
}

async function main() {
  const [chromium, program] = process.argv.slice(2);
  const world = { browser: new Browser(chromium), host: await Host.start(program, 'fair') };
  const seconds = Number(option('--seconds') ?? USUAL_SECONDS);
  let status = 1;
  try {
    status = await Promise.race([runAll(world), pause(1000 * seconds).then(() => null)]);
    if (status === null) console.log(`host_page: it takes more than ${seconds} s`);
  } finally {
    await world.browser.close();
    await world.host.close();
  }
  process.exit(status ?? 1);
}

await main();
