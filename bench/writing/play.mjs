// Plays the writing of this repository's documents through the page's modules, and tells how many edits it takes.
//
//   node --experimental-wasm-memory64 bench/writing/play.mjs COMMIT NAME=WEB ...
//
// COMMIT is the last whose writing is played. WEB is a folder of the page's modules, which may be those of another commit, and NAME what it is
// called in the table. Each document is one peer's, which one user writes.
import assert from 'node:assert/strict';
import { resolve } from 'node:path';
import { changes, documents } from './history.mjs';
import { Typist } from './typist.mjs';

const SEED = 7;
const ALMOST_FULL = 125000; // edits, behind which a text goes on in a new document
const KINDS = ['insert', 'update', 'delete'];

/** @typedef {{ letters: number, mistakes: number, deleted: number, insert: number, update: number, delete: number }} Counts */

/** @returns {Counts} */
const none = () => ({ letters: 0, mistakes: 0, deleted: 0, insert: 0, update: 0, delete: 0 });
const editsOf = (counts) => KINDS.reduce((all, kind) => all + counts[kind], 0);
const keysOf = ({ letters, mistakes, deleted }) => letters + mistakes + deleted;

/** @param {Counts[]} rows */
function added(rows) {
  const all = none();
  for (const row of rows) for (const field of Object.keys(all)) all[field] += row[field];
  return all;
}

// A writer at work, with the modules of a folder.
class Work {
  /** @param {{ administratorAndUser: (text: string) => any[] }} testing */
  constructor({ administratorAndUser }) {
    this.make = administratorAndUser;
    this.counts = none();
    this.begin('');
  }

  /** @param {string} text with which a document begins */
  begin(text) {
    [, this.side] = this.make(text);
    this.looked = this.side.copy.journal.count;
  }

  /** @param {import('./typist.mjs').Key} key */
  press({ start, end, text, isWanted }) {
    if (text) this.counts[isWanted ? 'letters' : 'mistakes']++;
    this.counts.deleted += end - start;
    const isTyped = text !== '' || end - start < 3; // as the page's editor tells keys from what is cut
    this.side.writer.write(start, end, text, isTyped);
  }

  // Counts what was made. A document that is full is left, and the text goes on in another.
  look() {
    const { copy, writer, text } = this.side;
    for (; this.looked < copy.journal.count; this.looked++) this.counts[copy.requestAt(this.looked).edit.kind]++;
    if (copy.journal.count < ALMOST_FULL || writer.held) return;
    this.begin(text);
  }
}

/**
 * Writes a document from its first text to its last; gives what that took.
 *
 * @param {string[]} texts
 * @param {string} web
 */
async function written(texts, web) {
  const { timed } = await import(resolve(web, 'testing_links.mjs'));
  const work = new Work(await import(resolve(web, 'testing.mjs')));
  const typist = new Typist(SEED);
  await timed((pass) => {
    for (const [i, text] of texts.slice(1).entries()) {
      for (const change of changes(texts[i], text)) writeIn(work, typist.keys(change), pass);
      assert.ok(work.side.text === text, `the text of version ${i} is another`);
    }
    work.side.writer.flush();
  });
  work.look();
  return work.counts;
}

/**
 * @param {Work} work
 * @param {Iterable<import('./typist.mjs').Key>} keys
 * @param {(wait: number) => void} pass
 */
function writeIn(work, keys, pass) {
  for (const key of keys) {
    pass(key.wait);
    work.press(key);
  }
  work.look();
}

/**
 * @param {string} name
 * @param {Counts[]} works one for each folder
 */
function row(name, works) {
  const [first] = works;
  const share = (count) => Math.round((1000 * count) / first.letters);
  const cells = [first.letters, first.mistakes, first.deleted, share(keysOf(first)), ...works.map((it) => share(editsOf(it)))];
  const last = works[works.length - 1];
  return `| ${[name, ...[...cells, ...KINDS.map((it) => share(last[it]))].map((it) => it.toLocaleString('en'))].join(' | ')} |`;
}

const [commit, ...folders] = process.argv.slice(2);
const named = folders.map((it) => it.split('='));
const heads = ['document', 'letters', 'mistakes', 'letters deleted', 'a key an edit', ...named.map(([name]) => name), ...KINDS.map((it) => `${it}s`)];
console.log(`| ${heads.join(' | ')} |`);
console.log(`|${'---|'.repeat(heads.length)}`);
/** @type {Counts[][]} */
const all = [];
for (const { name, texts } of documents(commit)) {
  const works = [];
  for (const [, web] of named) works.push(await written(texts, web));
  all.push(works);
  console.log(row(name.replace('docs/', ''), works));
}
console.log(row('all', named.map((_, i) => added(all.map((works) => works[i])))));
