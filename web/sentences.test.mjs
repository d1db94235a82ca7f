// What people read is told in words of theirs: none of the protocol's and of the code's stands in it.
import assert from 'node:assert/strict';
import { readdirSync, readFileSync } from 'node:fs';
import test from 'node:test';

const OURS = /\b(hosts?|houses?|sites?|idu|journals?|peers?|frames?|links?|identity|entry|entries|requests?)\b/i;
const FOLDER = new URL('.', import.meta.url);
const read = (/** @type {string} */ name) => readFileSync(new URL(name, FOLDER), 'utf8');

// What stands in quotes in a module and begins as a sentence does, without what is put into it.
function sentencesOf(module) {
  const code = module.replace(/^\s*(\/\/|\*|\/\*).*$/gm, '').replace(/\$\{[^}]*\}/g, '…');
  return [...code.matchAll(/'((?:[^'\\\n]|\\.)*)'|`([^`]*)`/g)].map(([, plain, made]) => plain ?? made).filter((it) => /^[A-Z“…].* .*/.test(it));
}

test('the sentences of the modules', () => {
  const modules = readdirSync(FOLDER).filter((it) => /\.mjs$/.test(it) && !/test|^peer\.mjs$/.test(it));
  const all = modules.flatMap((name) => sentencesOf(read(name)).map((it) => `${name}: ${it}`));
  assert.ok(all.length > 150, String(all.length));
  assert.deepEqual(all.filter((it) => OURS.test(it.slice(it.indexOf(':')))), []);
});

test('the text of the page', () => {
  const page = read('index.html').replace(/<head>[^]*<\/head>/, '');
  const labels = [...page.matchAll(/(?:aria-label|data-blank|title|placeholder)="([^"]*)"/g)].map(([, it]) => it);
  const all = [...page.replace(/<[^>]*>/g, '\n').split('\n').filter((it) => it.trim()), ...labels];
  assert.ok(all.length > 50, String(all.length));
  assert.deepEqual(all.filter((it) => OURS.test(it)), []);
});
