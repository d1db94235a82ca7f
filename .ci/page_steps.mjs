// As examples/library/two_peers.c, by the module: the same lines give the same answers, the rows of each step make of what showed what shows
// then, and at the end each peer comes back. With a
// number N it writes N made lines. With `replay` and a file it writes the lines there as a script of `replay`, but for those that are
// no steps, and then the answers that are due to it. With `narrow` the module's memory has 32 bits, as for browsers that know no other.
//
//   node --experimental-wasm-memory64 .ci/page_steps.mjs [narrow | replay SCRIPT] < LINES          node .ci/page_steps.mjs N
import assert from 'node:assert/strict';
import { readFileSync, writeFileSync } from 'node:fs';
import { DONE, Module, Peer } from '../web/peer.mjs';

const PIECES = ['a', 'é', '\\n', '𝟝', 'two\\swords'];
const OPERATIONS = ['addauth 0 - 1 i 0', 'delauth 0', 'addgroup 7', 'addmember 7 1', 'addobj 1 by 1', 'addauth 0 - @7 du 1', 'addauth 0 + 1 idu 0'];
const WORD = (1n << 64n) - 1n;

// Numbers below n, each from those before: x is shifted and mixed three times.
function drawing() {
  let x = 1n;
  return (n) => {
    x ^= (x << 13n) & WORD;
    x ^= x >> 7n;
    x ^= (x << 17n) & WORD;
    return Number(x % BigInt(n));
  };
}

function madeLine(draw) {
  const site = draw(2);
  const kind = draw(44);
  const piece = PIECES[draw(PIECES.length)];
  if (kind === 0) return `0 admin ${OPERATIONS[draw(OPERATIONS.length)]}`;
  if (kind === 1) return '0 validatenext';
  if (kind === 2) return `${site} look ${draw(200)}`;
  if (kind === 3) return `${site} show`;
  if (kind === 4) return `${site} edit insert ${draw(4)}`; // no step
  if (kind < 9) return 'give';
  if (kind < 30) return `${site} edit insert ${draw(40)} ${piece}`;
  if (kind < 37) return `${site} edit delete ${draw(40)}`;
  return `${site} edit update ${draw(40)} ${piece}`;
}

function* madeLines(count) {
  const draw = drawing();
  yield* ['0 admin adduser 1', '0 admin addauth 0 + 1 idu 0', 'give'];
  for (let i = 0; i < count; i++) yield madeLine(draw);
  yield 'give';
}

// A peer that is closed and comes back by its journal.
function back(peer) {
  const frames = [];
  for (let it = peer.step('look 0'); it.frame.length; it = peer.step(`look ${frames.length}`)) frames.push(it.frame);
  peer.close();
  return new Peer(peer.module, peer.site, Buffer.concat(frames));
}

// A site's step as a line of a script.
function scriptLine(site, step) {
  const [kind, ...words] = step.split(' ');
  if (kind === 'edit' || kind === 'admin') return `${site} ${words.join(' ')}`;
  return kind === 'look' || kind === 'show' ? [kind, site, ...words].join(' ') : `${site} ${step}`;
}

// Plays lines. `tell` is given each call as a line of a script, what it told, the number of the message that it issued, or 0, and the site.
function play(lines, peers, tell) {
  const waiting = [[], []];
  let issued = 0;
  const receiveAll = (site) => {
    for (const { number, frame } of waiting[site].splice(0)) {
      tell(`give ${number} ${site}`, peers[site].receive(frame), 0, site);
      for (let answer = ''; answer !== 'quiet'; ) {
        const told = peers[site].step('settle');
        tell(`settle ${site}`, told, 0, site);
        answer = told.answer;
      }
    }
  };
  for (const line of lines) {
    if (line === 'give') {
      [0, 1].forEach(receiveAll);
      continue;
    }
    const site = line[0] === '1' ? 1 : 0;
    const told = peers[site].step(line.slice(2));
    const isIssued = told.frame.length && !line.startsWith('look', 2);
    if (isIssued) waiting[1 - site].push({ number: ++issued, frame: told.frame });
    tell(scriptLine(site, line.slice(2)), told, isIssued ? issued : 0, site);
  }
}

// Pieces with the rows in them, one after another.
function follow(pieces, rows) {
  for (const { kind, at, piece } of rows) pieces.splice(at, kind === 'insert' ? 0 : 1, ...(kind === 'delete' ? [] : [piece]));
}

// What a peer tells of its text is what its rows made.
function compare(peer, pieces) {
  assert.equal(Buffer.from(peer.text()).toString(), pieces.join(''));
  assert.equal(peer.count(), pieces.length);
  assert.deepEqual(pieces.map((_, place) => peer.pieceAt(place)), pieces);
  assert.deepEqual(pieces.map((_, place) => peer.writerAt(place)), [...peer.writers()]);
}

function answered(lines, peers) {
  const out = [];
  const shown = peers.map(() => []);
  play(lines, peers, (line, { code, answer, rows }, number, site) => {
    out.push(`${code} ${code === DONE ? answer : ''}`);
    follow(shown[site], rows);
  });
  peers.forEach((peer, site) => compare(peer, shown[site]));
  for (const peer of peers) out.push(`0 ${Buffer.from(back(peer).text()).toString().replace(/\n$/, '')}`);
  return out;
}

function replayed(lines, peers) {
  const [script, answers] = [['peers 2'], []];
  play(lines, peers, (line, { code, answer }, number) => {
    if (code !== DONE) return;
    script.push(line);
    answers.push(number ? answer.replace(' ', ` ${number} `) : answer);
  });
  return { script, answers };
}

const written = (lines) => [...lines, ''].join('\n');

async function main() {
  const [mode, file] = process.argv.slice(2);
  if (mode && mode !== 'replay' && mode !== 'narrow') {
    process.stdout.write(written(madeLines(Number(mode))));
    return;
  }
  const made = readFileSync(new URL('../web/editor.wasm', import.meta.url));
  const module = await Module.load(made, mode === 'narrow' ? false : undefined);
  const lines = readFileSync(0, 'utf8').split('\n').slice(0, -1);
  const peers = [0, 1].map((site) => new Peer(module, site));
  if (mode !== 'replay') {
    process.stdout.write(written(answered(lines, peers)));
    return;
  }
  const { script, answers } = replayed(lines, peers);
  writeFileSync(file, written(script));
  process.stdout.write(written(answers));
}

await main();
