// Measures a host beside y-websocket's server, on the same work: 20 writers in one document, all of what each writes to all.
// Outside the suite.
//
//   NODE_PATH=/usr/share/nodejs node bench/hosting/beside.mjs HOST [EDITS]
//
// HOST is the built program of a host. It wants Debian's node-ws and node-y-websocket. Both servers get the same clients, which are light: what
// they send is made before, and of what comes they look at names alone. The host saves all of it first; the other saves nothing.
import assert from 'node:assert/strict';
import { spawn } from 'node:child_process';
import { mkdtempSync, readFileSync, rmSync } from 'node:fs';
import { createRequire } from 'node:module';
import { loadavg, tmpdir } from 'node:os';
import { join } from 'node:path';

const load = createRequire('/usr/share/nodejs/');
const WebSocket = load('ws');
const Y = load('yjs');

const [program, edits = '10000'] = process.argv.slice(2);
const WRITERS = 20;
const GENTLE_MS = 100; // between two edits of one writer
const GENTLE_EDITS = 100; // of each writer
const TICKS = 100; // of a processor, in a second
const PORT = 20000 + (process.pid % 20000);
const Y_SERVER = '/usr/share/nodejs/y-websocket/bin/server.js';
const [SYNC, UPDATE] = [0, 2]; // kinds of messages of Yjs

const pause = (ms) => new Promise((done) => setTimeout(done, ms));

async function until(holds) {
  while (!(await holds())) await pause(5);
}

// ---- both servers

// A link of a writer: what came, by the names of edits.
class Link {
  constructor(address, namesOf) {
    this.socket = new WebSocket(address, { perMessageDeflate: false });
    this.socket.binaryType = 'nodebuffer';
    this.count = 0;
    this.texts = [];
    this.arrived = null; // where it is wanted, when each edit came
    this.socket.on('message', (data, isBinary) => {
      if (!isBinary) return this.texts.push(data.toString());
      const now = performance.now();
      for (const name of namesOf(data)) {
        this.count++;
        this.arrived?.set(name, now);
      }
    });
    this.opened = new Promise((done) => this.socket.once('open', done));
    this.socket.on('close', (code, words) => assert.ok(code < 4000, `${code} ${words}`));
  }

  async said(word) {
    let found;
    await until(() => (found = this.texts.find((it) => it.startsWith(word))));
    return found;
  }
}

// ---- a host

const ENTRY = 4;
const INSERT_BYTES = 28;

// The names of the requests in a message of frames; entries have none.
function* requests(data) {
  for (let at = 0; at < data.length; at += 4 + data.readUInt32BE(at)) if (data[at + 5] !== ENTRY) yield data.toString('latin1', at + 6, at + 14);
}

// The frame of a writer's next insert, behind the one before.
function insert(stamp, site, version) {
  const frame = Buffer.alloc(INSERT_BYTES);
  frame.writeUInt32BE(INSERT_BYTES - 4);
  frame.set([1, 1], 4);
  frame.writeUIntBE(stamp, 6, 6);
  frame.writeUInt16BE(site, 12);
  frame.writeUInt16BE(version, 14);
  if (stamp > 1) frame.writeUIntBE(stamp - 1, 16, 6), frame.writeUInt16BE(site, 22);
  frame.writeUInt32BE('a'.charCodeAt(0), 24);
  return frame;
}

class HostServer {
  async begin() {
    this.folder = mkdtempSync(join(tmpdir(), 'beside-'));
    const words = ['host', join(this.folder, 'text'), '--port', String(PORT), '--web', this.folder];
    this.run = spawn(program, words, { stdio: ['ignore', 'pipe', 'ignore'] });
    this.secret = await new Promise((done) => this.run.stdout.once('data', (data) => done(data.toString().trim().split('#')[1])));
    await until(() => fetch(`http://localhost:${PORT}/healthz`).then((it) => it.ok, () => false));
  }

  // A link of a new device of the owner, which wrote nothing yet.
  async link() {
    const address = `ws://localhost:${PORT}/d/text/link`;
    const asking = new Link(address, requests);
    await asking.opened;
    asking.socket.send(`join 1 ${this.secret}`);
    const [, site, secret] = (await asking.said('device')).split(' ');
    asking.socket.close();
    const link = new Link(address, requests);
    await link.opened;
    link.socket.send(`hello 1 - ${site} ${secret} 0`);
    this.version = Number((await link.said('welcome')).split(' ')[6]); // nobody wrote yet, so all that there is are entries
    return Object.assign(link, { site: Number(site), stamp: 0 });
  }

  // The next edit of a link: its bytes, and its name.
  edit(link) {
    const bytes = insert(++link.stamp, link.site, this.version);
    return { bytes, name: bytes.toString('latin1', 6, 14) };
  }

  end() {
    this.run.kill();
    rmSync(this.folder, { recursive: true, force: true });
  }
}

// ---- y-websocket's server

// An update is known by its bytes.
function* updates(data) {
  if (data[0] === SYNC && data[1] === UPDATE) yield data.toString('latin1');
}

class YServer {
  async begin() {
    const env = { ...process.env, NODE_PATH: '/usr/share/nodejs', HOST: 'localhost', PORT: String(PORT) };
    this.run = spawn(process.execPath, [Y_SERVER], { env, stdio: ['ignore', 'pipe', 'inherit'] });
    await new Promise((done) => this.run.stdout.once('data', done));
  }

  async link() {
    const link = new Link(`ws://localhost:${PORT}/text`, updates);
    await link.opened;
    link.document = new Y.Doc();
    link.document.on('update', (it) => (link.update = it));
    return link;
  }

  edit(link) {
    const text = link.document.getText('text');
    text.insert(text.length, 'a');
    const bytes = Buffer.concat([Buffer.from([SYNC, UPDATE, link.update.length]), link.update]);
    assert.ok(link.update.length < 128); // so its length is one byte
    return { bytes, name: bytes.toString('latin1') };
  }

  end() {
    this.run.kill();
  }
}

// ---- what is measured

// Seconds of the processor that a process took, and the megabytes that it has.
function spent({ pid }) {
  const fields = readFileSync(`/proc/${pid}/stat`, 'latin1').split(') ')[1].split(' ');
  const resident = Number(/VmRSS:\s+(\d+)/.exec(readFileSync(`/proc/${pid}/status`, 'latin1'))[1]);
  return { seconds: (Number(fields[11]) + Number(fields[12])) / TICKS, megabytes: resident / 1024 };
}

// All writers write as fast as they can.
async function measureMany(server, links) {
  const rows = links.map((it) => Array.from({ length: Number(edits) / WRITERS }, () => server.edit(it).bytes));
  const wanted = links.map(({ count }) => count + Number(edits));
  const [before, begun] = [spent(server.run), performance.now()];
  for (let i = 0; i < rows[0].length; i++) links.forEach((it, k) => it.socket.send(rows[k][i]));
  await until(() => links.every(({ count }, k) => count >= wanted[k]));
  const took = (performance.now() - begun) / 1000;
  const after = spent(server.run);
  const items = Math.round((Number(edits) * WRITERS) / took);
  return `${edits} edits to ${WRITERS} links in ${took.toFixed(2)} s: ${items.toLocaleString('en')} items a second; ${(after.seconds - before.seconds).toFixed(2)} s of the server’s processor, ${after.megabytes.toFixed(0)} MB`;
}

// All writers write at a gentle pace; of each edit it is told when it came to the next writer's link.
async function measureGentle(server, links) {
  const waits = [];
  links.forEach((it) => (it.arrived = new Map()));
  const sent = links.map(() => new Map());
  for (let i = 0; i < GENTLE_EDITS; i++) {
    for (const [k, link] of links.entries()) {
      const { bytes, name } = server.edit(link);
      sent[k].set(name, performance.now());
      link.socket.send(bytes);
      await pause(GENTLE_MS / WRITERS);
    }
  }
  for (const [k, names] of sent.entries()) {
    const { arrived } = links[(k + 1) % WRITERS];
    await until(() => [...names.keys()].every((it) => arrived.has(it)));
    for (const [name, at] of names) waits.push(arrived.get(name) - at);
  }
  const sorted = waits.toSorted((a, b) => a - b);
  const at = (share) => sorted[Math.floor(share * sorted.length)].toFixed(1);
  return `an edit to another’s link at a gentle pace: ${at(0.5)} ms in the middle, ${at(0.99)} ms of 99 in 100`;
}

async function measure(name, server) {
  await server.begin();
  try {
    const links = [];
    for (let i = 0; i < WRITERS; i++) links.push(await server.link());
    await pause(500);
    for (const measured of [measureGentle, measureMany]) console.log(`${name} (load ${loadavg()[0].toFixed(1)}): ${await measured(server, links)}`);
    links.forEach(({ socket }) => socket.terminate());
  } finally {
    server.end();
  }
}

await measure('host', new HostServer());
await measure('y-websocket', new YServer());
process.exit(0);
