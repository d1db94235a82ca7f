// A running host of a folder of its own, for what tries or measures its page, and what waits for something to come.
import assert from 'node:assert/strict';
import { spawn } from 'node:child_process';
import { mkdtempSync, rmSync } from 'node:fs';
import { createServer } from 'node:http';
import { tmpdir } from 'node:os';
import { join } from 'node:path';
import { fileURLToPath } from 'node:url';
import { pause } from './devtools.mjs';

const LOOK_MS = 40;
const PATIENCE_MS = 40000;
const WEB = fileURLToPath(new URL('../web', import.meta.url));

/**
 * Waits until something holds, and says what never came otherwise.
 *
 * @param {string | (() => Promise<string>)} what
 * @param {() => unknown} holds
 * @param {number} [patience]
 */
export async function until(what, holds, patience = PATIENCE_MS) {
  const end = Date.now() + patience;
  while (!(await holds())) {
    if (Date.now() > end) assert.fail(`it never came that ${typeof what === 'string' ? what : await what()}`);
    await pause(LOOK_MS);
  }
}

/** @returns {Promise<number>} */
export async function freePort() {
  const server = createServer();
  await new Promise((done) => server.listen(0, '127.0.0.1', () => done(undefined)));
  const { port } = /** @type {{ port: number }} */ (server.address());
  await new Promise((done) => server.close(done));
  return port;
}

export class Host {
  /**
   * @param {string} program
   * @param {string} document its name
   */
  static async start(program, document) {
    const host = new Host();
    host.program = program;
    host.folder = mkdtempSync(join(tmpdir(), 'page-host-'));
    host.document = document;
    host.port = await freePort();
    host.invitation = await host.run();
    return host;
  }

  // Starts it; gives the first line that it prints.
  async run() {
    const words = ['host', join(this.folder, this.document), '--port', String(this.port), '--web', WEB];
    this.process = spawn(this.program, words, { stdio: ['ignore', 'pipe', 'ignore'] });
    this.ended = new Promise((done) => this.process.once('exit', done));
    const told = new Promise((done) => this.process.stdout.once('data', (data) => done(data.toString().trim())));
    await until('the host listens', () => fetch(`http://localhost:${this.port}/healthz`).then((it) => it.ok, () => false));
    return Promise.race([told, pause(100)]);
  }

  /**
   * The text that the host has of its document, for who shows a device's secret.
   *
   * @param {{ site: number, secret: string }} device
   */
  async text({ site, secret }) {
    const response = await fetch(`http://localhost:${this.port}/d/${this.document}/text`, { headers: { Authorization: `Bearer ${site}.${secret}` } });
    assert.equal(response.status, 200);
    return new TextDecoder('utf-8', { ignoreBOM: true }).decode(await response.arrayBuffer());
  }

  stop() {
    this.process.kill('SIGKILL');
    return this.ended;
  }

  async close() {
    await this.stop();
    rmSync(this.folder, { recursive: true, force: true });
  }
}
