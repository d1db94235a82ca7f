// A line to a host: a link to a document or to the house, dialled again where it is cut, over which texts, frames and orders go.
import { closeOf } from './closes.mjs';
import { Orders } from './orders.mjs';
import { readText } from './protocol.mjs';

const FIRST_WAIT_MS = 500;
const LONGEST_WAIT_MS = 15000;
const TURN_MS = 2000; // before a line takes its turn again
const BROKE_PROTOCOL = 4002;
const WENT = 1000;
const OPEN = 1;

/**
 * What a line is given. `hello` tells the first text. `welcomed` is called when the host has welcomed it, `heard` with each other text,
 * `came` with the bytes of each message of frames and what tells whether the link on which they came still stands, and `told` after each
 * change of how the line stands. `lost` is called with each close.
 *
 * @typedef {object} Sides
 * @property {() => string} hello
 * @property {(welcome: import('./protocol.mjs').Welcome) => void} welcomed
 * @property {(heard: import('./protocol.mjs').Heard) => void} [heard]
 * @property {(bytes: Uint8Array, stands: () => boolean) => void} [came]
 * @property {() => void} [told]
 * @property {(close: import('./closes.mjs').Close) => void} [lost]
 * @property {boolean} [takesTurns] whether it is dialled again where another page of the device is linked in its place
 * @property {(address: string) => WebSocket} [dial]
 */

export class Line {
  /**
   * @param {string} address
   * @param {Sides} sides
   */
  constructor(address, sides) {
    const { hello, welcomed, heard = () => {}, came = () => {}, told = () => {}, lost = () => {}, takesTurns = false, dial = (it) => new WebSocket(it) } = sides;
    this.address = address;
    this.hello = hello;
    this.welcomed = welcomed;
    this.heard = heard;
    this.came = came;
    this.told = told;
    this.lost = lost;
    this.takesTurns = takesTurns;
    this.dial = dial;
    this.isWelcome = false;
    this.words = ''; // why the link ended last, or ''
    this.isOver = false; // it is dialled no more
    this.failures = 0; // so often it was dialled since it was welcomed last
    this.wait = FIRST_WAIT_MS;
    /** @type {ReturnType<typeof setTimeout> | undefined} */
    this.timer = undefined;
    /** @type {WebSocket | null} */
    this.socket = null;
    this.orders = new Orders((text) => this.say(text), () => this.stands);
    this.connect();
  }

  connect() {
    this.timer = undefined;
    const socket = this.dial(this.address);
    socket.binaryType = 'arraybuffer';
    this.socket = socket;
    const ours = (action) => (event) => this.socket === socket && action(event);
    socket.addEventListener('open', ours(() => socket.send(this.hello())));
    socket.addEventListener('message', ours(({ data }) => this.take(data)));
    socket.addEventListener('close', ours(({ code }) => this.end(code)));
  }

  /** @param {string | ArrayBuffer} data */
  take(data) {
    const { socket } = this;
    if (typeof data !== 'string') return this.came(new Uint8Array(data), () => this.socket === socket);
    const heard = readText(data);
    if (heard.kind === 'welcome') this.welcome(heard);
    else if (heard.kind === 'answer' || heard.kind === 'refused') this.orders.hear(heard);
    else this.heard(heard);
    this.told();
  }

  /** @param {import('./protocol.mjs').Welcome} welcome */
  welcome(welcome) {
    this.isWelcome = true;
    this.words = '';
    this.failures = 0;
    this.wait = FIRST_WAIT_MS;
    this.welcomed(welcome);
  }

  // Whether the host has welcomed the line, and it isn't closing.
  get stands() {
    return this.isWelcome && this.socket?.readyState === OPEN;
  }

  /**
   * Says a text, if the host has welcomed the line; gives whether it did.
   *
   * @param {string | Uint8Array} text
   */
  say(text) {
    if (!this.stands) return false;
    this.socket?.send(text);
    return true;
  }

  // What came was no message.
  refuse() {
    this.socket?.close(BROKE_PROTOCOL);
  }

  /** @param {number} code */
  end(code) {
    const close = closeOf(code);
    this.failures += this.isWelcome ? 0 : 1;
    this.isWelcome = false;
    this.socket = null;
    this.words = close.words || this.words;
    this.orders.lose();
    if (close.then === 'end' || (close.then === 'other' && !this.takesTurns)) this.isOver = true;
    else if (close.then !== 'seek' && close.then !== 'renewed') this.dialAgain(close.then);
    this.lost(close);
    this.told();
  }

  /** @param {import('./closes.mjs').Then} then */
  dialAgain(then) {
    if (then === 'other') this.wait = Math.max(this.wait, TURN_MS);
    this.timer = setTimeout(() => this.connect(), then === 'now' ? 0 : this.wait);
    if (then !== 'now') this.wait = Math.min(2 * this.wait, LONGEST_WAIT_MS);
  }

  // Dials again a line whose document was looked for and is where it was.
  resume() {
    if (!this.isOver && !this.socket && this.timer === undefined) this.dialAgain('again');
  }

  // Dials at once, where it would later.
  hurry() {
    if (this.timer === undefined) return;
    clearTimeout(this.timer);
    this.connect();
  }

  // Ends the line for good.
  close() {
    clearTimeout(this.timer);
    this.isOver = true;
    this.isWelcome = false;
    const { socket } = this;
    this.socket = null;
    socket?.close(WENT);
    this.orders.lose();
  }
}
