// A copy over a line to its document's host, live both ways: what the host has is given from where this page is, and this device's
// requests are sent as soon as they are kept here. One that comes back is saved there.
import { BadFrame } from './copy.mjs';
import { isEntry, joined, requestOf, split, userOf } from './frames.mjs';
import { MOST_MESSAGE_BYTES } from './limits.mjs';
import { Line } from './line.mjs';
import { helloText } from './protocol.mjs';

export class Sync {
  /**
   * `run` is given each action that changes the copy, and runs it soon. `told` is called after each change of how the page stands with its
   * host, `heard` is given what the host tells of people and carets, `cameBack` the name of each request of this device that the host has,
   * and `lost` each close.
   *
   * @param {import('./copy.mjs').Copy} copy
   * @param {string} address
   * @param {{ identity: string, device: import('./device.mjs').Device, marks: import('./store.mjs').Marks }} from
   * @param {{ run: (action: () => void) => void, told: () => void, heard: (heard: import('./protocol.mjs').Heard) => void,
   *   cameBack: (name: string) => void, lost?: (close: import('./closes.mjs').Close) => void, dial?: (address: string) => WebSocket }} sides
   */
  constructor(copy, address, { identity, device, marks }, { run, told, heard, cameBack, lost = () => {}, dial }) {
    this.copy = copy;
    this.told = told;
    this.cameBack = cameBack;
    this.lost = lost;
    this.from = marks.from; // so many of the host's messages are here
    this.back = marks.back; // so many of this device's requests came back
    /** @type {number[]} the places in the journal of this device's requests */
    this.own = [];
    this.looked = 0; // so many of the journal's items were looked at for these
    this.sent = 0; // so many of them were sent on this link
    this.upTo = 0; // so many messages the host had when the link began
    /** @type {import('./protocol.mjs').Role | null} */
    this.role = null;
    this.isHeldBack = false; // what is written isn't sent, since the host doesn't take it
    this.closed = ''; // why it isn't, or ''
    this.line = new Line(address, {
      hello: () => helloText(device, identity, this.from),
      welcomed: (it) => this.welcome(it),
      heard,
      came: (bytes, stands) => run(() => stands() && this.take(bytes)),
      lost: (it) => this.ended(it),
      told: () => told(),
      dial,
    });
  }

  get marks() {
    return { from: this.from, back: this.back };
  }

  get isWelcome() {
    return this.line.isWelcome;
  }

  // How many requests of this device aren't known to be saved by the host.
  get unsaved() {
    this.look();
    return this.own.length - this.back;
  }

  // The places in the journal of this device's requests that aren't known to be saved by the host.
  get waiting() {
    this.look();
    return this.own.slice(this.back);
  }

  get isCaughtUp() {
    return this.isWelcome && this.from >= this.upTo;
  }

  look() {
    const { journal, site } = this.copy;
    for (; this.looked < journal.count; this.looked++) {
      const frame = journal.view(this.looked);
      if (!isEntry(frame) && userOf(frame) === site) this.own.push(this.looked);
    }
  }

  /** @param {import('./protocol.mjs').Welcome} welcome */
  welcome({ saved, role }) {
    this.upTo = saved;
    this.role = role;
    this.sent = this.back;
    this.send();
  }

  /** @param {import('./closes.mjs').Close} close */
  ended(close) {
    if (close.then === 'read') {
      this.isHeldBack = true;
      this.closed = close.words;
    }
    this.lost(close);
  }

  /**
   * Takes a message of frames. One that is none ends the link.
   *
   * @param {Uint8Array} bytes
   */
  take(bytes) {
    for (const frame of split(bytes)) {
      try {
        this.copy.receive(frame);
      } catch (error) {
        this.line.refuse();
        if (!(error instanceof BadFrame)) throw error;
        return;
      }
      this.from++;
      this.noteOwn(frame);
    }
    this.told();
  }

  /** @param {Uint8Array} frame */
  noteOwn(frame) {
    if (isEntry(frame) || userOf(frame) !== this.copy.site) return;
    this.back++;
    this.cameBack(requestOf(frame).name);
  }

  // Sends what is kept here and wasn't sent, as many requests in a message as there is room for.
  send() {
    this.look();
    if (!this.isWelcome || this.role === 'reader' || this.isHeldBack) return;
    /** @type {Uint8Array[]} */
    let frames = [];
    let size = 0;
    const put = () => frames.length && this.line.say(joined(frames));
    for (; this.sent < this.own.length && this.own[this.sent] < this.copy.kept; this.sent++) {
      const frame = this.copy.journal.at(this.own[this.sent]);
      if (size + frame.length > MOST_MESSAGE_BYTES) {
        put();
        [frames, size] = [[], 0];
      }
      frames.push(frame);
      size += frame.length;
    }
    put();
  }
}
