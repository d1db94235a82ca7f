// The orders of an owner on a link: rows of lines, each row done whole or not at all, with a number by which its answer is known.
import { orderText } from './protocol.mjs';

const MOST_LINES = 64; // of a row

export const OFFLINE = 'offline';

/** An order that wasn't done, or of which nobody says whether it was. */
export class NotDone extends Error {
  /** @param {string} words of the host; OFFLINE where there was no link, and empty where that was cut before the answer came */
  constructor(words) {
    super(words);
    this.words = words;
  }

  // Whether the host said so.
  get isRefusal() {
    return this.words !== '' && this.words !== OFFLINE;
  }
}

export class Orders {
  /**
   * @param {(text: string) => boolean} send gives whether there is a link
   * @param {() => boolean} stands tells the same
   */
  constructor(send, stands) {
    this.send = send;
    this.stands = stands;
    this.count = 0;
    /** @type {Map<number, { done: (lines: string[]) => void, failed: (error: Error) => void }>} */
    this.waiting = new Map();
  }

  // Whether there is a link on which something can be ordered.
  get isLinked() {
    return this.stands();
  }

  /**
   * Orders a row of lines, and gives those of the answer. Throws NotDone.
   *
   * @param {string[]} lines
   * @returns {Promise<string[]>}
   */
  ask(...lines) {
    const number = this.count++;
    return new Promise((done, failed) => {
      if (!this.send(orderText(number, lines))) return failed(new NotDone(OFFLINE));
      this.waiting.set(number, { done, failed });
    });
  }

  /**
   * The same for a row that may be longer than one may be. It is done in rows, so where one isn't done those in front of it are.
   *
   * @param {string[]} lines
   */
  async askMany(lines) {
    const answers = [];
    for (let at = 0; at < lines.length; at += MOST_LINES) answers.push(...(await this.ask(...lines.slice(at, at + MOST_LINES))));
    return answers;
  }

  /** @param {import('./protocol.mjs').Answer | import('./protocol.mjs').Refused} heard */
  hear(heard) {
    const asked = this.waiting.get(heard.number);
    this.waiting.delete(heard.number);
    if (heard.kind === 'answer') asked?.done(heard.lines);
    else asked?.failed(new NotDone(heard.words));
  }

  // The link was cut: whether these orders were done nobody says.
  lose() {
    const all = [...this.waiting.values()];
    this.waiting.clear();
    all.forEach(({ failed }) => failed(new NotDone('')));
  }
}
