// The list of what was written while away, in a document that was renewed meanwhile: each can be put in again, copied, or let go.
import { button, hide, item, of, say } from './elements.mjs';
import { isThere } from './left.mjs';
import * as words from './words.mjs';

/** @typedef {import('./left.mjs').Left} Left */

export class Away {
  /**
   * @param {import('./left.mjs').Kept} kept
   * @param {string} text that shows: what it has already isn't listed
   * @param {(left: Left) => boolean} put puts words into the text, and gives whether that was done
   */
  constructor(kept, text, put) {
    this.kept = kept;
    this.put = put;
    for (const it of kept.words.filter((left) => isThere(text, left))) kept.drop(it);
    of('left-all').addEventListener('click', () => this.putAll());
    this.show();
  }

  show() {
    const all = this.kept.words;
    hide('left-part', !all.length);
    of('left').replaceChildren(...all.map((it) => this.line(it)));
  }

  /** @param {Left} left */
  line(left) {
    const name = words.excerpt(left.text);
    const acts = [
      button('Put it in', `Put in ${name}`, () => this.putOne(left)),
      button('Copy', `Copy ${name}`, () => this.copy(left)),
      button('Let it go', `Let go ${name}`, () => this.letGo(left)),
    ];
    return item(words.leftWords(left), ' ', ...acts.flatMap((it) => [it, ' ']));
  }

  /** @param {Left} left */
  putOne(left) {
    if (this.put(left)) this.letGo(left);
  }

  putAll() {
    for (const it of this.kept.words) this.putOne(it);
  }

  /** @param {Left} left */
  letGo(left) {
    this.kept.drop(left);
    this.show();
  }

  /** @param {Left} left */
  async copy({ text }) {
    try {
      await navigator.clipboard.writeText(text);
      say('status', 'The words are copied.');
    } catch {
      say('status', 'This browser did not let the page copy.');
    }
  }
}
