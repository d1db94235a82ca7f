// A typist: the keys by which changes of a text are made, with their times, mistakes that are deleted again, and pauses. All of it follows
// from a seed.

const KEY_MS = [110, 260]; // from one key to the next
const WORD_MS = [0, 500]; // more, before a word
const SENTENCE_MS = [600, 2500]; // more, before a sentence
const PLACE_MS = [2000, 5000]; // before another place of the text
const NOTICE_MS = [300, 700]; // until a mistake is noticed
const LETTERS_TO_A_MISTAKE = 40;
const MOST_BEHIND = 6; // letters that are typed until it is noticed
const MOST_BY_KEYS = 12; // letters that are deleted one by one; more are selected
const ALPHABET = 'etaoinshrdlu';

/**
 * A key, so long after the one before: it replaces what stands from one place to another. `isWanted` tells a letter that stays from one
 * that is a mistake or stands behind it.
 *
 * @typedef {{ wait: number, start: number, end: number, text: string, isWanted: boolean }} Key
 */

export class Typist {
  /** @param {number} seed */
  constructor(seed) {
    this.state = seed;
  }

  /** @param {number} below */
  draw(below) {
    this.state = (Math.imul(this.state, 1664525) + 1013904223) >>> 0;
    return Math.floor((this.state / 2 ** 32) * below);
  }

  /** @param {number[]} range */
  between([least, most]) {
    return least + this.draw(most - least);
  }

  /**
   * The keys of a change.
   *
   * @param {import('./history.mjs').Change} change
   * @returns {Generator<Key>}
   */
  *keys({ start, end, text }) {
    const isMany = end - start > MOST_BY_KEYS;
    if (!isMany) yield* this.deleted(end, end - start, this.between(PLACE_MS));
    const letters = Array.from(text);
    if (isMany && !letters.length) yield this.key(start, end, '', PLACE_MS);
    let at = start;
    for (const [i, letter] of letters.entries()) {
      if (i && !this.draw(LETTERS_TO_A_MISTAKE)) yield* this.mistake(at, letters.slice(i));
      const last = isMany && !i ? end : at; // the first letter is typed over what was selected
      yield { ...this.key(at, last, letter, i ? KEY_MS : PLACE_MS), wait: this.pause(letters, i), isWanted: true };
      at += letter.length;
    }
  }

  /**
   * @param {number} start
   * @param {number} end
   * @param {string} text
   * @param {number[]} wait
   * @returns {Key}
   */
  key(start, end, text, wait = KEY_MS) {
    return { wait: this.between(wait), start, end, text, isWanted: false };
  }

  /**
   * How long a writer waits before a letter.
   *
   * @param {string[]} letters
   * @param {number} i
   */
  pause(letters, i) {
    const usual = this.between(KEY_MS);
    if (!i) return usual + this.between(PLACE_MS);
    if (letters[i - 1].trim()) return usual;
    return usual + this.between(/[.:!?\n|]/.test(letters[i - 2] ?? '') ? SENTENCE_MS : WORD_MS);
  }

  /**
   * So many letters in front of a place are deleted one by one.
   *
   * @param {number} end
   * @param {number} count
   * @param {number} wait before the first
   */
  *deleted(end, count, wait) {
    for (let i = 0; i < count; i++) yield { ...this.key(end - i - 1, end - i, ''), ...(i ? {} : { wait }) };
  }

  /**
   * A wrong letter, some of those that were to come, and all of them deleted again.
   *
   * @param {number} at
   * @param {string[]} letters that are to come
   */
  *mistake(at, letters) {
    const wrong = [ALPHABET[this.draw(ALPHABET.length)], ...letters.slice(1, 1 + this.draw(MOST_BEHIND))].filter((it) => it.length === 1);
    for (const [i, it] of wrong.entries()) yield this.key(at + i, at + i, it);
    yield* this.deleted(at + wrong.length, wrong.length, this.between(NOTICE_MS));
  }
}
