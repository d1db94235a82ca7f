// Looks for words in the text. The place that is shown is marked, and not selected, so that who presses Enter again goes on to the next and writes
// nothing; it is selected once the form is closed.
import { hide, of, say, sentBy } from './elements.mjs';
import { found } from './told.mjs';

/**
 * Where words stand in a text, one behind another, whether large or small letters are meant.
 *
 * @param {string} text
 * @param {string} words
 */
export function placesOf(text, words) {
  const [all, wanted] = [text, words].map((it) => it.toLocaleLowerCase());
  // Where small letters are more units than large ones, as of İ, it is looked for as it is written.
  const [from, to] = all.length === text.length ? [all, wanted] : [text, words];
  const places = [];
  for (let at = to ? from.indexOf(to) : -1; at >= 0; at = from.indexOf(to, at + to.length)) places.push(at);
  return places;
}

/**
 * Which of so many places is shown next, behind the one that is; -1 is none.
 *
 * @param {number} count
 * @param {number} at
 * @param {1 | -1} step
 */
export function stepped(count, at, step) {
  const from = at < 0 && step < 0 ? 0 : at;
  return (from + step + count) % count;
}

const FOUND = 'found';

export class Finder {
  /** @param {import('./editor.mjs').Editor} editor */
  constructor(editor) {
    this.editor = editor;
    this.words = of('find-words', HTMLInputElement);
    this.at = -1; // which of the places shows
    this.range = document.createRange(); // where it is in the page
    const marked = new Highlight(this.range);
    marked.priority = 1; // over the colours
    CSS.highlights.set(FOUND, marked);
    of('find-open').addEventListener('click', () => this.open(of('find').hidden));
    of('find-close').addEventListener('click', () => this.open(false));
    this.words.addEventListener('input', () => this.count());
    of('find').addEventListener('submit', (event) => {
      event.preventDefault();
      this.go(sentBy(event) === 'previous' ? -1 : 1);
    });
    of('find').addEventListener('keydown', (event) => event.key === 'Escape' && this.open(false));
  }

  /** @param {boolean} isOpen */
  open(isOpen) {
    hide('find', !isOpen);
    of('find-open').setAttribute('aria-expanded', String(isOpen));
    if (isOpen) return this.words.select();
    this.editor.root.focus({ preventScroll: this.at >= 0 });
    const at = this.places[this.at];
    if (at !== undefined) this.editor.surface.select(at, at + this.words.value.length);
    this.unmark();
  }

  unmark() {
    this.at = -1;
    this.range.collapse();
  }

  get places() {
    return placesOf(this.editor.writer.view().text, this.words.value);
  }

  count() {
    this.unmark();
    say('find-count', this.words.value ? found(this.places.length, 0) : '');
  }

  /** @param {1 | -1} step */
  go(step) {
    const { places, editor: { surface } } = this;
    if (!places.length) return say('find-count', found(0, 0));
    this.at = stepped(places.length, this.at, step);
    const at = places[this.at];
    surface.lineAt(at).node.scrollIntoView({ block: 'center' });
    this.range.setStart(...surface.placeOf(at));
    this.range.setEnd(...surface.placeOf(at + this.words.value.length));
    say('find-count', found(places.length, this.at));
  }
}
