// Draws the others' carets and selections over the text, which they don't touch.
import { made, of } from './elements.mjs';
import { NEW_MS } from './presence.mjs';
import * as words from './words.mjs';

/**
 * @typedef {{ left: number, top: number, height: number, width: number | null, colour: string, name: string | null }} Drawn a part of a selection, or
 *   a caret, which has no width, with its person's name where it is new
 */

export class Carets {
  /**
   * @param {import('./presence.mjs').Presence} presence
   * @param {import('./surface.mjs').Surface} surface
   * @param {import('./writer.mjs').Writer} writer
   */
  constructor(presence, surface, writer) {
    this.presence = presence;
    this.surface = surface;
    this.writer = writer;
    this.isDue = false;
    this.drawn = '[]'; // what is over the text
    /** @type {ReturnType<typeof setTimeout> | undefined} */
    this.timer = undefined;
    addEventListener('resize', () => this.show());
    document.addEventListener('scroll', () => this.show(), { passive: true });
  }

  // Draws them with the next frame of the screen.
  show() {
    if (this.isDue || (!this.presence.others.size && !of('carets').childElementCount)) return;
    this.isDue = true;
    requestAnimationFrame(() => this.draw());
  }

  draw() {
    this.isDue = false;
    const { hold } = this.writer;
    const sheet = of('sheet').getBoundingClientRect();
    const all = this.presence.all().map((it) => ({ ...it, anchor: this.writer.inView(it.anchor, hold), focus: this.writer.inView(it.focus, hold) }));
    this.put(all.flatMap((it) => [...this.selection(it, sheet), this.caret(it, sheet)]));
    clearTimeout(this.timer);
    if (all.some(({ isNew }) => isNew)) this.timer = setTimeout(() => this.show(), NEW_MS);
  }

  /**
   * Puts these in, unless they stand so already: whoever types has what the browser laid out for that already.
   *
   * @param {Drawn[]} all
   */
  put(all) {
    const drawn = JSON.stringify(all);
    if (drawn === this.drawn) return;
    this.drawn = drawn;
    of('carets').replaceChildren(...all.map(elementOf));
  }

  /**
   * @param {{ site: number, colour: string, focus: number, isNew: boolean }} at
   * @param {DOMRect} sheet
   * @returns {Drawn}
   */
  caret({ site, colour, focus, isNew }, sheet) {
    return { ...placed(this.surface.rectOf(focus), sheet), colour, width: null, name: isNew ? words.person(site) : null };
  }

  /**
   * @param {{ colour: string, anchor: number, focus: number }} at
   * @param {DOMRect} sheet
   * @returns {Drawn[]}
   */
  selection({ colour, anchor, focus }, sheet) {
    if (anchor === focus) return [];
    const range = document.createRange();
    range.setStart(...this.surface.placeOf(Math.min(anchor, focus)));
    range.setEnd(...this.surface.placeOf(Math.max(anchor, focus)));
    return [...range.getClientRects()].map((rect) => ({ ...placed(rect, sheet), colour, width: rect.width, name: null }));
  }
}

/**
 * Where something is over the sheet.
 *
 * @param {DOMRect} rect
 * @param {DOMRect} sheet
 */
const placed = (rect, sheet) => ({ left: rect.left - sheet.left, top: rect.top - sheet.top, height: rect.height });

/** @param {Drawn} it */
function elementOf({ left, top, height, width, colour, name }) {
  const it = width === null ? made('div', 'caret', made('span', 'caret-flag')) : made('div', 'chosen');
  if (name !== null) it.append(made('span', 'caret-name', name));
  it.dataset.colour = colour;
  it.style.left = `${left}px`;
  it.style.top = `${top}px`;
  it.style.height = `${height}px`;
  if (width !== null) it.style.width = `${width}px`;
  return it;
}
