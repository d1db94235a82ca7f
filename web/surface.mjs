// The element in which the text shows: a line of it is an element, whose letters are text nodes alone, and so many lines stand on a shelf, so that
// a browser that lays a line out anew goes by few others. Colours of who wrote what are highlights, which put nothing into the page. Words that
// aren't part of the text stand between its letters, and count for nothing.
import { difference } from './difference.mjs';
import { countWhile, laidOut, renewed } from './layout.mjs';

/**
 * @typedef {import('./ghosts.mjs').Ghost} Ghost
 * @typedef {import('./layout.mjs').LaidLine} LaidLine
 * @typedef {import('./layout.mjs').Shown} Shown
 * @typedef {{ anchor: number, focus: number }} Selected where a selection began and where it ends, in the text
 * @typedef {LaidLine & { node: HTMLElement, ranges: [string, StaticRange][] }} Line a line with its element and its highlights
 */

const MOST_OF_SHELF = 64; // lines; of more it is parted
const SHELF = 'shelf';
const LINE_EMS = 1.6; // how high a line is

/**
 * The highlight of a name.
 *
 * @param {string} name
 */
function highlight(name) {
  const known = CSS.highlights.get(name);
  if (known) return known;
  const made = new Highlight();
  CSS.highlights.set(name, made);
  return made;
}

/**
 * @param {Node} node
 * @returns {node is Text}
 */
const isText = (node) => node.nodeType === Node.TEXT_NODE;

/**
 * The letters that stand in a node, without words that aren't part of the text.
 *
 * @param {Node} node
 * @returns {string}
 */
function lettersOf(node) {
  if (isText(node)) return node.data;
  if (node instanceof Element && node.classList.contains('ghost')) return '';
  return [...node.childNodes].map(lettersOf).join('');
}

/** @param {Node} node */
const isShelf = (node) => node instanceof Element && node.classList.contains(SHELF);

/**
 * The text that stands in an element, a line in each element of its shelves, or in what a browser put beside these.
 *
 * @param {Element} root
 */
export function textIn(root) {
  const lines = [...root.childNodes].flatMap((it) => (isShelf(it) ? [...it.childNodes] : [it]));
  return lines.map(lettersOf).join('\n');
}

export class Surface {
  /**
   * @param {HTMLElement} root
   * @param {(ghost: Ghost) => HTMLElement} ghost makes the element of words that aren't part of the text
   */
  constructor(root, ghost) {
    this.root = root;
    this.ghost = ghost;
    /** @type {Line[]} */
    this.lines = [];
    /** @type {Shown | null} what shows, where the page's elements are as it wants them */
    this.shown = null;
    /** @type {Selected | null} what is to be selected with the next frame of the screen */
    this.wanted = null;
    this.isDue = false; // that frame is asked for
  }

  /**
   * Shows a text with what is marked in it. The elements of lines that are as they were stay.
   *
   * @param {Shown} now
   */
  show(now) {
    const { shown: old } = this;
    this.shown = now;
    this.wanted = null;
    if (!old) return this.replace(0, this.lines.length, laidOut(now));
    const change = renewed(this.lines, old, now);
    if (!change) return;
    const { from, to, shift, made } = change;
    for (const it of this.lines.slice(to)) it.start += shift;
    const isFirstKept = from < to && made.length > 0 && rewrite(this.lines[from], made[0]);
    const kept = isFirstKept ? 1 : 0;
    if (to - from > kept || made.length > kept) this.replace(from + kept, to, made.slice(kept));
  }

  /**
   * Lines in place of those from one to another.
   *
   * @param {number} from
   * @param {number} to
   * @param {LaidLine[]} laid
   */
  replace(from, to, laid) {
    const { lines } = this;
    const made = laid.map((it) => this.make(it));
    const shelf = /** @type {HTMLElement} */ ((lines[from] ?? lines[from - 1])?.node.parentElement ?? this.newShelf(null));
    const before = lines[from]?.node ?? null;
    for (const { node } of made) shelf.insertBefore(node, before);
    lines.slice(from, to).forEach(remove);
    this.part(shelf);
    made.forEach(mark);
    this.lines = [...lines.slice(0, from), ...made, ...lines.slice(to)];
  }

  /** @param {Element | null} behind */
  newShelf(behind) {
    const shelf = document.createElement('div');
    shelf.className = SHELF;
    this.root.insertBefore(shelf, behind ? behind.nextSibling : null);
    return shelf;
  }

  /**
   * Parts a shelf of too many lines, from its end on.
   *
   * @param {HTMLElement} shelf
   */
  part(shelf) {
    while (shelf.childElementCount > MOST_OF_SHELF) {
      const next = this.newShelf(shelf);
      for (let i = 0; i < MOST_OF_SHELF / 2 && shelf.lastChild; i++) next.prepend(shelf.lastChild);
      measure(next);
    }
    measure(shelf);
  }

  /**
   * @param {LaidLine} line
   * @returns {Line}
   */
  make(line) {
    const node = document.createElement('div');
    node.className = line.isLocked ? 'line locked' : 'line';
    let at = 0;
    const letters = (to) => {
      if (to > at) node.append(line.text.slice(at, to));
      at = Math.max(at, to);
    };
    for (const it of line.ghosts) {
      letters(it.offset - line.start);
      node.append(this.ghost(it));
    }
    letters(line.text.length);
    if (!line.text) node.append(document.createElement('br'));
    return { ...line, node, ranges: [] };
  }

  // Has everything made anew when it shows next, as the browser wrote into it.
  forget() {
    for (const it of this.lines) for (const [name, range] of it.ranges) highlight(name).delete(range);
    this.lines = [];
    this.shown = null;
    this.root.replaceChildren();
  }

  // The text as it stands in the page, for where the browser wrote into it.
  read() {
    return textIn(this.root);
  }

  // ---- places

  /** @param {number} offset */
  lineAt(offset) {
    return this.lines[Math.max(0, countWhile(this.lines, ({ start }) => start <= offset) - 1)];
  }

  get end() {
    const last = this.lines[this.lines.length - 1];
    return last.start + last.text.length;
  }

  /**
   * The place in the text of a place in the page; null where it is elsewhere.
   *
   * @param {Node} node
   * @param {number} offset
   */
  offsetOf(node, offset) {
    if (!this.root.contains(node)) return null;
    const at = node.childNodes[offset] ?? null;
    if (node === this.root) return this.startOfLine(at?.firstChild ?? null);
    if (isShelf(node)) return this.startOfLine(at ?? node.nextSibling?.firstChild ?? null);
    let child = node;
    while (child.parentNode && !isShelf(child.parentNode)) child = child.parentNode;
    const line = this.lines.find((it) => it.node === child);
    return line ? line.start + lengthUpTo(child, node, offset) : null;
  }

  /**
   * Where the line of an element begins; the text's end for none.
   *
   * @param {Node | null} node
   */
  startOfLine(node) {
    return this.lines.find((it) => it.node === node)?.start ?? this.end;
  }

  /**
   * The place in the text of an element that stands among its letters.
   *
   * @param {Element} element
   */
  offsetOfElement(element) {
    const line = element.parentNode;
    return (line && this.offsetOf(line, [...line.childNodes].indexOf(element))) ?? 0;
  }

  /**
   * The place in the page of a place in the text.
   *
   * @param {number} offset
   * @returns {[Node, number]}
   */
  placeOf(offset) {
    const line = this.lineAt(offset);
    let rest = offset - line.start;
    /** @type {Text | null} */
    let last = null;
    for (const it of line.node.childNodes) {
      if (!isText(it)) continue;
      if (rest <= it.length) return [it, rest];
      rest -= it.length;
      last = it;
    }
    return last ? [last, last.length] : [line.node, 0];
  }

  // What is selected in the text, or will be with the next frame, with its ends in the text's order; null where it is elsewhere.
  selection() {
    const now = this.wanted ?? this.selected();
    return now && { ...now, start: Math.min(now.anchor, now.focus), end: Math.max(now.anchor, now.focus) };
  }

  /**
   * The page's selection; null where it is elsewhere.
   *
   * @returns {Selected | null}
   */
  selected() {
    const { anchorNode, anchorOffset, focusNode, focusOffset } = getSelection() ?? {};
    if (!anchorNode || !focusNode) return null;
    const anchor = this.offsetOf(anchorNode, anchorOffset ?? 0);
    const focus = anchorNode === focusNode && anchorOffset === focusOffset ? anchor : this.offsetOf(focusNode, focusOffset ?? 0);
    return anchor === null || focus === null ? null : { anchor, focus };
  }

  /**
   * @param {number} anchor
   * @param {number} focus
   */
  select(anchor, focus = anchor) {
    this.wanted = null;
    const now = this.selected();
    const selection = getSelection();
    // A selection that stands beside lines, as where one was made anew, isn't where the letters are.
    const isInLines = [selection?.anchorNode, selection?.focusNode].every((it) => it && it !== this.root && !isShelf(it) && this.root.contains(it));
    if (isInLines && now?.anchor === anchor && now.focus === focus) return;
    selection?.setBaseAndExtent(...this.placeOf(anchor), ...this.placeOf(focus));
  }

  /**
   * The same with the next frame of the screen, for which the browser lays the page out anyhow: to select at once would have it do so twice.
   *
   * @param {number} anchor
   * @param {number} focus
   */
  selectSoon(anchor, focus) {
    this.wanted = { anchor, focus };
    if (this.isDue) return;
    this.isDue = true;
    requestAnimationFrame(() => {
      this.isDue = false;
      this.settle();
    });
  }

  // Selects what is to be selected, for whoever goes by the page's selection. Where somebody stands elsewhere by now, he stays there.
  settle() {
    const { wanted } = this;
    this.wanted = null;
    if (wanted && document.activeElement === this.root) this.select(wanted.anchor, wanted.focus);
  }

  /**
   * Where a place of the text is on the screen.
   *
   * @param {number} offset
   */
  rectOf(offset) {
    const range = document.createRange();
    range.setStart(...this.placeOf(offset));
    const rect = range.getClientRects()[0];
    if (rect) return rect;
    const line = this.lineAt(offset).node.getBoundingClientRect();
    return new DOMRect(line.left, line.top, 0, line.height);
  }
}

/**
 * How many letters of a line stand in front of a place in it.
 *
 * @param {Node} line
 * @param {Node} node
 * @param {number} offset
 */
function lengthUpTo(line, node, offset) {
  let length = 0;
  for (const [i, it] of [...line.childNodes].entries()) {
    if (it === node) return length + (isText(it) ? offset : 0);
    if (it.contains(node) || (node === line && i >= offset)) return length;
    if (isText(it)) length += it.length;
  }
  return length;
}

/**
 * Says how high a shelf is about, where a browser didn't lay it out yet.
 *
 * @param {HTMLElement} shelf
 */
function measure(shelf) {
  const count = String(shelf.childElementCount);
  if (shelf.dataset.lines === count) return;
  shelf.dataset.lines = count;
  shelf.style.setProperty('contain-intrinsic-height', `auto ${LINE_EMS * shelf.childElementCount}em`);
}

// A shelf without lines goes too.
/** @param {Line} line */
function remove({ node, ranges }) {
  for (const [name, range] of ranges) highlight(name).delete(range);
  const shelf = node.parentElement;
  node.remove();
  if (!shelf?.childElementCount) shelf?.remove();
}

/**
 * The letters of a line that has no words between them, and has letters.
 *
 * @param {Line} line
 */
function lettersAlone({ node, text, ghosts }) {
  const letters = node.firstChild;
  return letters && isText(letters) && letters === node.lastChild && !ghosts.length && letters.data === text ? letters : null;
}

/**
 * Has a line's element show another line, where it can: then a browser lays out the letters that changed, and its selection stays in them. Gives
 * whether it could.
 *
 * @param {Line} line
 * @param {LaidLine} now
 */
function rewrite(line, now) {
  const letters = lettersAlone(line);
  if (!letters || !now.text || now.ghosts.length || now.isLocked !== line.isLocked) return false;
  const { start, end, text } = difference(line.text, now.text);
  if (start < end || text) letters.replaceData(start, end - start, text);
  const same = countAlike(line.marks, now.marks);
  for (const [name, range] of line.ranges.splice(same)) highlight(name).delete(range);
  for (const { start: from, end: to, name } of now.marks.slice(same)) {
    const range = new StaticRange({ startContainer: letters, startOffset: from, endContainer: letters, endOffset: to });
    line.ranges.push([name, range]);
    highlight(name).add(range);
  }
  Object.assign(line, now);
  return true;
}

/**
 * How many spans of two rows are the same, from the front.
 *
 * @param {import('./layout.mjs').Span[]} row
 * @param {import('./layout.mjs').Span[]} other
 */
function countAlike(row, other) {
  const differs = row.findIndex(({ start, end, name }, i) => other[i]?.name !== name || other[i].start !== start || other[i].end !== end);
  return differs < 0 ? row.length : differs;
}

/**
 * Highlights what is marked in a line.
 *
 * @param {Line} line
 */
function mark(line) {
  for (const { start, end, name } of line.marks) {
    let at = 0;
    for (const node of line.node.childNodes) {
      if (!isText(node)) continue;
      const [from, to] = [Math.max(start - at, 0), Math.min(end - at, node.length)];
      if (from < to) line.ranges.push([name, new StaticRange({ startContainer: node, startOffset: from, endContainer: node, endOffset: to })]);
      at += node.length;
    }
  }
  for (const [name, range] of line.ranges) highlight(name).add(range);
}
