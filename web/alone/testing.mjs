// What the tests of the page for trying alone share.
import assert from 'node:assert/strict';
import { Copy } from '../copy.mjs';
import { Keeper } from '../keeper.mjs';
import { framesOf, module, Rows, RULES } from '../testing.mjs';
import { switchboard } from '../testing_links.mjs';
import { Editor } from './editor.mjs';
import { Link } from './link.mjs';

export { bytes, framesOf, limited, module, RULES } from '../testing.mjs';
export { timed, until } from '../testing_links.mjs';

// What the editor asks of a text area: its text, its selection, and events.
export class Area extends EventTarget {
  value = '';
  selectionStart = 0;
  selectionEnd = 0;
  selectionDirection = 'none';
  readOnly = false;

  setSelectionRange(start, end) {
    this.selectionStart = start;
    this.selectionEnd = end;
  }

  get carets() {
    return [this.selectionStart, this.selectionEnd];
  }

  // A person replaces what is from one place to another, in units of UTF-16.
  type(start, end, text) {
    this.value = this.value.slice(0, start) + text + this.value.slice(end);
    this.setSelectionRange(start + text.length, start + text.length);
    this.dispatchEvent(new Event('input'));
  }
}

export const TURN = [0, 0, 0, 2, 1, 5];

// The administrator's link over wires, the last of which is the one that was dialled last, and what is said of it.
export function wired() {
  const { copy } = opened(0);
  const said = [];
  const { wires, dial } = switchboard();
  const link = new Link(copy, { run: (it) => it(), told: (it) => it !== said.at(-1) && said.push(it), validates: () => false, dial });
  return { link, wires, said };
}

export function opened(site, bytes) {
  const copy = new Copy(module, site, bytes);
  const area = new Area();
  const refusals = [];
  const store = new Rows();
  const side = { copy, area, refusals, store, sent: 0, news: () => {} };
  side.keeper = new Keeper(copy, store, { kept: () => side.news(), failed: assert.fail });
  side.editor = new Editor(copy, area, { refused: (answer) => refusals.push(answer), changed: () => side.keeper.keep() });
  return side;
}

// Gives each what the others have that wasn't given yet.
export function exchange(...sides) {
  const news = sides.map((side) => framesOf(side, side.sent));
  sides.forEach((side, i) => {
    side.editor.during(() => news.forEach((frames, j) => i !== j && frames.forEach((it) => side.copy.receive(it))));
    assert.equal(side.copy.pieces.text, Buffer.from(side.copy.peer.text()).toString());
  });
  for (const side of sides) side.sent = side.copy.journal.count;
}

export function administratorAndUser(text = '') {
  const [administrator, user] = [opened(0), opened(1)];
  RULES.forEach((it) => administrator.copy.step(it));
  if (text) administrator.area.type(0, 0, text);
  exchange(administrator, user);
  return [administrator, user];
}
