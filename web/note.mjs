// A note at a place of the text: why something was refused or undone there, and its words to take along.
import { hide, of, say } from './elements.mjs';

/** @typedef {import('./ghosts.mjs').Ghost} Ghost */

export class Note {
  /**
   * @param {import('./surface.mjs').Surface} surface
   * @param {(ghost: Ghost) => void} letGo
   */
  constructor(surface, letGo) {
    this.surface = surface;
    /** @type {Ghost | null} whose words the note is of */
    this.ghost = null;
    /** @type {HTMLElement | null} the element that opened it */
    this.from = null;
    of('note-copy').addEventListener('click', () => this.copy());
    of('note-go').addEventListener('click', () => {
      if (this.ghost) letGo(this.ghost);
      this.close();
    });
    of('note-close').addEventListener('click', () => this.close());
    document.addEventListener('keydown', (event) => event.key === 'Escape' && !of('note').hidden && this.close());
    surface.root.addEventListener('beforeinput', () => this.hide());
  }

  /**
   * Says something at a place; who opened it by an element stands in it.
   *
   * @param {number} offset
   * @param {string} text
   * @param {Ghost | null} ghost
   * @param {HTMLElement | null} from
   */
  tell(offset, text, ghost = null, from = null) {
    this.ghost = ghost;
    this.from = from;
    say('note-text', text);
    for (const it of ['note-copy', 'note-go']) hide(it, !ghost);
    const note = of('note');
    note.hidden = false;
    const at = this.surface.rectOf(offset);
    const sheet = of('sheet').getBoundingClientRect();
    const most = sheet.width - note.offsetWidth - 8;
    note.style.left = `${Math.max(8, Math.min(at.left - sheet.left, most))}px`;
    note.style.top = `${at.bottom - sheet.top + 6}px`;
    if (from) note.focus();
  }

  async copy() {
    try {
      await navigator.clipboard.writeText(this.ghost?.text ?? '');
      say('status', 'The words are copied.');
    } catch {
      say('status', 'This browser did not let the page copy.');
    }
  }

  hide() {
    hide('note', true);
  }

  close() {
    this.hide();
    if (this.from?.isConnected) this.from.focus();
    else this.surface.root.focus();
  }
}
