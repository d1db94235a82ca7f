// The devices and invitations of a house, which an owner sees and closes.
import { directory } from './directory.mjs';
import { button, item, of, say, staying } from './elements.mjs';
import { NotDone } from './orders.mjs';
import { readKeys } from './protocol.mjs';
import { ask } from './question.mjs';
import { notDone } from './told.mjs';
import * as words from './words.mjs';

/** @typedef {{ kind: string, number: number, person: number, isOpen: boolean }} Key an invitation or a device */

export class Keys {
  /**
   * @param {import('./orders.mjs').Orders} orders
   * @param {number} site of this browser's device
   * @param {(all: Key[]) => void} told is given all of them, as the host answers an owner
   */
  constructor(orders, site, told) {
    this.orders = orders;
    this.site = site;
    this.told = told;
    /** @type {Key[]} */
    this.all = [];
    this.part = of('keys-part', HTMLDetailsElement);
    this.part.addEventListener('toggle', () => this.part.open && this.ask());
  }

  // Asks for them anew, and shows those that are open. Where there is no link they are asked for once there is.
  async ask() {
    try {
      const [, ...lines] = await this.orders.ask('keys');
      this.all = readKeys(lines);
      this.told(this.all);
      this.show();
    } catch (error) {
      if (!(error instanceof NotDone) || error.isRefusal) this.tell(error);
    }
  }

  show() {
    staying('keys', () => of('keys').replaceChildren(...this.all.filter(({ isOpen }) => isOpen).map((it) => this.key(it))));
  }

  /** @param {{ kind: string, number: number, person: number }} key */
  key({ kind, number, person }) {
    const isOwn = kind === 'device' && number === this.site;
    const what = `${words.capital(kind)} ${number} of ${words.group(person)}`;
    if (isOwn) return item(`${what}, which is this browser`);
    return item(what, ' ', button('Close', `Close ${kind} ${number} of ${directory.nameOf(person) ?? person}`, () => this.close(kind, number, what)));
  }

  /**
   * @param {string} kind
   * @param {number} number
   * @param {string} what
   */
  async close(kind, number, what) {
    const undone = kind === 'device' ? 'No edit is undone. Edits that wait in that browser are not accepted any more.' : 'Devices that it made stay.';
    if ((await ask(this.orders, { title: `Close ${what.charAt(0).toLowerCase()}${what.slice(1)}?`, undone, yes: 'Close it' })) !== 'yes') return;
    try {
      await this.orders.ask(`close ${kind} ${number}`);
      await this.ask();
    } catch (error) {
      this.tell(error);
    }
  }

  /** @param {Error} error */
  tell(error) {
    if (!(error instanceof NotDone)) throw error;
    say('status', notDone(error.words));
  }
}
