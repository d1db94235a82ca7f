// A document's renewal, which an owner orders.
import { hide, of, say } from './elements.mjs';
import { NotDone } from './orders.mjs';
import { ask } from './question.mjs';
import { notDone } from './told.mjs';
import * as words from './words.mjs';

/**
 * Whether an owner wants a document renewed.
 *
 * @param {import('./orders.mjs').Orders} orders
 * @param {string} name
 */
export async function wantsRenewal(orders, name) {
  return (await ask(orders, { title: `Renew ${name}?`, undone: words.RENEWING, more: words.RENEWING_MORE, yes: 'Renew it' })) === 'yes';
}

export class Renewal {
  /**
   * @param {string} name of the document
   * @param {import('./orders.mjs').Orders} orders
   * @param {() => Promise<void>} settled waits until the host has what was written here
   */
  constructor(name, orders, settled) {
    this.name = name;
    this.orders = orders;
    this.settled = settled;
    of('renew').addEventListener('click', () => this.order());
  }

  /**
   * @param {number} count of edits
   * @param {number} version of the rules
   * @param {boolean} isOwner
   */
  show(count, version, isOwner) {
    const isDue = words.isDue(count, version);
    hide('renew-part', !isDue);
    hide('renew', !isOwner);
    if (isDue) say('renew-told', isOwner ? words.RENEW_IT : words.ASK_TO_RENEW);
  }

  async order() {
    if (!(await wantsRenewal(this.orders, this.name))) return;
    try {
      await this.settled();
      await this.orders.ask('renew');
    } catch (error) {
      if (!(error instanceof NotDone)) throw error;
      say('status', notDone(error.words));
    }
  }
}
