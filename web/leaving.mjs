// A person leaves a house: all by which that person could come in is closed, and what was written stays, or goes from a document.
import { say } from './elements.mjs';
import { NotDone } from './orders.mjs';
import { readKeys } from './protocol.mjs';
import { ask } from './question.mjs';
import { notDone } from './told.mjs';
import * as words from './words.mjs';

/**
 * The orders that close what is open of a person: invitations first, so that none makes a device meanwhile.
 *
 * @param {string[]} lines of invitations and devices, as the host answers `keys`
 * @param {number} person
 */
export function closings(lines, person) {
  const open = readKeys(lines).filter((it) => it.isOpen && it.person === person);
  const ofKind = (/** @type {string} */ kind) => open.filter((it) => it.kind === kind);
  return [...ofKind('invitation'), ...ofKind('device')].map(({ kind, number }) => `close ${kind} ${number}`);
}

export class Leaving {
  /**
   * @param {import('./orders.mjs').Orders} orders
   * @param {import('./rules.mjs').Rules | null} rules of the document, if the page is at one
   * @param {() => void} closed is called when something was closed
   */
  constructor(orders, rules, closed) {
    this.orders = orders;
    this.rules = rules;
    this.closed = closed;
  }

  /**
   * Asks whether a person leaves, and what becomes of what that person wrote here. That it stays is offered first.
   *
   * @param {number} person
   */
  async ask(person) {
    const name = words.group(person);
    const gone = this.rules?.wouldForbid(person) ?? [];
    const stays = gone.length > 0;
    const answer = await ask(this.orders, {
      title: `Remove ${name}?`,
      undone: words.leaving(name, gone),
      more: words.left(name),
      keep: stays ? 'Close them, and keep what is written' : null,
      yes: stays ? `Close them, and undo ${words.edits(gone.length)}` : 'Close them',
    });
    if (answer !== 'yes' && answer !== 'keep') return;
    if ((await this.close(person)) && stays && answer === 'yes') await this.rules?.forbid(person);
  }

  /**
   * Closes what is open of a person; gives whether all of it was closed.
   *
   * @param {number} person
   */
  async close(person) {
    try {
      const [, ...lines] = await this.orders.ask('keys');
      for (const it of closings(lines, person)) await this.orders.ask(it);
      say('status', words.removed(words.group(person)));
      return true;
    } catch (error) {
      if (!(error instanceof NotDone)) throw error;
      say('status', notDone(error.words));
      return false;
    } finally {
      this.closed();
    }
  }
}
