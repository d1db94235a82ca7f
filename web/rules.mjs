// What an owner changes of a document's rules. Each change is a question first, which says how many edits of whom would be undone.
import { say } from './elements.mjs';
import { NotDone } from './orders.mjs';
import { ask } from './question.mjs';
import { notDone } from './told.mjs';
import * as words from './words.mjs';

/**
 * @typedef {import('./policy.mjs').Authorization} Authorization
 * @typedef {import('./policy.mjs').Extent} Extent
 */

/**
 * Whether an authorization is about one person in the whole text.
 *
 * @param {Authorization} authorization
 * @param {number} person
 */
function isAbout({ users, objects }, person) {
  return users.kind === 'groups' && users.numbers.join() === String(person) && objects.join() === '0';
}

export class Rules {
  /**
   * @param {import('./copy.mjs').Copy} copy
   * @param {import('./editor.mjs').Editor} editor
   * @param {import('./orders.mjs').Orders} orders
   * @param {() => Promise<void>} settled waits until the host has what was written here, so that rules may be about it
   */
  constructor(copy, editor, orders, settled) {
    this.copy = copy;
    this.editor = editor;
    this.orders = orders;
    this.settled = settled;
  }

  // The version of the rules.
  get version() {
    return this.copy.policy.version;
  }

  /**
   * Whether a person may write in the whole text, by these authorizations.
   *
   * @param {number} person
   * @param {Authorization[]} [authorizations]
   */
  mayWrite(person, authorizations) {
    return this.copy.policy.allowsGroup(person, 'i', ({ kind }) => kind === 'all', authorizations);
  }

  /**
   * What a person may do, in words.
   *
   * @param {number} person
   */
  powers(person) {
    const { policy } = this.copy;
    return words.powers((right, covers) => policy.allowsGroup(person, right, covers), policy);
  }

  /**
   * Asks, and then has these operations made. What would be undone is a peer's answer; it can be confirmed first, and then it stays.
   *
   * @param {string} title
   * @param {string} word what is done
   * @param {string[]} operations
   */
  async change(title, word, operations) {
    this.editor.writer.flush();
    const gone = this.copy.wouldUndo(operations);
    const them = gone.length === 1 ? 'it' : 'them';
    const answer = await ask(this.orders, {
      title,
      undone: words.wouldUndo(gone),
      more: gone.length ? words.MEANWHILE : '',
      yes: gone.length ? `${word}, and undo ${them}` : word,
      keep: gone.length ? `${word}, but keep ${them}` : null,
    });
    if (answer !== 'yes' && answer !== 'keep') return;
    const kept = answer === 'keep' ? gone.map(({ name }) => `validate ${name}`) : [];
    await this.make([...kept, ...operations]);
  }

  /** @param {string[]} operations */
  async make(operations) {
    try {
      await this.settled();
      const answers = await this.orders.askMany(operations.map((it) => `admin ${it}`));
      const refused = answers.find((it) => !it.startsWith('entry '));
      say('status', refused ? words.refusal(refused, this.copy.policy) : '');
    } catch (error) {
      if (!(error instanceof NotDone)) throw error;
      say('status', notDone(error.words));
    }
  }

  /**
   * Lets a person write everywhere, or nowhere but where a paragraph's rule says so: a rule of the whole text stands behind those of
   * paragraphs. A rule that says the contrary goes, where that is enough.
   *
   * @param {number} person
   * @param {boolean} isAllowed
   */
  allow(person, isAllowed) {
    const { authorizations } = this.copy.policy;
    const contrary = authorizations.findIndex((it) => isAbout(it, person) && it.allows !== isAllowed);
    const isEnough = contrary >= 0 && this.mayWrite(person, authorizations.toSpliced(contrary, 1)) === isAllowed;
    const whole = authorizations.findIndex(({ objects }) => objects.includes(0));
    const place = whole < 0 ? authorizations.length : whole;
    const operation = isEnough ? `delauth ${contrary}` : `addauth ${place} ${isAllowed ? '+' : '-'} @${person} idu 0`;
    const name = words.group(person);
    return this.change(isAllowed ? `Allow ${name} to write?` : `Forbid ${name} to write?`, isAllowed ? 'Allow' : 'Forbid', [operation]);
  }

  /**
   * The operations by which a person may write nowhere, whatever the other rules say: all that wasn't confirmed goes.
   *
   * @param {number} person
   */
  forbidding(person) {
    return [`addauth 0 - @${person} idu 0`];
  }

  /**
   * What would be undone by these.
   *
   * @param {number} person
   */
  wouldForbid(person) {
    this.editor.writer.flush();
    return this.copy.wouldUndo(this.forbidding(person));
  }

  /**
   * Has them made, without a question.
   *
   * @param {number} person
   */
  forbid(person) {
    return this.make(this.forbidding(person));
  }

  /** @param {number} place */
  remove(place) {
    const { policy } = this.copy;
    return this.change(`Remove the rule “${words.rule(policy.authorizations[place], policy)}”?`, 'Remove', [`delauth ${place}`]);
  }

  /**
   * Nobody but these persons and groups may write in the paragraphs of the selection. The permission comes first: what isn't confirmed is judged
   * by each change of the rules, also by one in between.
   *
   * @param {number[]} groups
   */
  protect(groups) {
    const ends = this.editor.paragraph();
    if (!ends) return say('status', 'There are no letters in the paragraph at the caret.');
    const { copy } = this;
    const number = copy.policy.freeObject();
    const allowed = groups.length ? [`addauth 0 + @${groups.toSorted((a, b) => a - b).join(',')} idu ${number}`] : [];
    const operations = [`addobj ${number} span ${ends.join(' ')}`, ...allowed, `addauth ${allowed.length} - all idu ${number}`];
    const who = groups.length ? `Let nobody but ${words.listed(groups.map((it) => words.group(it, copy.policy)))}` : 'Let nobody';
    return this.change(`${who} write in the paragraph ${words.cited(copy.excerpt(ends[0], ends[1]))}?`, 'Protect', operations);
  }
}
