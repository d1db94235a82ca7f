// The administrator's buttons: each is one operation of the policy, but for the protection of a paragraph, which is two, and for
// confirming all edits, which is one for each.
import { change } from '../changes.mjs';
import { of, say, sentBy } from '../elements.mjs';
import * as words from '../words.mjs';

export class Administration {
  // `refused` is given the answer to an operation that wasn't made.
  constructor(copy, editor, refused) {
    this.copy = copy;
    this.editor = editor;
    this.refused = refused;
    of('administration').hidden = false;
    this.listen();
    this.show();
  }

  // Whether rules can be changed here: they can't where others have rules of this person that aren't here, or where nothing is kept.
  get isOpen() {
    return !this.copy.isStale && !this.editor.isClosed;
  }

  // Whether what comes over the link is confirmed at once.
  get validates() {
    return this.isOpen && of('validates', HTMLInputElement).checked;
  }

  show() {
    const { isReserved } = this.copy;
    of('powers', HTMLFieldSetElement).disabled = !this.isOpen;
    of('validates', HTMLInputElement).disabled = isReserved;
    of('validate-all', HTMLButtonElement).disabled = isReserved;
    say('confirming', words.confirming(isReserved));
  }

  listen() {
    of('people-form').addEventListener('submit', (event) => {
      event.preventDefault();
      this.make(`admin ${sentBy(event)} ${Number(of('user', HTMLInputElement).value)}`);
    });
    of('rule-form').addEventListener('submit', (event) => {
      event.preventDefault();
      this.addRule(sentBy(event));
    });
    of('protect').addEventListener('click', () => this.protect());
    of('validate').addEventListener('click', () => this.make('validatenext'));
    of('validate-all').addEventListener('click', () => this.validateAll());
  }

  // Makes a step of the rules, and says in words what came of it.
  make(step) {
    if (!this.isOpen) return false;
    const answer = this.editor.during(() => this.copy.step(step));
    const isMade = answer.startsWith('entry ');
    if (isMade) this.tell(Number(answer.split(' ').at(-1)));
    else this.refused(answer);
    return isMade;
  }

  tell(undone) {
    const entry = this.copy.entries.at(-1);
    const more = undone ? ` It undid ${words.edits(undone)}.` : '';
    say('status', `Version ${entry.version}: ${change(entry, this.copy.policy)}${more}`);
  }

  addRule(sign) {
    /** @type {NodeListOf<HTMLInputElement>} */
    const checked = document.querySelectorAll('input[name=right]:checked');
    const rights = [...checked].map((it) => it.value).join('');
    const whom = of('whom', HTMLInputElement).value;
    const numbers = whom.split(',').map(Number).sort((a, b) => a - b);
    if (!rights) return say('status', 'A rule is about one of insert, delete and change at least.');
    const users = whom === 'all' ? whom : [...new Set(numbers)].join(',');
    this.make(`admin addauth 0 ${sign} ${users} ${rights} ${of('object', HTMLSelectElement).value}`);
  }

  removeRule(place) {
    this.make(`admin delauth ${place}`);
  }

  validateAll() {
    if (!this.isOpen) return;
    const before = this.copy.policy.version;
    this.editor.during(() => this.copy.validateAll());
    const count = this.copy.policy.version - before;
    const more = this.copy.isReserved ? ` ${words.confirming(true)}` : '';
    say('status', (count ? `${words.edits(count)} ${count === 1 ? 'is' : 'are'} confirmed.` : 'Nothing waits to be confirmed.') + more);
  }

  // The paragraphs of the selection become an object, and then nobody may change it.
  protect() {
    const ends = this.editor.paragraph();
    if (!ends) return say('status', 'There is no paragraph with letters at the caret.');
    const number = this.copy.policy.freeObject();
    if (!this.make(`admin addobj ${number} span ${ends.join(' ')}`)) return;
    this.make(`admin addauth 0 - all idu ${number}`);
  }
}
