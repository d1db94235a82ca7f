// The lists of a page: who may do what, what was undone and why, and the versions of the rules.
import { versions } from '../changes.mjs';
import { button, item, of, say } from '../elements.mjs';
import * as words from '../words.mjs';

const MOST_SHOWN = 200;

export class Lists {
  // `administration` takes rules away; null where this person isn't the administrator.
  constructor(copy, administration) {
    this.copy = copy;
    this.administration = administration;
    this.shown = new Map(); // what each list was made of
  }

  // Whether a list is to be made anew, of this.
  isNew(id, ...words) {
    const said = JSON.stringify(words);
    const isNew = this.shown.get(id) !== said;
    this.shown.set(id, said);
    return isNew;
  }

  show() {
    const { policy, undone } = this.copy;
    const mayRemove = this.administration?.isOpen ?? false;
    this.showWho();
    if (this.isNew('all', policy.version, mayRemove)) {
      this.showRules(mayRemove);
      this.showObjects();
      this.showVersions();
    }
    if (this.isNew('undone', undone.count)) this.showUndone();
  }

  showWho() {
    const { site, policy } = this.copy;
    const here = policy.users.has(site) ? '' : ' The rules do not know this person yet, so nothing is allowed.';
    say('who', `This page is ${words.person(site)}.${here} Version ${policy.version} of the rules.`);
  }

  // The rules are made anew only where they changed.
  showRules(mayRemove) {
    const { policy } = this.copy;
    say('people', `People: ${[...policy.users].sort((a, b) => a - b).map(words.person).join(', ')}.`);
    const rules = policy.authorizations.map((it) => [it.version, words.rule(it, policy)]);
    if (!this.isNew('rules', mayRemove, rules)) return;
    const buttons = (place) => (mayRemove ? [button('Remove', `Remove rule ${place + 1}`, () => this.administration?.removeRule(place))] : []);
    const items = rules.map(([version, text], place) => {
      const made = item(text, ...buttons(place));
      made.dataset.version = String(version);
      return made;
    });
    this.stayingInRules(() => of('rules').replaceChildren(...items));
  }

  // Who stands at a rule with the keyboard stands at the same rule afterwards, where it is gone at the next one, and where there is none
  // at the heading.
  stayingInRules(action) {
    /** @type {HTMLLIElement | null | undefined} */
    const stood = document.activeElement?.closest('#rules li');
    const place = this.ruleItems().findIndex((it) => it === stood);
    action();
    if (!stood) return;
    const items = this.ruleItems();
    const now = items.find((it) => it.dataset.version === stood.dataset.version) ?? items[place] ?? items.at(-1);
    (now?.querySelector('button') ?? of('rules-title')).focus();
  }

  ruleItems() {
    return /** @type {HTMLLIElement[]} */ ([...of('rules').children]);
  }

  // Where a rule may apply, made anew only where that changed; the choice stays where it can.
  showObjects() {
    const { policy } = this.copy;
    const objects = [...policy.objects.keys()].map((number) => [words.object(number, policy), String(number)]);
    if (!this.isNew('object', objects)) return;
    const list = of('object', HTMLSelectElement);
    const chosen = Number(list.value);
    list.replaceChildren(...objects.map(([text, value]) => new Option(text, value)));
    if (policy.objects.has(chosen)) list.value = String(chosen);
  }

  showUndone() {
    const { undone, policy } = this.copy;
    of('nothing-undone').hidden = undone.count > 0;
    of('undone', HTMLOListElement).start = undone.rows.length;
    of('undone').replaceChildren(...undone.rows.slice(-MOST_SHOWN).toReversed().map((it) => item(words.undone(it, policy))));
  }

  showVersions() {
    const { entries, policy } = this.copy;
    const items = versions(entries, policy, MOST_SHOWN).map(({ version, text }) => {
      const made = item(text);
      made.value = version;
      return made;
    });
    of('versions').replaceChildren(...items);
  }
}
