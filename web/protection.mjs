// The form in which an owner chooses who may write in the paragraphs that are selected, or makes a group of those who are chosen.
import { directory } from './directory.mjs';
import { hide, made, of } from './elements.mjs';
import { groupsOf } from './groups.mjs';
import * as words from './words.mjs';

export class Protection {
  /**
   * @param {import('./policy.mjs').Policy} policy
   * @param {() => number | null} own tells the person whose page it is, who is chosen first
   * @param {{ protect: (numbers: number[]) => void, group: (persons: number[]) => void }} acts
   */
  constructor(policy, own, { protect, group }) {
    this.policy = policy;
    this.own = own;
    this.at = ''; // at what it was looked who may be chosen
    this.said = ''; // of what the boxes were made
    of('protect-form').addEventListener('submit', (event) => {
      event.preventDefault();
      protect(this.chosen);
    });
    of('make-group').addEventListener('click', () => group(this.chosen.filter((it) => directory.persons.some(({ person }) => person === it))));
  }

  // The numbers of the persons and groups that are chosen.
  get chosen() {
    /** @type {NodeListOf<HTMLInputElement>} */
    const boxes = document.querySelectorAll('#protect-whom input:checked');
    return [...boxes].map((it) => Number(it.value));
  }

  /** @param {boolean} isOwner */
  show(isOwner) {
    hide('protection', !isOwner);
    const at = `${this.policy.version} ${directory.version}`;
    if (at === this.at) return;
    this.at = at;
    const all = this.numbers().map((it) => ({ number: it, name: words.capital(words.group(it, this.policy)) }));
    const said = JSON.stringify(all);
    if (said === this.said) return;
    const chosen = of('protect-whom').childElementCount ? this.chosen : [this.own()];
    this.said = said;
    of('protect-whom').replaceChildren(...all.map(({ number, name }) => made('label', 'choice', box(number, chosen.includes(number)), ' ', name)));
  }

  // All who write may be chosen, and groups.
  numbers() {
    const people = directory.persons.filter(({ role }) => role !== 'reader').map(({ person }) => person);
    return [...people, ...groupsOf(this.policy)];
  }
}

/**
 * A box of a person or a group to be chosen.
 *
 * @param {number} number
 * @param {boolean} isChosen
 */
function box(number, isChosen) {
  const it = document.createElement('input');
  it.type = 'checkbox';
  it.value = String(number);
  it.checked = isChosen;
  return it;
}
