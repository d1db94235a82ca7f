// Groups of people, whom rules name together: who is in one, what it is called, and what an owner changes about it. A group has devices, as the
// rules know them. A device that comes later is put into the groups of its person by an owner's page, as the host puts it into the person's own.
// A group's number is that with which the host keeps its name; one of before groups had names has a number from the greatest down.
import { directory, keptGroupName, MOST_GROUP_NAME } from './directory.mjs';
import { hide, item, of, say, staying } from './elements.mjs';
import { NotDone } from './orders.mjs';
import { askWords, order } from './question.mjs';
import * as words from './words.mjs';

const GONE = 'gone';
const CALLED = 'called';

/**
 * The numbers of a policy's groups that are nobody's own: those with names first.
 *
 * @param {import('./policy.mjs').Policy} policy
 */
export function groupsOf(policy) {
  if (!directory.people.size) return [];
  const hasName = (/** @type {number} */ it) => directory.groupName(it) !== null;
  const numbers = [...policy.groups.keys()].sort((a, b) => a - b);
  return [...numbers.filter(hasName), ...numbers.filter((it) => !directory.people.has(it)).reverse()];
}

/**
 * The devices of a person that a policy knows.
 *
 * @param {import('./policy.mjs').Policy} policy
 * @param {number} person
 */
function devicesOf(policy, person) {
  return [...directory.devices].filter(([site, of]) => of === person && policy.users.has(site)).map(([site]) => site);
}

/**
 * The operations that put the devices of persons into a group, but for those that are in it.
 *
 * @param {import('./policy.mjs').Policy} policy
 * @param {number} number
 * @param {number[]} persons
 */
export function joining(policy, number, persons) {
  const members = policy.groups.get(number) ?? new Set();
  return persons.flatMap((it) => devicesOf(policy, it)).filter((it) => !members.has(it)).map((it) => `addmember ${number} ${it}`);
}

/**
 * The operations by which a group gets another number, in each rule that names it. At no version in between anybody has less than before.
 *
 * @param {import('./policy.mjs').Policy} policy
 * @param {number} from
 * @param {number} to
 */
export function moving(policy, from, to) {
  const members = [...(policy.groups.get(from) ?? [])].map((it) => `addmember ${to} ${it}`);
  const rules = policy.authorizations.flatMap(({ allows, users: { kind, numbers }, rights, objects }, place) => {
    if (kind !== 'groups' || !numbers.includes(from)) return [];
    const named = [...numbers.filter((it) => it !== from), to].sort((a, b) => a - b);
    return [`addauth ${place} ${allows ? '+' : '-'} @${named.join(',')} ${rights} ${objects.join(',')}`, `delauth ${place + 1}`];
  });
  return [`addgroup ${to}`, ...members, ...rules, `delgroup ${from}`];
}

export class Groups {
  /**
   * @param {import('./copy.mjs').Copy} copy
   * @param {import('./rules.mjs').Rules} rules
   */
  constructor(copy, rules) {
    this.policy = copy.policy;
    this.rules = rules;
    this.said = ''; // of what the list was made
    this.followed = ''; // at what it was looked for devices that came
  }

  /** @param {number} number */
  personsOf(number) {
    return directory.personsOf(this.policy.groups.get(number) ?? []);
  }

  /** @param {boolean} isOwner */
  show(isOwner) {
    const said = JSON.stringify([this.policy.version, directory.version, isOwner]);
    if (said === this.said) return;
    this.said = said;
    const numbers = groupsOf(this.policy);
    hide('groups-part', !numbers.length);
    staying('groups', () => of('groups').replaceChildren(...numbers.map((it) => this.item(it, isOwner))));
  }

  /**
   * @param {number} number
   * @param {boolean} isOwner
   */
  item(number, isOwner) {
    return item(words.groupTold(number, this.policy), ...(isOwner ? [' ', this.changes(number)] : []));
  }

  /**
   * What an owner may change of a group, as a list to choose from.
   *
   * @param {number} number
   */
  changes(number) {
    const persons = this.personsOf(number);
    const others = directory.persons.map(({ person }) => person).filter((it) => !persons.includes(it) && devicesOf(this.policy, it).length);
    const option = (/** @type {number} */ person) => new Option(directory.nameOf(person) ?? '', String(person));
    const list = document.createElement('select');
    list.setAttribute('aria-label', `Change ${words.group(number, this.policy)}`);
    const naming = new Option(directory.groupName(number) === null ? 'Give it a name…' : 'Give it another name…', CALLED);
    list.append(new Option('Change…', ''), choices('Put in', others.map(option)), choices('Take out', persons.map(option)), naming, new Option('Take the group away', GONE));
    list.addEventListener('change', () => {
      const chosen = list.value;
      list.value = '';
      if (chosen === GONE) this.remove(number);
      else if (chosen === CALLED) this.call(number);
      else this.turn(number, Number(chosen));
    });
    return list;
  }

  // ---- what an owner changes

  /** @param {number[]} persons */
  async make(persons) {
    const here = persons.filter((it) => devicesOf(this.policy, it).length);
    if (here.length < 2) return say('status', words.FEW_FOR_A_GROUP);
    const title = words.makingGroup(here, persons.filter((it) => !here.includes(it)));
    await this.underName(title, 'Make it', (number) => [`addgroup ${number}`, ...joining(this.policy, number, here)]);
  }

  /**
   * Gives a group a name, or another one.
   *
   * @param {number} number
   */
  async call(number) {
    const name = directory.groupName(number);
    const title = `What is ${words.group(number, this.policy)} called?`;
    if (name === null) return this.underName(title, 'Call it so', (to) => moving(this.policy, number, to));
    const other = await this.askName(title, name, 'Call it so');
    if (other && other !== name) await order(this.rules.orders, `rename ${number} ${keptGroupName(other)}`);
  }

  /**
   * Asks for a name that no group here has; gives it, or ''.
   *
   * @param {string} title
   * @param {string} name that it has, or ''
   * @param {string} yes
   */
  async askName(title, name, yes) {
    const given = await askWords(this.rules.orders, title, name, yes, MOST_GROUP_NAME);
    const known = directory.groupCalled(given);
    if (known === null || !this.policy.groups.has(known) || given === name) return given;
    say('status', words.groupThere(given));
    return '';
  }

  /**
   * Asks for a name, and has the operations made by which a group gets the number that is kept with it. Where that is new no rule can be about it,
   * so nothing is undone; where the name was another group's, which is gone here, it is asked about as any change.
   *
   * @param {string} title
   * @param {string} yes
   * @param {(number: number) => string[]} operations
   */
  async underName(title, yes, operations) {
    const name = await this.askName(title, '', yes);
    if (!name) return;
    const known = directory.groupCalled(name);
    if (known !== null) return this.rules.change(title, yes, operations(known));
    const [made] = (await order(this.rules.orders, `person reader ${keptGroupName(name)}`)) ?? [];
    if (made) await this.rules.make(operations(Number(made.split(' ')[1])));
  }

  /**
   * Puts a person into a group, or takes one out who is in it.
   *
   * @param {number} number
   * @param {number} person
   */
  turn(number, person) {
    const [name, group] = [words.group(person), words.group(number, this.policy)];
    if (!this.personsOf(number).includes(person)) return this.rules.change(`Put ${name} into ${group}?`, 'Put in', joining(this.policy, number, [person]));
    const own = [...(this.policy.groups.get(number) ?? [])].filter((it) => directory.personOf(it) === person);
    return this.rules.change(`Take ${name} out of ${group}?`, 'Take out', own.map((it) => `delmember ${number} ${it}`));
  }

  /** @param {number} number */
  remove(number) {
    return this.rules.change(`Take ${words.group(number, this.policy)} away? Rules about it are about nobody then.`, 'Take it away', [`delgroup ${number}`]);
  }

  // Puts devices that came later into the groups of their persons. Another owner's page may do so at the same time: what is there already stays.
  async follow() {
    const at = `${this.policy.version} ${directory.version}`;
    if (at === this.followed) return;
    this.followed = at;
    const missing = groupsOf(this.policy).flatMap((it) => joining(this.policy, it, this.personsOf(it)));
    if (missing.length) {
      await this.rules.orders.askMany(missing.map((it) => `admin ${it}`)).catch((error) => {
        if (!(error instanceof NotDone)) throw error;
      });
    }
  }
}

/**
 * @param {string} label
 * @param {HTMLOptionElement[]} options
 */
function choices(label, options) {
  const made = document.createElement('optgroup');
  made.label = label;
  made.hidden = !options.length;
  made.append(...options);
  return made;
}
