// The people of a house: who is here, who may do what, and what an owner does about it.
import { colourOfPerson } from './colours.mjs';
import { directory, groupNameIn } from './directory.mjs';
import { button, hide, made, of, say, staying } from './elements.mjs';
import { Leaving } from './leaving.mjs';
import { ask, askWords, order } from './question.mjs';
import { byRole, invited, LIKE_A_GROUP, powersTold, replacing, role as roleWords, whereabouts } from './told.mjs';
import * as words from './words.mjs';

/** @typedef {import('./protocol.mjs').Person} Person */

const ROLES = /** @type {const} */ (['owner', 'writer', 'reader']);

/** @param {Person} person */
function face({ person, name }) {
  const it = made('span', 'face', words.initials(name));
  it.dataset.colour = colourOfPerson(person);
  it.setAttribute('aria-hidden', 'true');
  return it;
}

export class People {
  /**
   * @param {import('./orders.mjs').Orders} orders
   * @param {number} site of this browser's device
   * @param {() => void} changed is called when devices or invitations were made or closed
   * @param {import('./rules.mjs').Rules | null} rules of the document, if the page is at one
   */
  constructor(orders, site, changed, rules = null) {
    this.orders = orders;
    this.site = site;
    this.changed = changed;
    this.rules = rules;
    this.leaving = new Leaving(orders, rules, changed);
    /** @type {Set<number>} the sites that have a link now */
    this.here = new Set();
    /** @type {Set<number> | null} the persons of whom a device or an invitation is open; null where the host didn't tell, as it tells owners alone */
    this.open = null;
    this.said = ''; // of what the lists were made
    of('new-person').addEventListener('submit', (event) => {
      event.preventDefault();
      this.inviteNew(of('new-name', HTMLInputElement).value.trim(), of('new-role', HTMLSelectElement).value);
    });
    of('copy-address').addEventListener('click', () => copyAddress());
  }

  get own() {
    return directory.personOf(this.site);
  }

  get isOwner() {
    return directory.people.get(this.own ?? 0)?.role === 'owner';
  }

  // Which persons have a link now.
  get present() {
    return new Set([...this.here].map((site) => directory.personOf(site)));
  }

  /**
   * What is open of whom, as the host tells an owner.
   *
   * @param {import('./keys.mjs').Key[]} all
   */
  take(all) {
    this.open = new Set(all.filter(({ isOpen }) => isOpen).map(({ person }) => person));
    this.show();
  }

  show() {
    const { present, isOwner } = this;
    const said = JSON.stringify([directory.version, this.rules?.version ?? 0, [...this.here], isOwner, this.open && [...this.open]]);
    if (said === this.said) return;
    this.said = said;
    hide('new-person', !isOwner);
    this.tellSelf();
    const people = directory.persons;
    of('here').replaceChildren(...people.filter(({ person }) => present.has(person)).map(hereItem));
    staying('people', () => of('people').replaceChildren(...people.map((it) => this.item(it, this.stateOf(it, present)))));
  }

  // Who somebody is here, where another person's invitation was opened.
  tellSelf() {
    const self = directory.people.get(this.own ?? 0);
    if (!self) return;
    const name = words.isolated(self.name);
    say('invited-words', replacing(name));
    say('leave-invitation', `Go on as ${name}`);
  }

  /**
   * @param {Person} it
   * @param {Set<number | null>} present
   * @returns {import('./told.mjs').Whereabouts}
   */
  stateOf({ person }, present) {
    if (person === this.own) return 'self';
    if (present.has(person)) return 'here';
    const open = this.isOwner ? this.open : null;
    if (open ? !open.has(person) : directory.isRemoved(person)) return 'removed';
    return directory.hasCome(person) ? 'away' : 'invited';
  }

  /** @param {Person} person */
  powersOf({ person, role }) {
    if (!this.rules) return byRole(role);
    if (role === 'reader') return 'may only read';
    const powers = this.rules.powers(person);
    return role === 'owner' ? `${powers}; makes the rules` : powers;
  }

  /**
   * @param {Person} it
   * @param {import('./told.mjs').Whereabouts} state
   */
  item(it, state) {
    const isThere = state === 'self' || state === 'here';
    const name = made('p', isThere ? '' : 'away', made('strong', '', words.isolated(it.name)), ` · ${whereabouts(state)}`);
    const line = made('li', '', face(it), made('div', '', name, made('p', '', powersTold(this.powersOf(it), state))));
    if (this.isOwner) line.append(this.acts(it, state));
    return line;
  }

  /**
   * What an owner does about a person.
   *
   * @param {Person} it
   * @param {import('./told.mjs').Whereabouts} state
   */
  acts(it, state) {
    const { rules } = this;
    const isSelf = state === 'self';
    const mayWrite = rules?.mayWrite(it.person) ?? true;
    const word = mayWrite ? 'Forbid writing' : 'Allow writing';
    const row = made('div', 'row');
    if (rules && it.role !== 'reader' && !(isSelf && mayWrite)) row.append(button(word, `${word}: ${it.name}`, () => rules.allow(it.person, !mayWrite)));
    row.append(button('Invite again', `Invite again: ${it.name}`, () => this.invite(it.person, it.name)));
    row.append(button('Rename', `Rename ${it.name}`, () => this.rename(it)));
    if (!isSelf && state !== 'removed') row.append(button('Remove', `Remove ${it.name}`, () => this.leaving.ask(it.person)));
    if (!isSelf) row.append(this.roles(it));
    return row;
  }

  /** @param {Person} it */
  roles(it) {
    const list = document.createElement('select');
    list.setAttribute('aria-label', `Role of ${it.name} in all documents`);
    list.append(...ROLES.map((role) => new Option(roleWords(role), role, false, role === it.role)));
    list.addEventListener('change', () => this.setRole(it, list));
    return list;
  }

  // ---- orders

  /**
   * Orders something, and says why where it wasn't done. Gives the lines of the answer, or null.
   *
   * @param {string} line
   */
  order(line) {
    return order(this.orders, line);
  }

  /**
   * @param {string} name
   * @param {string} role
   */
  async inviteNew(name, role) {
    if (!name) return;
    if (groupNameIn(name) !== null) return say('status', LIKE_A_GROUP);
    const made = await this.order(`person ${role} ${name}`);
    if (!made) return;
    of('new-name', HTMLInputElement).value = '';
    await this.invite(Number(made[0].split(' ')[1]), name);
  }

  /**
   * Makes an invitation of a person, and shows its address.
   *
   * @param {number} person
   * @param {string} name
   */
  async invite(person, name) {
    const made = await this.order(`invite ${person}`);
    if (!made) return;
    const address = of('invited-address', HTMLInputElement);
    hide('invited', false);
    say('invited-label', `Give this address to ${words.isolated(name)}, and to nobody else`);
    address.value = made[0].split(' ')[2];
    address.select();
    const role = directory.people.get(person)?.role ?? 'writer';
    say('status', invited(words.isolated(name), role === 'reader' || (this.rules?.mayWrite(person) ?? true)));
    this.changed();
  }

  /** @param {Person} it */
  async rename(it) {
    const name = await askWords(this.orders, `Name of ${words.isolated(it.name)}`, it.name, 'Rename');
    if (groupNameIn(name) !== null) return say('status', LIKE_A_GROUP);
    if (name && name !== it.name) await this.order(`rename ${it.person} ${name}`);
  }

  /**
   * @param {Person} it
   * @param {HTMLSelectElement} list
   */
  async setRole(it, list) {
    const role = /** @type {Person['role']} */ (list.value);
    const title = `Change the role of ${words.isolated(it.name)} to ${roleWords(role).toLowerCase()}?`;
    const undone = role === 'reader' ? 'No edit is undone. Edits that wait in that person’s browsers are not accepted any more.' : 'No edit is undone.';
    if ((await ask(this.orders, { title, undone, yes: 'Change it' })) === 'yes') await this.order(`role ${it.person} ${role}`);
    else list.value = it.role;
  }
}

/** @param {Person} it */
function hereItem(it) {
  const line = made('li', '', face(it), made('span', 'unseen', words.isolated(it.name)));
  line.title = it.name;
  return line;
}

async function copyAddress() {
  const address = of('invited-address', HTMLInputElement);
  try {
    await navigator.clipboard.writeText(address.value);
    say('status', 'The address is copied.');
  } catch {
    address.select();
    say('status', 'Copy the address that is selected.');
  }
}
