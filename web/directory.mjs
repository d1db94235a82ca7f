// Who is known: persons with their names and roles, and whose each device is, as the host tells. A device is a user of a document's rules,
// and a person a group of them.

/** @typedef {import('./protocol.mjs').Person} Person */

// The host keeps names of persons alone. So a group's name is that of a person whom nobody is, with these words behind it, and the group has
// that person's number.
const GROUP = ' (group)';

// So long a name may be, and so long one of a group.
export const MOST_NAME = 40;
export const MOST_GROUP_NAME = MOST_NAME - GROUP.length;

/**
 * The name under which the host keeps that of a group.
 *
 * @param {string} name
 */
export function keptGroupName(name) {
  return `${name}${GROUP}`;
}

/**
 * The name of a group that a name is kept for; null where it is a person's.
 *
 * @param {string} name
 */
export function groupNameIn(name) {
  return name.endsWith(GROUP) ? name.slice(0, -GROUP.length) : null;
}

export class Directory {
  constructor() {
    /** @type {Map<number, Person>} by their numbers */
    this.people = new Map();
    /** @type {Map<number, number>} persons, by the sites of their devices */
    this.devices = new Map();
    /** @type {Set<number>} the sites of those that are closed */
    this.closed = new Set();
    this.version = 0; // so often what is known changed
  }

  /** @param {import('./protocol.mjs').People} told */
  take({ people, devices }) {
    const before = JSON.stringify(this.kept);
    this.people = new Map(people.map((it) => [it.person, it]));
    this.devices = new Map(devices.map(({ site, person }) => [site, person]));
    this.closed = new Set(devices.filter(({ isOpen }) => isOpen === false).map(({ site }) => site));
    if (JSON.stringify(this.kept) !== before) this.version++;
  }

  // The same, for a browser to keep.
  get kept() {
    const devices = [...this.devices].map(([site, person]) => ({ site, person, isOpen: !this.closed.has(site) }));
    return { people: [...this.people.values()], devices };
  }

  /**
   * The person who has the device of a site; null where the host told of none.
   *
   * @param {number} site
   */
  personOf(site) {
    return this.devices.get(site) ?? null;
  }

  /**
   * The persons who have these devices, each once.
   *
   * @param {Iterable<number>} sites
   * @returns {number[]}
   */
  personsOf(sites) {
    const persons = new Set([...sites].flatMap((it) => this.personOf(it) ?? []));
    return [...persons].sort((a, b) => a - b);
  }

  /**
   * Whether a person has had a device, be it closed or open.
   *
   * @param {number} person
   */
  hasCome(person) {
    return [...this.devices.values()].includes(person);
  }

  /**
   * Whether a person has come, and each device of that person is closed now.
   *
   * @param {number} person
   */
  isRemoved(person) {
    return this.hasCome(person) && [...this.devices].every(([site, it]) => it !== person || this.closed.has(site));
  }

  /** @param {number} person */
  nameOf(person) {
    return this.people.get(person)?.name ?? null;
  }

  /**
   * The name of a group; null where a number is somebody's, or the group has none.
   *
   * @param {number} number
   */
  groupName(number) {
    const name = groupNameIn(this.nameOf(number) ?? '');
    return name !== null && !this.hasCome(number) ? name : null;
  }

  /**
   * The number that is kept with the name of a group; null where there is none.
   *
   * @param {string} name
   */
  groupCalled(name) {
    return [...this.people.keys()].find((it) => this.groupName(it) === name) ?? null;
  }

  // The persons who are somebody, by their numbers.
  get persons() {
    return [...this.people.values()].filter(({ person }) => this.groupName(person) === null).sort((a, b) => a.person - b.person);
  }

  /**
   * Whether two devices are of one person.
   *
   * @param {number} site
   * @param {number} other
   */
  isSame(site, other) {
    return site === other || (this.devices.has(site) && this.devices.get(site) === this.devices.get(other));
  }
}

// Those whom this page knows.
export const directory = new Directory();
