// The policy that a row of entries makes, for reading alone: the peer decides by its own.

export const MOST_TO_CONFIRM = 12000; // up to this one edits are confirmed; the others are left for rules

/**
 * @typedef {{ kind: string, words: string[], said?: string }} Extent the words behind its kind, and the letters by which it is told
 * @typedef {{ kind: string, numbers: number[] }} UserSet
 * @typedef {{ version: number, allows: boolean, users: UserSet, rights: string, objects: number[] }} Authorization
 */

/**
 * @param {string} word
 * @returns {UserSet}
 */
function setOf(word) {
  if (word === 'all') return { kind: 'all', numbers: [] };
  if (word.startsWith('@')) return { kind: 'groups', numbers: word.slice(1).split(',').map(Number) };
  return { kind: 'users', numbers: word.split(',').map(Number) };
}

/**
 * @param {string[]} words
 * @returns {Extent}
 */
function extentOf([kind, ...words]) {
  return { kind, words };
}

/**
 * @param {number} version
 * @param {string[]} words
 * @returns {Authorization}
 */
function authorizationOf(version, [sign, users, rights, objects]) {
  return { version, allows: sign === '+', users: setOf(users), rights, objects: objects.split(',').map(Number) };
}

export class Policy {
  constructor() {
    this.version = 0;
    this.users = new Set([0]);
    this.known = new Set([0]); // who ever was a user
    /** @type {Map<number, Extent>} */
    this.objects = new Map([[0, { kind: 'all', words: [] }]]);
    /** @type {Map<number, Set<number>>} */
    this.groups = new Map();
    /** @type {Authorization[]} */
    this.authorizations = [];
    /** @type {Map<number, Authorization>} each that was ever made, by its version */
    this.made = new Map();
    /** @type {Map<number, Extent>} each object that was ever made, by its number: the last */
    this.named = new Map([[0, { kind: 'all', words: [] }]]);
  }

  /**
   * Takes the next entry, which is legal since the peer has it.
   *
   * @param {import('./lines.mjs').Entry} entry
   */
  take({ version, op: [kind, first, ...rest] }) {
    const number = Number(first);
    this.version = version;
    if (kind === 'adduser') this.addUser(number);
    else if (kind === 'deluser') this.users.delete(number);
    else if (kind === 'addobj') this.addObject(number, extentOf(rest));
    else if (kind === 'delobj') this.objects.delete(number);
    else if (kind === 'addgroup') this.groups.set(number, new Set());
    else if (kind === 'delgroup') this.groups.delete(number);
    else if (kind === 'addmember') this.groups.get(number)?.add(Number(rest[0]));
    else if (kind === 'delmember') this.groups.get(number)?.delete(Number(rest[0]));
    else if (kind === 'addauth') this.addAuthorization(number, authorizationOf(version, rest));
    else if (kind === 'delauth') this.authorizations.splice(number, 1);
  }

  /** @param {number} number */
  addUser(number) {
    this.users.add(number);
    this.known.add(number);
  }

  /**
   * @param {number} number
   * @param {Extent} extent
   */
  addObject(number, extent) {
    this.objects.set(number, extent);
    this.named.set(number, extent);
  }

  /**
   * @param {number} place
   * @param {Authorization} authorization
   */
  addAuthorization(place, authorization) {
    this.authorizations.splice(place, 0, authorization);
    this.made.set(authorization.version, authorization);
  }

  /**
   * Whether a user has a right, as `i`, to an element of which `covers` tells whether an extent has it.
   *
   * @param {number} user
   * @param {string} right
   * @param {(extent: Extent) => boolean} covers
   */
  allows(user, right, covers) {
    /** @param {UserSet} users */
    const isFor = ({ kind, numbers }) => {
      if (kind === 'all') return true;
      return kind === 'users' ? numbers.includes(user) : numbers.some((it) => this.groups.get(it)?.has(user));
    };
    return user === 0 || (this.users.has(user) && this.isAllowed(isFor, right, covers, this.authorizations));
  }

  /**
   * Whether a user has a right who is a member of a group, and of each other one of which a member of it is, whether or not there is one.
   *
   * @param {number} group
   * @param {string} right
   * @param {(extent: Extent) => boolean} covers
   * @param {Authorization[]} [authorizations] in place of the policy's own
   */
  allowsGroup(group, right, covers, authorizations = this.authorizations) {
    const members = [...(this.groups.get(group) ?? [])];
    const isIn = (/** @type {number} */ it) => it === group || members.some((user) => this.groups.get(it)?.has(user));
    /** @param {UserSet} users */
    const isFor = ({ kind, numbers }) => kind === 'all' || (kind === 'groups' && numbers.some(isIn));
    return this.isAllowed(isFor, right, covers, authorizations);
  }

  /**
   * What the first authorization says that is for somebody, of a right and of an element; no where none is.
   *
   * @param {(users: UserSet) => boolean} isFor
   * @param {string} right
   * @param {(extent: Extent) => boolean} covers
   * @param {Authorization[]} authorizations
   */
  isAllowed(isFor, right, covers, authorizations) {
    /** @param {number} number */
    const isIn = (number) => {
      const extent = this.objects.get(number);
      return extent !== undefined && covers(extent);
    };
    return authorizations.find(({ users, rights, objects }) => isFor(users) && rights.includes(right) && objects.some(isIn))?.allows ?? false;
  }

  // A number that is no object's and never was.
  freeObject() {
    let number = 1;
    while (this.named.has(number)) number++;
    return number;
  }
}
