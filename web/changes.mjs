// What entries of a document's rules changed, in words: how the rules came.
import { directory } from './directory.mjs';
import { capital, counted, edits, ended, group, listed, object, person, rule } from './words.mjs';

/**
 * @typedef {import('./policy.mjs').Policy} Policy
 * @typedef {import('./lines.mjs').Entry} Entry
 */

/** @type {Record<string, (words: string[], policy: Policy) => string>} */
const CHANGES = {
  adduser: ([user]) => `${capital(person(Number(user)))} may take part.`,
  deluser: ([user]) => `${capital(person(Number(user)))} ${isDevice(user) ? 'takes part with one device less' : 'may take part no more'}.`,
  addobj: ([number], policy) => ended(`Rules may be about ${object(Number(number), policy)}`),
  delobj: ([number], policy) => ended(`Rules are not about ${object(Number(number), policy)} any more`),
  addgroup: ([number], policy) => `There may be rules for ${group(Number(number), policy)}.`,
  delgroup: ([number]) => (isPersons(number) ? `There is no ${group(Number(number))} in the rules any more.` : `${groupGone(Number(number))} is taken away.`),
  addmember: ([number, user], policy) => `The rules for ${group(Number(number), policy)} hold for ${person(Number(user))} too.`,
  delmember: ([number, user], policy) => `The rules for ${group(Number(number), policy)} do not hold for ${isOwn(number, user) ? 'one of the devices' : person(Number(user))} any more.`,
  delauth: ([place]) => `Rule ${Number(place) + 1} of the list is gone.`,
  validate: ([name]) => `An edit of ${person(Number(name.split('.')[1]))} is confirmed.`,
};

/**
 * Whether a group is a person's own.
 *
 * @param {string} number
 */
const isPersons = (number) => directory.nameOf(Number(number)) !== null && directory.groupName(Number(number)) === null;

/** @param {number} number of a group that is gone, and so its members */
const groupGone = (number) => (directory.groupName(number) === null && directory.people.size ? 'A group' : capital(group(number)));

/** @param {string} user */
const isDevice = (user) => directory.personOf(Number(user)) !== null;

/**
 * Whether a member of a group is a device of the person whose the group is.
 *
 * @param {string} number
 * @param {string} user
 */
const isOwn = (number, user) => directory.personOf(Number(user)) === Number(number);

/**
 * What an entry belongs to that is told in one line, with the entries beside it that belong to the same: edits that are confirmed, a person
 * who comes with a device, or a group that gets members. '' where it is told alone.
 *
 * @param {Entry} entry
 */
function rowOf({ op: [kind, first, second] }) {
  if (kind === 'validate') return 'confirmed';
  if (kind === 'adduser') return isDevice(first) ? `person ${directory.personOf(Number(first))}` : '';
  if (kind === 'addgroup' && directory.people.size) return `${isPersons(first) ? 'person' : 'group'} ${first}`;
  if (kind === 'addmember' && isDevice(second)) return isOwn(first, second) ? `person ${first}` : `group ${first}`;
  return '';
}

/**
 * What a row of entries changes that belong to one thing.
 *
 * @param {string} row
 * @param {Entry[]} entries
 * @param {Policy} policy
 */
function rowChange(row, entries, policy) {
  const [kind, number] = row.split(' ');
  const isNew = entries.some(({ op }) => op[0] === 'addgroup');
  if (kind === 'confirmed') return `${edits(entries.length)} are confirmed, up to change ${entries[entries.length - 1].version}.`;
  if (kind === 'group') return groupChange(Number(number), entries, isNew, policy);
  const devices = Math.max(1, entries.filter(({ op }) => op[0] === 'adduser').length);
  const name = group(Number(number));
  if (isNew) return `${capital(name)} takes part${devices > 1 ? ` with ${counted(devices, 'device')}` : ''}.`;
  return `The rules for ${name} hold on ${devices > 1 ? `${devices} more devices` : 'one more device'}.`;
}

/**
 * @param {number} number
 * @param {Entry[]} entries
 * @param {boolean} isNew
 * @param {Policy} policy
 */
function groupChange(number, entries, isNew, policy) {
  const members = directory.personsOf(entries.filter(({ op }) => op[0] === 'addmember').map(({ op }) => Number(op[2])));
  const named = listed(members.map((it) => group(it)));
  if (!isNew) return `The rules for ${group(number, policy)} hold for ${named} too.`;
  const made = directory.groupName(number) === null ? 'A group' : capital(group(number));
  return members.length ? `${made} is made of ${named}.` : `${made} is made.`;
}

/**
 * The last lines of a list of entries, at most so many, each with the version that it begins with: one for each entry, but one alone for those
 * one after another that belong to one thing.
 *
 * @param {Entry[]} entries
 * @param {Policy} policy
 * @param {number} most
 */
export function versions(entries, policy, most) {
  const lines = [];
  for (let end = entries.length; end > 0 && lines.length < most; ) {
    const row = rowOf(entries[end - 1]);
    let start = end - 1;
    while (start > 0 && row && rowOf(entries[start - 1]) === row) start--;
    lines.unshift({ version: entries[start].version, text: changes(row, entries.slice(start, end), policy) });
    end = start;
  }
  return lines;
}

/**
 * @param {string} row
 * @param {Entry[]} entries
 * @param {Policy} policy
 */
function changes(row, entries, policy) {
  return row && (row !== 'confirmed' || entries.length > 1) ? rowChange(row, entries, policy) : change(entries[0], policy);
}

/**
 * What an entry changes.
 *
 * @param {Entry} entry
 * @param {Policy} policy
 */
export function change({ version, op: [kind, ...words] }, policy) {
  const made = policy.made.get(version);
  return kind === 'addauth' && made ? rule(made, policy) : CHANGES[kind](words, policy);
}
