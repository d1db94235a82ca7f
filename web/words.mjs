// What is told to a person, in words.
import { directory } from './directory.mjs';
import { Fault, MOST_OF_KIND, MOST_REQUESTS, MOST_VERSIONS } from './limits.mjs';
import { deniedBy } from './lines.mjs';
import { MOST_TO_CONFIRM } from './policy.mjs';

/**
 * @typedef {import('./policy.mjs').Policy} Policy
 * @typedef {import('./lines.mjs').Denial} Denial
 */

const NUMBERS = new Intl.NumberFormat('en'); // made once, since that takes longer than a key's other words

const FAULTS = {
  [Fault.UserThere]: 'this person is here already',
  [Fault.NoUser]: 'there is no such person',
  [Fault.IsAdministrator]: 'the administrator stays',
  [Fault.ObjectThere]: 'this number is taken',
  [Fault.NoObject]: 'there is no such part',
  [Fault.BadPlace]: 'there is no such place in the list of rules',
  [Fault.TooMany]: `there are ${MOST_OF_KIND} of its kind, and no more may be`,
  [Fault.ValidatedAt]: 'it is confirmed already',
  [Fault.GroupThere]: 'this group is here already',
  [Fault.NoGroup]: 'there is no such group',
  [Fault.MemberThere]: 'this person is in the group already',
  [Fault.NoMember]: 'this person is not in the group',
};

/** @param {string[]} words */
export function listed(words, last = 'and') {
  if (words.length < 2) return words.join('');
  return `${words.slice(0, -1).join(', ')} ${last} ${words.at(-1)}`;
}

/** @param {string} text */
export function capital(text) {
  const at = text.startsWith('\u2068') ? 1 : 0; // a name stands behind a sign that isolates it
  return text.slice(0, at) + text.charAt(at).toUpperCase() + text.slice(at + 1);
}

/**
 * Letters that somebody wrote, in a sentence of ours: whichever way they run, and without signs that would turn what follows them.
 *
 * @param {string} letters
 */
export function isolated(letters) {
  return `\u2068${letters.replace(/[\u202a-\u202e\u2066-\u2069]/g, '')}\u2069`;
}

/**
 * A sentence with its end, if what it cites doesn't end one.
 *
 * @param {string} words
 */
export function ended(words) {
  return /[.!?…]\u2069?”$/.test(words) ? words : `${words}.`;
}

/** @param {string} letters */
export function cited(letters) {
  return `“${isolated(letters)}”`;
}

// ---- people

/**
 * Who a group of the rules is: one with a name, a person of the house, where it knows one, or those who are in it by a policy.
 *
 * @param {number} number
 * @param {Policy | null} [policy]
 */
export function group(number, policy = null) {
  const called = directory.groupName(number);
  if (called !== null) return `the group ${cited(called)}`;
  const name = directory.nameOf(number);
  if (name !== null) return isolated(name);
  const persons = directory.personsOf(policy?.groups.get(number) ?? []);
  if (persons.length) return `the group of ${named(persons)}`;
  return isTeam() ? 'a group without members' : `group ${number}`;
}

// Whether the people of a team are known: its server is the administrator then, a user a device, and nobody needs the numbers of parts.
const isTeam = () => directory.people.size > 0;

/** @param {number[]} numbers */
export const named = (numbers) => listed(numbers.map((it) => group(it)));

/**
 * Who a user of the rules is: the person whose device it is, where the house knows him.
 *
 * @param {number} user
 */
export function person(user) {
  const of = directory.personOf(user);
  if (of !== null) return group(of);
  if (user === 0) return isTeam() ? 'the server' : 'the administrator';
  return `${isTeam() ? 'device' : 'user'} ${user}`;
}

/**
 * Two letters that stand for a person of the house.
 *
 * @param {string} name
 */
export function initials(name) {
  const words = name.split(/\s+/).filter(Boolean);
  const ends = words.length > 1 ? [words[0], words[words.length - 1]] : words;
  return ends.map((it) => Array.from(it)[0]).join('').toUpperCase();
}

/**
 * @param {import('./policy.mjs').UserSet} users
 * @param {Policy} policy
 */
function people({ kind, numbers }, policy) {
  if (kind === 'all') return 'everybody';
  return listed(numbers.map((it) => (kind === 'groups' ? group(it, policy) : person(it))));
}

// ---- rules

/**
 * @param {number} number
 * @param {Policy} policy
 */
export function object(number, policy) {
  const extent = policy.named.get(number);
  if (!extent) return isTeam() ? 'a part that is not there' : `part ${number}, which is not there`;
  if (extent.kind === 'all') return 'the whole text';
  if (extent.kind === 'by') return `what ${person(Number(extent.words[0]))} wrote`;
  if (extent.kind === 'elems') return isTeam() ? 'certain letters' : `part ${number} (single letters)`;
  if (extent.said) return `the paragraph ${cited(extent.said)}`;
  return isTeam() ? 'a paragraph' : `paragraph ${number}`;
}

const DEEDS = { i: 'add words', d: 'delete', u: 'change words' };

/** @param {string} rights */
function deeds(rights) {
  return rights.length === 3 ? 'write' : listed([...rights].map((it) => DEEDS[it]), 'or');
}

/**
 * Where a rule is about.
 *
 * @param {number[]} objects
 * @param {Policy} policy
 * @param {boolean} isAllowed
 */
function where(objects, policy, isAllowed) {
  if (objects.includes(0)) return isAllowed ? 'everywhere' : 'anywhere';
  return `in ${listed(objects.map((it) => object(it, policy)), 'or')}`;
}

/**
 * An authorization as a sentence.
 *
 * @param {import('./policy.mjs').Authorization} authorization
 * @param {Policy} policy
 */
export function rule({ allows, users, rights, objects }, policy) {
  const isNobody = !allows && users.kind === 'all';
  const who = isNobody ? 'nobody' : people(users, policy);
  return ended(`${capital(who)} ${allows || isNobody ? 'may' : 'may not'} ${deeds(rights)} ${where(objects, policy, allows)}`);
}

/**
 * Why something is denied or undone.
 *
 * @param {Denial} denial
 * @param {Policy} policy
 */
export function reason({ by }, policy) {
  const made = policy.made.get(by);
  return by && made ? `The rule says: ${rule(made, policy)}` : 'No rule allows it.';
}

/** @param {string} number */
export function fault(number) {
  return FAULTS[number] ?? `fault ${number}`;
}

/**
 * An answer to a step of this person's own, if it isn't that it was made.
 *
 * @param {string} answer
 * @param {Policy} policy
 */
export function refusal(answer, policy) {
  const denial = deniedBy(answer);
  if (denial) return `You may not do this here. ${reason(denial, policy)}`;
  if (answer === 'history full') return `This text has had ${counted(MOST_REQUESTS, 'edit')}, and takes no more.`;
  if (answer === 'clock end') return 'This text takes no more edits.';
  if (answer === 'log full') return `The rules were changed ${NUMBERS.format(MOST_VERSIONS)} times, and no more may be.`;
  if (answer === 'not administrator') return 'Only the administrator changes the rules.';
  if (answer === 'nothing tentative') return 'Nothing waits to be confirmed.';
  const [first, number] = answer.split(' ');
  if (first === 'refused') return `The rules stay as they are: ${fault(number)}.`;
  if (first === 'no') return 'The text has changed meanwhile.';
  return `It was not done: “${answer}”.`;
}

// ---- groups

export const FEW_FOR_A_GROUP = 'Choose two people or more who have opened this document: a group is made of their devices.';

/** @param {string} name */
export function groupThere(name) {
  return `There is a group ${cited(name)} in this document already. Change that one, or choose another name.`;
}

/**
 * What a group that is made is to be called, as a question.
 *
 * @param {number[]} persons
 * @param {number[]} others who were chosen too, and have no device here yet
 */
export function makingGroup(persons, others) {
  const more = others.length ? ` ${named(others)} can be put in later, after the first visit.` : '';
  return `What is the group of ${named(persons)} called?${more}`;
}

/**
 * A group with those who are in it, in a list of groups.
 *
 * @param {number} number
 * @param {Policy} policy
 */
export function groupTold(number, policy) {
  const name = capital(group(number, policy));
  if (directory.groupName(number) === null) return `${name}.`;
  const persons = directory.personsOf(policy.groups.get(number) ?? []);
  return persons.length ? `${name}: ${named(persons)}.` : `${name} has no members.`;
}

// ---- what was undone

/**
 * @param {number} count
 * @param {string} one
 */
export function counted(count, one) {
  return `${NUMBERS.format(count)} ${one}${count === 1 ? '' : 's'}`;
}

const EDITS = {
  insert: (count) => `${counted(count, 'letter')} written`,
  delete: (count) => counted(count, 'deletion'),
  update: (count) => counted(count, 'change'),
};

const SHOWN_LETTERS = 60;

/** @param {string} letters */
export function excerpt(letters) {
  const all = Array.from(letters);
  return cited(all.length > SHOWN_LETTERS ? `${all.slice(0, SHOWN_LETTERS).join('')}…` : letters);
}

/**
 * Requests of one person that were undone for one reason.
 *
 * @param {import('./undone.mjs').Row} row
 * @param {Policy} policy
 */
export function undone({ user, denial, counts, letters }, policy) {
  const said = Object.entries(counts).filter(([, count]) => count).map(([kind, count]) => EDITS[kind](count));
  const what = letters.length ? ` (${excerpt(letters.join(''))})` : '';
  return `${capital(person(user))}: ${listed(said)}${what}. ${reason(denial, policy)}`;
}

/**
 * How many edits were confirmed or undone.
 *
 * @param {number} count
 */
export function edits(count) {
  return counted(count, 'edit');
}

/**
 * That so many edits were undone.
 *
 * @param {number} count
 */
export function undoing(count) {
  return `${edits(count)} ${count === 1 ? 'was' : 'were'} undone. “Undone, and why” has more.`;
}

/**
 * How many edits of whom would be undone, as a question before rules change tells it.
 *
 * @param {import('./copy.mjs').Lost[]} requests
 */
export function wouldUndo(requests) {
  if (!requests.length) return 'No edit would be undone.';
  /** @type {Map<string, number>} */
  const counts = new Map();
  for (const { user } of requests) counts.set(person(user), (counts.get(person(user)) ?? 0) + 1);
  const said = [...counts].map(([name, count]) => `${edits(count)} of ${name}`);
  const letters = requests.filter(({ edit, isDeleted }) => edit.kind === 'insert' && !isDeleted).map(({ edit }) => edit.piece).join('');
  return ended(`${capital(listed(said))} would be undone${letters ? `: ${excerpt(letters.trimEnd())}` : ''}`);
}

export const MEANWHILE = 'It is undone for everybody. What somebody writes before hearing of it is undone too.';

/**
 * What becomes of a person's devices and edits where that person leaves, as a question tells it.
 *
 * @param {string} name
 * @param {import('./copy.mjs').Lost[]} requests that would be undone if the right to write were taken too
 */
export function leaving(name, requests) {
  const closed = `All devices and invitations of ${name} are closed.`;
  if (!requests.length) return `${closed} No edit is undone.`;
  return `${closed} What is written can stay, and no edit is undone. Or the right to write goes from the beginning, in this document: ${wouldUndo(requests)}`;
}

/** @param {string} name */
export function left(name) {
  return `Edits that wait in the browsers of ${name} are not accepted any more. To come back ${name} needs a new invitation.`;
}

/** @param {string} name */
export function removed(name) {
  return `${capital(name)} is removed: no device and no invitation of ${name} is open any more.`;
}

/**
 * What words are that stand in the text and aren't part of it.
 *
 * @param {Pick<import('./ghosts.mjs').Ghost, 'user' | 'isRefused'>} ghost
 */
export function ghost({ user, isRefused }) {
  return isRefused ? 'Your words, which were not let in' : `Undone words of ${person(user)}`;
}

export const REPLACED = 'Somebody changed the same words at the same time, and that change stands. Yours stand struck through beside it.';

/**
 * @param {import('./ghosts.mjs').Ghost} it
 * @param {Policy} policy
 */
export function whyGhost(it, policy) {
  if (it.denial) return `${ghost(it)}. ${reason(it.denial, policy)}`;
  return it.answer ? refusal(it.answer, policy) : REPLACED;
}

export const STALE =
  'This browser wrote in this document before, and has lost what it had of it. So it only shows the text. To write, open an invitation again.';

export const STUCK = 'Your last edit cannot be taken back: somebody changed or deleted what it was about.';

// ---- powers

/** @param {string[]} powers */
function powersWords(powers) {
  if (powers.length === 3) return 'may write';
  return powers.length ? `may ${listed(powers.map((it) => DEEDS[it]))}` : 'may only read';
}

/**
 * What somebody may do, as the rules say it of the whole text and then of parts. `allows` tells of a right and of what has the place whether
 * it is allowed.
 *
 * @param {(right: string, covers: (extent: import('./policy.mjs').Extent) => boolean) => boolean} allows
 * @param {Policy} policy
 */
export function powers(allows, policy) {
  const powersIn = (covers) => Object.keys(DEEDS).filter((right) => allows(right, covers));
  const inAll = powersIn(({ kind }) => kind === 'all');
  const parts = [...policy.objects].filter(([, { kind }]) => kind === 'span');
  const told = parts.flatMap(([number, extent]) => {
    const inPart = powersIn((it) => it.kind === 'all' || it === extent);
    return inPart.join() === inAll.join() ? [] : [`in ${object(number, policy)} ${powersWords(inPart).replace('may ', '')}`];
  });
  return told.length ? `${powersWords(inAll)}, but ${listed(told)}` : powersWords(inAll);
}

// ---- how much is used

const [SOME, ALL] = [MOST_TO_CONFIRM, MOST_VERSIONS].map((it) => NUMBERS.format(it));
const COST = `Each letter that is confirmed takes a version of the rules. There are ${ALL}; after ${SOME} they are left for rules.`;
const RESERVED = `${SOME} of the ${ALL} versions of the rules are used, and the others are left for rules. So only “Confirm the next edit” confirms any more.`;

/**
 * What confirming costs, or that there is no more of it.
 *
 * @param {boolean} isReserved
 */
export function confirming(isReserved) {
  return isReserved ? RESERVED : COST;
}

/**
 * How much is used of what a text may have.
 *
 * @param {number} count of edits
 * @param {number} version of the rules
 */
export function room(count, version) {
  const [a, b, c, d] = [count, MOST_REQUESTS, version, MOST_VERSIONS].map((it) => NUMBERS.format(it));
  return `This text has had ${a} of the ${b} edits that it may have, and its rules ${c} of ${d} changes.`;
}

// ---- renewals

const DUE_EDITS = 100_000;
const DUE_VERSIONS = 12_000;

export const RENEW_IT = 'It is time to renew this document: a new one takes its place, with the same text and the same rules, and room for as many edits again.';
export const ASK_TO_RENEW = 'This document is getting full. Ask an owner to renew it.';
export const RENEWING = 'Nothing would be undone. A new document takes its place, with the same text, people and rules.';
export const RENEWING_MORE = 'What stands there is confirmed by it: no rule can undo it any more. Who wrote what is not known in the new one, and rules about what somebody wrote lose their place. The old one stays in the server’s folder, with its certificate.';

/**
 * Whether a document is to be renewed, by how many edits it has had and how often its rules were changed.
 *
 * @param {number} count
 * @param {number} version
 */
export function isDue(count, version) {
  return count >= DUE_EDITS || version >= DUE_VERSIONS;
}

/**
 * Words that a person wrote and the host didn't take, with those that stood in front of them.
 *
 * @param {import('./left.mjs').Left} left
 */
export function leftWords({ text, old, before }) {
  const place = before.trim() ? `behind ${cited(before.trimStart())}` : 'at the beginning';
  return old ? `${cited(text)}, in place of ${cited(old)}, ${place}.` : `${cited(text)}, ${place}.`;
}

/**
 * Who wrote what stands in front of the caret.
 *
 * @param {number} user
 * @param {number} changer who put in the letter itself
 */
export function writer(user, changer) {
  const more = directory.isSame(user, changer) ? '' : `, in words that ${person(user)} began`;
  return `At the caret: written by ${person(changer)}${more}.`;
}
