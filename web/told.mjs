// What is told of the host and of what it was asked for, in words.
import { OFFLINE } from './orders.mjs';
import { capital, counted, edits, fault, isolated } from './words.mjs';

/**
 * Where a page stands with its host.
 *
 * @param {{ isWelcome: boolean, isCaughtUp: boolean, unsaved: number, isHeldBack: boolean, words: string, isOver: boolean }} sync
 * @param {boolean} isKept whether all is kept in this browser
 */
export function standing({ isWelcome, isCaughtUp, unsaved, isHeldBack, words, isOver }, isKept) {
  const waiting = `${edits(unsaved)} of yours ${unsaved === 1 ? 'waits' : 'wait'} in this browser.`;
  if (isOver || isHeldBack) return { kind: 'bad', text: words };
  if (!isWelcome && words) return { kind: 'off', text: words };
  if (!isWelcome) return { kind: 'off', text: unsaved ? `Offline. ${waiting}` : 'Offline. You can go on writing.' };
  if (!isCaughtUp) return { kind: 'busy', text: 'Catching up…' };
  if (!isKept || unsaved) return { kind: 'busy', text: 'Saving…' };
  return { kind: 'good', text: 'Saved' };
}

/** @type {Record<string, string>} */
const REFUSALS = {
  '': 'The connection was lost before the answer came. Look whether it was done.',
  [OFFLINE]: 'You are offline. People, documents and rules can be changed only while this page is connected to the server.',
  'log full': 'The rules of this document were changed as often as they may be.',
  'not an owner': 'Only owners may do this.',
  'nobody of this number': 'There is nobody of this number any more.',
  'no such document, or there is one': 'There is a document of this name already, or none any more.',
  'no such document': 'There is no such document any more.',
  'all numbers are given': 'No more people, invitations or devices can be made at this server.',
  'the folder failed': 'The server could not change its folder. Tell whoever runs it.',
  'the file of people failed': 'The server could not keep it. Tell whoever runs it.',
  'no memory': 'The server has no memory left at the moment.',
  'too long a text': 'The text is too long for a new document. Take some of it out, and try again.',
  'too many rules': 'A new document cannot have as many people and rules as this one. Take some away, and try again.',
  'not alike': 'The new document would not have been like this one, so this one stays.',
  'the document can\'t be opened': 'The document cannot be opened, so it is not renewed.',
  'the store is full': 'The new document has no room in its file.',
  'the disk failed': 'The server’s disk failed. Tell whoever runs it.',
  'too many lines': 'This is too much at once.',
};

/**
 * Why an order wasn't done, by the words of NotDone.
 *
 * @param {string} words
 */
export function notDone(words) {
  const [kind, number] = words.split(' ');
  if (kind === 'illegal') return `It was not done: ${fault(number)}.`;
  if (kind === 'missing') return 'It was not done: the text has changed meanwhile.';
  if (kind === 'bad') return 'The server did not take it. A name has 1 to 40 letters, no space at an end, and no sign that turns other letters round.';
  return Object.hasOwn(REFUSALS, words) ? REFUSALS[words] : `The server did not do it: “${words}”.`;
}

export const LIKE_A_GROUP = 'A name that ends with “(group)” is one of a group. Choose another one.';

const ROLES = { owner: 'Owner', writer: 'Writer', reader: 'Reader' };
const BY_ROLE = {
  owner: 'an owner, who makes documents, rules and invitations',
  writer: 'a writer, where a document’s rules allow it',
  reader: 'a reader, who may only read',
};

/** @param {import('./protocol.mjs').Role} role */
export function role(role) {
  return ROLES[role] ?? role;
}

/**
 * What somebody may do in the documents of a team, by a role alone.
 *
 * @param {import('./protocol.mjs').Role} role
 */
export function byRole(role) {
  return BY_ROLE[role] ?? role;
}

/** @typedef {'self' | 'here' | 'away' | 'invited' | 'removed'} Whereabouts of a person of a house */

/** @type {Record<Whereabouts, string>} */
const WHEREABOUTS = { self: 'you', here: 'here now', away: 'away', invited: 'has not come yet', removed: 'removed' };

/** @param {Whereabouts} state */
export function whereabouts(state) {
  return WHEREABOUTS[state];
}

/**
 * What somebody may do, as a sentence; who is removed may do nothing before a new invitation.
 *
 * @param {string} powers
 * @param {Whereabouts} state
 */
export function powersTold(powers, state) {
  return state === 'removed' ? `Cannot come in without a new invitation. With one: ${powers}.` : `${capital(powers)}.`;
}

/**
 * That there is an invitation for somebody.
 *
 * @param {string} name
 * @param {boolean} mayWrite whether that person may write, once there
 */
export function invited(name, mayWrite) {
  const more = mayWrite ? '' : ` The rules let ${name} only read here, until you press “Allow writing”.`;
  return `There is an invitation for ${name}. Its address is below the list of people.${more}`;
}

/**
 * What using an invitation changes in a browser by which somebody takes part already.
 *
 * @param {string} name of who does
 */
export function replacing(name) {
  const who = `You are ${name} in this browser. If you use the invitation that you opened, you are whom it was made for here from then on`;
  return `${who}. This browser keeps that it was ${name}, and you can go back under “Who this browser was”.`;
}

/**
 * What a button does by which a browser is again who it was.
 *
 * @param {string} name of who that is, or '' where it isn't known
 */
export function formerTold(name) {
  return name ? `Go back to being ${isolated(name)}` : 'Go back to who it was before';
}

/**
 * Whether a browser is to forget who it was, as a question.
 *
 * @param {string} name
 */
export function forgetting(name) {
  return `Forget that this browser was ${name}? It cannot go back then without a new invitation, and edits that wait here are not sent any more.`;
}

/** @type {Record<string, string>} */
const STATES = {
  open: '',
  closed: '',
  damaged: 'its file is damaged',
  'fewer-messages': 'its file lacks a part of what was written. A copy of it is to be restored',
  'other-messages': 'its file is not the one that was written. A copy of it is to be restored',
  'damaged-seal': 'the seal of its file is damaged. A copy of it is to be restored',
  'disk-fault': 'the server’s disk failed',
  'no-memory': 'the server has no memory left for it',
};

/**
 * What is to be said of a document's state in the list of documents, or ''.
 *
 * @param {string} state
 */
export function documentState(state) {
  const why = STATES[state] ?? state;
  return why && `It cannot be opened: ${why}.`;
}

/**
 * The same at the document's own page, or ''.
 *
 * @param {string} state
 * @param {boolean} isHere whether the browser has a copy of it
 */
export function notOpened(state, isHere) {
  const why = STATES[state] ?? state;
  return why && `The server cannot open this document: ${why}. Tell whoever runs it.${isHere ? ' Your copy is kept here, and you can go on writing.' : ''}`;
}

/**
 * How many places of a text have the words that are looked for, and which of them is shown.
 *
 * @param {number} count
 * @param {number} at
 */
export function found(count, at) {
  return count ? `${at + 1} of ${counted(count, 'place')}` : 'Nowhere';
}

/**
 * The name of a document from what a person typed: small letters, digits and dashes.
 *
 * @param {string} text
 */
export function documentName(text) {
  const plain = text.normalize('NFKD').replace(/\p{M}/gu, '').toLowerCase();
  return plain.replace(/[^a-z0-9]+/g, '-').replace(/^-+/, '').slice(0, 40).replace(/-+$/, '');
}
