// The texts of a link to a host, as its protocol spells them: what a page says, and what it reads of what the host says.
import { PROTOCOL } from './limits.mjs';

// The identity that a link says where it knows none.
export const NO_IDENTITY = '-';

/**
 * @typedef {'owner' | 'writer' | 'reader'} Role
 * @typedef {{ person: number, role: Role, name: string }} Person
 * @typedef {{ site: number, person: number, isOpen: boolean }} DeviceOf whose the device of a site is, and whether it may come in
 * @typedef {{ name: string, identity: string, state: string }} DocumentLine
 * @typedef {{ kind: 'welcome', identity: string, site: number, person: number, role: Role, saved: number }} Welcome
 * @typedef {{ kind: 'device', site: number, secret: string }} NewDevice
 * @typedef {{ kind: 'answer', number: number, lines: string[] }} Answer
 * @typedef {{ kind: 'refused', number: number, words: string }} Refused
 * @typedef {{ kind: 'people', people: Person[], devices: DeviceOf[] }} People
 * @typedef {{ kind: 'documents', documents: DocumentLine[] }} Documents
 * @typedef {{ kind: 'here', sites: number[] }} Here
 * @typedef {{ kind: 'caret', site: number, words: string }} Caret
 * @typedef {{ kind: 'told', answer: string }} Told a request wasn't taken
 * @typedef {Welcome | NewDevice | Answer | Refused | People | Documents | Here | Caret | Told | { kind: 'unknown' }} Heard
 */

/**
 * Makes a device of the person whose invitation has this secret.
 *
 * @param {string} secret
 */
export function joinText(secret) {
  return `join ${PROTOCOL} ${secret}`;
}

/**
 * Says which device a link is of, which document it knows, and how many of the host's messages it has.
 *
 * @param {{ site: number, secret: string }} device
 * @param {string} identity
 * @param {number} from
 */
export function helloText({ site, secret }, identity = NO_IDENTITY, from = 0) {
  return `hello ${PROTOCOL} ${identity} ${site} ${secret} ${from}`;
}

/**
 * @param {number} number
 * @param {string[]} lines done all or none
 */
export function orderText(number, lines) {
  return [`order ${number}`, ...lines].join('\n');
}

/** @param {string} words */
export function caretText(words) {
  return `caret ${words}`;
}

/**
 * What stands in front of the first sign of a kind, and behind it.
 *
 * @param {string} text
 * @param {string} sign
 */
function parted(text, sign) {
  const at = text.indexOf(sign);
  return at < 0 ? [text, ''] : [text.slice(0, at), text.slice(at + sign.length)];
}

/**
 * @param {string[]} lines
 * @returns {People}
 */
function readPeople(lines) {
  const words = lines.map((it) => it.split(' '));
  const people = words.filter(([kind]) => kind === 'person');
  const devices = words.filter(([kind]) => kind === 'device');
  return {
    kind: 'people',
    people: people.map(([, person, role, ...name]) => ({ person: Number(person), role: /** @type {Role} */ (role), name: name.join(' ') })),
    devices: devices.map(([, site, person, state]) => ({ site: Number(site), person: Number(person), isOpen: state !== 'closed' })),
  };
}

/**
 * The lines of documents, behind the first.
 *
 * @param {string[]} lines
 */
export function readDocuments(lines) {
  return lines.map((it) => it.split(' ')).map(([, name, identity, state]) => ({ name, identity, state }));
}

/**
 * The lines of invitations and devices that answer `keys`, behind the first.
 *
 * @param {string[]} lines
 */
export function readKeys(lines) {
  return lines.map((it) => it.split(' ')).map(([kind, number, person, state]) => ({ kind, number: Number(number), person: Number(person), isOpen: state === 'open' }));
}

/** @type {Record<string, (words: string[], rest: string) => Heard>} */
const READ = {
  welcome: ([, identity, site, person, role, saved]) => ({
    kind: 'welcome',
    identity,
    site: Number(site),
    person: Number(person),
    role: /** @type {Role} */ (role),
    saved: Number(saved),
  }),
  device: ([site, secret]) => ({ kind: 'device', site: Number(site), secret }),
  here: (sites) => ({ kind: 'here', sites: sites.filter(Boolean).map(Number) }),
  caret: ([site], rest) => ({ kind: 'caret', site: Number(site), words: parted(rest, ' ')[1] }),
  told: (_, rest) => ({ kind: 'told', answer: rest }),
  refused: ([number], rest) => ({ kind: 'refused', number: Number(number), words: parted(rest, ' ')[1] }),
};

/**
 * Reads a text of a host.
 *
 * @param {string} text
 * @returns {Heard}
 */
export function readText(text) {
  const [first, ...lines] = text.split('\n');
  const [word, rest] = parted(first, ' ');
  if (word === 'people') return readPeople(lines);
  if (word === 'documents') return { kind: 'documents', documents: readDocuments(lines) };
  if (word === 'answer') return { kind: 'answer', number: Number(rest), lines };
  return Object.hasOwn(READ, word) ? READ[word](rest.split(' '), rest) : { kind: 'unknown' };
}
