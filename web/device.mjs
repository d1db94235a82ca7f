// This browser's device at a house: its site and its secret, which the host made from an invitation. One serves for all documents there. Those
// that it was before are kept beside it.
import { closeOf } from './closes.mjs';
import { joinText, readText } from './protocol.mjs';

/**
 * @typedef {{ site: number, secret: string }} Device
 * @typedef {Device & { name: string }} Former a device that this browser was, and the name of whose it was, or ''
 */

const NOBODY = 'The server cannot be reached. Ask whoever runs it, and open the invitation again.';
const CLOSED = 'This invitation is not open any more. Ask an owner for a new one.';
const WRONG_SECRET = 4001;

const MOST_FORMERS = 8;

/** @param {string} base */
const keyOf = (base) => `roastcliff device ${base}`;

/** @param {string} base */
const formersKeyOf = (base) => `roastcliff former devices ${base}`;

/**
 * The device that this browser has at a house; null where it has none.
 *
 * @param {string} base
 * @param {Storage} [storage]
 * @returns {Device | null}
 */
export function deviceAt(base, storage = localStorage) {
  return JSON.parse(storage.getItem(keyOf(base)) ?? 'null');
}

/**
 * @param {string} base
 * @param {Device} device
 * @param {Storage} [storage]
 */
export function keepDevice(base, device, storage = localStorage) {
  storage.setItem(keyOf(base), JSON.stringify(device));
}

/**
 * The devices that this browser was before at a house, the latest first.
 *
 * @param {string} base
 * @param {Storage} [storage]
 * @returns {Former[]}
 */
export function formersAt(base, storage = localStorage) {
  return JSON.parse(storage.getItem(formersKeyOf(base)) ?? '[]');
}

/**
 * Has this browser be another device. The one that it was is kept beside it, with the name of whose it was.
 *
 * @param {string} base
 * @param {Device} device
 * @param {string} name
 * @param {Storage} [storage]
 */
export function replaceDevice(base, { site, secret }, name, storage = localStorage) {
  const now = deviceAt(base, storage);
  const others = formersAt(base, storage).filter((it) => it.site !== site && it.site !== now?.site);
  const formers = now && now.site !== site ? [{ ...now, name }, ...others] : others;
  storage.setItem(formersKeyOf(base), JSON.stringify(formers.slice(0, MOST_FORMERS)));
  keepDevice(base, { site, secret }, storage);
}

/**
 * Forgets a device that this browser was.
 *
 * @param {string} base
 * @param {number} site
 * @param {Storage} [storage]
 */
export function forgetFormer(base, site, storage = localStorage) {
  storage.setItem(formersKeyOf(base), JSON.stringify(formersAt(base, storage).filter((it) => it.site !== site)));
}

/**
 * Makes a device of the person whose invitation has this secret.
 *
 * @param {string} address of a link
 * @param {string} secret
 * @param {(address: string) => WebSocket} [dial]
 * @returns {Promise<Device>}
 */
export function join(address, secret, dial = (it) => new WebSocket(it)) {
  const socket = dial(address);
  return new Promise((done, failed) => {
    socket.addEventListener('open', () => socket.send(joinText(secret)));
    socket.addEventListener('message', ({ data }) => {
      const heard = readText(String(data));
      if (heard.kind !== 'device') return;
      done({ site: heard.site, secret: heard.secret });
      socket.close();
    });
    socket.addEventListener('close', ({ code }) => failed(new Error(code === WRONG_SECRET ? CLOSED : closeOf(code).words || NOBODY)));
  });
}
