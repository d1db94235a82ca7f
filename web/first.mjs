// What a page asks a host for once: all that a document has, and how the house lists a document.
import { closeOf } from './closes.mjs';
import { isEntry, joined, split, userOf } from './frames.mjs';
import { helloText, readText } from './protocol.mjs';

const NOBODY = 'The server cannot be reached, or it has no such document, and this browser has nothing of it yet.';

/**
 * @typedef {{ identity: string, bytes: Uint8Array, count: number, own: number }} Whole the document's identity, the frames of all messages
 * that the host has, how many they are, and how many of them are requests of this device
 * @typedef {(address: string) => WebSocket} Dial
 */

/** @type {Dial} */
const usual = (address) => new WebSocket(address);

/**
 * All that the host has of a document. `told` is given how many messages came, and how many there are.
 *
 * @param {string} address
 * @param {import('./device.mjs').Device} device
 * @param {(count: number, saved: number) => void} told
 * @param {Dial} [dial]
 * @returns {Promise<Whole>}
 */
export function wholeDocument(address, device, told, dial = usual) {
  const socket = dial(address);
  socket.binaryType = 'arraybuffer';
  /** @type {Uint8Array[]} */
  const messages = [];
  let [identity, saved, count, own] = ['', Infinity, 0, 0];
  return new Promise((done, failed) => {
    const take = (bytes) => {
      messages.push(bytes);
      for (const frame of split(bytes)) {
        count++;
        if (!isEntry(frame) && userOf(frame) === device.site) own++;
      }
    };
    socket.addEventListener('open', () => socket.send(helloText(device)));
    socket.addEventListener('message', ({ data }) => {
      const heard = typeof data === 'string' ? readText(data) : null;
      if (heard?.kind === 'welcome') [identity, saved] = [heard.identity, heard.saved];
      if (!heard) take(new Uint8Array(data));
      told(count, saved);
      if (count < saved) return;
      done({ identity, bytes: joined(messages), count, own });
      socket.close();
    });
    socket.addEventListener('close', ({ code }) => failed(new Error(closeOf(code).words || NOBODY)));
  });
}

/**
 * A document of a house, as its host lists it: undefined where it has none such, and null where nobody tells.
 *
 * @param {string} address of a link to the house
 * @param {import('./device.mjs').Device} device
 * @param {(document: import('./protocol.mjs').DocumentLine) => boolean} isSought
 * @param {Dial} [dial]
 * @returns {Promise<import('./protocol.mjs').DocumentLine | undefined | null>}
 */
export function askDocument(address, device, isSought, dial = usual) {
  const socket = dial(address);
  return new Promise((done) => {
    socket.addEventListener('open', () => socket.send(helloText(device)));
    socket.addEventListener('message', ({ data }) => {
      const heard = readText(String(data));
      if (heard.kind !== 'documents') return;
      done(heard.documents.find(isSought));
      socket.close();
    });
    socket.addEventListener('close', () => done(null));
  });
}
