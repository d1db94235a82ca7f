// What is wrong with an address of a link, in words; nothing where it may be dialled. The page's policy lets it dial this machine, and
// elsewhere only with encryption.

const THIS_MACHINE = ['127.0.0.1', 'localhost'];
const EXAMPLE = 'ws://127.0.0.1:7000/';

/** @param {string} address */
export function addressFault(address) {
  if (!address.trim()) return `Type the address of a program that serves, as ${EXAMPLE}`;
  const url = /** @type {any} */ (URL).canParse(address) ? new URL(address) : null;
  if (url?.protocol !== 'ws:' && url?.protocol !== 'wss:') return `This is no address of a link. One is ${EXAMPLE}`;
  if (url.protocol === 'wss:' || THIS_MACHINE.includes(url.hostname)) return '';
  return `This page dials other machines with encryption alone: wss:// in place of ws://. On this machine an address is ${EXAMPLE}`;
}
