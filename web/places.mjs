// Where a page is: at a house of documents, or at one of them, and whether its address holds an invitation.

const DOCUMENT = /^(.*\/)d\/([a-z0-9][a-z0-9-]{0,39})\/?$/;
const SECRET = /^[0-9a-f]{32}$/;

/**
 * @typedef {{ base: string, document: string | null, secret: string | null }} Place the path of the house with its last slash, the name
 * of the document, and the secret of an invitation
 * @typedef {{ pathname: string, hash: string }} Address
 */

/**
 * @param {Address} address
 * @returns {Place}
 */
export function placeOf({ pathname, hash }) {
  const secret = SECRET.test(hash.slice(1)) ? hash.slice(1) : null;
  const [, base, document] = DOCUMENT.exec(pathname) ?? [];
  if (document) return { base, document, secret };
  return { base: pathname.slice(0, pathname.lastIndexOf('/') + 1), document: null, secret };
}

/**
 * The path of a document's page.
 *
 * @param {string} base
 * @param {string} document
 */
export function documentPath(base, document) {
  return `${base}d/${document}/`;
}

/**
 * The address of a link: to a document, or to the house.
 *
 * @param {{ protocol: string, host: string }} location
 * @param {string} base
 * @param {string | null} document
 */
export function linkAddress({ protocol, host }, base, document) {
  return `${protocol === 'https:' ? 'wss:' : 'ws:'}//${host}${document ? documentPath(base, document) : base}link`;
}
