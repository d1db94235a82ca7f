// Why a host closes a link, in words for a person, and what the page does then.

/**
 * What follows the end of a link: it is dialled `again` after a while, or at once (`now`), or no more (`end`), or again to read alone
 * (`read`), since what this page would send isn't taken; or the page looks where its document is (`seek`), or opens the one that took its place
 * (`renewed`); or another page of the device is linked in its place (`other`).
 *
 * @typedef {'again' | 'now' | 'end' | 'read' | 'seek' | 'renewed' | 'other'} Then
 * @typedef {{ words: string, then: Then }} Close
 */

/** @type {Record<number, Close>} */
const CLOSES = {
  1001: { words: 'The server was stopped. Go on writing: the page connects again when it is back.', then: 'again' },
  4000: { words: 'This page and its server are of different versions. Load the page again.', then: 'end' },
  4001: { words: 'The server does not know this device any more. Ask an owner for a new invitation.', then: 'end' },
  4002: { words: 'The server did not understand this page. Load it again, and if that does not help tell whoever runs the server.', then: 'end' },
  4003: { words: 'The server refuses what this page sends, as another device’s. Ask an owner for a new invitation.', then: 'end' },
  4004: { words: 'The server refuses what this page sends, since rules are made by an owner’s orders alone. Load the page again.', then: 'end' },
  4005: { words: 'You may only read here, so the server did not take what you wrote.', then: 'end' },
  4006: { words: 'The server has less than it gave this page: older files were put back there. Export the text, and tell whoever runs the server.', then: 'end' },
  4007: { words: 'The server heard nothing of this page for a minute, so the page connects again.', then: 'again' },
  4008: { words: 'This page took too long to take what the server sent, so it connects again.', then: 'again' },
  4009: { words: 'Too many wrong keys came from where you are, so the server lets nobody in from there for a minute. The page tries again.', then: 'again' },
  4010: { words: 'The server has no room left for this document, so it takes nothing more.', then: 'again' },
  4011: { words: 'The server’s disk failed, so it takes nothing more. Tell whoever runs the server.', then: 'again' },
  4012: { words: 'The server has no memory left at the moment. The page connects again.', then: 'again' },
  4013: { words: 'Another document has this name now. Yours may have another one: look in the list of documents.', then: 'seek' },
  4014: { words: 'There is no document of this name any more, or it cannot be opened.', then: 'seek' },
  4015: { words: 'An owner closed this device. Ask for a new invitation to write here again.', then: 'end' },
  4016: { words: 'Another page of this device is connected now, so this one is not. Load it again to go on here.', then: 'other' },
  4017: { words: 'You have as many pages of this document open as a person may. Close some of them.', then: 'again' },
  4018: { words: 'This document has as many devices as it may. Ask an owner.', then: 'end' },
  4019: { words: 'Somebody was given another role, so the page connects anew.', then: 'now' },
  4020: { words: 'The server refuses what this page sends, since its count of edits ran ahead. Copy your words, and ask an owner for a new invitation.', then: 'read' },
  4021: { words: 'The server lacks something that comes before what this page sends. The page connects again.', then: 'again' },
  4022: { words: 'Too many of your edits were denied, so the server takes no more of them until it opens this document anew. You can read on.', then: 'read' },
  4023: { words: 'This document is nearly full, and what room is left is for its owners. You can read on.', then: 'read' },
  4024: { words: 'An owner renewed this document. The new one is opened.', then: 'renewed' },
};

/** @type {Close} */
const LOST = { words: '', then: 'again' };

/**
 * The close of a code. One without a code, or with one that isn't the protocol's, is a link that was lost.
 *
 * @param {number} code
 */
export function closeOf(code) {
  return CLOSES[code] ?? LOST;
}
