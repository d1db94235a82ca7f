// What is told, and can be done, where a page isn't open.
import { button, download, hide, of, say } from './elements.mjs';

/** A page that can't be opened, and what the person may do about it. */
export class NotOpen extends Error {
  /**
   * @param {string} words
   * @param {{ word: string, act: () => void }[]} acts
   */
  constructor(words, acts = []) {
    super(words);
    this.acts = acts;
  }
}

/**
 * @param {Error} error
 * @param {{ word: string, act: () => void }[]} [ways] what else may be done where the error tells of nothing
 */
export function tellNotOpen(error, ways = []) {
  say('standing', 'Not open');
  of('standing').dataset.kind = 'bad';
  hide('opening', false);
  say('opening-words', error.message);
  const acts = error instanceof NotOpen ? error.acts : ways;
  of('opening-acts').replaceChildren(...acts.map(({ word, act }) => button(word, word, act)));
}

const DAMAGED = 'What this browser kept of this document cannot be read, so the page cannot come back from it. Nothing of it was changed.';
const SURE = 'Start over? What this browser kept of the document is deleted. What the server has comes again; what it does not have is lost.';

/**
 * What was kept is no journal: the person decides.
 *
 * @param {import('./store.mjs').Store} store
 * @param {Uint8Array} bytes
 * @param {string} name
 */
export function damaged(store, bytes, name) {
  const startOver = async () => {
    if (!confirm(SURE)) return;
    await store.clear();
    location.reload();
  };
  return new NotOpen(DAMAGED, [
    { word: 'Download the bytes', act: () => download(bytes, `${name}.damaged`) },
    { word: 'Start over', act: () => startOver().catch((error) => say('opening-words', `It was not deleted: ${error.message}`)) },
  ]);
}
