// Of the pages of one browser the newest alone has a document open. It asks the one before, which keeps all that it has and lets go. One that
// doesn't answer is left alone.

const ASK_MS = 300; // the other page may just be opening, and hear nothing yet
const PATIENCE_MS = 15000; // a page that is loaded again waits for itself to be gone, also on a slow machine
const ASKED = 'let go';

/** Another page has it, and didn't let go. */
export class Held extends Error {}

/**
 * What a browser gives for it: its locks, and its channels between pages.
 *
 * @typedef {{ locks?: Pick<LockManager, 'request'>, channel?: (name: string) => BroadcastChannel, patience?: number }} Means
 */

/**
 * Runs an action while no other page of this browser has what is named. `letGo` is called each time that a newer page asks for it; the lock
 * is free once this page is gone.
 *
 * @param {string} name
 * @param {() => void} action
 * @param {() => void} letGo
 * @param {Means} [means]
 */
export async function hold(name, action, letGo, means = {}) {
  const { locks = navigator.locks, channel = (it) => new BroadcastChannel(it), patience = PATIENCE_MS } = means;
  const others = channel(name);
  const ask = () => others.postMessage(ASKED);
  const asking = setInterval(ask, ASK_MS);
  const signal = /** @type {any} */ (AbortSignal).timeout(patience);
  ask();
  try {
    await locks.request(name, { signal }, () => {
      clearInterval(asking);
      others.onmessage = letGo;
      action();
      return new Promise(() => {}); // it is held as long as the page is there
    });
  } catch (error) {
    throw error === signal.reason ? new Held() : error;
  } finally {
    clearInterval(asking);
    others.close();
  }
}
