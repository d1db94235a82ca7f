// Keeps what the journal has in the browser's store, one write after another, so soon that what shows needn't wait for it: what comes
// during a write goes with the next. It also keeps how far the page is with its host, and that the site is stale.

const soon = () => new Promise((done) => setTimeout(() => done(undefined), 0));

export class Keeper {
  /**
   * `kept` is called after each write, `failed` is given why one failed, after which there is none. `marks` tells how far the page is with
   * its host; null where it has none.
   *
   * @param {import('./copy.mjs').Copy} copy
   * @param {Pick<import('./store.mjs').Store, 'append' | 'mark'>} store
   * @param {{ kept: () => void, failed: (error: Error) => void, marks?: () => import('./store.mjs').Marks | null }} sides
   */
  constructor(copy, store, { kept, failed, marks = () => null }) {
    this.copy = copy;
    this.store = store;
    this.marks = marks;
    this.from = marks()?.from; // so far as the store knows
    this.kept = kept;
    this.failed = failed;
    this.isMarked = copy.isStale; // the store says that the site is stale
    this.isWriting = false;
    this.hasFailed = false;
  }

  // Whether all that the journal has is kept.
  get isDone() {
    return this.copy.kept === this.copy.journal.count && this.isMarked === this.copy.isStale && this.from === this.marks()?.from;
  }

  async keep() {
    if (this.isWriting || this.hasFailed || this.isDone) return;
    this.isWriting = true;
    try {
      await soon();
      while (!this.isDone) await this.write();
    } catch (error) {
      this.hasFailed = true;
      this.failed(error);
    } finally {
      this.isWriting = false;
    }
  }

  // Waits until all is kept; gives whether it is.
  async finish() {
    while (!this.isDone && !this.hasFailed) await Promise.all([this.keep(), soon()]);
    return this.isDone;
  }

  async write() {
    const { copy } = this;
    if (copy.isStale && !this.isMarked) {
      await this.store.mark();
      this.isMarked = true;
    }
    const { count } = copy.journal;
    const marks = this.marks();
    if (count === copy.kept && marks?.from === this.from) return;
    await this.store.append(copy.journal.slice(copy.kept, count), marks);
    copy.kept = count;
    this.from = marks?.from;
    this.kept();
  }
}
