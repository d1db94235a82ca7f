// What was undone: of requests of one person that were undone for one reason, how many letters they wrote, how many deletions and
// changes there were, and the first letters. The last requests themselves are kept too, for where they stood.

const MOST_REQUESTS = 200;
const MOST_LETTERS = 61; // one more than is shown, so that it is known whether there are more

/**
 * @typedef {import('./lines.mjs').Denial} Denial
 * @typedef {{ user: number, denial: Denial, counts: Record<string, number>, letters: string[] }} Row
 */

export class Undone {
  constructor() {
    this.count = 0;
    /** @type {Row[]} the last last */
    this.rows = [];
    /** @type {{ request: import('./lines.mjs').EditRequest, denial: Denial }[]} the last last */
    this.requests = [];
  }

  /**
   * @param {import('./lines.mjs').EditRequest} request
   * @param {Denial} denial
   */
  put(request, denial) {
    const { user, edit } = request;
    this.count++;
    this.requests = [...this.requests.slice(1 - MOST_REQUESTS), { request, denial }];
    const last = this.rows.at(-1);
    const isSame = last && last.user === user && last.denial.version === denial.version && last.denial.by === denial.by;
    const row = isSame ? last : { user, denial, counts: { insert: 0, delete: 0, update: 0 }, letters: [] };
    if (!isSame) this.rows.push(row);
    const letters = edit.kind === 'insert' ? Array.from(edit.piece) : [];
    row.counts[edit.kind] += letters.length || 1;
    row.letters = [...row.letters, ...letters].slice(0, MOST_LETTERS);
  }
}
