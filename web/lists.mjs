// The lists of a document at the side: the rules, what was undone and why, and how the rules came.
import { versions } from './changes.mjs';
import { button, hide, item, of, say, staying } from './elements.mjs';
import * as words from './words.mjs';

const MOST_SHOWN = 200;
const MOST_SEEN = 500; // versions of which it is kept when they were seen

// When this browser saw the versions of a document's rules first.
class Seen {
  /** @param {string} key */
  constructor(key) {
    this.key = key;
    /** @type {Record<number, number>} */
    this.times = JSON.parse(localStorage.getItem(key) ?? '{}');
  }

  /** @param {number} last */
  note(last) {
    const now = Date.now();
    let isNew = false;
    for (let version = last; version > Math.max(0, last - MOST_SEEN) && this.times[version] === undefined; version--) {
      this.times[version] = now;
      isNew = true;
    }
    if (isNew) localStorage.setItem(this.key, JSON.stringify(this.times));
  }
}

export class Lists {
  /**
   * @param {import('./copy.mjs').Copy} copy
   * @param {string} key under which the browser keeps when it saw what
   * @param {(place: number) => void} remove takes a rule away
   */
  constructor(copy, key, remove) {
    this.copy = copy;
    this.remove = remove;
    /** @type {Map<string, string>} what each list was made of */
    this.shown = new Map();
    this.seen = new Seen(key);
    for (const it of ['rules-part', 'undone-part', 'history-part']) hide(it, false);
  }

  /**
   * @param {string} id
   * @param {unknown[]} words of which a list is made
   */
  isNew(id, ...words) {
    const said = JSON.stringify(words);
    const isNew = this.shown.get(id) !== said;
    this.shown.set(id, said);
    return isNew;
  }

  /**
   * @param {number} people how often what is known of people changed
   * @param {boolean} isOwner
   */
  show(people, isOwner) {
    const { policy, undone, journal, entries } = this.copy;
    if (this.isNew('room', journal.count)) say('room', words.room(journal.count - entries.length, policy.version));
    this.seen.note(policy.version);
    if (this.isNew('rules', policy.version, people, isOwner)) {
      this.showRules(isOwner);
      this.showVersions();
    }
    if (this.isNew('undone', undone.count, people)) this.showUndone();
  }

  /** @param {boolean} isOwner */
  showRules(isOwner) {
    const { policy } = this.copy;
    const buttons = (place) => (isOwner ? [' ', button('Remove', `Remove rule ${place + 1}`, () => this.remove(place))] : []);
    const items = policy.authorizations.map((it, place) => item(words.rule(it, policy), ...buttons(place)));
    staying('rules', () => of('rules').replaceChildren(...items));
  }

  showUndone() {
    const { undone, policy } = this.copy;
    hide('nothing-undone', undone.count > 0);
    of('undone', HTMLOListElement).start = undone.rows.length;
    of('undone').replaceChildren(...undone.rows.slice(-MOST_SHOWN).toReversed().map((it) => item(words.undone(it, policy))));
  }

  showVersions() {
    const { entries, policy } = this.copy;
    const items = versions(entries, policy, MOST_SHOWN).map(({ version, text }) => {
      const made = item(text, ' ', ...this.time(version));
      made.value = version;
      return made;
    });
    of('versions').replaceChildren(...items.toReversed());
  }

  /** @param {number} version */
  time(version) {
    const seen = this.seen.times[version];
    if (seen === undefined) return [];
    const time = document.createElement('time');
    time.dateTime = new Date(seen).toISOString();
    time.textContent = `Seen ${new Date(seen).toLocaleString([], { dateStyle: 'short', timeStyle: 'short' })}`;
    return [time];
  }
}
