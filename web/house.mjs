// The page of a house: its documents and its people.
import { directory } from './directory.mjs';
import { Documents } from './documents.mjs';
import { hide, of, say } from './elements.mjs';
import { Keys } from './keys.mjs';
import { Line } from './line.mjs';
import { People } from './people.mjs';
import { helloText } from './protocol.mjs';

const CONNECTED = 'Connected';

export class House {
  /**
   * @param {string} base
   * @param {string} address of its link
   * @param {import('./device.mjs').Device} device
   * @param {import('./former.mjs').Formers} formers shows who this browser was
   */
  constructor(base, address, device, formers) {
    this.formers = formers;
    this.line = new Line(address, {
      hello: () => helloText(device),
      welcomed: () => {},
      heard: (it) => this.hear(it),
      told: () => this.tell(),
      lost: () => this.showHere([]),
      takesTurns: true, // a page of a document that looks where it is takes this one's place for a moment
    });
    this.people = new People(this.line.orders, device.site, () => this.keys.ask());
    this.keys = new Keys(this.line.orders, device.site, (all) => this.people.take(all));
    this.documents = new Documents(base, this.line.orders, (line) => this.people.order(line));
    for (const it of ['documents', 'side']) hide(it, false);
    document.body.classList.add('is-house');
    for (const it of ['online', 'pageshow']) addEventListener(it, () => this.line.hurry());
  }

  /** @param {import('./protocol.mjs').Heard} heard */
  hear(heard) {
    if (heard.kind === 'people') directory.take(heard);
    else if (heard.kind === 'documents') this.documents.take(heard.documents);
    else if (heard.kind === 'here') return this.showHere(heard.sites);
    this.show();
    if (heard.kind === 'people' && this.people.isOwner) this.keys.ask();
  }

  /** @param {number[]} sites */
  showHere(sites) {
    this.people.here = new Set(sites);
    this.people.show();
  }

  show() {
    this.people.show();
    this.formers.show();
    this.documents.show(this.people.isOwner);
    hide('keys-part', !this.people.isOwner);
  }

  tell() {
    const { isWelcome, words, isOver } = this.line;
    say('standing', isWelcome ? CONNECTED : words || 'Offline. The page connects again when the server is back.');
    of('standing').dataset.kind = isWelcome ? 'good' : isOver ? 'bad' : 'off';
  }
}
