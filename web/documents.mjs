// The list of a house's documents, which an owner makes, renames and archives.
import { button, hide, made, of, say } from './elements.mjs';
import { documentPath } from './places.mjs';
import { ask, askWords } from './question.mjs';
import { wantsRenewal } from './renewal.mjs';
import { documentName, documentState } from './told.mjs';

/** @typedef {import('./protocol.mjs').DocumentLine} DocumentLine */

export class Documents {
  /**
   * @param {string} base
   * @param {import('./orders.mjs').Orders} orders
   * @param {(line: string) => Promise<string[] | null>} order gives the lines of the answer, or null and says why
   */
  constructor(base, orders, order) {
    this.base = base;
    this.orders = orders;
    this.order = order;
    /** @type {DocumentLine[]} */
    this.all = [];
    this.said = '';
    this.goesToOnly = false; // to the document, if the list that comes first has one alone
    const input = of('new-document-name', HTMLInputElement);
    input.addEventListener('input', () => this.tellName(input.value));
    of('new-document').addEventListener('submit', (event) => {
      event.preventDefault();
      this.make(input);
    });
  }

  /** @param {DocumentLine[]} documents */
  take(documents) {
    this.all = documents;
    if (this.goesToOnly && documents.length === 1) location.replace(documentPath(this.base, documents[0].name));
    this.goesToOnly = false;
  }

  // Who was just invited goes on to the document, where there is one alone.
  goToOnly() {
    this.goesToOnly = true;
  }

  /** @param {boolean} isOwner */
  show(isOwner) {
    const said = JSON.stringify([this.all, isOwner]);
    if (said === this.said) return;
    this.said = said;
    hide('no-documents', this.all.length > 0);
    hide('new-document', !isOwner);
    const stood = of('document-list').contains(document.activeElement);
    const rows = this.all.toSorted((a, b) => (a.name < b.name ? -1 : 1));
    of('document-list').replaceChildren(...rows.map((it) => this.item(it, isOwner)));
    if (stood) of('documents-title').focus();
  }

  /**
   * @param {DocumentLine} it
   * @param {boolean} isOwner
   */
  item({ name, state }, isOwner) {
    const link = document.createElement('a');
    link.href = documentPath(this.base, name);
    link.textContent = name;
    const told = documentState(state);
    const line = made('li', '', link, ...(told ? [made('p', 'faint', told)] : []));
    if (!isOwner) return line;
    const acts = [
      button('Rename', `Rename ${name}`, () => this.rename(name)),
      button('Renew', `Renew ${name}`, () => this.renew(name)),
      button('Archive', `Archive ${name}`, () => this.archive(name)),
    ];
    line.append(made('div', 'row', ...acts));
    return line;
  }

  // What a document will be called.
  tellName(text) {
    const name = documentName(text);
    say('new-document-told', name && name !== text ? `It will be called ${name}.` : '');
  }

  /** @param {HTMLInputElement} input */
  async make(input) {
    const name = documentName(input.value);
    if (!name) return say('new-document-told', 'A name has a letter or a digit at least.');
    if (!(await this.order(`make ${name}`))) return;
    input.value = '';
    say('new-document-told', '');
    say('status', `There is a document ${name} now. Everybody in the team but readers may write in it, until you make rules there.`);
  }

  /** @param {string} name */
  async rename(name) {
    const to = documentName(await askWords(this.orders, `Name of ${name}`, name, 'Rename'));
    if (to && to !== name && (await this.order(`move ${name} ${to}`))) say('status', `${name} is called ${to} now. Who has it open goes there.`);
  }

  /** @param {string} name */
  async renew(name) {
    if (!(await wantsRenewal(this.orders, name))) return;
    if (await this.order(`renew ${name}`)) say('status', `${name} is renewed. Who has it open goes on in the new one.`);
  }

  /** @param {string} name */
  async archive(name) {
    const title = `Archive ${name}?`;
    const undone = 'Nobody can open it any more. Its files stay in the server’s folder, below .archive.';
    if ((await ask(this.orders, { title, undone, yes: 'Archive it' })) !== 'yes') return;
    if (await this.order(`archive ${name}`)) say('status', `${name} is archived.`);
  }
}
