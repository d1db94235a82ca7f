// The page of a site: its copy, with the text area, the lists, the link, the other pages, and the store.
import { Administration } from './administration.mjs';
import { Channel } from './channel.mjs';
import { Editor } from './editor.mjs';
import { download, of, say } from '../elements.mjs';
import { Keeper } from '../keeper.mjs';
import { Link } from './link.mjs';
import { Lists } from './lists.mjs';
import * as words from '../words.mjs';

const STALE =
  'This person wrote before what this browser does not have: from another browser, or from this one before its store was cleared. So this page only shows the text, and sends what it has. Take another number to write.';

const NOTICE_MS = 5000; // what was undone is said for so long at least, whatever is typed

export class Page {
  constructor(copy, store) {
    this.copy = copy;
    this.undone = copy.undone.count; // so many edits were undone when it was said last
    this.saidUntil = 0; // what the status says stays until then
    this.wasLinkedTo = null; // the address that was dialled when the page was left
    const run = (action) => this.editor.run(action);
    const refused = (answer) => say('status', words.refusal(answer, copy.policy));
    this.editor = new Editor(copy, of('text', HTMLTextAreaElement), { refused, changed: () => this.changed() });
    this.administration = copy.site === 0 ? new Administration(copy, this.editor, refused) : null;
    this.lists = new Lists(copy, this.administration);
    this.keeper = new Keeper(copy, store, { kept: () => this.kept(), failed: (error) => this.stop(error) });
    this.link = new Link(copy, {
      run,
      told: (text) => say('link-status', text),
      validates: () => this.administration?.validates ?? false,
    });
    this.channel = new Channel(copy, { run });
    this.listen();
    this.changed();
    this.kept();
  }

  listen() {
    of('text').addEventListener('beforeinput', () => Date.now() < this.saidUntil || say('status', ''));
    of('link-form').addEventListener('submit', (event) => {
      event.preventDefault();
      this.link.open(of('address', HTMLInputElement).value);
    });
    of('unlink').addEventListener('click', () => this.link.close());
    of('download').addEventListener('click', () => this.download());
    addEventListener('pagehide', () => this.leave());
    addEventListener('pageshow', ({ persisted }) => persisted && this.comeBack());
    addEventListener('beforeunload', (event) => this.keeper.isDone || event.preventDefault());
  }

  leave() {
    this.wasLinkedTo = this.link.address;
    this.link.close();
  }

  // A page that the browser kept as it was, and shows again, dials again, and asks the others what it didn't hear.
  comeBack() {
    this.channel.tell(true);
    if (this.wasLinkedTo) this.link.open(this.wasLinkedTo);
    this.wasLinkedTo = null;
  }

  // Shows what changed, and keeps it.
  changed() {
    this.keeper.keep();
    this.showRules();
    this.tellUndone();
    if (this.copy.isStale) say('status', STALE);
  }

  showRules() {
    this.administration?.show();
    this.lists.show();
  }

  tellUndone() {
    const { count } = this.copy.undone;
    if (count > this.undone && !this.editor.isClosed) {
      say('status', words.undoing(count - this.undone));
      this.saidUntil = Date.now() + NOTICE_MS;
    }
    this.undone = count;
  }

  // What is kept goes to others.
  kept() {
    this.channel.postNews();
    this.link.plan();
  }

  // Where the store takes nothing more, nothing more may be written: it would be gone with the page.
  stop(error) {
    this.editor.close();
    this.showRules();
    say('status', `This browser keeps nothing more (${error.message}), so nothing more can be written here. Download this copy before you close the page.`);
  }

  download() {
    const { journal, site } = this.copy;
    download(journal.slice(0, journal.count), `site-${site}.frames`);
  }
}
