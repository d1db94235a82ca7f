// The frames that pages of one browser give each other, by a BroadcastChannel: each page posts what is new and didn't come this way. A
// page that opens asks, and tells what it has: each other one gives what it lacks, and tells in turn. What comes twice is answered
// `repeat`.
import { BadFrame } from '../copy.mjs';
import { split } from '../frames.mjs';
import { having, lacking } from './having.mjs';

const NAME = 'roastcliff';

export class Channel {
  // `run` is given each action that changes the copy, and runs it soon.
  constructor(copy, { run, channel = new BroadcastChannel(NAME) }) {
    this.copy = copy;
    this.run = run;
    this.channel = channel;
    this.mark = copy.kept; // how many items of the journal were looked at
    this.came = []; // from where to where the journal's items behind the mark came this way
    channel.onmessage = ({ data }) => this.take(data);
    this.tell(true);
  }

  // Tells what this page has; who is asked tells in turn.
  tell(isAsking) {
    const { journal, kept } = this.copy;
    this.channel.postMessage({ isAsking, had: having(journal, kept) });
  }

  take(data) {
    if (data instanceof Uint8Array) for (const frame of split(data)) this.run(() => this.receive(frame));
    else if (data?.had) this.give(data);
  }

  give({ isAsking, had }) {
    const { journal, kept } = this.copy;
    const bytes = journal.choose(lacking(journal, kept, had));
    if (bytes.length) this.channel.postMessage(bytes);
    if (isAsking) this.tell(false);
  }

  receive(frame) {
    const from = this.copy.journal.count;
    try {
      this.copy.receive(frame);
    } catch (error) {
      if (!(error instanceof BadFrame)) throw error;
    }
    const to = this.copy.journal.count;
    const last = this.came.at(-1);
    if (last?.to === from) last.to = to;
    else this.came.push({ from, to });
  }

  // Posts what was kept since and didn't come this way.
  postNews() {
    const { kept } = this.copy;
    while (this.mark < kept) {
      const { from, to } = this.came[0] ?? { from: kept, to: kept };
      if (this.mark < from) this.post(this.mark, Math.min(from, kept));
      this.mark = from < kept ? Math.min(to, kept) : kept;
      if (to <= this.mark) this.came.shift();
    }
  }

  post(from, to) {
    if (from < to) this.channel.postMessage(this.copy.journal.slice(from, to));
  }
}
