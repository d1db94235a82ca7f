// The side of a session that dials, as docs/FORMATS.md has it under "Links and sessions": what is sent, and what follows what comes.
// It knows no socket, so that it can be tried without one.
import { BadFrame } from '../copy.mjs';
import { END_KIND, PLAIN_VERSION, TURN_KIND } from '../limits.mjs';

const TURN = Uint8Array.of(0, 0, 0, 2, PLAIN_VERSION, TURN_KIND);
const END = Uint8Array.of(0, 0, 0, 2, PLAIN_VERSION, END_KIND);

function same(a, b) {
  return a.length === b.length && a.every((byte, i) => byte === b[i]);
}

export class Session {
  // `send` is given the bytes of each message. `validates` tells whether requests are confirmed behind a turn that came.
  constructor(copy, send, validates) {
    this.copy = copy;
    this.send = send;
    this.validates = validates;
    this.mark = 0; // how many items of the journal were sent on this link
    this.isListening = false;
    this.isEnding = false;
    this.isOver = false;
  }

  // Whether this side has items that it didn't send yet. It sends none that isn't kept, so that it never comes back with less than
  // others have of it.
  get hasNews() {
    return this.mark < this.copy.kept;
  }

  // Begins a round: the items from the mark on, and a turn.
  begin() {
    if (this.isListening || this.isOver) return;
    for (; this.hasNews; this.mark++) this.send(this.copy.journal.at(this.mark));
    this.send(TURN);
    this.isListening = true;
  }

  // Says that nothing more comes: at once where it is this side's turn, else behind the other side's.
  end() {
    this.isEnding = true;
    if (this.isListening || this.isOver) return;
    this.send(END);
    this.isOver = true;
  }

  // Takes a message that came. Throws BadFrame where it is none.
  take(bytes) {
    if (!this.isListening) throw new BadFrame();
    if (same(bytes, TURN)) this.takeTurn();
    else if (same(bytes, END)) this.isOver = true;
    else this.copy.receive(bytes);
  }

  takeTurn() {
    this.isListening = false;
    if (this.validates()) this.copy.validateAll();
    if (this.isEnding) this.end();
  }
}
