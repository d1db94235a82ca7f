// A link to a program that serves: a session over a WebSocket, round by round while it is open, dialled again where it is cut.
import { addressFault } from './address.mjs';
import { BadFrame } from '../copy.mjs';
import { Session } from './session.mjs';

const ROUND_MS = 1000; // from one round to the next where there is no news
const NEWS_MS = 100; // where there is
const FIRST_WAIT_MS = 1000;
const LONGEST_WAIT_MS = 30000;
const LAST_TURN_MS = 5000; // to wait for the other side's turn where the link is ended
const DUE_MS = 30000; // a link on which nothing came for so long while the other side's turn was due has died
const ITEM_MS = 20; // and for so much longer for each item that the other side was given to take
const WENT = 1000;
const BROKE_PROTOCOL = 4002;
const OPEN = 1;

export class Link {
  // `run` is given each action that changes the copy, and runs it soon; `told` is given what is to be said of the link.
  constructor(copy, { run, told, validates, dial = (address) => new WebSocket(address) }) {
    this.copy = copy;
    this.run = run;
    this.told = told;
    this.validates = validates;
    this.dial = dial;
    this.wait = FIRST_WAIT_MS;
    this.address = null;
    /** @type {WebSocket | null} */
    this.socket = null;
    this.session = new Session(copy, () => {}, validates); // each link has its own; this one stands for none
    /** @type {ReturnType<typeof setTimeout> | undefined} */
    this.timer = undefined;
    this.isSoon = false; // the timer's wait is the short one
    /** @type {ReturnType<typeof setTimeout> | undefined} the timer of the turn that is due */
    this.due = undefined;
    this.hasBegun = false; // something came on this link: a program that serves waits for all its links before it says anything
    this.untaken = 0; // messages that came on it and wait to be taken
  }

  // Dials this address, and again whenever the link is cut, until `close`.
  open(address) {
    this.close();
    const fault = addressFault(address);
    if (fault) return this.told(fault);
    this.address = address;
    this.wait = FIRST_WAIT_MS;
    this.told('Dialling.');
    this.connect();
  }

  // Dials no more, and ends the session: where it is the other side's turn, behind it.
  close() {
    this.stopTimers();
    this.address = null;
    const { socket, session } = this;
    this.socket = null;
    this.told('There is no link.');
    if (socket?.readyState !== OPEN) return socket?.close();
    session.end();
    if (session.isOver) socket.close(WENT);
    else setTimeout(() => socket.close(WENT), LAST_TURN_MS);
  }

  connect() {
    let socket;
    try {
      socket = this.dial(this.address);
    } catch {
      this.told('This is no address of a link.');
      return;
    }
    socket.binaryType = 'arraybuffer';
    this.socket = socket;
    this.hasBegun = false;
    this.untaken = 0;
    const session = new Session(this.copy, (bytes) => socket.send(bytes), this.validates);
    this.session = session;
    const ours = (action) => (event) => this.socket === socket && action(event);
    socket.addEventListener('open', ours(() => this.opened()));
    socket.addEventListener('message', ours(() => this.came()));
    socket.addEventListener('message', ({ data }) => this.run(() => this.take(data, socket, session)));
    // A socket that never opened tells of an error, and not everywhere of a close too.
    for (const end of ['error', 'close']) socket.addEventListener(end, ours(() => this.lost()));
  }

  opened() {
    this.told('Linked. The program has not answered yet.');
    this.round();
  }

  // A message came, and waits to be taken.
  came() {
    this.hasBegun = true;
    this.untaken++;
    this.awaitTurn();
  }

  // Waits for the turn that is due, as long as messages come. A timer that is late, as where the machine slept, tells nothing of the
  // link.
  awaitTurn(wait = DUE_MS) {
    clearTimeout(this.due);
    const end = Date.now() + wait;
    this.due = setTimeout(() => this.ifDead(Date.now() - end), wait);
  }

  ifDead(late) {
    if (!this.session.isListening) return;
    if (this.untaken || late > DUE_MS) return this.awaitTurn();
    this.socket?.close();
    this.lost();
  }

  // Takes a message. The first that is none ends the session, and so does want of memory: dialled again, all comes again.
  take(data, socket, session) {
    if (this.socket === socket) this.untaken--;
    if (session.isOver) return;
    try {
      if (!(data instanceof ArrayBuffer)) throw new BadFrame();
      session.take(new Uint8Array(data));
    } catch (error) {
      session.isOver = true;
      socket.close(error instanceof BadFrame ? BROKE_PROTOCOL : WENT);
      if (error instanceof BadFrame) return;
      throw error;
    }
    if (session.isOver) socket.close(WENT);
    else if (!session.isListening && this.socket === socket) this.tookTurn();
  }

  // The program's turn came, so the link works.
  tookTurn() {
    this.wait = FIRST_WAIT_MS;
    this.told('Linked.');
    this.plan();
  }

  stopTimers() {
    this.stopTimer();
    clearTimeout(this.due);
  }

  stopTimer() {
    clearTimeout(this.timer);
    this.timer = undefined;
    this.isSoon = false;
  }

  round() {
    this.stopTimer();
    const { socket, session } = this;
    this.run(() => {
      if (this.socket !== socket || socket?.readyState !== OPEN) return;
      const before = session.mark;
      session.begin();
      if (this.hasBegun) this.awaitTurn(DUE_MS + ITEM_MS * (session.mark - before));
    });
  }

  // Plans the next round, sooner where this side has news.
  plan() {
    if (this.socket?.readyState !== OPEN || this.session.isListening || this.session.isOver) return;
    const isSoon = this.session.hasNews;
    if (this.timer !== undefined && (this.isSoon || !isSoon)) return;
    this.stopTimer();
    this.isSoon = isSoon;
    const { socket } = this;
    this.timer = setTimeout(() => this.socket === socket && this.round(), isSoon ? NEWS_MS : ROUND_MS);
  }

  // What is said stays the same until a link stands again, so that who hears the page isn't told at each try.
  lost() {
    this.stopTimers();
    this.socket = null;
    this.told('There is no link. You can go on; it is dialled again.');
    this.timer = setTimeout(() => this.connect(), this.wait);
    this.wait = Math.min(2 * this.wait, LONGEST_WAIT_MS);
  }
}
