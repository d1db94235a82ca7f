// What the tests of links share: sockets that do nothing by themselves, and time that passes when it is told to.
import assert from 'node:assert/strict';

const PATIENCE_MS = 20000;

const pause = (ms) => new Promise((done) => setTimeout(done, ms));

export async function until(what, holds) {
  for (let waited = 0; !holds(); waited += 10) {
    assert.ok(waited < PATIENCE_MS, `it never came that ${what}`);
    await pause(10);
  }
}

// Time that passes only when it is told to, for what an action begins.
export async function timed(action) {
  const old = { setTimeout, clearTimeout, now: Date.now };
  const timers = new Map();
  let [time, count] = [Date.now(), 0];
  globalThis.setTimeout = (run, wait) => (timers.set(++count, { run, at: time + wait }), count);
  globalThis.clearTimeout = (it) => timers.delete(it);
  Date.now = () => time;
  const pass = (wait) => {
    const end = time + wait;
    for (;;) {
      const [number, next] = [...timers].sort((a, b) => a[1].at - b[1].at)[0] ?? [];
      if (!next || next.at > end) break;
      timers.delete(number);
      time = Math.max(time, next.at);
      next.run();
    }
    time = end;
  };
  try {
    await action(pass);
  } finally {
    [globalThis.setTimeout, globalThis.clearTimeout, Date.now] = [old.setTimeout, old.clearTimeout, old.now];
  }
}

// A socket that does nothing by itself.
export class Wire extends EventTarget {
  readyState = 0;
  sent = [];

  send(it) {
    this.sent.push(it);
  }

  close(code) {
    this.readyState = 3;
    this.closed = code;
  }

  open() {
    this.readyState = 1;
    this.dispatchEvent(new Event('open'));
  }

  cut(code = 1006) {
    this.readyState = 3;
    this.dispatchEvent(Object.assign(new Event('close'), { code }));
  }

  // A text, or bytes.
  bring(it) {
    const data = typeof it === 'string' ? it : Uint8Array.from(it).buffer;
    this.dispatchEvent(Object.assign(new Event('message'), { data }));
  }
}

// Wires, and what dials them.
export function switchboard() {
  const wires = [];
  return { wires, dial: () => wires[wires.push(new Wire()) - 1] };
}
