// Connections to masters: WebSockets as streams of bytes. Where a message begins and ends says nothing.
//
// A call answers as system.c hands it on: a count of bytes, or -errno where it failed.

const refused = -111n, timedOut = -110n, reset = -104n, closed = -32n, again = -11n;

export const patience = 10_000; // so many milliseconds without a byte, and a call is given up
export const frame = 1 << 16; // so many bytes are sent at once
const waiting = 1 << 20; // so many bytes may wait to be sent before the program does
export const ahead = 268_435_457; // so many bytes may wait to be read: the longest line, and its end
const lineFeed = 10;
// Who takes the first is a relay to `rx serve`, which has one connection at a time. The second has many.
// Websockify knows its own only where it stands in front.
const relayed = 'binary', many = 'rx';

/** Takes as much of the first piece as there is room for. */
export function front(pieces, into) {
  const first = pieces[0];
  const count = Math.min(first.length, into.length);
  into.set(first.subarray(0, count));
  if (count === first.length) pieces.shift();
  else pieces[0] = first.subarray(count);
  return BigInt(count);
}

function linesIn(bytes) {
  let count = 0;
  for (let at = bytes.indexOf(lineFeed); at >= 0; at = bytes.indexOf(lineFeed, at + 1)) count += 1;
  return count;
}

const isWhole = (bytes) => bytes.at(-1) === lineFeed;

/** A WebSocket to a master. `speak` is called before the program waits. */
class Connection {
  #socket;
  #came = []; // bytes that the program hasn't read
  #held = 0; // how many they are
  #due = 0; // lines sent, less those read
  #between = true; // what was sent or read last ended with a line
  #state = 'dialling'; // then 'open', 'ended' by a proper close, or 'broken'
  #speak;
  #wake = () => {};

  constructor({ url, token }, speak) {
    this.#speak = speak;
    try {
      this.#socket = new WebSocket(url, token ? [relayed, many, `token.${token}`] : [relayed, many]);
    } catch (fault) { // no URL of a WebSocket, say, or one that the page's policy forbids
      console.error(fault);
      this.#state = 'broken';
      return;
    }
    this.#socket.binaryType = 'arraybuffer';
    this.#socket.onopen = () => this.#turn('open');
    this.#socket.onclose = ({ code }) => this.#turn(code === 1000 || code === 1005 ? 'ended' : 'broken');
    this.#socket.onmessage = ({ data }) => this.#hear(data);
  }

  #hear(data) {
    const size = typeof data === 'string' ? Infinity : data.byteLength;
    if (this.#held + size > ahead) return this.drop();
    if (!size) return;
    this.#held += size;
    this.#came.push(new Uint8Array(data));
    this.#wake();
  }

  /** Breaks it: who waits for it is answered at once. */
  drop() {
    this.close();
    this.#turn('broken');
  }

  #turn(state) {
    this.#state = state;
    this.#wake();
  }

  /** Waits until something is so, and answers whether it is. */
  #until(isSo, ms) {
    if (isSo()) return true;
    this.#speak();
    return new Promise((go) => {
      const timer = setTimeout(() => go(false), ms);
      this.#wake = () => { if (isSo()) clearTimeout(timer), go(true); };
    }).finally(() => { this.#wake = () => {}; });
  }

  async dialled(ms) {
    if (!await this.#until(() => this.#state !== 'dialling', ms)) return timedOut;
    return this.#state === 'open' ? 1n : refused;
  }

  /** Less than all may be sent, and the program goes on with the rest. */
  async send(all, ms) {
    if (this.#state !== 'open') return closed;
    const bytes = all.subarray(0, frame);
    this.#socket.send(bytes); // it takes a copy
    this.#due += linesIn(bytes);
    this.#between = isWhole(bytes);
    const count = BigInt(bytes.length);
    if (this.#socket.bufferedAmount <= waiting) return count;
    // No event tells that bytes went out. The limit is of those that none does.
    let left = this.#socket.bufferedAmount, since = performance.now();
    while (this.#state === 'open' && this.#socket.bufferedAmount > waiting) {
      await this.#until(() => this.#state !== 'open', 5);
      const waits = this.#socket.bufferedAmount;
      if (waits < left) [left, since] = [waits, performance.now()];
      else if (performance.now() - since > ms) return again;
    }
    return this.#state === 'open' ? count : closed;
  }

  /** What came before the end is read first. `into` is asked for then, as memory may have moved meanwhile. */
  async receive(into, ms) {
    if (!await this.#until(() => this.#held > 0 || this.#state !== 'open', ms)) return again;
    if (!this.#held) return this.#state === 'ended' ? 0n : reset;
    const room = into(), count = front(this.#came, room), bytes = room.subarray(0, Number(count));
    this.#held -= bytes.length;
    this.#due -= linesIn(bytes);
    this.#between = isWhole(bytes);
    return count;
  }

  /** Whether another turn may go on with it: each line that was sent has its answer, and no more came. */
  isClear() {
    const isAnswered = this.#due === 0 && this.#held === 0 && this.#between;
    return this.#state === 'open' && this.#socket.protocol === many && isAnswered;
  }

  close() {
    if (!this.#socket) return;
    this.#socket.onopen = this.#socket.onmessage = this.#socket.onclose = null;
    this.#socket.close(1000);
  }
}

/**
 * The sockets of the program, by their files. `masters` has by the port of a replication the URL of the
 * WebSocket that leads to its master, or `{ url, token }`. The connection of a turn is kept for the next one
 * with the same master, where that has many.
 */
export class Wires {
  #masters;
  #speak;
  #open = new Map();
  #kept = new Map();

  constructor(masters, speak) {
    this.#masters = masters;
    this.#speak = speak;
  }

  dial(file, port) {
    const master = this.#masters[port];
    if (!master) return refused;
    let connection = this.#kept.get(port);
    this.#kept.delete(port);
    if (!connection?.isClear()) {
      connection?.close();
      connection = new Connection(typeof master === 'string' ? { url: master } : master, this.#speak);
    }
    this.#open.set(file, { port, connection });
    return 0n;
  }

  async dialled(file, ms) {
    return this.#at(file)?.dialled(limit(ms)) ?? refused;
  }

  async send(file, bytes, ms) {
    return this.#at(file)?.send(bytes, limit(ms)) ?? closed;
  }

  async receive(file, into, ms) {
    return this.#at(file)?.receive(into, limit(ms)) ?? reset;
  }

  close(file) {
    const { port, connection } = this.#open.get(file) ?? {};
    this.#open.delete(file);
    if (!connection?.isClear()) return connection?.close();
    this.#kept.get(port)?.close();
    this.#kept.set(port, connection);
  }

  /** Gives up all connections, as their network may be gone. */
  drop() {
    for (const { connection } of this.#open.values()) connection.drop();
    for (const it of this.#kept.values()) it.close();
    this.#kept.clear();
  }

  #at(file) {
    return this.#open.get(file)?.connection;
  }
}

// All other calls of the page wait meanwhile, so no wait is longer than that. Less than no time is forever.
const limit = (ms) => (ms < 0 ? patience : Math.min(ms, patience));
