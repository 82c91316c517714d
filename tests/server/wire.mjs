// The wire of a page by itself: wasm/wire.mjs in Node, over WebSockets that do what a case tells them.
import { mock } from 'node:test';
import { Wires, ahead, frame, patience } from '../../wasm/wire.mjs';
import { same, tryOne } from '../clients/shared.mjs';

const encoder = new TextEncoder();
const [file, port] = [3, 4001];
const url = 'wss://todos.example/todos';
let sockets = [];

class Fake {
  bufferedAmount = 0;
  sent = [];
  code = null;
  protocol = 'rx';

  constructor(...words) {
    if (words[0] === 'no URL') throw new SyntaxError(words[0]);
    this.words = words;
    sockets.push(this);
  }

  send(bytes) { this.sent.push(bytes.slice()); }
  close(code) { this.code = code; }
  says(text) { this.onmessage({ data: typeof text === 'string' ? encoder.encode(text).buffer : text }); }
}

const tests = {};
function test(name, work) {
  tests[name] = async () => {
    globalThis.WebSocket = Fake;
    await work();
  };
}

const told = async (answer) => String(await answer);
const soon = () => new Promise((go) => { setImmediate(() => go(false)); });
const hasEnded = (answer) => Promise.race([answer.then(() => true), soon()]);

// Wires whose one is open, its WebSocket, and how often the program's output was handed on.
async function opened(masters = { [port]: url }) {
  const it = { spoken: 0 };
  it.wires = new Wires(masters, () => { it.spoken += 1; });
  it.wires.dial(file, port);
  it.socket = sockets.at(-1);
  const answer = it.wires.dialled(file, -1);
  it.socket.onopen();
  same(await told(answer), '1', 'a dial');
  it.read = async (size = 100, ms = -1) => {
    const room = new Uint8Array(size);
    const count = await it.wires.receive(file, () => room, ms);
    return count > 0n ? new TextDecoder().decode(room.subarray(0, Number(count))) : String(count);
  };
  it.ask = async (line, reply) => {
    await it.wires.send(file, encoder.encode(line), -1);
    it.socket.says(reply);
    same(await it.read(), reply, 'the reply');
  };
  return it;
}

test('a dial, the words of its handshake, and what is no master', async () => {
  const { socket, spoken } = await opened({ [port]: { url, token: 'abc' } });
  same(JSON.stringify(socket.words), JSON.stringify([url, ['binary', 'rx', 'token.abc']]), 'with a token');
  same(socket.binaryType, 'arraybuffer', 'its messages');
  same(String(spoken), '1', 'what was answered before is told while it waits');
  same(JSON.stringify((await opened()).socket.words), JSON.stringify([url, ['binary', 'rx']]), 'without one');
  const wires = new Wires({ [port]: 'no URL' }, () => {});
  same(String(wires.dial(file, 4002)), '-111', 'a port without a master');
  same(await told(wires.dialled(file, -1)), '-111', 'which is waited for');
  mock.method(console, 'error', () => {});
  same(String(wires.dial(file, port)), '0', 'no URL');
  same(await told(wires.dialled(file, -1)), '-111', 'no URL');
  const refused = new Wires({ [port]: url }, () => {});
  refused.dial(file, port);
  const answer = refused.dialled(file, -1);
  sockets.at(-1).onclose({ code: 1006 });
  same(await told(answer), '-111', 'a handshake that fails');
});

test('no wait is longer than ten seconds, and a shorter one is as long as it says', async () => {
  const apis = ['setTimeout']; // Node 18 takes the list itself
  mock.timers.enable(parseInt(process.versions.node) < 20 ? apis : { apis });
  const wires = new Wires({ [port]: url }, () => {});
  const { wires: open } = await opened();
  const givenUp = async (answer, due, code) => {
    mock.timers.tick(due - 1);
    same(String(await hasEnded(answer)), 'false', `${due} ms, before`);
    mock.timers.tick(1);
    same(await told(answer), code, `${due} ms`);
  };
  for (const [ms, due] of [[-1, patience], [60_000, patience], [500, 500]]) {
    wires.dial(file, port);
    await givenUp(wires.dialled(file, ms), due, '-110');
    await givenUp(open.receive(file, () => new Uint8Array(1), ms), due, '-11');
    wires.close(file);
    same(String(sockets.at(-1).code), '1000', 'a dial that was given up is closed');
  }
});

test('bytes in messages that end anywhere, read in pieces of any size', async () => {
  const it = await opened();
  const bytes = encoder.encode('{"é":"\u{1F600}"}\n');
  const found = [];
  const room = new Uint8Array(3);
  for (const byte of bytes) it.socket.says(new Uint8Array([byte]).buffer);
  it.socket.says(new ArrayBuffer(0));
  for (let left = bytes.length; left > 0;) {
    const count = Number(await it.wires.receive(file, () => room, -1));
    found.push(...room.subarray(0, count));
    left -= count;
  }
  same(String(found), String([...bytes]), 'a byte a message');
  const answer = it.read(4);
  it.socket.says('several bytes');
  same(await answer, 'seve', 'what comes while it waits');
  same(await it.read(), 'ral bytes', 'the rest');
});

test('ends: what came before is read first, then an end, or a failure', async () => {
  for (const [code, due] of [[1000, '0'], [1005, '0'], [1006, '-104'], [1011, '-104'], [1008, '-104']]) {
    const it = await opened();
    it.socket.says('before');
    it.socket.onclose({ code });
    same(await it.read(), 'before', `${code}`);
    same(await it.read(), due, `${code}`);
    same(await told(it.wires.send(file, encoder.encode('x'), -1)), '-32', `${code}, sending`);
    const other = await opened();
    const answer = other.read();
    other.socket.onclose({ code });
    same(await answer, due, `${code}, while it waits`);
  }
});

test('text, and more than may wait to be read', async () => {
  const it = await opened();
  it.socket.onmessage({ data: 'text' });
  same(String(it.socket.code), '1000', 'it is closed');
  same(await it.read(), '-104', 'text');
  const full = await opened();
  full.socket.says(new ArrayBuffer(ahead));
  same(await told(full.wires.receive(file, () => new Uint8Array(1), -1)), '1', 'as much as may wait');
  full.socket.says('a');
  same(String(full.socket.code), 'null', 'a byte was read, so one more may come');
  full.socket.says('b');
  same(String(full.socket.code), '1000', 'one too many');
});

test('sending: in frames, as copies, and no faster than the peer takes it', async () => {
  const it = await opened();
  const all = new Uint8Array(frame + 10).fill(7);
  same(await told(it.wires.send(file, all, -1)), String(frame), 'the first frame');
  all.fill(8);
  same(String(it.socket.sent[0].every((byte) => byte === 7)), 'true', 'a copy');
  it.socket.bufferedAmount = 2 << 20;
  const answer = it.wires.send(file, all.subarray(0, 5), -1);
  same(String(await hasEnded(answer)), 'false', 'much waits');
  it.socket.bufferedAmount = 1 << 20;
  same(await told(answer), '5', 'less waits');
  it.socket.bufferedAmount = 2 << 20;
  same(await told(it.wires.send(file, all.subarray(0, 5), 30)), '-11', 'nothing is taken');
  it.socket.bufferedAmount = 2 << 20;
  const broken = it.wires.send(file, all.subarray(0, 5), -1);
  it.socket.onclose({ code: 1006 });
  same(await told(broken), '-32', 'it breaks meanwhile');
});

test('a connection is kept for the next turn, where each line has its answer and no more', async () => {
  const it = await opened();
  const count = sockets.length;
  for (let turn = 0; turn < 3; turn++) {
    await it.ask('{"ask":1}\n', '{"docs":[]}\n');
    it.wires.close(file);
    it.wires.dial(file, port);
    same(await told(it.wires.dialled(file, -1)), '1', 'the next turn');
  }
  same(String(sockets.length), String(count), 'no other was dialled');
  const tried = {
    'a line without its answer': () => it.wires.send(file, encoder.encode('{}\n'), -1),
    'half a line': () => it.wires.send(file, encoder.encode('{}'), -1),
    'half an answer': async () => {
      await it.wires.send(file, encoder.encode('{}\n'), -1);
      it.socket.says('{"docs"');
      await it.read();
    },
    'a byte behind the answer': () => it.ask('{}\n', '{"docs":[]}\n{'),
    'two answers': () => it.ask('{}\n', '{"docs":[]}\n{}\n'),
    'an answer that nobody read': () => it.socket.says('{}\n'),
    'a relay to a master with one connection': () => {
      it.socket.protocol = 'binary';
      return it.ask('{}\n', '{}\n');
    },
    'an end': () => it.socket.onclose({ code: 1000 }),
  };
  for (const [what, make] of Object.entries(tried)) {
    await make();
    it.wires.close(file);
    same(String(it.socket.code), '1000', `${what}: it is closed`);
    it.wires.dial(file, port);
    same(String(sockets.at(-1) !== it.socket), 'true', `${what}: another one is dialled`);
    it.socket = sockets.at(-1);
    it.socket.onopen();
  }
  await it.ask('{}\n', '{}\n');
  it.wires.close(file);
  it.socket.says('{}\n'); // between two turns
  it.wires.dial(file, port);
  same(String(it.socket.code), '1000', 'what comes between two turns ends it');
  same(String(sockets.at(-1) !== it.socket), 'true', 'and another one is dialled');
});

test('connections that are given up: who waits is told at once, and the next turn dials', async () => {
  const it = await opened();
  const read = it.read();
  it.wires.drop();
  same(await read, '-104', 'reading');
  same(String(it.socket.code), '1000', 'it is closed');
  same(await told(it.wires.send(file, encoder.encode('x'), -1)), '-32', 'sending');
  it.wires.close(file);
  it.wires.dial(file, port);
  const dialled = it.wires.dialled(file, -1);
  it.wires.drop();
  same(await told(dialled), '-111', 'dialling');
  it.wires.close(file);

  const kept = await opened();
  await kept.ask('{}\n', '{}\n');
  kept.wires.close(file);
  kept.wires.drop();
  same(String(kept.socket.code), '1000', 'one that is kept is closed');
  kept.wires.dial(file, port);
  same(String(sockets.at(-1) !== kept.socket), 'true', 'and another one is dialled');
});

test('two masters have a connection each', async () => {
  const it = await opened({ [port]: url, 4002: 'wss://notes.example/notes' });
  await it.ask('{}\n', '{}\n');
  it.wires.close(file);
  const count = sockets.length;
  it.wires.dial(file, 4002);
  sockets.at(-1).onopen();
  same(String(sockets.at(-1).words[0]), 'wss://notes.example/notes', 'the other one');
  it.wires.close(file);
  for (const at of [port, 4002, port]) {
    it.wires.dial(file, at);
    it.wires.close(file);
  }
  same(String(sockets.length), String(count + 1), 'both are kept');
});

await tryOne(tests);
