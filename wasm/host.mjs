// The worker that the program runs in, with its journal in the origin's private file system.
// The page first sends { program, journal, words, masters }, the program compiled and the masters that it may
// dial, then lines as text, and null at their end; and { drop } where connections are to be given up. A `command`
// beside the first may stand in the place of `run`.
// The worker sends { ready }, then what the program writes as text, and { ended, said } at the end.

import { Wires, front } from './wire.mjs';

const encoder = new TextEncoder();
const decoder = new TextDecoder(); // of output, whose pieces may end within a character
const piece = 16384; // so much is written at most before the page hears of it

const incoming = []; // bytes that the program hasn't read
let wake = null; // set while the program waits for input
let open = true;
let said = '';

function speak() {
  if (said) postMessage(said);
  said = '';
}

function hear(text) {
  if (text === null) open = false;
  else if (text) incoming.push(encoder.encode(text));
  wake?.();
}

// An interrupted page leaves its file locked for a moment.
async function locked(name) {
  const folder = await navigator.storage.getDirectory();
  const file = await folder.getFileHandle(name, { create: true });
  for (let left = 40; ; left--) {
    try {
      return await file.createSyncAccessHandle();
    } catch (fault) {
      if (fault.name !== 'NoModificationAllowedError' || left === 0) throw fault;
      await new Promise((go) => setTimeout(go, 50));
    }
  }
}

// The calls of system.c. A call that fails answers less than 0: here always an error of input and output.
function calls(program, journal, name, words, wires) {
  const files = new Map();
  let next = 3;
  const part = (at, count) => new Uint8Array(program().memory.buffer, Number(at), Number(count));
  const attempt = (call) => {
    try {
      return BigInt(call());
    } catch (fault) {
      console.error(fault);
      return -5n;
    }
  };
  return {
    // All that was read is answered, so where nothing is left the page is told, and the program waits.
    read(_file, at, count) {
      if (incoming.length) return front(incoming, part(at, count));
      speak();
      if (!open) return 0n;
      return new Promise((go) => { wake = go; }).then(() => {
        wake = null;
        return incoming.length ? front(incoming, part(at, count)) : 0n;
      });
    },
    write(_file, at, count) {
      said += decoder.decode(part(at, count), { stream: true });
      if (said.length > piece) speak();
      return count;
    },
    // What isn't the journal is a folder or a device, with nothing behind it.
    open(at, count) {
      files.set(next, new TextDecoder().decode(part(at, count)) === name ? journal : null);
      return BigInt(next++);
    },
    close(file) {
      wires.close(file);
      return files.delete(file) ? 0n : -9n;
    },
    socket() {
      files.set(next, null);
      return BigInt(next++);
    },
    dial: (file, port) => wires.dial(file, Number(port)),
    dialled: (file, ms) => wires.dialled(file, Number(ms)),
    send: (file, at, count, ms) => wires.send(file, part(at, count), Number(ms)),
    receive: (file, at, count, ms) => wires.receive(file, () => part(at, count), Number(ms)),
    now: () => BigInt(Math.floor(performance.now())),
    pread: (file, at, count, from) => attempt(() => files.get(file).read(part(at, count), { at: Number(from) })),
    pwrite: (file, at, count, to) => attempt(() => files.get(file).write(part(at, count), { at: Number(to) })),
    sync: (file) => attempt(() => (files.get(file)?.flush(), 0)),
    arg(i, at, count) {
      const word = words[Number(i)];
      if (!word) return -1n;
      if (word.length > Number(count)) return -2n;
      part(at, count).set(word);
      return BigInt(word.length);
    },
  };
}

async function run({ program: module, command = 'run', journal, words, masters = {} }) {
  if (!WebAssembly.Suspending) throw new Error('this browser cannot suspend WebAssembly (JSPI)');
  const file = await locked(journal);
  const all = ['rx', command, journal, ...words].map((word) => encoder.encode(word));
  const wires = new Wires(masters, speak);
  let program;
  const host = calls(() => program, file, journal, all, wires);
  for (const it of ['read', 'dialled', 'send', 'receive']) host[it] = new WebAssembly.Suspending(host[it]);
  program = (await WebAssembly.instantiate(module, { host })).exports;
  self.onmessage = ({ data }) => (data?.drop ? wires.drop() : hear(data));
  postMessage({ ready: true });
  try {
    return await WebAssembly.promising(program.main)(0, 0n);
  } finally {
    file.close();
  }
}

self.onmessage = ({ data }) => {
  run(data).then(
    (status) => { speak(); postMessage({ ended: status }); },
    (fault) => { speak(); postMessage({ ended: null, said: String(fault) }); },
  );
};
