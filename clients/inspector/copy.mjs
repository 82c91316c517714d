// A copy of a file in the origin's private file system, and the program over it. The file is only read.
import { open } from '../js/rx.mjs';

const out = new URL('../../wasm/out/', import.meta.url);
const most = 4294967295; // a journal's greatest limit, so that each one that there is opens
const prefix = 'inspector-';
const storage = () => navigator.storage.getDirectory();
const pause = () => new Promise((go) => setTimeout(go, 50));

// It is compiled while nothing is open yet. Whoever starts it is told where that failed.
const compiled = fetch(new URL('rx.wasm', out)).then((response) => {
  if (!response.ok) throw new Error(`there is no ${response.url}, which wasm/build.sh makes`);
  return WebAssembly.compileStreaming(response);
});
compiled.catch(() => {});

/** Removes what pages left that were closed without a word. One that is open holds the lock of its copies. */
export async function sweep() {
  const folder = await storage();
  for await (const name of folder.keys()) {
    if (!name.startsWith(prefix)) continue;
    await navigator.locks.request(name.slice(0, prefix.length + 36), { ifAvailable: true }, async (lock) => {
      if (lock) await remove(name);
    });
  }
}

/** Copies a file, and opens the copy: a journal that a database has until it is closed. */
export async function copyOf(file) {
  const name = `${prefix}${crypto.randomUUID()}`;
  const release = await hold(name);
  try {
    await put(name, file);
    return new Copy(name, await open(over(name, 'run', '--max-journal', String(most))), release);
  } catch (fault) {
    await remove(name);
    release();
    throw fault;
  }
}

class Copy {
  #name;
  #release;
  #reports = 0;

  constructor(name, db, release) {
    this.#name = name;
    this.db = db;
    this.#release = release;
  }

  /** The bytes of the copy as it is now. A read that a write overtakes fails, and is made again. */
  async bytes() {
    const handle = await (await storage()).getFileHandle(this.#name);
    for (let left = 40; ; left--) {
      try {
        return new Uint8Array(await (await handle.getFile()).arrayBuffer());
      } catch (fault) {
        if (fault.name !== 'NotReadableError' || !left) throw fault;
        await pause();
      }
    }
  }

  /** What `rx check` tells of a journal's bytes. */
  async report(bytes) {
    const name = `${this.#name}-${++this.#reports}`;
    try {
      await put(name, new Blob([bytes]));
      return await check(name);
    } finally {
      await remove(name);
    }
  }

  async close() {
    await this.db.close().catch(() => {}); // where it had ended otherwise that was told
    await remove(this.#name);
    this.#release();
  }
}

// Holds a lock until it is released.
function hold(name) {
  return new Promise((held) => {
    navigator.locks.request(name, () => new Promise((release) => held(release)));
  });
}

async function put(name, file) {
  const to = await (await (await storage()).getFileHandle(name, { create: true })).createWritable();
  await file.stream().pipeTo(to);
}

// A program that has just ended may have its file for a moment.
async function remove(name) {
  const folder = await storage();
  for (let left = 40; left; left--) {
    const fault = await folder.removeEntry(name).then(() => null, (it) => it);
    if (fault?.name !== 'NoModificationAllowedError') return;
    await pause();
  }
}

/** The lines of a report on a journal that no program has. */
function check(journal) {
  let told = '';
  return new Promise((resolve, reject) => {
    const ended = ({ status, said }) => {
      if (status === 0) resolve(told.trimEnd().split('\n').map((line) => JSON.parse(line)));
      else reject(new Error(said ?? told.trim()));
    };
    over(journal, 'check')({ output: (text) => { told += text; }, ended }).catch(reject);
  });
}

// A command of the program over a journal, in a worker of its own: a transport of the client.
function over(journal, command, ...words) {
  return ({ output, ended }) => new Promise((resolve, reject) => {
    const worker = new Worker(new URL('host.mjs', out), { type: 'module' });
    const end = (how) => {
      worker.terminate();
      ended(how);
      reject(new Error(how.said));
    };
    const fail = ({ message }) => end({ stop: 'trap', said: message ?? 'the worker does not start' });
    const running = {
      send: (text) => worker.postMessage(text),
      end: () => worker.postMessage(null),
      kill: () => end({ stop: 'killed' }),
    };
    worker.onerror = fail;
    worker.onmessage = ({ data }) => {
      if (typeof data === 'string') output(data);
      else if (data.ready) resolve(running);
      else end(data.ended === null ? { stop: 'trap', said: data.said } : { status: data.ended });
    };
    compiled.then((program) => worker.postMessage({ program, command, journal, words })).catch(fail);
  });
}
