// What no line of the program tells of a journal, read from its bytes as docs/JOURNAL.md has them: the
// schemas of its collections, how its replications were made, and their checkpoints. All else the program is
// asked.

const decoder = new TextDecoder();
const records = 8; // where they begin, behind the header

/**
 * The collections and replications of a journal, its epoch, its records, and where what counts ends.
 * The program has opened the same bytes before, so they are known to be a journal.
 */
export function readJournal(bytes) {
  const read = new Reader(bytes);
  const told = { collections: new Map(), replications: new Map(), epoch: 0, records: 0, end: bytes.length };
  if (bytes.length <= records) return told;
  for (read.at = records; read.byte() === 1; told.records += 1) {
    const end = read.count() + read.at;
    record(read, told);
    read.at = end;
  }
  told.end = read.at;
  return told;
}

function record(read, told) {
  const kind = read.byte();
  if (kind === 1) {
    const name = read.text();
    told.collections.set(name, { name, schema: JSON.parse(read.text()) });
  } else if (kind === 3) {
    const [name, fork] = [read.text(), read.text()];
    const master = read.byte() ? { port: read.short() } : { master: read.text() };
    const [handler, field] = [read.text(), read.option(() => read.text())];
    told.replications.set(name, { name, fork, ...master, handler, field, up: undefined, down: undefined });
  } else if (kind === 4) {
    const replication = told.replications.get(read.text());
    read.number(); // the write time
    read.each(() => { // rows of the fork
      read.number();
      read.skipState();
    });
    read.each(() => read.skipState()); // what became known
    replication.up = read.option(() => read.place());
    replication.down = read.option(() => read.place());
  } else if (kind === 5 || kind === 9) {
    told.epoch = read.number();
  } else if (kind === 8) {
    const replication = told.replications.get(read.text());
    read.each(() => read.skipState()); // what is known
    replication.up = read.option(() => read.place());
    replication.down = read.option(() => read.place());
  } else if (kind === 6) {
    const group = groupOf(read.text(), told.replications), schema = JSON.parse(read.text());
    for (const name of group) told.collections.get(name).schema = schema;
  }
}

// A collection, and all that local replications join to it, over any number of them.
function groupOf(name, replications) {
  const group = new Set([name]);
  for (let size = 0; size < group.size;) {
    size = group.size;
    for (const { fork, master } of replications.values()) {
      if (master && (group.has(fork) || group.has(master))) group.add(fork).add(master);
    }
  }
  return group;
}

class Reader {
  at = 0;
  #bytes;
  #view;

  constructor(bytes) {
    this.#bytes = bytes;
    this.#view = new DataView(bytes.buffer, bytes.byteOffset, bytes.byteLength);
  }

  byte() {
    return this.#bytes[this.at++];
  }

  short() {
    return this.#view.getUint16((this.at += 2) - 2);
  }

  count() {
    return this.#view.getUint32((this.at += 4) - 4);
  }

  number() {
    return Number(this.#view.getBigUint64((this.at += 8) - 8));
  }

  text() {
    const length = this.count();
    return decoder.decode(this.#bytes.subarray(this.at, (this.at += length)));
  }

  place() {
    return { lwt: this.number(), id: this.text() };
  }

  option(thing) {
    return this.byte() ? thing() : undefined;
  }

  each(thing) {
    for (let left = this.count(); left > 0; left--) thing();
  }

  skipText() {
    const length = this.count();
    this.at += length;
  }

  skipState() {
    this.skipText();
    this.at += 1; // deleted
    this.each(() => { this.skipText(); this.#skipValue(); });
  }

  #skipValue() {
    const kind = this.byte();
    if (kind === 2) this.skipText();
    else this.at += kind === 1 ? 8 : 1;
  }
}
