// What is known of a journal, and asked of the program. It knows nothing of the page, and runs in Node too.
import { readJournal } from './journal.mjs';
import { pageOf } from './rows.mjs';

/** A journal by a copy of its file, with its `collections` and `replications`, each by its name. */
export class Journal {
  #copy;
  #confirmed = new Map();
  #asked = new Map();
  #look = Promise.resolve(); // one at a time, so that the last one counts

  /** @internal */
  constructor(copy, file, bytes) {
    this.#copy = copy;
    this.db = copy.db;
    [this.name, this.size] = [file.name, file.size];
    [this.epoch, this.records] = this.#take(bytes);
  }

  /** Opens a file by a copy. Where it is no journal that is refused with the program's word. */
  static async of(file, copyOf) {
    const copy = await copyOf(file);
    try {
      await copy.db.tick(); // answered once the program has read the journal
      const journal = new Journal(copy, file, new Uint8Array(await file.arrayBuffer()));
      await journal.#confirm();
      await journal.count(...journal.collections.keys());
      return journal;
    } catch (fault) {
      await copy.close();
      throw fault;
    }
  }

  // The program refuses a schema that isn't the one that it holds, so what was read is right.
  async #confirm() {
    for (const { name, schema } of this.collections.values()) {
      this.#confirmed.set(name, await this.db.collection(name, schema));
    }
  }

  /** The collection of this name, to ask and to write to. */
  collection(name) {
    return this.#confirmed.get(name);
  }

  /** Counts the documents of collections. */
  async count(...names) {
    await Promise.all(names.map(async (name) => {
      const count = await this.collection(name).count();
      this.collections.get(name).count = count;
    }));
  }

  /** Looks at the copy as it is now: what was deleted, what is pending, and how far checkpoints came. */
  report() {
    const look = this.#look.then(() => this.#report());
    this.#look = look.catch(() => {}); // whoever looked is told
    return look;
  }

  async #report() {
    const bytes = await this.#copy.bytes();
    const lines = await this.#copy.report(bytes);
    this.#take(bytes);
    for (const { collection, replication, deleted, pending } of lines) {
      if (collection) this.collections.get(collection).deleted = deleted;
      if (replication) this.replications.get(replication).pending = pending;
    }
    await this.count(...this.collections.keys());
  }

  /** What was last asked of a collection. */
  asked(name) {
    if (!this.#asked.has(name)) {
      const { primaryKey } = this.collections.get(name).schema;
      const query = { sort: [{ [primaryKey]: 'asc' }], limit: 10 };
      this.#asked.set(name, { tab: 'documents', selector: {}, sort: null, page: 0, query, texts: {} });
    }
    return this.#asked.get(name);
  }

  close() {
    return this.#copy.close();
  }

  // Counts stay until they are told anew.
  #take(bytes) {
    const { collections, replications, epoch, records } = readJournal(bytes);
    for (const [name, it] of collections) collections.set(name, { ...this.collections?.get(name), ...it });
    for (const [name, it] of replications) it.pending = this.replications?.get(name)?.pending;
    [this.collections, this.replications] = [collections, replications];
    return [epoch, records];
  }
}

/** A page of what a selector finds, in an order, and where it stands. No other row is asked for. */
export async function findPage(collection, { selector, sort, page }, size, total) {
  const count = total ?? await collection.count({ selector });
  const place = pageOf(page, size, count);
  const order = sort ? [{ [sort.field]: sort.direction }] : [];
  const rows = await collection.find({ selector, sort: order, skip: place.first, limit: size });
  return { ...place, total: count, rows };
}
