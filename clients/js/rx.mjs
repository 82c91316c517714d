// A client of rx, the document database: it writes lines to the program and reads its answers.
//
//   const db = await open(child('todos.journal')); // Node: the program as a child process
//   const db = await open(wasm('out', 'todos'));   // a page: the program in a worker

/** A line was refused, and changed nothing. */
export class Refused extends Error {
  constructor(reply, request = {}, schema = undefined) {
    const { value, limit, said } = detail(reply, request, schema);
    const row = 'row' in reply ? ` in row ${reply.row}` : '';
    super(`${reply.refused} (${reply.code})${row}${said ? `: ${said}` : ''}`);
    this.name = 'Refused';
    this.code = reply.code;
    this.word = reply.refused;
    this.cause = reply.cause;
    this.subject = reply.name; // an Error's own `name` is its class
    this.value = value;
    this.limit = limit;
    this.rev = reply.rev;
    this.row = reply.row;
  }
}

/** The program has ended, so there is no answer. `stop` is its own word for why, or one of the client's. */
export class Stopped extends Error {
  constructor({ stop, status = null, said, limit, would }) {
    const full = limit && `the journal has at most ${limit} bytes, and would have ${would}`;
    super([stop, said ?? full].filter(Boolean).join(': '));
    this.name = 'Stopped';
    this.stop = stop;
    this.status = status;
    this.limit = limit;
    this.would = would;
  }
}

/**
 * Starts the program by a transport, and answers the database once it has the journal. Before a write the
 * moment is set from `clock`; where that is null the caller ticks, and a journal that can't be had is told by
 * the first call. Where `waiting` is given it is called if the journal is in use, and the database is
 * answered when it no longer is.
 */
export async function open(transport, { clock = Date.now, waiting } = {}) {
  if (typeof transport !== 'function') {
    throw new TypeError('open takes child(journal) in Node, or wasm(folder, journal) in a page');
  }
  for (let isFirst = true; ; isFirst = false) {
    const db = new Database(clock);
    try {
      await db.start(transport);
      return db;
    } catch (fault) {
      if (fault.stop !== 'in_use' || !waiting || !transport.free) throw fault;
      if (isFirst) waiting();
      await transport.free();
    }
  }
}

const writes = new Set(['insert', 'bulk', 'upsert', 'patch', 'update', 'remove', 'turn', 'sweep', 'deliver']);
const room = 1 << 18; // so many characters of lines may be unanswered before one waits for the program

class Database {
  #transport;
  #clock;
  #moment = null; // that the program was told last
  #lines = 0; // how many were written
  #outgoing = ''; // lines of this turn of the event loop, which are written together
  #waiting = new Map(); // what to do with an answer, by the number of its line
  #unanswered = 0; // characters of those lines
  #drained = []; // who waits for fewer of them
  #observed = new Map(); // observations by the name of their query
  #schemas = new Map(); // by the name of their collection, as far as they were given here
  #hooked = new Set(); // the collections whose hooks were attached
  #due = null; // the query whose first emission comes next
  #replications = new Map(); // as far as they were told here, by name
  #followed = new Map(); // by the name of their replication
  #names = 0; // how many were made up
  #rest = ''; // the front of a line of output
  #each = []; // exchanges of the turn, or events of the delivery, that is told or answered next
  #turns = []; // those of the sweep that is answered next, each with its exchanges
  #stop = null; // the program's stop line
  #end = null; // why no line is taken any more
  #isOver = false; // the program has ended
  #isAlive = true; // it keeps Node from ending
  #heardAll = 0; // how many lines were written when all emissions had come
  #tellStopped;
  /** Resolves once the program has ended, with why: `closed` where it was asked to. */
  stopped = new Promise((tell) => { this.#tellStopped = tell; });

  constructor(clock) {
    this.#clock = clock && (() => Math.floor(clock()));
  }

  /** @internal */
  async start(transport) {
    this.#transport = await transport({
      output: (text) => this.#hear(text),
      ended: (how) => this.#finish(how),
      leave: () => this.#leave().catch(() => {}),
    });
    this.#keepAlive();
    if (!this.#clock) return;
    this.#moment = this.#clock();
    await this.call({ do: 'tick', at: this.#moment }); // its answer tells that the journal was opened
  }

  /**
   * The collection of this name, made where it isn't there. Without a schema nothing is asked. The hooks stand
   * before its writes, in their order, as long as the journal is open here and it doesn't migrate.
   *
   * With `steps` it migrates where the schema that is held is of the version before, and opens where it is this
   * one; another version is refused as `migration`. What is said of `migrate` holds then. Nothing else should be
   * written to it before this resolves.
   */
  async collection(name, schema, { hooks = [], steps } = {}) {
    const isNew = schema ? await this.#hold(name, schema, steps) : undefined;
    if (schema) this.#schemas.set(name, schema);
    const collection = new Collection(this, name, isNew);
    if (!this.#hooked.has(name)) {
      if (hooks.length) this.#hooked.add(name);
      await Promise.all(hooks.map(({ when, hook, field }) => collection.hook(when, hook, field)));
    }
    return collection;
  }

  // Whether the collection was made just now.
  async #hold(name, schema, steps) {
    try {
      return (await this.call({ do: 'collection', name, schema })).new;
    } catch (fault) {
      if (fault.word !== 'schema_differs' || !steps) throw fault;
    }
    try {
      await this.migrate(name, schema, steps);
    } catch (fault) {
      // It may have gone there meanwhile, with another collection.
      if (fault.cause !== 'version' || !(await this.#isHeld(name, schema))) throw fault;
    }
    return false;
  }

  #isHeld(name, schema) {
    return this.call({ do: 'collection', name, schema }).then(() => true, () => false);
  }

  /**
   * Takes a collection, with all that local replications join to it over any number of them, to the next version
   * of its schema by steps, and answers their names. All of them go, with what is still to be pushed, or none.
   * Queries of theirs that are observed have to be left by all before, or it is refused as `observed`. Their hooks
   * are gone behind it, and are to be given anew.
   */
  async migrate(collection, schema, steps) {
    return (await this.call({ do: 'migrate', in: collection, schema, steps })).collections;
  }

  /** Makes a collection the fork of a master: of another collection, or of one that is served at a port. */
  async replicate({ name, fork, master, port, handler, field }) {
    this.#replications.set(name, { fork, master, port });
    await this.call({ do: 'replicate', name, fork, master, port, handler, field });
  }

  /** Syncs a fork with its master, exchange after exchange. */
  async turn(name, { batch, budget, link } = {}) {
    const { end, exchanges, each } = await this.call({ do: 'turn', name, batch, budget, link });
    return { end, exchanges, each };
  }

  /**
   * Brings a collection, its forks and theirs together: a turn for each of their replications on the way up to it
   * and one on the way down, until one isn't quiet. Its answer has those that were made.
   */
  async sweep(root, { batch, budget } = {}) {
    const { end, each } = await this.call({ do: 'sweep', name: root, batch, budget });
    return { end, turns: each };
  }

  /** Has what is written to a fork's master, which is of the same journal, wait for the fork from now on. */
  async stream(name) {
    await this.call({ do: 'stream', name });
  }

  /** Gives a fork what waits for it, event after event. Where `resync` is true a turn is due. */
  async deliver(name, { link } = {}) {
    const { level, resync, each } = await this.call({ do: 'deliver', name, link });
    return { level, resync, each };
  }

  /** Ends a stream, with what waits. */
  async unstream(name) {
    await this.call({ do: 'unstream', name });
  }

  /**
   * Keeps a fork in sync with its master until it is closed, and tells how the two stand: by turns, and where
   * the master is of the same journal by a stream.
   */
  follow(name, options = {}) {
    const held = this.#followed.get(name);
    if (held) return held;
    const following = new Following(name, {
      isElsewhere: this.#replications.get(name)?.port !== undefined,
      turn: (how) => this.turn(name, how),
      stream: () => this.stream(name),
      deliver: () => this.deliver(name),
      unstream: () => this.unstream(name),
      drop: () => this.#transport.drop?.(),
      over: () => this.#followed.delete(name),
    }, options);
    this.#followed.set(name, following);
    return following;
  }

  /** What an observed query heard since it was observed. */
  async explain(name) {
    const { line, ok, ...counts } = await this.call({ do: 'explain', name });
    return counts;
  }

  /** Sets the present moment, which write times are made of. From then on it is the caller's to set. */
  async tick(at = Date.now()) {
    this.#clock = null;
    await this.call({ do: 'tick', at });
  }

  /** Opens the journal again, and answers the number of the epoch that begins. */
  async restart() {
    return (await this.call({ do: 'restart' })).epoch;
  }

  /** Resolves while few lines are unanswered: to be awaited between writes that aren't awaited themselves. */
  drained() {
    if (this.#end) return Promise.reject(new Stopped(this.#end));
    if (this.#unanswered <= room) return Promise.resolve();
    return new Promise((resolve, reject) => this.#drained.push({ resolve, reject }));
  }

  /** Ends the program once all lines are answered. Rejects where it had ended otherwise. */
  async close() {
    if (!this.#end) {
      for (const it of [...this.#followed.values()]) it.close();
      this.#flush();
      this.#end = { stop: 'closed' };
      this.#keepAlive();
      this.#transport.end();
    }
    const why = await this.stopped;
    if (why.stop !== 'closed') throw why;
  }

  /** Writes a request and answers its reply. Members that are undefined are left out. */
  call(request) {
    return new Promise((resolve, reject) => {
      this.#ask(request, resolve, (fault) => (fault instanceof Refused ? resolve(refused(fault)) : reject(fault)));
    });
  }

  /** Writes a line as it stands and answers its reply. A blank one is counted and not answered. */
  line(text) {
    return new Promise((resolve, reject) => {
      if (text.includes('\n')) throw new TypeError('a line has no line break');
      if (isBroken(text)) throw new Refused(surrogate);
      this.#write(text, resolve, reject, text);
      if (!text.trim() && !this.#end) resolve(null);
    });
  }

  /** @internal */
  observe(request, observation) {
    const begun = () => {
      this.#observed.set(request.name, observation);
      this.#due = request.name;
    };
    this.#ask(request, begun, observation.error);
  }

  /** @internal */
  unobserve(name, observation) {
    const over = () => this.#observed.get(name) === observation && this.#observed.delete(name);
    this.#ask({ do: 'unobserve', name }, over, () => {});
  }

  /** @internal */
  newName() {
    this.#names += 1;
    return `observed-${this.#names}`;
  }

  #ask(request, resolve, reject) {
    let text;
    try {
      text = JSON.stringify(request);
    } catch (fault) {
      return queueMicrotask(() => reject(fault));
    }
    const name = text.includes('\\ud') ? brokenText(request) : undefined;
    if (name !== undefined) return queueMicrotask(() => reject(new Refused({ ...surrogate, name })));
    if (this.#clock && writes.has(request.do)) this.#tellMoment();
    this.#write(text, resolve, reject, request);
  }

  #tellMoment() {
    const at = this.#clock();
    if (at === this.#moment) return;
    this.#moment = at;
    this.#write(JSON.stringify({ do: 'tick', at }), () => {}, () => {});
  }

  #write(text, resolve, reject, request) {
    if (this.#end) return queueMicrotask(() => reject(new Stopped(this.#end)));
    if (!this.#outgoing) queueMicrotask(() => this.#flush());
    this.#outgoing += `${text}\n`;
    this.#lines += 1;
    if (!text.trim()) return;
    this.#waiting.set(this.#lines, { resolve, reject, request, length: text.length });
    this.#unanswered += text.length;
    if (this.#waiting.size === 1) this.#keepAlive();
  }

  #flush() {
    const text = this.#outgoing;
    this.#outgoing = '';
    if (text && !this.#end) this.#transport.send(text);
  }

  // The program keeps Node from ending while something is expected of it, and not because it wasn't closed.
  #keepAlive() {
    const isAlive = this.#waiting.size > 0 || this.#due !== null || this.#end !== null;
    if (isAlive === this.#isAlive) return;
    this.#isAlive = isAlive;
    this.#transport.keepAlive?.(isAlive);
  }

  // Nothing else is to be done. What is observed may still have to be heard; an answer comes behind it.
  async #leave() {
    const [name] = this.#observed.keys();
    if (name === undefined || this.#lines === this.#heardAll) return this.close();
    const asked = this.explain(name);
    this.#heardAll = this.#lines;
    await asked;
  }

  #hear(text) {
    if (!text.includes('\n')) return (this.#rest += text);
    const lines = (this.#rest + text).split('\n');
    this.#rest = lines.pop();
    for (const line of lines) {
      try {
        this.#take(JSON.parse(line));
      } catch {
        this.#transport.kill();
        return this.#finish({ stop: 'output', said: line.slice(0, 200) });
      }
    }
    this.#keepAlive();
  }

  #take(it) {
    if ('emit' in it) this.#emit(it.emit, it.rows);
    else if ('stop' in it) this.#stop = it;
    else if ('exchange' in it || 'event' in it) this.#each.push(it);
    else if ('pass' in it) this.#turns.push({ ...it, each: this.#each.splice(0) });
    else this.#answer(it);
  }

  #emit(name, rows) {
    if (name === this.#due) this.#due = null;
    this.#observed.get(name)?.next(rows);
  }

  #answer(reply) {
    const { resolve, reject, request, length } = this.#waiting.get(reply.line);
    this.#waiting.delete(reply.line);
    this.#unanswered -= length;
    if (this.#unanswered <= room) for (const it of this.#drained.splice(0)) it.resolve();
    if (reply.ok === 'turn' || reply.ok === 'deliver') reply.each = this.#each.splice(0);
    if (reply.ok === 'sweep') reply.each = this.#turns.splice(0);
    if (reply.ok === 'migrate') this.#migrated(reply.collections, membersOf(request).schema);
    if (this.#followed.size && writes.has(reply.ok)) this.#tellFollowed(reply, membersOf(request));
    if ('refused' in reply) reject(this.#refusal(reply, request));
    else resolve(reply);
  }

  // What was kept of the collections is of the schema before.
  #migrated(collections, schema) {
    for (const name of collections) {
      this.#schemas.set(name, schema);
      this.#hooked.delete(name);
    }
  }

  #tellFollowed(reply, request) {
    if (!reply.each) return this.#tellWritten(request.in, this.#keysOf(request));
    if (reply.ok !== 'sweep') return this.#tellMade(request.name, reply, request.batch);
    for (const turn of reply.each) this.#tellMade(turn.replication, turn, request.batch);
  }

  // A turn or a delivery was made. It wrote to the master what was pushed, and to the fork what came.
  #tellMade(name, made, batch) {
    const it = this.#followed.get(name);
    if ('end' in made) it?.turned(made, batch);
    else it?.delivered(made);
    const { fork, master, port } = this.#replications.get(name) ?? {};
    const [up, down] = [pushed, brought].map((keys) => made.each.flatMap(keys));
    if (up.length && port === undefined) this.#tellWritten(master, up, name);
    if (down.length) this.#tellWritten(fork, down, name);
  }

  // Of a write those hear whose fork or master it is, and all of which the client wasn't told.
  #tellWritten(into, keys, by) {
    for (const [name, it] of this.#followed) {
      if (name === by) continue;
      const { fork, master = into, port } = this.#replications.get(name) ?? {};
      if (into !== undefined && into === fork) it.wrote(keys);
      else if (port === undefined && (into === undefined || into === master)) it.wrote([]);
    }
  }

  // The keys of a write. A document whose schema wasn't given is one that no other write is about.
  #keysOf({ in: name, key, doc, docs = [doc] }) {
    if (key !== undefined) return [key];
    const primary = this.#schemas.get(name)?.primaryKey;
    return docs.map((it) => it[primary] ?? Symbol(name));
  }

  // A request may be a line as it stands.
  #refusal(reply, request) {
    const members = membersOf(request);
    return new Refused(reply, members, this.#schemas.get(members.in));
  }

  // The program's own word comes first, but where the client knows more than that the disk failed. It gives
  // none where it was asked to end.
  #finish({ status = null, stop = 'ended', said }) {
    if (this.#isOver) return;
    this.#isOver = true;
    const own = stop === 'in_use' ? { stop } : this.#stop ?? { stop };
    const asked = this.#end?.stop === 'closed' && (status === 0 || status === 1) && !this.#stop;
    if (!asked) this.#end = { status, said, ...own };
    const waiting = [...this.#waiting.values(), ...this.#drained];
    const observed = [...this.#observed.values()], followed = [...this.#followed.values()];
    this.#waiting.clear();
    this.#observed.clear();
    for (const { reject } of waiting) reject(new Stopped(this.#end));
    for (const it of followed) it.fail(new Stopped(this.#end));
    for (const it of observed) asked ? it.complete() : it.error(new Stopped(this.#end));
    this.#tellStopped(new Stopped(this.#end));
  }
}

// The keys that an exchange may have written to the master, and those that it, or an event, wrote to the fork.
const pushed = ({ sent, rows = [] }) => (sent === 'push' ? rows : []);
const brought = ({ sent, rows = [], conflicts = [], took = 'taken' }) =>
  (sent === 'push' ? conflicts : took === 'taken' ? rows : []);

// Rejects once it is known who waits for it, so that its stack leads there.
async function refused(fault) {
  await null;
  await null;
  Error.captureStackTrace?.(fault);
  throw fault;
}

// The members of a request, which may be a line as it stands: as far as it has any.
function membersOf(request) {
  if (typeof request !== 'string') return request;
  try {
    return Object(JSON.parse(request));
  } catch {
    return {};
  }
}

class Collection {
  #db;

  constructor(db, name, isNew) {
    this.#db = db;
    this.name = name;
    this.isNew = isNew;
  }

  /** Puts in a document whose key isn't live, and answers its revision. */
  async insert(doc) {
    return (await this.#db.call({ do: 'insert', in: this.name, doc })).rev;
  }

  /** Inserts all of these or none, and answers their revisions. */
  async bulk(docs) {
    return (await this.#db.call({ do: 'bulk', in: this.name, docs })).revs;
  }

  /** Inserts a document, or replaces all fields of the one with its key. */
  async upsert(doc) {
    return (await this.#db.call({ do: 'upsert', in: this.name, doc })).rev;
  }

  /**
   * Sets fields of a document, and where a revision is given only of that one. A field that is undefined is
   * left as it is, and where each is nothing is written: the answer is the revision that is there.
   */
  async patch(key, set, rev) {
    const fields = Object.values(set);
    if (!fields.length || fields.some((it) => it !== undefined)) {
      return (await this.#db.call({ do: 'patch', in: this.name, key, set, rev })).rev;
    }
    const held = (await this.get(key)).rev;
    const conflict = { code: 14, refused: 'conflict', rev: held };
    if (rev !== undefined && rev !== held) throw new Refused(conflict, { key });
    return held;
  }

  /** Changes a document by operators, `{ $inc: { n: 1 } }`, and where a revision is given only of that one. */
  async update(key, update, rev) {
    return (await this.#db.call({ do: 'update', in: this.name, key, update, rev })).rev;
  }

  async remove(key, rev) {
    return (await this.#db.call({ do: 'remove', in: this.name, key, rev })).rev;
  }

  /** Has a hook stand before such writes, `insert`, `save` or `remove`, behind those that do. */
  async hook(when, hook, field) {
    await this.#db.call({ do: 'hook', in: this.name, when, hook, field });
  }

  /** The document of a key, with its revision and write time. */
  async get(key) {
    const { doc, lwt, rev } = await this.#db.call({ do: 'get', in: this.name, key });
    return { doc, lwt, rev };
  }

  async find(query = {}) {
    return (await this.#db.call({ do: 'find', in: this.name, query })).rows;
  }

  async count(query = {}) {
    return (await this.#db.call({ do: 'count', in: this.name, query })).count;
  }

  /** What was written last to each key above a place, in the order of writing, tombstones too. */
  async changes({ since, batch } = {}) {
    const { docs, place } = await this.#db.call({ do: 'changes', in: this.name, since, batch });
    return { docs, place };
  }

  /** One text that tells the states of all documents from others, and how many they are. */
  async digest() {
    const { count, digest } = await this.#db.call({ do: 'digest', in: this.name });
    return { count, digest };
  }

  /** The query's result, now and after each change, for whoever subscribes. */
  observe(query = {}, name = this.#db.newName()) {
    return new Observed(this.#db, { do: 'observe', name, in: this.name, query });
  }
}

// What may be observed: by `subscribe`, as an async iterable, and by libraries that take observables.
class Observable {
  /** The newest emission each time, without those that came and went before it was asked for. */
  [Symbol.asyncIterator]() {
    const newest = new Newest();
    const subscription = this.subscribe(newest);
    return {
      next: () => newest.take(),
      return: () => {
        subscription.unsubscribe();
        newest.drop();
        return Promise.resolve({ value: undefined, done: true });
      },
      [Symbol.asyncIterator]() { return this; },
    };
  }
}

// Such libraries look for one of these, by whether the platform has the symbol.
for (const key of new Set(['@@observable', Symbol.observable ?? '@@observable'])) {
  Object.defineProperty(Observable.prototype, key, { value() { return this; } });
}

// An observer is { next, error, complete }, or these as functions.
const observerOf = (next, error, complete) =>
  (typeof next === 'object' && next ? next : { next, error, complete });

// The program observes the query from the first subscription until none is left. Later ones share it, and get
// the last result first, though never before `subscribe` has returned.
class Observed extends Observable {
  #db;
  #request;
  #subscriptions = new Set();
  #observation = null;

  constructor(db, request) {
    super();
    this.#db = db;
    this.#request = request;
    this.name = request.name;
  }

  /** Takes { next, error, complete }, or these as functions. */
  subscribe(next, error, complete) {
    const subscription = new Subscription(observerOf(next, error, complete), (it) => this.#leave(it));
    this.#subscriptions.add(subscription);
    if (this.#observation) queueMicrotask(() => subscription.catchUp(this.#observation?.rows));
    else this.#begin();
    return subscription;
  }

  /** What the query heard since it was observed. */
  explain() {
    return this.#db.explain(this.name);
  }

  #begin() {
    const observation = {
      rows: null,
      next: (rows) => {
        observation.rows = Object.freeze(rows.map(Object.freeze)); // subscribers share them
        for (const it of this.#all(observation)) it.next(observation.rows);
      },
      error: (fault) => {
        for (const it of this.#end(observation)) it.error(fault);
      },
      complete: () => {
        for (const it of this.#end(observation)) it.complete();
      },
    };
    this.#observation = observation;
    this.#db.observe(this.#request, observation);
  }

  // Those that are there now: a subscription made or ended meanwhile doesn't disturb the walk.
  #all(observation) {
    return observation === this.#observation ? [...this.#subscriptions] : [];
  }

  #end(observation) {
    const all = this.#all(observation);
    if (observation === this.#observation) {
      this.#observation = null;
      this.#subscriptions.clear();
    }
    return all;
  }

  #leave(subscription) {
    this.#subscriptions.delete(subscription);
    if (this.#subscriptions.size || !this.#observation) return;
    this.#db.unobserve(this.name, this.#observation);
    this.#observation = null;
  }
}

const firstWait = 500; // milliseconds after the first turn that was lost; each further one doubles them
const isHidden = () => globalThis.document?.hidden ?? false;

// A fork that is kept in sync. One call is made at a time, and another one soon where something was written
// meanwhile. All other calls of the database wait for a turn, so by default it makes a single exchange.
class Following extends Observable {
  #calls; // to the database
  #how; // of a turn: its batch and budget
  #every;
  #longest;
  #subscriptions = new Set();
  #pending = new Set(); // keys
  #now = Object.freeze({ state: 'syncing', pending: 0 }); // as it was told last
  #losses = 0; // turns that were lost one after another
  #isStreamed; // whether its stream is open: undefined where that is to be found out
  #isOwn = false; // it was opened here
  #isTurnDue = true; // a delivery wouldn't be enough
  #isBusy = false;
  #isAgain = false; // another call comes at once
  #timer;
  #end = null; // how subscriptions end once it is over

  constructor(name, calls, { every = 1_000, longest = 30_000, batch, budget = 1 }) {
    super();
    this.name = name;
    this.#calls = calls;
    this.#how = { batch, budget };
    [this.#every, this.#longest] = [every, longest];
    if (calls.isElsewhere) this.#isStreamed = false;
    for (const [target, event] of this.#events()) target.addEventListener?.(event, this);
    this.#later(0);
  }

  /** Takes { next, error, complete }, or these as functions. */
  subscribe(next, error, complete) {
    const leave = (it) => this.#subscriptions.delete(it);
    const subscription = new Subscription(observerOf(next, error, complete), leave);
    if (this.#end) queueMicrotask(() => this.#end(subscription));
    else this.#subscriptions.add(subscription);
    queueMicrotask(() => subscription.catchUp(this.#now));
    return subscription;
  }

  /** Makes a turn at once, whatever was lost before. */
  now() {
    this.#losses = 0;
    this.#isTurnDue = true;
    this.#sync();
  }

  close() {
    this.#over((it) => it.complete());
  }

  /** @internal */
  fail(fault) {
    if (!this.#end && !this.#subscriptions.size) warn(fault);
    this.#over((it) => it.error(fault));
  }

  // The keys are the fork's, and none where its master was written.
  /** @internal */
  wrote(keys) {
    for (const it of keys) this.#pending.add(it);
    if (keys.length) this.#isTurnDue = true;
    const isOffline = this.#now.state === 'offline'; // then the next turn has its time
    this.#tell(isOffline ? this.#now : { state: 'syncing' });
    if (this.#isBusy) this.#isAgain = true;
    else if (!isOffline) this.#later(0);
  }

  // A push has all that is pending, up to its batch, and before a pull nothing is. What was in conflict may have
  // to be sent once more.
  /** @internal */
  turned({ end, each }, batch = limits.batch) {
    for (const { sent, rows = [], conflicts = [], lost } of each) {
      if (sent === 'pull' || rows.length < batch) this.#pending.clear();
      if (sent === 'pull') continue;
      for (const it of rows) lost ? this.#pending.add(it) : this.#pending.delete(it);
      for (const it of conflicts) this.#pending.add(it);
    }
    const isLost = end === 'lost' || end === 'clock';
    this.#losses = isLost ? this.#losses + 1 : 0;
    if (!isLost) this.#tell({ state: end === 'quiet' ? 'in sync' : 'syncing' });
    else if (!this.#isAgain) this.#tell({ state: 'offline', lost: each.at(-1)?.lost ?? end });
  }

  // A turn makes up for what no event has, where the two aren't level.
  /** @internal */
  delivered({ level }) {
    if (!level) {
      this.#isTurnDue = true;
      return this.#isBusy ? undefined : this.#later(0);
    }
    this.#pending.clear();
    this.#losses = 0;
    this.#tell({ state: 'in sync' });
  }

  // The network came or went, or the page was looked at again. A connection of before may be dead without
  // knowing, and would be waited for.
  /** @internal */
  handleEvent() {
    if (isHidden() || this.#isStreamed) return;
    this.#calls.drop();
    this.now();
  }

  #events() {
    const page = globalThis.document ? [[document, 'visibilitychange']] : [];
    return [[globalThis, 'online'], [globalThis, 'offline'], ...page];
  }

  async #sync() {
    if (this.#end) return;
    clearTimeout(this.#timer);
    if (this.#isBusy) return (this.#isAgain = true);
    this.#isBusy = true;
    this.#isAgain = false;
    const isMore = await this.#step().catch((fault) => this.fail(fault));
    this.#isBusy = false;
    if (this.#isAgain || isMore) this.#later(0);
    else if (!this.#isStreamed || this.#losses) this.#later(this.#wait());
  }

  // Whether another step comes at once.
  async #step() {
    if (this.#isStreamed === undefined) await this.#begin();
    if (this.#end) return false;
    return this.#isTurnDue || !this.#isStreamed ? this.#turn() : this.#deliver();
  }

  // A master elsewhere has no stream, and is asked from time to time. Where the stream is open already it stays so.
  async #begin() {
    try {
      await this.#calls.stream();
      this.#isStreamed = this.#isOwn = true;
    } catch (fault) {
      if (fault.word !== 'exists' && fault.word !== 'remote') throw fault;
      this.#isStreamed = fault.word === 'exists';
    }
    if (this.#end) this.#leave();
  }

  // Behind the last push a delivery tells whether the two are level.
  async #turn() {
    this.#isTurnDue = false; // a write may ask for one meanwhile
    const { end, each } = await this.#calls.turn(this.#how);
    const isPulling = end === 'more' && each.at(-1)?.sent === 'pull';
    if (isPulling || this.#losses || this.#pending.size) this.#isTurnDue = true;
    return end === 'more';
  }

  async #deliver() {
    try {
      return !(await this.#calls.deliver()).level;
    } catch (fault) {
      if (fault.word !== 'no_stream') throw fault;
      this.#isStreamed = undefined; // a restart or a migration ended it
      this.#isOwn = false;
      this.#isTurnDue = true;
      return true;
    }
  }

  // Waits after losses differ, so that not all who lost a server are back at once.
  #wait() {
    if (isHidden()) return this.#longest;
    if (!this.#losses) return this.#every;
    return Math.min(firstWait * 2 ** (this.#losses - 1), this.#longest) * (0.75 + Math.random() / 2);
  }

  #later(milliseconds) {
    clearTimeout(this.#timer);
    if (!this.#end) this.#timer = setTimeout(() => this.#sync(), milliseconds);
  }

  #tell({ state, lost }) {
    const pending = this.#pending.size, before = this.#now;
    if (state === before.state && pending === before.pending && lost === before.lost) return;
    this.#now = Object.freeze({ state, pending, ...(lost && { lost }) });
    for (const it of [...this.#subscriptions]) it.next(this.#now);
  }

  #over(end) {
    if (this.#end) return;
    this.#end = end;
    clearTimeout(this.#timer);
    for (const [target, event] of this.#events()) target.removeEventListener?.(event, this);
    this.#leave();
    this.#calls.over();
    for (const it of [...this.#subscriptions]) end(it);
    this.#subscriptions.clear();
  }

  // It may be closed already.
  #leave() {
    if (this.#isOwn) this.#calls.unstream().catch(() => {});
    this.#isOwn = false;
  }
}

class Subscription {
  #observer;
  #leave;
  #hasHeard = false;
  #fault = null; // that came before the first rows
  #begun = null;
  #tellBegun = null;
  closed = false;

  constructor(observer, leave) {
    this.#observer = observer;
    this.#leave = leave;
  }

  /** Resolves once the first rows are there, or it is over, and rejects where the query is refused. */
  get begun() {
    this.#begun ??= new Promise((resolve, reject) => {
      this.#tellBegun = { resolve, reject };
      if (this.#fault) reject(this.#fault);
      else if (this.#hasHeard || this.closed) resolve();
    });
    return this.#begun;
  }

  unsubscribe() {
    if (this.closed) return;
    this.closed = true;
    this.#tellBegun?.resolve();
    this.#leave(this);
  }

  /** @internal */
  catchUp(value) {
    if (!this.#hasHeard && value) this.next(value);
  }

  /** @internal */
  next(rows) {
    if (this.closed) return;
    this.#hasHeard = true;
    this.#tellBegun?.resolve();
    this.#tell('next', rows);
  }

  /** @internal */
  error(fault) {
    if (this.closed) return;
    this.closed = true;
    if (!this.#hasHeard) this.#fault = fault;
    this.#tellBegun?.reject(fault);
    if (this.#observer.error) this.#tell('error', fault);
    else if (!this.#fault || !this.#begun) warn(fault);
  }

  /** @internal */
  complete() {
    if (this.closed) return;
    this.closed = true;
    this.#tellBegun?.resolve();
    this.#tell('complete');
  }

  // An observer's own fault is nobody else's: it is thrown where nobody calls.
  #tell(what, value) {
    try {
      this.#observer[what]?.(value);
    } catch (fault) {
      setTimeout(() => { throw fault; });
    }
  }
}

// Between what is observed and its iterator: the newest emission that wasn't taken, or who asks for one.
class Newest {
  #ready = null;
  #fault = null;
  #asked = [];
  #isOver = false;

  next(rows) {
    const asked = this.#asked.shift();
    if (asked) asked.resolve({ value: rows, done: false });
    else this.#ready = { value: rows, done: false };
  }

  error(fault) {
    const asked = this.#asked.shift();
    if (asked) asked.reject(fault);
    else this.#fault = fault;
    this.complete();
  }

  complete() {
    this.#isOver = true;
    for (const { resolve } of this.#asked.splice(0)) resolve({ value: undefined, done: true });
  }

  drop() {
    this.#ready = this.#fault = null;
    this.complete();
  }

  async take() {
    const ready = this.#ready, fault = this.#fault;
    this.#ready = null;
    if (ready) return ready;
    this.#fault = null;
    if (fault) throw fault;
    if (this.#isOver) return { value: undefined, done: true };
    return new Promise((resolve, reject) => this.#asked.push({ resolve, reject }));
  }
}

// What nobody takes is said, and ends nothing.
function warn(fault) {
  if (globalThis.process?.emitWarning) process.emitWarning(fault);
  else reportError(fault);
}

// JSON writes a text that is no Unicode as an escape, which the program doesn't take.
const surrogate = { code: 2, refused: 'not_json', cause: 'surrogate' };
const isBroken = (text) => /\p{Surrogate}/u.test(text);

/** The name of the member whose text, or whose name itself, has a lone surrogate. */
function brokenText(value, name) {
  if (typeof value === 'string') return isBroken(value) ? name : undefined;
  if (typeof value !== 'object' || !value) return undefined;
  for (const [key, member] of Object.entries(value)) {
    const found = isBroken(key) ? key : brokenText(member, Array.isArray(value) ? name : key);
    if (found !== undefined) return found;
  }
  return undefined;
}

const things = { collection: 'collections', hook: 'hooks', observe: 'observed queries', replicate: 'replications' };
const limits = { // docs/SCRIPT.md, "Limits"
  line: 1_048_576,
  name: 64,
  batch: 100,
  budget: 100_000,
  collection: 64,
  hook: 16,
  observe: 256,
  replicate: 64,
  skip: 1_000_000_000,
  limit: 1_000_000_000,
  depth: 32,
  version: 65_535,
};

function show(value) {
  const text = value === undefined ? 'missing' : JSON.stringify(value);
  return text.length > 60 ? `${text.slice(0, 57)}...` : text;
}

// What was wrong with a request, as far as it can be told: its value, the limit that it passed, and words.
function detail({ refused, cause, name, rev, row }, request, schema) {
  const out = (said, value, limit) => ({ said, value, limit });
  const most = limits[request.do], own = request[name];
  const doc = request.doc ?? request.docs?.[row]
    ?? { [schema?.primaryKey]: request.key, ...request.set, ...request.update?.$set };
  const key = request.key ?? doc[schema?.primaryKey];
  switch (refused) {
    case 'too_long': return out(`a line has at most ${limits.line} bytes`, undefined, limits.line);
    case 'not_json':
      return out(cause ? `${name ?? 'the line'} has half of a surrogate pair` : 'the line is no JSON');
    case 'not_object': return out('the line is no object');
    case 'unknown_do': return out(`${name} is nothing that can be done`, name);
    case 'missing': return out(`${name} is missing`);
    case 'unexpected': return out(`${name} isn't expected`, own);
    case 'wrong_type': return out(`${name} is ${show(own)}, of another kind or none of its numbers`, own);
    case 'name':
      return out(`${name} is ${show(own)}, and no name: a lower-case letter and then up to 63 lower-case `
        + 'letters, digits, _ or -', own, limits.name);
    case 'exists':
      if (request.do === 'stream') return out(`the stream of ${request.name} is open`, request.name);
      return out(`the name ${request.name} is taken`, request.name);
    case 'no_collection': return out(`there is no collection ${name}`, name);
    case 'schema': return ofSchema(cause, name, request.schema);
    case 'schema_differs':
      if (request.do === 'replicate') return out('the fork has another schema than its master', request.name);
      return out(`${request.name} is held with another schema: another one is its next version, with steps`,
        request.name);
    case 'invalid':
      if (request.update && !(name in doc)) return out(`${name} would be no value that its property takes`);
      return ofField(cause, name, doc[name], schema?.properties[name]);
    case 'conflict': return out(`${show(key ?? 'the key')} has the revision ${rev}`, key);
    case 'no_document': return out(`no document has the key ${show(key)}`, key);
    case 'query': return ofQuery(cause, name, request.query);
    case 'no_query': return out(`no query of the name ${request.name} is observed`, request.name);
    case 'no_replication': return out(`there is no replication ${request.name}`, request.name);
    case 'no_handler':
      if (request.do !== 'replicate') return out(`a turn of ${request.name} would go by a handler that isn't there`);
      return out(`no handler ${request.handler} with ${request.field === undefined ? 'no field' : request.field}:`
        + ' those are master_wins, fork_wins, join, and greater with a field of whole numbers', request.handler);
    case 'batch': return out(`${name} is ${own}, and from 1 to ${limits[name]}`, own, limits[name]);
    case 'chain': return out('the fork is the master, or is a fork already, or has the master below it');
    case 'clock': return out('no write time is left', undefined, Number.MAX_SAFE_INTEGER);
    case 'too_many':
      return out(most && `there are at most ${most} ${things[request.do]}`, request.name ?? request.in, most);
    case 'key':
      return out(`${schema?.primaryKey ?? 'the primary key'} is missing or no text, or would become another`, key);
    case 'twice': return out(`the key ${show(key)} stands there twice`, key);
    case 'migration': return ofMigration(cause, name, request.schema);
    case 'observed': return out(`the query ${name} is observed, and is to be left by all before`, name);
    case 'remote':
      if (request.do === 'stream') return out(`the master of ${request.name} is elsewhere`, request.name);
      return out('a fork of a master elsewhere would go with it');
    case 'no_stream': return out(`no stream of ${request.name} is open`, request.name);
    case 'update': return ofUpdate(cause, name, request.update);
    case 'vetoed': return out(`the hook ${name} vetoes it`, key);
    case 'no_hook': return out(`no hook ${request.hook} with the field ${request.field}`, request.hook);
    default: return out(name);
  }
}

function ofField(cause, name, value, property) {
  const out = (limit, words) => ({ value, limit, said: `${name} ${words}` });
  const { type, minimum, maximum, multipleOf, maxLength } = property ?? {};
  switch (cause) {
    case 'missing': return out(undefined, 'is missing');
    case 'unknown': return out(undefined, 'is no property of the schema');
    case 'kind': return out(undefined, `is ${show(value)}, and no ${type ?? 'text, flag or whole number'}`);
    case 'range': return out(Number.MAX_SAFE_INTEGER, `is ${value}, and from -(2^53 - 1) to 2^53 - 1`);
    case 'length':
      if (value === '') return out(1, 'is empty, and the primary key');
      return out(maxLength, `has ${[...value ?? ''].length} characters, above ${maxLength ?? 'its most'}`);
    case 'bounds':
      if (value < minimum) return out(minimum, `is ${value}, below ${minimum}`);
      if (value > maximum) return out(maximum, `is ${value}, above ${maximum}`);
      return out(multipleOf, `is ${value}, ${multipleOf ? `no multiple of ${multipleOf}` : 'out of bounds'}`);
    default: return {};
  }
}

function ofSchema(cause, name, schema) {
  const out = (words, limit) => ({ value: schema?.properties?.[name] ?? schema?.[name], limit, said: words });
  switch (cause) {
    case 'not_object': return out('it is no object');
    case 'keyword': return out(`${name} is no member that stands there, or is of another form`);
    case 'version': return out(`version is from 0 to ${limits.version}`, limits.version);
    case 'field_name':
      return out(`${name} is no name here: a letter and then up to 63 letters, digits or _`, limits.name);
    case 'kind': return out(`${name} is no string, integer or boolean, and no number with a multipleOf`);
    case 'bounds': return out(`${name} has bounds that are none, or a maxLength that isn't from 1 to 131072`);
    case 'primary': return out('primaryKey names no string property with a maxLength');
    case 'required': return out(`${name} is required, and no property`);
    case 'index':
      return out(`${name} is in an index: a string there has a maxLength, an integer bounds and multipleOf`);
    case 'too_many':
      return out('there are at most 64 properties, 16 indexes, and 131072 characters over all strings');
    default: return {};
  }
}

function ofQuery(cause, name, query) {
  const most = limits[cause];
  const out = (words, value, limit) => ({ value, limit, said: words });
  switch (cause) {
    case 'not_object': return out('a selector, or the query, is no object');
    case 'member': return out(`${name} is no member of a query: those are selector, sort, skip and limit`);
    case 'field': return out(`${name} is no property of the schema`);
    case 'operator': return out(`${name} is no operator`);
    case 'operand': return out(`what stands behind ${name} isn't what it takes`);
    case 'sort':
      return out(`${name} can't be sorted by: sort is a list of {"FIELD":"asc"} or "desc", each a property and once`);
    case 'depth': return out(`a selector is at most ${most} deep`, undefined, most);
    case 'skip': case 'limit':
      return out(`${cause} is ${show(query?.[cause])}, and from 0 to ${most}`, query?.[cause], most);
    default: return {};
  }
}

function ofUpdate(cause, name, update) {
  const out = (words, value) => ({ value, said: `${name} ${words}` });
  switch (cause) {
    case 'operator': return out('is no operator: those are $inc, $max, $min, $set and $unset');
    case 'operand': return out("has no operand such as it takes, or an operator no object", update[name]);
    case 'twice': return out('stands under two operators');
    case 'key': return out('is the primary key, which stays');
    case 'kind': return out('is no number that $inc could add to', update.$inc[name]);
    case 'range': return out('would be out of range, beyond 2^53 - 1', update.$inc[name]);
    default: return {};
  }
}

function ofMigration(cause, name, schema) {
  const out = (words, value) => ({ value, said: words });
  switch (cause) {
    case 'version':
      return out(`version ${show(schema?.version)} isn't the one behind that which ${name} has`, schema?.version);
    case 'primary':
      return out(`${name} would have another primary key, or a step names it`, schema?.primaryKey);
    case 'invalid':
      return out(`a state of ${name}, a collection or what a replication knows, isn't valid after the steps`);
    default: return {};
  }
}

// A name that bundlers for pages leave alone.
const builtIn = (name) => import(/* webpackIgnore: true */ /* @vite-ignore */ `node:${name}`);
const howToGet = "tools/install ~/.local, at the top of rx's repository, makes ~/.local/bin/rx; a program "
  + 'elsewhere is named by { program } or RX';

const wordsOf = (maxJournal) => (maxJournal === undefined ? [] : ['--max-journal', String(maxJournal)]);

// Where Node has nothing else to do the programs are ended that nobody closed.
const running = new Set();
const leaveAll = () => running.forEach((leave) => leave());

/** The program as a child process of Node: what `program` or RX names, or rx on the path. */
export function child(journal, { program, maxJournal } = {}) {
  insistOnPath(journal);
  const start = async ({ output, ended, leave }) => {
    if ((await lockOf(journal)).isLocked) throw new Stopped(inUse(journal));
    const words = ['run', journal, ...wordsOf(maxJournal)];
    const it = await started(program, words, 'pipe');
    it.stdout.setEncoding('utf8').on('data', output);
    it.stdin.on('error', () => {}); // the end is told by 'close', once all output is read
    if (!running.size) process.on('beforeExit', leaveAll);
    running.add(leave);
    it.on('close', async (status, signal) => {
      running.delete(leave);
      if (!running.size) process.off('beforeExit', leaveAll);
      if (signal) ended({ stop: 'killed', said: signal });
      else ended({ status, ...(await ofStatus(status, journal, words)) });
    });
    return {
      send: (text) => it.stdin.write(text),
      end: () => it.stdin.end(),
      kill: () => it.kill('SIGKILL'),
      keepAlive: (is) => [it, it.stdin, it.stdout].forEach((handle) => (is ? handle.ref() : handle.unref())),
    };
  };
  return Object.assign(start, { free: () => new Promise((go) => setTimeout(go, 200)) });
}

function insistOnPath(journal) {
  if (typeof journal !== 'string') throw new TypeError(`a journal is named by its path, and not by ${journal}`);
}

async function started(program, words, stdin) {
  const { spawn } = await builtIn('child_process');
  const command = program || process.env.RX || 'rx';
  const it = spawn(command, words, { stdio: [stdin, 'pipe', 'inherit'] });
  await new Promise((begun, fail) => it.once('spawn', begun).once('error', fail)).catch(({ code }) => {
    const where = command.includes('/') ? `no program at ${command}` : `no ${command} on the path`;
    throw new Stopped({ stop: 'start', said: `${where} (${code}): ${howToGet}` });
  });
  return it;
}

const inUse = (journal) => ({ stop: 'in_use', said: `another process has ${journal}` });

// What there is to say of a status. Of 3 there are two causes: the disk failed, or another has the journal.
async function ofStatus(status, journal, [command, , ...words]) {
  if (status === 2) return { said: [command, show(journal), ...words].join(' ') };
  if (status === 7) return { said: `${journal} is none` };
  if (status !== 3) return {};
  const { isLocked, fault } = await lockOf(journal);
  return isLocked ? inUse(journal) : { said: fault?.message ?? journal };
}

// Whether a process has the lock of a file, as Linux tells, or why the file can't be opened.
async function lockOf(journal) {
  const { closeSync, existsSync, fstatSync, openSync, readFileSync } = await builtIn('fs');
  try {
    const file = openSync(journal, 'r+');
    const { dev, ino } = fstatSync(file);
    closeSync(file);
    const hex = (number) => number.toString(16).padStart(2, '0');
    const id = `${hex(dev >>> 8 & 0xfff)}:${hex(dev & 0xff | dev >>> 12 & 0xfff00)}:${ino}`;
    const locks = existsSync('/proc/locks') ? readFileSync('/proc/locks', 'utf8') : '';
    return { isLocked: locks.includes(` ${id} `) };
  } catch (fault) {
    return { isLocked: false, fault };
  }
}

/**
 * Of Node: puts a copy that holds the same in fewer bytes in the place of a journal, which nobody may have open.
 * Where that can't be it rejects, and the journal is as it was: by `in_use` where another process has it, or had
 * it since the copy was begun. A process that opens it while the files change places isn't noticed.
 */
export async function compact(journal, { program, maxJournal } = {}) {
  insistOnPath(journal);
  const fs = await builtIn('fs');
  let file;
  try {
    file = fs.openSync(journal, 'r+');
    return await compacted(fs, file, fs.realpathSync(journal), program, maxJournal);
  } catch (fault) {
    throw fault.syscall ? new Stopped({ stop: 'disk', said: fault.message }) : fault;
  } finally {
    if (file !== undefined) fs.closeSync(file);
  }
}

async function compacted(fs, file, path, program, maxJournal) {
  const [{ basename, dirname, join }, { randomBytes }] = [await builtIn('path'), await builtIn('crypto')];
  const folder = dirname(path), name = basename(path);
  if ((await lockOf(path)).isLocked) throw new Stopped(inUse(path));
  for (const it of fs.readdirSync(folder)) if (isCopy(it, name)) fs.rmSync(join(folder, it), { force: true });
  const copy = `${path}.compact-${randomBytes(8).toString('hex')}`;
  fs.closeSync(fs.openSync(copy, 'wx', 0o600));
  try {
    const made = await copied(path, copy, program, maxJournal);
    const { isLocked } = await lockOf(path);
    if (isLocked || !fs.existsSync(copy)) throw new Stopped(inUse(path));
    fs.chmodSync(copy, fs.fstatSync(file).mode & 0o7777);
    syncPath(fs, copy);
    if (!isAsCopied(fs, file, path, made.from)) throw new Stopped(inUse(path));
    fs.renameSync(copy, path);
    syncPath(fs, folder);
    return made;
  } finally {
    fs.rmSync(copy, { force: true });
  }
}

// No two copies have the same name, so none is renamed half done. Those whose makers were killed are removed.
const isCopy = (it, name) => it.startsWith(name) && /^\.compact-[0-9a-f]{16}$/.test(it.slice(name.length));

async function copied(path, copy, program, maxJournal) {
  const words = ['compact', path, copy, ...wordsOf(maxJournal)];
  const it = await started(program, words, 'ignore');
  let text = '';
  it.stdout.setEncoding('utf8').on('data', (more) => { text += more; });
  const [status, signal] = await new Promise((go) => it.on('close', (...how) => go(how)));
  if (signal) throw new Stopped({ stop: 'killed', said: signal });
  let told = { stop: 'ended' };
  try {
    if (text) told = JSON.parse(text);
  } catch {
    throw new Stopped({ stop: 'output', said: text.slice(0, 200) });
  }
  if (told.stop) throw new Stopped({ status, ...told, ...(await ofStatus(status, path, words)) });
  return told;
}

// Whether the path leads to this file still, and no record was added, which opens the gate at its end.
function isAsCopied(fs, file, path, end) {
  const [here, there] = [fs.fstatSync(file), fs.statSync(path)], gate = new Uint8Array(1);
  fs.readSync(file, gate, 0, 1, end - 1);
  return here.dev === there.dev && here.ino === there.ino && gate[0] !== 1;
}

function syncPath(fs, path) {
  const file = fs.openSync(path, 'r');
  try {
    fs.fsyncSync(file);
  } finally {
    fs.closeSync(file);
  }
}

/**
 * The program in a worker of a page, with its journal in the origin's private file system.
 * `folder` holds what wasm/build.sh makes, and is looked for from this file's own address. `masters` has, by
 * the port of a replication, the URL of the WebSocket that leads to its master, or `{ url, token }`.
 */
export function wasm(folder, journal, { maxJournal, masters = {} } = {}) {
  const words = wordsOf(maxJournal);
  return alone(journal, ({ output, ended }) => new Promise((resolve, reject) => {
    const at = (name) => new URL(name, new URL(`${folder}/`, ownAddress()));
    const worker = new Worker(at('host.mjs'), { type: 'module' });
    const finish = (how) => {
      worker.terminate();
      reject(new Stopped({ stop: how.stop === 'in_use' ? how.stop : 'start', said: how.said }));
      ended(how);
    };
    const fail = ({ message }) => finish({ stop: 'trap', said: message ?? `no worker at ${at('host.mjs')}` });
    const kill = () => finish({ stop: 'killed' });
    const transport = {
      send: (text) => worker.postMessage(text),
      end: () => worker.postMessage(null),
      drop: () => worker.postMessage({ drop: true }),
      kill,
    };
    worker.onmessage = ({ data }) => {
      if (typeof data === 'string') output(data);
      else if (data.ready) resolve(transport);
      else finish(data.ended === null ? { stop: stopOf(data), said: data.said } : { status: data.ended });
    };
    worker.onerror = fail;
    // The program is compiled while the worker starts.
    const compiled = compile(at('rx.wasm'));
    compiled.then((program) => worker.postMessage({ program, journal, words, masters })).catch(fail);
  }));
}

// Some bundlers take the client's own address away, and then it is the page's.
const own = import.meta.url;
const ownAddress = () => (own?.startsWith('http') ? own : location.href);

async function compile(url) {
  const response = await fetch(url).catch((fault) => { throw new Error(`${url}: ${fault.message}`); });
  if (!response.ok) throw new Error(`${url}: ${response.status} ${response.statusText}`);
  return WebAssembly.compileStreaming(response);
}

const stopOf = ({ said }) => (said.includes('NoModificationAllowedError') ? 'in_use' : 'trap');

// One page of an origin at a time has a journal. The lock is free once that page is gone, however it went.
function alone(journal, transport) {
  const name = `rx ${journal}`;
  const start = (hooks) => new Promise((resolve, reject) => {
    const { locks } = globalThis.navigator ?? {};
    if (!locks) throw new Stopped({ stop: 'start', said: 'it wants a page of https or localhost' });
    locks.request(name, { ifAvailable: true }, (lock) => new Promise((over) => {
      const fail = (fault) => { reject(fault); over(); };
      if (!lock) return fail(new Stopped({ stop: 'in_use', said: `another page has ${journal}` }));
      transport({ ...hooks, ended: (how) => { hooks.ended(how); over(); } }).then(resolve, fail);
    })).catch(reject);
  });
  return Object.assign(start, { free: () => navigator.locks.request(name, () => {}) });
}
