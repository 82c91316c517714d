/** A client of rx, the document database. */

export type Scalar = boolean | number | string;
export type Document = { [field: string]: Scalar };
// These words are told by an editor, and others are refused by the program: a text in a variable is any text.
type Word<W extends string> = W | (string & {});
export type Direction = Word<'asc' | 'desc'>;

/** One condition on a field, or several at once. */
export interface Condition {
  readonly $eq?: Scalar;
  readonly $ne?: Scalar;
  readonly $gt?: Scalar;
  readonly $gte?: Scalar;
  readonly $lt?: Scalar;
  readonly $lte?: Scalar;
  readonly $in?: readonly Scalar[];
  readonly $nin?: readonly Scalar[];
  readonly $exists?: boolean;
  /** A divisor and a remainder. */
  readonly $mod?: readonly number[];
  readonly $not?: Condition;
}

interface Combined<T> {
  readonly $and?: readonly Selector<T>[];
  readonly $or?: readonly Selector<T>[];
  readonly $nor?: readonly Selector<T>[];
}

/** Of documents of any fields a selector has any fields too. */
export type Selector<T = Document> = string extends keyof T
  ? { readonly [field: string]: Scalar | Condition | readonly Selector<T>[] | undefined }
  : { readonly [F in keyof T]?: Wide<T[F]> | Condition } & Combined<T>;
type Wide<V> = V extends string ? string : V extends number ? number : V extends boolean ? boolean : never;

export interface Query<T = Document> {
  readonly selector?: Selector<T>;
  readonly sort?: readonly { readonly [F in keyof T]?: Direction }[];
  readonly skip?: number;
  readonly limit?: number;
}

export interface Property {
  readonly type: Word<'boolean' | 'integer' | 'number' | 'string'>;
  readonly maxLength?: number;
  readonly minimum?: number;
  readonly maximum?: number;
  readonly multipleOf?: number;
  readonly title?: string;
  readonly description?: string;
  readonly format?: string;
}

export interface Schema {
  readonly version: number;
  readonly primaryKey: string;
  readonly type: Word<'object'>;
  readonly properties: { readonly [field: string]: Property };
  readonly required?: readonly string[];
  readonly indexes?: readonly (string | readonly string[])[];
  readonly keyCompression?: boolean;
  readonly title?: string;
  readonly description?: string;
}

/** The documents of a schema that is written `as const`. */
export type DocumentOf<S extends Schema> =
  & { [F in Fields<S> & Needed<S>]: Value<S['properties'][F]> }
  & { [F in Exclude<Fields<S>, Needed<S>>]?: Value<S['properties'][F]> };
type Fields<S extends Schema> = keyof S['properties'] & string;
type Needed<S extends Schema> = S['primaryKey'] | (S['required'] extends readonly (infer F)[] ? F : never);
type Value<P extends Property> =
  P['type'] extends 'string' ? string : P['type'] extends 'boolean' ? boolean : number;

/** A line was refused, and changed nothing. */
export class Refused extends Error {
  readonly name: 'Refused';
  /** The refusal's number, and its word, as 14 and `conflict`. */
  readonly code: number;
  readonly word: string;
  /** What was wrong with a schema, a query or fields. */
  readonly cause?: string;
  /** The member, property or collection that it is about: the reply's `name`. */
  readonly subject?: string;
  /** What the request has there, and the limit that it passed, where they can be told. */
  readonly value?: unknown;
  readonly limit?: number;
  /** The revision that a conflicting document has. */
  readonly rev?: string;
  /** The row of a bulk, from 0. */
  readonly row?: number;
}

/** The program has ended, so there is no answer. */
export class Stopped extends Error {
  readonly name: 'Stopped';
  /**
   * The program's word (usage, disk, read, memory, not_journal, full, too_long, epoch),
   * or the client's (in_use, closed, ended, killed, start, trap, output).
   */
  readonly stop: string;
  readonly status: number | null;
  /** Of `full`: the journal's limit, and the length that it would have. */
  readonly limit?: number;
  readonly would?: number;
}

export interface Reply {
  line: number;
  ok: string;
  [member: string]: unknown;
}

export interface Stored<T = Document> {
  doc: T;
  /** The time of its last write. */
  lwt: number;
  rev: string;
}

export interface Counts {
  changes: number;
  full: number;
  actions: { [action: string]: number };
  [count: string]: unknown;
}

export type Replication = {
  readonly name: string;
  readonly fork: string;
  readonly handler: Word<'master_wins' | 'fork_wins' | 'greater' | 'join'>;
  readonly field?: string;
  /** The collection that it is a fork of. */
  readonly master?: string;
  /** In its place the port on 127.0.0.1 at which one is served. */
  readonly port?: number;
};

/** Why an exchange was lost: what was heard of a master at a port, or what the `link` did. */
export type Lost =
  'dial' | 'wire' | 'reply' | 'foreign' | 'bad_reply' | 'lose_request' | 'lose_reply' | 'stale';

/** One exchange of a turn, with the keys of its documents. */
export interface Exchange {
  exchange: number;
  sent: 'push' | 'pull';
  rows?: string[];
  /** Of a push: rows of which the master had another document than the fork assumed. They are resolved. */
  conflicts?: string[];
  place?: Place;
  lost?: Lost;
}

export interface TurnOptions {
  readonly batch?: number;
  readonly budget?: number;
  /** What happens to the exchanges with a master of the same journal. */
  readonly link?: readonly (string | { readonly late: number })[];
}

export interface Turn {
  end: 'quiet' | 'lost' | 'clock' | 'more';
  exchanges: number;
  each: Exchange[];
}

export interface SweepOptions {
  /** Of each turn. */
  readonly batch?: number;
  readonly budget?: number;
}

/** A turn of a sweep. No exchange of it is lost, since the masters are of the same journal. */
export interface SweptTurn extends Turn {
  end: 'quiet' | 'clock' | 'more';
  replication: string;
  /** It is made on the way up to the root, behind those below its fork, or down again, before them. */
  pass: 'up' | 'down';
}

export interface Sweep {
  /** `quiet` where each turn was, and then all collections of the tree have the same documents; else as the last. */
  end: SweptTurn['end'];
  /** In the order in which they were made: both ways of the tree, or up to the first that isn't quiet. */
  turns: SweptTurn[];
}

/** An event that was given, with the keys of its documents. */
export interface Given {
  event: number;
  rows: string[];
  /** It is `taken`, or why it isn't. */
  took: 'old' | 'pending' | 'gap' | 'clock' | 'taken' | 'lost' | 'later';
}

export interface DeliverOptions {
  /** What happens to the events. */
  readonly link?: readonly Word<'ok' | 'lose' | 'twice' | 'later'>[];
}

export interface Delivery {
  /** The fork has all of its master and nothing to push, so their documents are the same. */
  level: boolean;
  /** What some event had doesn't come again, so a turn is due. */
  resync: boolean;
  each: Given[];
}

/** Where a document stands in the order of writing. */
export interface Place {
  id: string;
  lwt: number;
}

export interface Changes<T = Document> {
  docs: (T & { _deleted: boolean })[];
  /** Of the last one, or the one that was asked from; undefined where there is neither. */
  place?: Place;
}

export interface Observer<R> {
  next?(value: R): void;
  error?(fault: Refused | Stopped): void;
  complete?(): void;
}

export interface Subscription {
  readonly closed: boolean;
  /** Resolves with the first rows, or at the end, and rejects where the query is refused. */
  readonly begun: Promise<void>;
  unsubscribe(): void;
}

/**
 * What may be observed. An iterator gets the newest emission.
 * A fault that no observer takes is a warning of Node, or is reported in a page.
 */
export interface Observable<R> extends AsyncIterable<R> {
  subscribe(observer?: Observer<R>): Subscription;
  subscribe(
    next?: (value: R) => void, error?: (fault: Refused | Stopped) => void, complete?: () => void,
  ): Subscription;
}

/** A result. It is frozen, since all who observe the query share it. */
export type Rows<T = Document> = readonly Readonly<T>[];

/** An observed query, of which each emission is its whole result. */
export interface Observed<T = Document> extends Observable<Rows<T>> {
  readonly name: string;
  explain(): Promise<Counts>;
}

/** How a fork and its master stand. */
export interface SyncStatus {
  /** `offline` once a turn was lost, until one goes well; `in sync` where the last one was quiet. */
  readonly state: 'offline' | 'syncing' | 'in sync';
  /**
   * How many documents are to be sent, as far as the client knows: of those that it didn't write itself it
   * learns from a turn, also from one that is lost, and then of as many as a batch.
   */
  readonly pending: number;
  /** Why it is offline. */
  readonly lost?: Lost | 'clock';
}

export interface FollowOptions {
  /** Milliseconds between two turns with a master elsewhere while all is in sync, 1,000 where it is left out. */
  readonly every?: number;
  /** The longest wait between two turns that are lost, or in a page that nobody sees: 30,000. */
  readonly longest?: number;
  readonly batch?: number;
  /** Exchanges of a turn at most, 1 where it is left out. All other calls wait for a turn. */
  readonly budget?: number;
}

/**
 * A fork that is kept in sync: by a turn at once and after each write of its own, and after each one of its master by
 * a delivery, or with a master elsewhere by turns from time to time.
 */
export interface Following extends Observable<SyncStatus> {
  readonly name: string;
  /** Makes a turn at once, whatever was lost before. */
  now(): void;
  close(): void;
}

/** Before which writes a hook stands. */
export type When = 'insert' | 'save' | 'remove';

/** A hook of the program: `count` and `zero` go by a whole number, `lock` by a boolean. */
export interface Hook {
  when: When;
  hook: 'count' | 'zero' | 'lock';
  field: string;
}

/** What becomes of the fields of a document; none stands under two operators, nor the primary key under one. */
export interface Update<T = Document> {
  $inc?: { readonly [K in keyof T as T[K] extends number | undefined ? K : never]?: number };
  $max?: Partial<Readonly<T>>;
  $min?: Partial<Readonly<T>>;
  $set?: Partial<Readonly<T>>;
  $unset?: { readonly [K in keyof T]?: unknown };
}

/**
 * One step of a migration: a field's value goes to another field, over what that had; a field gets a value where it
 * is missing; a field goes; or a field is multiplied, by 1 to 1,000, where it is a number. None names the primary key.
 */
export type Step =
  | { readonly rename: string; readonly to: string }
  | { readonly set: string; readonly value: Scalar }
  | { readonly drop: string }
  | { readonly scale: string; readonly by: number };

export interface CollectionOptions {
  /** They stand before its writes as long as the journal is open here and it doesn't migrate. */
  readonly hooks?: readonly Hook[];
  /**
   * It migrates by them where the schema that is held is of the version before the given one, and opens where it is
   * the given one.
   */
  readonly steps?: readonly Step[];
}

export interface Collection<T = Document> {
  readonly name: string;
  /** Whether it was made just now; undefined where no schema was given. */
  readonly isNew?: boolean;
  insert(doc: Readonly<T>): Promise<string>;
  bulk(docs: readonly Readonly<T>[]): Promise<string[]>;
  upsert(doc: Readonly<T>): Promise<string>;
  patch(key: string, set: Partial<Readonly<T>>, rev?: string): Promise<string>;
  update(key: string, update: Update<T>, rev?: string): Promise<string>;
  remove(key: string, rev?: string): Promise<string>;
  hook(when: When, hook: Hook['hook'], field: string): Promise<void>;
  get(key: string): Promise<Stored<T>>;
  find(query?: Query<T>): Promise<T[]>;
  count(query?: Query<T>): Promise<number>;
  changes(from?: { since?: Place; batch?: number }): Promise<Changes<T>>;
  digest(): Promise<{ count: number; digest: string }>;
  observe(query?: Query<T>, name?: string): Observed<T>;
}

export interface Database {
  /** Resolves once the program has ended, with why: its `stop` is `closed` after `close()`. */
  readonly stopped: Promise<Stopped>;
  collection<T = Document>(name: string, schema?: Schema, options?: CollectionOptions): Promise<Collection<T>>;
  /**
   * Takes a collection, with all that local replications join to it over any number of them, to the next version of
   * its schema, and answers their names. Observed queries of theirs are to be left by all before. Their hooks go.
   */
  migrate(collection: string, schema: Schema, steps: readonly Step[]): Promise<string[]>;
  replicate(replication: Replication): Promise<void>;
  turn(name: string, options?: TurnOptions): Promise<Turn>;
  /** Brings a collection, its forks and theirs together, by a turn of each on the way up and one on the way down. */
  sweep(root: string, options?: SweepOptions): Promise<Sweep>;
  /** Has what is written to a fork's master, which is of the same journal, wait for the fork from now on. */
  stream(name: string): Promise<void>;
  /** Gives a fork what waits for it. */
  deliver(name: string, options?: DeliverOptions): Promise<Delivery>;
  /** Ends a stream, with what waits. */
  unstream(name: string): Promise<void>;
  /** Keeps a fork in sync until it is closed. Of a replication that is followed it answers the same again. */
  follow(name: string, options?: FollowOptions): Following;
  explain(name: string): Promise<Counts>;
  /** Sets the moment, which from then on is the caller's to set. */
  tick(at?: number): Promise<void>;
  restart(): Promise<number>;
  /** Any request, and any line. A blank line has no reply. */
  call(request: { do: string; [member: string]: unknown }): Promise<Reply>;
  line(text: string): Promise<Reply | null>;
  /** Resolves while few lines are unanswered: to be awaited between writes that aren't awaited themselves. */
  drained(): Promise<void>;
  /** Ends the program once all lines are answered. Rejects where it had ended otherwise. */
  close(): Promise<void>;
}

/** What a transport tells: text that the program wrote, that nothing else is to be done, and its one end. */
export interface Hooks {
  output(text: string): void;
  leave(): void;
  ended(how: { status?: number | null; stop?: string; said?: string }): void;
}

export interface Running {
  send(text: string): void;
  /** No more is sent. */
  end(): void;
  kill(): void;
  /** Gives up the connections to masters, whose network may be gone. */
  drop?(): void;
  /** Whether the process has to go on for the program's sake. */
  keepAlive?(is: boolean): void;
}

export interface Transport {
  (hooks: Hooks): Promise<Running>;
  /** Resolves when it is worth another try to have the journal. */
  free?(): Promise<unknown>;
}

export interface Options {
  /** The moment of a write, Date.now where it is left out. With null the caller ticks. */
  clock?: (() => number) | null;
  /** Called once where another has the journal. The database is then answered when it is free. */
  waiting?: () => void;
}

export function open(transport: Transport, options?: Options): Promise<Database>;

/** `program` is what RX names, or `rx` on the path, if it is left out; `maxJournal` is a number of bytes. */
export function child(journal: string, options?: { program?: string; maxJournal?: number }): Transport;

/** What a journal has now, and the bytes that it had. */
export interface Compacted {
  bytes: number;
  from: number;
  records: number;
}

/**
 * Of Node: puts a copy that holds the same in fewer bytes in the place of a journal, which nobody may have open.
 * Where that can't be it rejects with `Stopped`, and the journal is as it was.
 */
export function compact(journal: string, options?: { program?: string; maxJournal?: number }): Promise<Compacted>;

/** The masters that a page may dial: by the port of a replication, where its WebSocket leads. */
export type Masters = { readonly [port: number]: string | { readonly url: string; readonly token?: string } };
export function wasm(
  folder: string, journal: string, options?: { maxJournal?: number; masters?: Masters },
): Transport;
