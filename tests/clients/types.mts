// What users write, for tsc --strict: it has to take all but the lines that say that it mustn't.
import { child, compact, open, Refused, Stopped, wasm } from './rx.mjs';
import type { Database, DocumentOf, Query, Schema } from './rx.mjs';

const schema = {
  version: 0,
  primaryKey: 'id',
  type: 'object',
  properties: {
    id: { type: 'string', maxLength: 20 },
    title: { type: 'string', maxLength: 80 },
    done: { type: 'boolean' },
    rank: { type: 'integer', minimum: 0, maximum: 9, multipleOf: 1 },
  },
  required: ['title', 'done'],
  indexes: ['rank', ['done', 'rank']],
};
const constant = {
  version: 0,
  primaryKey: 'id',
  type: 'object',
  properties: {
    id: { type: 'string', maxLength: 20 },
    title: { type: 'string', maxLength: 80 },
    done: { type: 'boolean' },
    rank: { type: 'integer' },
  },
  required: ['title', 'done'],
  indexes: [['done']],
} as const;
type Todo = DocumentOf<typeof constant>;
interface Plain { id: string; title: string; done: boolean; rank?: number }

const options = { clock: () => 5, waiting() {} };
const db: Database = await open(child('todos.journal', { maxJournal: 1000 }), options);
const any = await db.collection('any', schema);
const todos = await db.collection<Todo>('todos', constant);
const plain = await db.collection<Plain>('plain', schema);

// Queries in a variable of their own.
const query = {
  selector: { done: false, $or: [{ rank: { $gt: 3 } }, { title: 'Tea' }] },
  sort: [{ title: 'asc' }],
  limit: 3,
};
const fixed = { selector: { rank: { $in: [1, 2], $mod: [2, 1] } }, sort: [{ rank: 'desc' }] } as const;
const own: Query<Plain> = query, held: Schema = constant;
for (const it of [query, fixed]) {
  await any.find(it);
  await todos.find(it);
  await plain.count(it);
}
await any.find({ selector: { $or: [{ a: 1 }, { b: { $not: { $eq: 2 } } }] } });
await any.observe({ selector: { $nor: [{ a: 1 }], b: 'x' } }).subscribe((rows) => rows.length).begun;

// Documents have the types of their fields, and RxJS takes what is an AsyncIterable.
const done: boolean = (await todos.find())[0].done;
const rank: number | undefined = (await todos.get('a')).doc.rank;
const input: AsyncIterable<readonly Readonly<Todo>[]> = todos.observe(own);
for await (const rows of plain.observe(query)) {
  const title: string = rows[0].title;
  break;
}
await todos.insert({ id: 'a', title: 'A', done: false });
await todos.patch('a', { rank: 3, title: undefined });
await todos.update('a', { $inc: { rank: 1 }, $set: { title: 'B' }, $unset: { done: '' } }, '1-todos');
await db.replicate({ name: 'sync', fork: 'todos', port: 4001, handler: 'greater', field: 'rank' });

// Steps in a variable of their own, or where they are given.
const steps = [{ rename: 'rank', to: 'order' }, { scale: 'order', by: 10 }, { drop: 'note' }, { set: 'a', value: 1 }];
const went: string[] = await db.migrate('todos', schema, steps);
await db.collection<Todo>('todos', constant, { steps, hooks: [{ when: 'save', hook: 'lock', field: 'done' }] });
await db.collection('any', schema, { steps: [{ set: 'title', value: 'none' }] as const });

const swept = await db.sweep('server', { batch: 10, budget: 100 });
const ways: ('up' | 'down')[] = swept.turns.map((it) => it.pass);
const conflicts: string[] = swept.turns.flatMap((it) => it.each).flatMap((it) => it.conflicts ?? []);
if (swept.end !== 'quiet') console.log(swept.turns.at(-1)?.replication, swept.end === swept.turns.at(-1)?.end);
await db.sweep('server');

await db.stream('sync');
const { level, resync, each } = await db.deliver('sync', { link: ['ok', 'later'] });
if (resync || !level) await db.turn('sync');
const missed: string[] = each.filter((it) => it.took === 'gap').flatMap((it) => it.rows);
await db.unstream('sync');

const following = db.follow('sync', { every: 500, budget: 10 });
following.subscribe(({ state, pending, lost }) => console.log(state === 'in sync', pending + 1, lost ?? ''));
for await (const { state } of following) if (state === 'offline') following.now();
following.close();

// @ts-expect-error
await db.deliver('sync', { link: [{ late: 1 }] });
// @ts-expect-error
await db.sweep('server', { link: ['ok'] });
// @ts-expect-error
await db.sweep({ root: 'server' });
// @ts-expect-error
console.log(swept.end === 'lost');
// @ts-expect-error
swept.turns.filter((it) => it.pass === 'across');
// @ts-expect-error
swept.turns.map((it) => it.name);
// @ts-expect-error
each.filter((it) => it.took === 'dropped');
// @ts-expect-error
db.follow('sync').subscribe(({ state }) => state === 'online');
// @ts-expect-error
await todos.insert({ id: 'a' });
// @ts-expect-error
await todos.find({ selector: { nothing: 1 } });
// @ts-expect-error
await plain.find({ selector: { done: 'yes' } });
// @ts-expect-error
plain.observe().subscribe((rows) => { rows[0].title = 'x'; });
// @ts-expect-error
plain.observe().subscribe((rows) => { rows.push(rows[0]); });
// @ts-expect-error
await todos.update('a', { $inc: { title: 1 } });
// @ts-expect-error
await db.collection('none', { version: 0 });
// @ts-expect-error
await db.migrate('todos', schema, [{ rename: 'rank' }]);
// @ts-expect-error
await db.migrate('todos', schema, [{ set: 'rank', value: null }]);

db.stopped.then(({ stop, limit }) => console.log(stop, limit));
await db.drained();
await db.close();
const { bytes, from, records } = await compact('todos.journal', { maxJournal: 1000 });
const saved: number = from - bytes + 0 * records;
// @ts-expect-error
await compact(child('todos.journal'));
open(wasm('out', 'x')).catch((fault: unknown) => {
  if (fault instanceof Refused) console.log(fault.limit, fault.value, fault.subject);
  if (fault instanceof Stopped) console.log(fault.stop, fault.would);
});
