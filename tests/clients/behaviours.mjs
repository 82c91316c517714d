// How the client behaves, whatever its transport. Each takes what it needs and throws where it is not so.
// They run in Node and in a page. The moment is 0 where nothing else is said.
import { schema } from './schema.mjs';

function same(found, wanted, what) {
  if (JSON.stringify(found) !== JSON.stringify(wanted)) {
    throw new Error(`${what}: ${JSON.stringify(found)} and not ${JSON.stringify(wanted)}`);
  }
}

async function fault(call) {
  try {
    await call();
  } catch (it) {
    return it;
  }
  throw new Error('it was not refused');
}

async function until(isSo, what) {
  for (let n = 0; n < 2_000; n++) {
    if (await isSo()) return;
    await new Promise((go) => setTimeout(go, 5));
  }
  throw new Error(`not in time: ${what}`);
}

// What comes behind the schema, and how.
const next = {
  ...schema,
  version: 1,
  properties: { id: schema.properties.id, v: { type: 'integer' }, on: { type: 'boolean' } },
  required: ['id', 'on'],
};
const steps = [{ rename: 'n', to: 'v' }, { scale: 'v', by: 10 }, { set: 'on', value: true }];

export const behaviours = {
  async 'refusals by code, word, cause, subject, revision and row'({ open, transport }) {
    const db = await open(transport());
    const c = await db.collection('c', schema);
    same(c.isNew, true, 'new');
    same((await db.collection('c', schema)).isNew, false, 'not new');
    await c.insert({ id: 'a', n: 1 });
    const told = ({ name, code, word, cause, subject, rev, row }) => [name, code, word, cause ?? null, subject ?? null, rev ?? null, row ?? null];
    const refused = async (call) => told(await fault(call));
    same(await refused(() => c.insert({ id: 'a' })), ['Refused', 14, 'conflict', null, null, '1-c', null], 'conflict');
    same(await refused(() => c.bulk([{ id: 'b' }, { id: 'a' }])), ['Refused', 14, 'conflict', null, null, '1-c', 1], 'row');
    same(await refused(() => c.insert({ id: 'b', n: 'x' })), ['Refused', 13, 'invalid', 'kind', 'n', null, null], 'invalid');
    same(await refused(() => c.find({ selector: { m: 1 } })), ['Refused', 16, 'query', 'field', 'm', null, null], 'query');
    same(await refused(() => c.get('z')), ['Refused', 15, 'no_document', null, null, null, null], 'no document');
    same(await refused(async () => (await db.collection('d')).count()), ['Refused', 10, 'no_collection', null, 'd', null, null], 'no collection');
    same(await refused(() => db.explain('q')), ['Refused', 17, 'no_query', null, null, null, null], 'no query');
    same(await refused(() => db.call({ do: 'fly' })), ['Refused', 4, 'unknown_do', null, 'fly', null, null], 'unknown');
    same(await refused(() => db.line('{')), ['Refused', 2, 'not_json', null, null, null, null], 'no JSON');
    same(await refused(() => db.collection('C', schema)), ['Refused', 8, 'name', null, 'name', null, null], 'name');
    const heard = await new Promise((go) => c.observe({ limit: -1 }).subscribe({ error: go }));
    same(told(heard), ['Refused', 16, 'query', 'limit', null, null, null], 'an observed query');
    same(await c.count(), 1, 'nothing changed');
    await db.close();
  },

  async 'calls are queued, and each gets the answer to its own line'({ open, transport }) {
    const db = await open(transport());
    const c = await db.collection('c', schema);
    const calls = [];
    for (let i = 0; i < 300; i++) calls.push(i % 3 ? c.insert({ id: `k${i}`, n: i }) : c.get(`k${i - 1}`).catch((it) => it.code));
    calls.push(db.line(' '), db.line(''), c.count());
    const answers = await Promise.all(calls);
    same(answers.slice(0, 5), [15, '1-c', '1-c', { doc: { id: 'k2', n: 2 }, lwt: 2, rev: '1-c' }, '1-c'], 'answers');
    same(answers.slice(-3), [null, null, 200], 'blank lines and the last');
    await db.close();
  },

  async 'two observers, one unsubscribed within its own next'({ open, transport }) {
    const db = await open(transport());
    const c = await db.collection('c', schema);
    const query = c.observe({ selector: { n: { $gte: 2 } } });
    const first = [], second = [], third = [];
    const subscription = query.subscribe((rows) => {
      first.push(rows.length);
      if (rows.length === 1) subscription.unsubscribe();
    });
    let settled;
    const settles = new Promise((go) => { settled = go; });
    query.subscribe({ next: (rows) => { second.push(rows.length); if (rows.length === 3) settled(); } });
    for (let n = 1; n < 5; n++) await c.insert({ id: `k${n}`, n });
    await settles;
    same([subscription.closed, first, second], [true, [0, 1], [0, 1, 2, 3]], 'emissions');
    // Whoever comes later gets the last result first, after subscribe has returned.
    const late = query.subscribe((rows) => { third.push(rows.length); late.unsubscribe(); });
    same(third, [], 'before subscribe returns');
    await c.upsert({ id: 'k9', n: 9 });
    await c.count();
    same(third, [3], 'a late observer');
    await db.close();
  },

  async 'an observer that ends another one, whose turn is next'({ open, transport }) {
    const db = await open(transport());
    const c = await db.collection('c', schema);
    const query = c.observe();
    const heard = [];
    let other;
    query.subscribe((rows) => {
      if (rows.length) other.unsubscribe();
    });
    other = query.subscribe((rows) => heard.push(rows.length));
    await c.insert({ id: 'a' });
    await c.insert({ id: 'b' });
    // One that leaves before its turn hears nothing.
    query.subscribe((rows) => heard.push(rows.length)).unsubscribe();
    await c.count();
    same(heard, [0], 'emissions');
    await db.close();
  },

  async 'an observer that is left by all is not observed, and may be observed again'({ open, transport }) {
    const db = await open(transport());
    const c = await db.collection('c', schema);
    const query = c.observe({}, 'all');
    let count = 0;
    await new Promise((go) => {
      const only = query.subscribe(() => { count += 1; only.unsubscribe(); go(); });
    });
    same((await fault(() => query.explain())).code, 17, 'not observed');
    await c.insert({ id: 'a' });
    same(count, 1, 'no more emissions');
    same(await new Promise((go) => { const again = query.subscribe((rows) => { again.unsubscribe(); go(rows); }); }), [{ id: 'a' }], 'again');
    const other = c.observe({}, 'same'), twice = c.observe({}, 'same');
    other.subscribe(() => {});
    same((await new Promise((go) => twice.subscribe({ error: go }))).word, 'exists', 'a name that is taken');
    await db.close();
  },

  async 'as an async iterator, until it is left or the database is closed'({ open, transport }) {
    const db = await open(transport());
    const c = await db.collection('c', schema);
    const heard = [];
    const query = c.observe({ limit: 2 });
    for await (const rows of query) {
      heard.push(rows.length);
      if (rows.length === 2) break;
      c.insert({ id: `k${rows.length}` });
    }
    same(heard, [0, 1, 2], 'emissions');
    same((await fault(() => query.explain())).code, 17, 'left');
    const iterator = query[Symbol.asyncIterator]();
    same((await iterator.next()).value.length, 2, 'again');
    const pending = iterator.next();
    await iterator.return();
    same(await pending, { done: true }, 'a question that was open');
    const last = (async () => { let n = 0; for await (const _ of query) n += 1; return n; })();
    await c.count();
    await db.close();
    same(await last, 1, 'closed');
  },

  async 'as an observable of other libraries, under either of their names'({ open, transport }) {
    const db = await open(transport());
    const c = await db.collection('c', schema);
    const query = c.observe();
    const key = Symbol.observable ?? '@@observable';
    same([typeof query[key], typeof query['@@observable'], query[key]() === query], ['function', 'function', true], 'itself');
    const events = [];
    await new Promise((go) => query[key]().subscribe({ next: (rows) => { events.push(rows.length); go(); }, complete: () => events.push('complete') }));
    await db.close();
    same(events, [0, 'complete'], 'events');
  },

  async 'a restart keeps what is observed'({ open, transport }) {
    const db = await open(transport());
    const c = await db.collection('c', schema);
    const query = c.observe({ selector: { n: 1 } });
    const heard = [];
    query.subscribe((rows) => heard.push(rows.length));
    await c.insert({ id: 'a', n: 1 });
    same(await db.restart(), 2, 'epoch');
    await c.insert({ id: 'b', n: 1 });
    same((await query.explain()).changes, 2, 'changes');
    same(heard, [0, 1, 2], 'emissions');
    await db.close();
  },

  async 'a fork and its master: a lost push, a conflict, what the fork hears, and what is refused'({ open, transport }) {
    const db = await open(transport());
    const master = await db.collection('m', schema), fork = await db.collection('f', schema);
    const replication = { name: 'r', fork: 'f', master: 'm', handler: 'greater', field: 'n' };
    await db.replicate(replication);
    const heard = [];
    fork.observe({ sort: [{ n: 'desc' }], limit: 1 }).subscribe((rows) => heard.push(rows.map((it) => it.n).join()));
    await master.insert({ id: 'ä', n: 1 });
    const pull = { exchange: 1, place: { id: 'ä', lwt: 1 }, rows: ['ä'], sent: 'pull' };
    same(await db.turn('r'), { end: 'quiet', exchanges: 1, each: [pull] }, 'a pull');

    await fork.patch('ä', { n: 3 });
    await master.patch('ä', { n: 2 });
    await fork.insert({ id: 'b', n: 0 });
    const lost = { exchange: 1, lost: 'lose_request', rows: ['ä', 'b'], sent: 'push' };
    same(await db.turn('r', { link: ['lose_request'] }), { end: 'lost', exchanges: 1, each: [lost] }, 'a lost push');
    const { end, exchanges, each } = await db.turn('r', { batch: 1 });
    const told = ['push ä ä', 'push b ', 'push ä ', 'pull b ', 'pull ä ', 'pull  '];
    same([end, exchanges, each.map((it) => `${it.sent} ${it.rows} ${it.conflicts ?? ''}`)], ['quiet', 6, told], 'a conflict');
    same((await db.turn('r', { budget: 1, link: ['twice'] })).end, 'quiet', 'nothing more');
    same(await master.get('ä'), { doc: { id: 'ä', n: 3 }, lwt: 4, rev: '3-m' }, 'the greater number');
    const [here, there] = await Promise.all([fork.digest(), master.digest()]);
    same([here.count, here.digest], [2, there.digest], 'both sides');
    const b = { docs: [{ _deleted: false, id: 'b', n: 0 }], place: { id: 'b', lwt: 3 } };
    same(await master.changes({ since: { id: 'ä', lwt: 1 }, batch: 1 }), b, 'what the master wrote');
    same(heard, ['', '1', '3'], 'emissions');

    const code = async (call) => (await fault(call)).code;
    same(await code(() => db.replicate(replication)), 9, 'the name is taken');
    same(await code(() => db.replicate({ ...replication, name: 's', handler: 'mine' })), 19, 'no handler');
    same(await code(() => db.replicate({ ...replication, name: 's', fork: 'm', master: 'f' })), 21, 'a chain');
    same(await code(() => db.turn('s')), 18, 'no replication');
    same(await code(() => db.turn('r', { batch: 0 })), 20, 'no batch');
    await db.close();
  },

  async 'a sweep of a tree of three: its turns, one emission each, and what is refused'({ open, transport }) {
    const db = await open(transport());
    const [server, phone, laptop] = await Promise.all(['server', 'phone', 'laptop'].map((it) => db.collection(it, schema)));
    const newest = { handler: 'greater', field: 'n' };
    await db.replicate({ name: 'to_server', fork: 'phone', master: 'server', ...newest });
    await db.replicate({ name: 'to_phone', fork: 'laptop', master: 'phone', ...newest });
    await server.bulk([{ id: 'a', n: 1 }, { id: 'd', n: 0 }]);
    await laptop.bulk([{ id: 'a', n: 2 }, { id: 'b', n: 0 }]);
    const heard = { server: [], phone: [], laptop: [] };
    for (const it of [server, phone, laptop]) {
      const next = (rows) => heard[it.name].push(rows.map(({ id, n }) => id + n).join(' '));
      await it.observe().subscribe(next).begun;
    }
    const { end, turns } = await db.sweep('server');
    const told = ({ pass, replication, each }) => [pass, replication, ...each.map((it) => `${it.sent} ${it.rows}`)].join(': ');
    same(turns.map(told), [
      'up: to_phone: push a,b: pull a,b',
      'up: to_server: push a,b: push a: pull d,b,a',
      'down: to_server: pull ',
      'down: to_phone: pull a,d',
    ], 'the turns');
    same([end, turns.map((it) => `${it.end} ${it.exchanges}`)], ['quiet', ['quiet 2', 'quiet 3', 'quiet 1', 'quiet 1']], 'their ends');
    same(turns[1].each[0], { conflicts: ['a'], exchange: 1, rows: ['a', 'b'], sent: 'push' }, 'an exchange');
    const place = { id: 'd', lwt: 3 };
    same(turns[3].each, [{ exchange: 1, place, rows: ['a', 'd'], sent: 'pull' }], 'those of the last turn');
    const [first, ...others] = await Promise.all([server, phone, laptop].map((it) => it.digest()));
    same(others, [first, first], 'all three');
    const all = 'a2 b0 d0';
    same(heard, { server: ['a1 d0', all], phone: ['', all], laptop: ['a2 b0', all] }, 'emissions');

    await server.bulk([{ id: 'e' }, { id: 'f' }]);
    const some = await db.sweep('server', { batch: 1, budget: 1 });
    same([some.end, some.turns.map(told)], ['more', ['up: to_phone: pull ', 'up: to_server: pull e']], 'a budget');
    same(await db.sweep('laptop'), { end: 'quiet', turns: [] }, 'nothing is below it');
    same((await db.turn('to_server')).each.map((it) => it.rows), [['f']], 'a turn behind it');
    const refused = async (...of) => (({ code, subject, message }) => [code, subject, message])(await fault(() => db.sweep(...of)));
    same(await refused('none'), [10, 'none', 'no_collection (10): there is no collection none'], 'no collection');
    const batch = [20, 'batch', 'batch (20): batch is 101, and from 1 to 100'];
    same(await refused('server', { batch: 101 }), batch, 'a batch');
    await db.close();
  },

  async 'a stream: events that are taken, come twice, late or not at all, and what is refused'({ open, transport }) {
    const db = await open(transport());
    const master = await db.collection('m', schema), fork = await db.collection('f', schema);
    await db.replicate({ name: 'r', fork: 'f', master: 'm', handler: 'fork_wins' });
    await db.stream('r');
    same(await db.deliver('r'), { level: true, resync: false, each: [] }, 'nothing');
    await master.insert({ id: 'a' });
    await master.bulk([{ id: 'ä' }, { id: 'b' }]);
    await master.insert({ id: 'd' });
    const told = async (link) => {
      const { level, resync, each } = await db.deliver('r', { link });
      return [level, resync, each.map(({ event, rows, took }) => `${event} ${rows} ${took}`).join('; ')];
    };
    same(await told(['twice', 'later']), [false, true, '1 a taken; 1 a old; 2 b,ä later; 3 d gap'], 'twice, and later');
    same(await told(), [false, false, '1 b,ä taken'], 'what was put off');
    same((await db.turn('r')).each.map((it) => `${it.sent} ${it.rows}`), ['pull d'], 'a turn');
    await master.patch('d', { n: 1 });
    same(await told(['lose']), [false, false, '1 d lost'], 'one that never comes');
    await fork.insert({ id: 'e' });
    await master.remove('a');
    same(await told(), [false, true, '1 a pending'], 'the fork has something to push');
    same((await db.turn('r')).end, 'quiet', 'a turn');
    same(await told(), [true, false, '1 e old'], 'the event of the push');
    same([await fork.digest(), (await fork.get('d')).doc], [await master.digest(), { id: 'd', n: 1 }], 'both sides');

    const refused = async (call) => (({ code, word, message }) => [code, word, message])(await fault(call));
    same(await refused(() => db.stream('r')), [9, 'exists', 'exists (9): the stream of r is open'], 'open');
    same((await fault(() => db.deliver('r', { link: [{ late: 1 }] }))).subject, 'link', 'a happening of turns');
    await db.unstream('r');
    const none = [31, 'no_stream', 'no_stream (31): no stream of r is open'];
    for (const call of [() => db.deliver('r'), () => db.unstream('r')]) same(await refused(call), none, 'none is open');
    same((await fault(() => db.stream('z'))).code, 18, 'no replication');
    await db.replicate({ name: 's', fork: 'm', port: 1, handler: 'join' });
    const elsewhere = [30, 'remote', 'remote (30): the master of s is elsewhere'];
    same(await refused(() => db.stream('s')), elsewhere, 'a master elsewhere');
    await db.close();
  },

  async 'followed forks of one journal have each write of their masters, over a restart and a migration'({ open, transport }) {
    let written = '';
    const db = await open(async (hooks) => {
      const it = await transport()(hooks);
      return { ...it, send(text) { written += text; it.send(text); } };
    });
    const [m, f, g, h] = await Promise.all([...'mfgh'].map((name) => db.collection(name, schema)));
    for (const [name, fork, master] of [['r', 'f', 'm'], ['s', 'g', 'm'], ['t', 'h', 'f']]) {
      await db.replicate({ name, fork, master, handler: 'fork_wins' });
    }
    await m.insert({ id: 'a' });
    const followed = [...'rst'].map((name) => db.follow(name));
    const states = {};
    for (const it of followed) it.subscribe(({ state, pending }) => { states[it.name] = `${state} ${pending}`; });
    const level = (sides) => until(async () => {
      const found = await Promise.all(sides.map((it) => it.digest()));
      return new Set(found.map((it) => it.digest)).size === 1 && Object.values(states).every((it) => it === 'in sync 0');
    }, `${sides.map((it) => it.name)} are the same: ${JSON.stringify(states)}`);
    const all = [m, f, g, h];
    await level(all);
    await m.insert({ id: 'b' });
    await level(all);
    await h.insert({ id: 'd' }); // goes up to f and m, and down to g
    await level(all);
    same(await g.count(), 3, 'the documents');

    // What is written together comes together, also where it is more than waits.
    written = '';
    await Promise.all(Array.from({ length: 200 }, (_, n) => m.upsert({ id: `k${n % 50}`, n })));
    await level(all);
    const lines = written.trim().split('\n').map((it) => JSON.parse(it).do);
    const count = lines.filter((it) => it === 'deliver' || it === 'turn').length;
    same(count < 100, true, `${count} lines for 200 writes`);

    await db.restart();
    await Promise.all([m.remove('a'), f.insert({ id: 'e' })]);
    await level(all);
    same(await db.migrate('h', next, steps), ['m', 'f', 'g', 'h'], 'the group');
    await Promise.all([m.insert({ id: 'x', on: true }), h.patch('k1', { v: 7 })]);
    await level(all);
    same((await m.get('k1')).doc, { id: 'k1', on: true, v: 7 }, 'an edit of a fork');

    followed[0].close();
    same((await fault(() => db.deliver('r'))).word, 'no_stream', 'its stream is closed');
    delete states.r;
    await m.insert({ id: 'y', on: false });
    await level([m, g]);
    same((await fault(() => f.get('y'))).code, 15, 'a fork that is followed no more');
    await db.stream('r'); // by hand, which whoever follows then leaves open
    db.follow('r').close();
    await db.follow('r').close();
    same((await db.deliver('r')).resync, false, 'it is open');
    await db.close();
  },

  async 'a turn that a full journal ends has no answer, and a restart keeps a replication'({ open, transport }) {
    const db = await open(transport({ maxJournal: 1500 }));
    const master = await db.collection('m', schema);
    await db.collection('f', schema);
    await db.replicate({ name: 'r', fork: 'f', master: 'm', handler: 'join' });
    await master.bulk([{ id: 'a' }, { id: 'b' }]);
    same([await db.restart(), (await db.turn('r', { batch: 1 })).exchanges], [2, 3], 'after a restart');
    await master.bulk(Array.from({ length: 10 }, (_, n) => ({ id: `k${n}` })));
    const stopped = await fault(() => db.turn('r', { batch: 1 }));
    same([stopped.stop, stopped.limit], ['full', 1500], 'in the middle of a turn');
    same((await fault(() => db.close())).stop, 'full', 'close');
  },

  async 'a master at a port that nobody serves: the turn is lost, and what was written stays'({ open, transport }) {
    const db = await open(transport());
    const fork = await db.collection('f', schema);
    await db.replicate({ name: 'r', fork: 'f', port: 1, handler: 'join' });
    const lost = { exchange: 1, lost: 'dial', sent: 'pull' };
    same(await db.turn('r'), { end: 'lost', exchanges: 1, each: [lost] }, 'a pull');
    await fork.insert({ id: 'a', n: 1 });
    const push = { exchange: 1, lost: 'dial', rows: ['a'], sent: 'push' };
    for (let i = 0; i < 3; i++) same(await db.turn('r', { batch: 1 }), { end: 'lost', exchanges: 1, each: [push] }, 'a push');
    same(await fork.get('a'), { doc: { id: 'a', n: 1 }, lwt: 1, rev: '1-f' }, 'the fork');

    const told = async (call) => (({ code, subject }) => [code, subject])(await fault(call));
    const other = { name: 's', fork: 'f', handler: 'join' };
    same(await told(() => db.turn('r', { link: ['ok'] })), [6, 'link'], 'a link');
    same(await told(() => db.replicate({ ...other, master: 'f', port: 1 })), [6, 'port'], 'a port beside a master');
    same(await told(() => db.replicate(other)), [5, 'master'], 'neither');
    same(await told(() => db.replicate({ ...other, port: 0 })), [7, 'port'], 'no port');
    same((await fault(() => db.replicate({ ...other, port: 2 }))).code, 21, 'a second master');
    await db.close();
  },

  async 'after close nothing is taken, and what was asked before is answered'({ open, transport }) {
    const db = await open(transport());
    const c = await db.collection('c', schema);
    const asked = c.insert({ id: 'a' });
    await Promise.all([db.close(), db.close()]);
    same(await asked, '1-c', 'answered');
    const stopped = await fault(() => c.count());
    same([stopped.name, stopped.stop], ['Stopped', 'closed'], 'closed');
    same((await new Promise((go) => c.observe().subscribe({ error: go }))).stop, 'closed', 'an observer');
    for (const text of ['{"do":"restart"}', ' ', '']) {
      same((await fault(() => db.line(text))).stop, 'closed', 'a line');
    }
    same((await fault(() => db.drained())).stop, 'closed', 'drained');
    same((await db.stopped).stop, 'closed', 'stopped');
  },

  async 'an idle reader gets the newest emission, and no other is kept for it'({ open, transport }) {
    const db = await open(transport());
    const c = await db.collection('c', schema);
    const iterator = c.observe({ sort: [{ n: 'asc' }] })[Symbol.asyncIterator]();
    const first = (await iterator.next()).value;
    for (let n = 1; n <= 50; n++) await c.insert({ id: `k${n}`, n });
    await c.count();
    same([first.length, (await iterator.next()).value.length], [0, 50], 'the newest');
    const next = iterator.next();
    await c.remove('k1');
    same((await next).value.length, 49, 'the next');
    await c.remove('k2');
    await db.close();
    const last = [(await iterator.next()).value?.length, (await iterator.next()).done];
    same(last, [48, true], 'the last before the end');
  },

  async 'rows that subscribers share are frozen, and those that were asked for are not'({ open, transport }) {
    const db = await open(transport());
    const c = await db.collection('c', schema);
    await c.insert({ id: 'a', n: 1 });
    const query = c.observe();
    const rows = await new Promise((go) => query.subscribe(go));
    same([Object.isFrozen(rows), Object.isFrozen(rows[0])], [true, true], 'frozen');
    for (const change of [() => { rows[0].n = 2; }, () => rows.push({ id: 'b' }), () => rows.pop()]) {
      same((await fault(change)).name, 'TypeError', 'a change');
    }
    same(await new Promise((go) => query.subscribe(go)), [{ id: 'a', n: 1 }], 'a later subscriber');
    const own = await c.find();
    own[0].n = 3;
    await db.close();
  },

  async 'a refused query is told to who observes it'({ open, transport }) {
    const db = await open(transport());
    const c = await db.collection('c', schema);
    const bad = () => c.observe({ selector: { m: 1 } });
    same((await fault(() => bad().subscribe(() => {}).begun)).subject, 'm', 'begun');
    same((await new Promise((go) => bad().subscribe(() => {}, go))).subject, 'm', 'an error handler');
    same((await fault(() => bad()[Symbol.asyncIterator]().next())).subject, 'm', 'an iterator');
    const refused = bad().subscribe({ error() {} });
    await c.count();
    same((await fault(() => refused.begun)).subject, 'm', 'begun, asked for later');
    const subscription = c.observe().subscribe(() => {});
    await subscription.begun;
    subscription.unsubscribe();
    await subscription.begun;
    await c.observe().subscribe().begun;
    const left = c.observe().subscribe();
    left.unsubscribe();
    await left.begun;
    await db.close();
  },

  async 'refusals tell the value that was wrong and the limit that it passed'({ open, transport }) {
    const db = await open(transport());
    const rank = { type: 'integer', minimum: 1, maximum: 9, multipleOf: 2 };
    const c = await db.collection('c', { ...schema, properties: { ...schema.properties, rank } });
    const told = async (call) => (({ value, limit, message }) => [value, limit, message])(await fault(call));
    const cases = [
      [() => db.collection('myTodos', schema), 'myTodos', 64, 'name (8): name is "myTodos", and no name: a'
        + ' lower-case letter and then up to 63 lower-case letters, digits, _ or -'],
      [() => c.insert({ id: 'a', rank: 11 }), 11, 9, 'invalid (13): rank is 11, above 9'],
      [() => c.insert({ id: 'a', rank: 0 }), 0, 1, 'invalid (13): rank is 0, below 1'],
      [() => c.insert({ id: 'a', rank: 5 }), 5, 2, 'invalid (13): rank is 5, no multiple of 2'],
      [() => c.bulk([{ id: 'a' }, { id: 'k'.repeat(21) }]), 'k'.repeat(21), 20,
        'invalid (13) in row 1: id has 21 characters, above 20'],
      [() => c.insert({ id: '' }), '', 1, 'invalid (13): id is empty, and the primary key'],
      [() => c.insert({ id: 'a', n: 2 ** 53 }), 2 ** 53, 2 ** 53 - 1,
        'invalid (13): n is 9007199254740992, and from -(2^53 - 1) to 2^53 - 1'],
      [() => c.insert({ id: 'a', n: [1] }), [1], undefined, 'invalid (13): n is [1], and no integer'],
      [() => c.insert({ id: 'a', m: 1 }), 1, undefined, 'invalid (13): m is no property of the schema'],
      [() => c.find({ limit: -1 }), -1, 1e9, 'query (16): limit is -1, and from 0 to 1000000000'],
      [() => c.find({ id: 'a' }), undefined, undefined,
        'query (16): id is no member of a query: those are selector, sort, skip and limit'],
      [() => c.find({ sort: ['id'] }), undefined, undefined, 'query (16): sort can\'t be sorted by: sort is a list of'
        + ' {"FIELD":"asc"} or "desc", each a property and once'],
      [() => c.insert({ n: 1 }), undefined, undefined, 'key (24): id is missing or no text, or would become another'],
      [() => db.collection('c', schema), 'c', undefined,
        'schema_differs (12): c is held with another schema: another one is its next version, with steps'],
      [() => db.replicate({ name: 'r', fork: 'c', master: 'c', handler: 'newest' }), 'newest', undefined,
        'no_handler (19): no handler newest with no field: those are master_wins, fork_wins, join, and greater'
        + ' with a field of whole numbers'],
      [() => db.replicate({ name: 'r', fork: 'c', master: 'c', handler: 'join' }), undefined, undefined,
        'chain (21): the fork is the master, or is a fork already, or has the master below it'],
      [() => c.find({ selector: { $not: 1 } }), undefined, undefined, 'query (16): $not is no operator'],
      [() => db.line('{"do":"find","in":"c","query":{"skip":2.5}}'), 2.5, 1e9,
        'query (16): skip is 2.5, and from 0 to 1000000000'],
      [() => db.line('[]'), undefined, undefined, 'not_object (3): the line is no object'],
      [() => db.line('{'), undefined, undefined, 'not_json (2): the line is no JSON'],
      [() => c.get('z'), 'z', undefined, 'no_document (15): no document has the key "z"'],
      [() => db.turn('r', { batch: 101 }), 101, 100, 'batch (20): batch is 101, and from 1 to 100'],
      [() => c.insert({ id: 'a'.repeat(2 ** 20) }), undefined, 2 ** 20,
        'too_long (1): a line has at most 1048576 bytes'],
      [() => db.collection('d', { ...schema, properties: { tags: { type: 'array' } } }),
        { type: 'array' }, undefined,
        'schema (11): tags is no string, integer or boolean, and no number with a multipleOf'],
    ];
    for (const [call, ...due] of cases) same(await told(call), due, due[2]);
    for (let n = 2; n <= 64; n++) await db.collection(`c${n}`, schema);
    const tooMany = ['more', 64, 'too_many (23): there are at most 64 collections'];
    same(await told(() => db.collection('more', schema)), tooMany, 'too many');
    await c.insert({ id: 'a', rank: 2 });
    const above = [12, 9, 'invalid (13): rank is 12, above 9'];
    same(await told(() => c.patch('a', { rank: 12 })), above, 'a patch');
    const conflict = 'conflict (14): "a" has the revision 1-c';
    same((await fault(() => c.insert({ id: 'a' }))).message, conflict, 'a conflict');
    await db.close();
  },

  async 'a lone surrogate is refused by the name of its member'({ open, transport }) {
    const db = await open(transport());
    const c = await db.collection('c', schema);
    const told = async (call) => {
      const { code, word, cause, subject } = await fault(call);
      return [code, word, cause, subject];
    };
    const due = (name) => [2, 'not_json', 'surrogate', name];
    same(await told(() => c.insert({ id: 'a\ud800' })), due('id'), 'a field');
    same(await told(() => c.bulk([{ id: 'a' }, { id: 'b', '\udc00': 1 }])), due('\udc00'), 'a name');
    same(await told(() => c.get('\udfff')), due('key'), 'a key');
    const query = c.observe({ selector: { id: { $in: ['a', '\ud83d'] } } });
    same(await told(() => query.subscribe(() => {}).begun), due('$in'), 'a query');
    same(await told(() => db.line('{"do":"\ud800"}')), due(undefined), 'a line');
    await c.insert({ id: '\ud83d\ude00 \\ud800' });
    same(await c.find(), [{ id: '😀 \\ud800' }], 'a pair, and what looks like one');
    await db.close();
  },

  async 'a patch of nothing but undefined fields writes nothing'({ open, transport }) {
    const db = await open(transport());
    const c = await db.collection('c', schema);
    await c.insert({ id: 'a', n: 1 });
    let heard = 0;
    await c.observe().subscribe(() => { heard += 1; }).begun;
    const set = { n: undefined };
    for (const rev of [undefined, '1-c']) same(await c.patch('a', set, rev), '1-c', 'the revision');
    same((await fault(() => c.patch('a', { n: undefined }, '2-c'))).rev, '1-c', 'another revision');
    same((await fault(() => c.patch('b', { n: undefined }))).word, 'no_document', 'no document');
    same([await c.get('a'), heard], [{ doc: { id: 'a', n: 1 }, lwt: 1, rev: '1-c' }, 1], 'the document');
    same(await c.patch('a', { n: undefined, id: 'a' }), '2-c', 'a field that is set');
    await db.close();
  },

  async 'an update by operators, and what is refused of one'({ open, transport }) {
    const db = await open(transport());
    const c = await db.collection('c', schema);
    await c.insert({ id: 'a', n: 1 });
    same(await c.update('a', { $inc: { n: 2 } }), '2-c', 'the revision');
    same(await c.update('a', { $max: { n: 2 } }, '2-c'), '3-c', 'of a revision');
    same((await c.get('a')).doc, { id: 'a', n: 3 }, 'the document');
    same((await fault(() => c.update('a', { $min: { n: 2 } }, '2-c'))).rev, '3-c', 'another revision');
    same(await c.update('a', { $unset: { n: '' } }), '4-c', 'a field is taken away');
    same((await c.get('a')).doc, { id: 'a' }, 'and is gone');
    const refused = { $push: { n: 1 }, $inc: { n: 'x' }, $set: { id: 'b' } };
    const causes = { $push: 'operator', $inc: 'operand', $set: 'key' };
    for (const [operator, fields] of Object.entries(refused)) {
      const { word, cause } = await fault(() => c.update('a', { [operator]: fields }));
      same([word, cause], ['update', causes[operator]], operator);
    }
    same((await fault(() => c.update('b', {}))).word, 'no_document', 'no document');
    await db.close();
  },

  async 'hooks are attached at each opening, and once in it'({ open, transport }) {
    const at = transport(), options = { hooks: [{ when: 'save', hook: 'count', field: 'n' }] };
    for (const n of [1, 2]) {
      const db = await open(at);
      const c = await db.collection('c', schema, options);
      await db.collection('c', schema, options);
      if (n === 1) await c.insert({ id: 'a', n: 0 });
      await c.patch('a', { id: 'a' });
      same((await c.get('a')).doc, { id: 'a', n }, `opening ${n}`);
      same((await fault(() => c.hook('save', 'count', 'id'))).word, 'no_hook', 'a field that it does not take');
      await db.close();
    }
  },

  async 'a master and its fork migrate with what is pending, once nobody observes them'({ open, transport }) {
    const db = await open(transport());
    const master = await db.collection('m', schema), fork = await db.collection('f', schema);
    await db.replicate({ name: 'r', fork: 'f', master: 'm', handler: 'fork_wins' });
    await master.bulk([{ id: 'a', n: 1 }, { id: 'b' }]);
    await db.turn('r');
    await fork.patch('a', { n: 2 });

    const query = fork.observe({}, 'q');
    const heard = [];
    const subscription = query.subscribe((rows) => heard.push(rows.length));
    await subscription.begun;
    const told = ({ code, word, cause, subject, value }) => [code, word, cause ?? null, subject ?? null, value ?? null];
    const refused = async (...of) => told(await fault(() => db.migrate(...of)));
    same(await refused('m', next, steps), [29, 'observed', null, 'q', 'q'], 'observed');
    subscription.unsubscribe();
    same(await refused('z', next, steps), [10, 'no_collection', null, 'z', 'z'], 'no collection');
    same(await refused('m', { ...next, version: 2 }, steps), [28, 'migration', 'version', 'm', 2], 'two versions on');
    same(await refused('f', next, [{ drop: 'id' }]), [28, 'migration', 'primary', 'f', 'id'], 'the key');
    same(await refused('f', next, steps.slice(0, 2)), [28, 'migration', 'invalid', 'm', null], 'a required field');
    const [code, word, , subject] = await refused('m', next, [{ scale: 'n', by: 1001 }]);
    same([code, word, subject], [7, 'wrong_type', 'steps'], 'a factor');
    same((await fork.get('a')).doc, { id: 'a', n: 2 }, 'nothing changed');

    same(await db.migrate('f', next, steps), ['m', 'f'], 'both went');
    same(await fork.get('a'), { doc: { id: 'a', on: true, v: 20 }, lwt: 2, rev: '2-f' }, 'the edit');
    same(await fork.find({ selector: { v: { $exists: false } } }), [{ id: 'b', on: true }], 'a missing field');
    same((await db.turn('r')).each.map((it) => `${it.sent} ${it.rows}`), ['push a', 'pull a'], 'it is pushed');
    same((await master.get('a')).doc, { id: 'a', on: true, v: 20 }, 'the master');
    const unknown = await fault(() => fork.insert({ id: 'c', n: 1, on: true }));
    same([unknown.cause, unknown.subject], ['unknown', 'n'], 'the schema');
    await new Promise((go) => query.subscribe((rows) => { heard.push(rows.length); go(); }));
    same(heard, [2, 2], 'observed again');

    const away = await db.collection('p', schema);
    await db.replicate({ name: 's', fork: away.name, port: 1, handler: 'join' });
    same(await refused('p', next, steps), [30, 'remote', null, null, null], 'a master elsewhere');
    await db.close();
  },

  async 'a collection with steps migrates from the version before, and opens at its own'({ open, transport }) {
    const at = transport(), count = (field) => ({ hooks: [{ when: 'save', hook: 'count', field }] });
    const db = await open(at);
    const c = await db.collection('c', schema, { ...count('n'), steps });
    same(c.isNew, true, 'made');
    await c.insert({ id: 'a', n: 1 });
    same((await fault(() => db.collection('c', next))).word, 'schema_differs', 'without steps');
    // Both ask at once, and one of them finds that it has gone.
    const both = [count('v'), count('v')].map((hooks) => db.collection('c', next, { ...hooks, steps }));
    same((await Promise.all(both)).map((it) => it.isNew), [false, false], 'migrated');
    await c.patch('a', { on: false });
    same((await c.get('a')).doc, { id: 'a', on: false, v: 11 }, 'a hook of before is gone, and the new one is there once');
    same((await db.collection('c', next, { steps })).isNew, false, 'there already');
    for (const version of [0, 3]) {
      const { word, cause, message } = await fault(() => db.collection('c', { ...next, version }, { steps: [] }));
      same([word, cause, message.includes(`version ${version}`)], ['migration', 'version', true], message);
    }
    await db.close();

    const later = { ...next, version: 2, properties: { ...next.properties, t: { type: 'string' } }, required: ['id'] };
    const again = await open(at);
    const d = await again.collection('c', later, { steps: [{ set: 't', value: 'new' }] });
    same(await d.find(), [{ id: 'a', on: false, t: 'new', v: 11 }], 'the next one, in a later run');
    await again.close();
  },

  async 'write times are the clock, and the caller may tick'({ open, transport }) {
    const before = Date.now();
    const db = await open(transport(), { clock: undefined });
    const c = await db.collection('c', schema);
    await c.insert({ id: 'a' });
    await new Promise((go) => setTimeout(go, 5));
    await c.bulk([{ id: 'b' }]);
    const [a, b] = [(await c.get('a')).lwt, (await c.get('b')).lwt];
    same([a >= before, b >= a + 4, b <= Date.now()], [true, true, true], `${before} ${a} ${b}`);
    await db.close();
    let now = 7.9;
    const set = await open(transport(), { clock: () => now });
    const d = await set.collection('c', schema);
    await d.insert({ id: 'a' });
    now = 12;
    await d.patch('a', { n: 1 });
    same((await d.get('a')).lwt, 12, 'a clock of the caller');
    await set.tick(100);
    now = 1000;
    await d.insert({ id: 'b' });
    same((await d.get('b')).lwt, 100, 'a moment that was set by hand');
    await set.close();
    const own = await open(transport(), { clock: null });
    const e = await own.collection('c', schema);
    await e.insert({ id: 'a' });
    await own.tick(100);
    await e.insert({ id: 'b' });
    same([(await e.get('a')).lwt, (await e.get('b')).lwt], [1, 100], 'without a clock');
    same((await own.line('{"do":"tick","at":1}')).line, 7, 'no line but those of the caller');
    await own.close();
  },

  async 'writes that are not awaited wait for the program by drained'({ open, transport }) {
    let unanswered = 0, most = 0;
    const db = await open(transport());
    const properties = { ...schema.properties, t: { type: 'string' } };
    const c = await db.collection('c', { ...schema, properties });
    const t = 'x'.repeat(1000);
    for (let n = 0; n < 1000; n++) {
      unanswered += 1;
      c.upsert({ id: `k${n}`, t }).then(() => { unanswered -= 1; });
      most = Math.max(most, unanswered);
      await db.drained();
    }
    same([most > 100, most < 400], [true, true], `${most} were unanswered`);
    same(await c.count(), 1000, 'all');
    await db.close();
  },

  async 'a full journal ends the program, by its name and both numbers, and loses no answer'({ open, transport }) {
    const db = await open(transport({ maxJournal: 600 }));
    const c = await db.collection('c', schema);
    const ended = new Promise((go) => c.observe({ limit: 1 }).subscribe({ error: go }));
    const calls = await Promise.allSettled(Array.from({ length: 20 }, (_, i) => c.insert({ id: `k${i}` })));
    const kept = calls.filter((it) => it.status === 'fulfilled').length;
    same(calls.map((it) => it.status === 'fulfilled'), Array.from({ length: 20 }, (_, i) => i < kept), 'a front is answered');
    same([kept > 0 && kept < 20, calls[kept].reason.stop, calls[kept].reason.status, calls[kept].reason.limit], [true, 'full', 8, 600], 'full');
    same([calls[19].reason.would > 600, (await ended).stop], [true, 'full'], 'all that is open');
    const stopped = await db.stopped;
    same([stopped.stop, stopped.limit, stopped.would > 600], ['full', 600, true], 'stopped');
    const words = `full: the journal has at most 600 bytes, and would have ${stopped.would}`;
    same(stopped.message, words, 'in words');
    same((await fault(() => db.close())).stop, 'full', 'close');
    same((await fault(() => db.drained())).stop, 'full', 'drained');
  },
};
