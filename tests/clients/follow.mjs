// A followed fork, over a program whose turns the test answers, and over the program itself with a master that
// comes and goes.
import { spawn } from 'node:child_process';
import { createServer } from 'node:net';
import { join } from 'node:path';
import { child, open } from '../../clients/js/rx.mjs';
import { schema } from './schema.mjs';
import { program, same, tryOne } from './shared.mjs';

const tests = {};
const alone = (name, work) => { tests[name] = Object.assign(work, { needs: [] }); };
const text = (it) => JSON.stringify(it);
const pause = (ms) => new Promise((go) => { setTimeout(go, ms); });

async function until(isSo, what, seconds = 20) {
  for (const end = Date.now() + seconds * 1000; Date.now() < end; await pause(2)) if (await isSo()) return;
  throw new Error(`not in ${seconds} seconds: ${what}`);
}

/** A program that takes each line, and answers a turn, a sweep or a delivery as the test tells it to. */
class Program {
  asked = []; // the turns, sweeps and deliveries that have no answer yet
  streams = []; // what was asked of streams
  refused = {}; // of lines, by their word, what they are answered
  turns = []; // the moment of each
  dropped = 0;
  #lines = 0;
  #hooks;

  transport = async (hooks) => {
    this.#hooks = hooks;
    return {
      send: (lines) => lines.split('\n').slice(0, -1).forEach((it) => this.#take(JSON.parse(it))),
      end: () => setTimeout(() => hooks.ended({ status: 0 })),
      drop: () => { this.dropped += 1; },
      kill() {},
    };
  };

  #take({ do: word, name }) {
    this.#lines += 1;
    const reply = { line: this.#lines, ok: word, name };
    if (word === 'stream' || word === 'unstream') this.streams.push(word);
    if (this.refused[word]) return this.#say({ line: reply.line, ...this.refused[word] });
    if (word === 'deliver' || word === 'sweep') return this.asked.push(reply);
    if (word === 'turn' && name !== 'none') return this.turns.push(performance.now()), this.asked.push(reply);
    if (name === 'none') this.#say({ line: reply.line, code: 18, refused: 'no_replication' });
    else this.#say({ ...reply, rev: '1-f' });
  }

  #say(...lines) {
    const said = lines.map((it) => `${text(it)}\n`).join('');
    setTimeout(() => this.#hooks.output(said));
  }

  /** Waits for a turn and answers it. */
  async answer(end, ...each) {
    await this.#next('turn');
    const exchanges = each.map((it, at) => ({ exchange: at + 1, ...it }));
    this.#say(...exchanges, { ...this.asked.shift(), end, exchanges: each.length });
  }

  /** Waits for a sweep and answers it. */
  async sweep(end, ...turns) {
    await this.#next('sweep');
    const lines = turns.flatMap(({ each, ...turn }) => [
      ...each.map((it, at) => ({ exchange: at + 1, ...it })),
      { end: 'quiet', exchanges: each.length, ...turn },
    ]);
    this.#say(...lines, { ...this.asked.shift(), end, turns: turns.length });
  }

  /** Waits for a delivery and answers it. */
  async deliver(level, ...each) {
    await this.#next('deliver');
    const events = each.map((it, at) => ({ event: at + 1, ...it }));
    this.#say(...events, { ...this.asked.shift(), level, resync: !level });
  }

  async #next(word) {
    await until(() => this.asked.length, `a ${word}`);
    same(this.asked[0].ok, word, 'what was asked');
  }

  stop(stop) {
    this.#hooks.output(`${text({ stop })}\n`);
    this.#hooks.ended({ status: 3 });
  }
}

const push = (rows, more = {}) => ({ sent: 'push', rows, ...(more.lost ? {} : { conflicts: [] }), ...more });
const pulled = { sent: 'pull', rows: [] };

async function followed(options = {}, { refused = {}, ...master } = { port: 4001 }) {
  const it = new Program();
  it.refused = refused;
  const db = await open(it.transport, { clock: () => 0 });
  const fork = await db.collection('f', schema);
  await db.replicate({ name: 'r', fork: 'f', handler: 'join', ...master });
  const following = db.follow('r', { every: 5, longest: 20, ...options });
  const heard = [];
  following.subscribe({
    next: ({ state, pending, lost }) => heard.push([state, pending, ...(lost ? [lost] : [])].join(' ')),
    error: (fault) => heard.push(`error ${fault.word ?? fault.stop}`),
    complete: () => heard.push('complete'),
  });
  const said = async (due) => {
    await until(() => heard.length >= due.length, `${text(due)}, but ${text(heard)}`);
    same(text(heard.splice(0)), text(due), 'what was told');
  };
  return { it, db, fork, following, heard, said };
}

alone('how a fork stands, by what its turns come to', async () => {
  const { it, db, fork, following, heard, said } = await followed();
  same(db.follow('r'), following, 'followed once more');
  await said(['syncing 0']);
  await it.answer('lost', push(['a', 'b'], { lost: 'dial' }));
  await said(['offline 2 dial']);
  await fork.insert({ id: 'c' });
  await fork.upsert({ id: 'c', n: 2 });
  await said(['offline 3 dial']);
  await it.answer('more', push(['a', 'b', 'c'], { conflicts: ['b'] }));
  await said(['syncing 1']);
  await it.answer('more', push(['b']));
  await said(['syncing 0']);
  await it.answer('quiet', pulled);
  await said(['in sync 0']);
  await it.answer('quiet', pulled);

  // A write while a turn is made is one of the next.
  await until(() => it.asked.length, 'a turn');
  const writes = [fork.bulk([{ id: 'd' }, { id: 'e' }]), fork.patch('d', { n: 1 }), fork.remove('e')];
  await Promise.all([...writes, db.line(text({ do: 'upsert', in: 'f', doc: { id: 'd' } }))]);
  await said(['syncing 2']);
  await it.answer('quiet', push(['d']), pulled);
  await said(['in sync 0']);
  await it.answer('quiet', pulled);

  const other = await db.collection('g', schema);
  await other.insert({ id: 'a' });
  await it.answer('clock');
  await said(['offline 0 clock']);
  const hundred = Array.from({ length: 100 }, (_, n) => `k${n}`);
  await it.answer('lost', push(hundred, { lost: 'wire' }));
  await fork.insert({ id: 'x' });
  await said(['offline 100 wire', 'offline 101 wire']);
  await it.answer('more', push(hundred));
  await it.answer('lost', { sent: 'pull', lost: 'reply' });
  await said(['syncing 1', 'offline 0 reply']);
  following.close();
  await said(['complete']);
  await db.close();
  same(text(heard), '[]', 'after the end');
});

alone('waits after losses grow, and a turn that goes well ends them', async () => {
  const { it, db } = await followed({ every: 10, longest: 30_000 });
  const lost = () => it.answer('lost', { sent: 'pull', lost: 'dial' });
  for (let n = 0; n < 3; n++) await lost();
  await it.answer('quiet', pulled);
  await it.answer('quiet', pulled);
  const waits = it.turns.slice(1).map((at, n) => at - it.turns[n]);
  const most = [[375, 800], [750, 1_500], [1_500, 3_000], [10, 400]];
  same(waits.every((ms, n) => ms > most[n][0] - 5 && ms < most[n][1]), true, `waits of ${waits.map(Math.round)} ms`);
  await db.close();
});

alone('the network that comes, goes, or is looked for: connections are given up, and a turn is made at once', async () => {
  const events = new EventTarget(), page = new EventTarget();
  globalThis.addEventListener = (...words) => events.addEventListener(...words);
  globalThis.removeEventListener = (...words) => events.removeEventListener(...words);
  globalThis.document = page;
  const { it, db, said, following } = await followed({ every: 60_000, longest: 60_000 });
  await it.answer('lost', { sent: 'pull', lost: 'dial' });
  await said(['syncing 0', 'offline 0 dial']);
  const tell = async (target, name, due) => {
    target.dispatchEvent(new Event(name));
    await it.answer('quiet', pulled);
    same(it.dropped, due, `${name}: connections given up`);
  };
  await tell(events, 'online', 1);
  await said(['in sync 0']);
  await tell(page, 'visibilitychange', 2);
  page.hidden = true;
  page.dispatchEvent(new Event('visibilitychange'));
  page.hidden = false;
  // One that is cut off within a turn is followed by another one, and isn't told.
  following.now();
  await until(() => it.asked.length, 'a turn');
  events.dispatchEvent(new Event('online'));
  await it.answer('lost', { sent: 'pull', lost: 'wire' });
  await it.answer('quiet', pulled);
  same(it.dropped, 3, 'given up within a turn');
  events.dispatchEvent(new Event('offline'));
  await it.answer('lost', { sent: 'pull', lost: 'dial' });
  await said(['offline 0 dial']);
  following.close();
  events.dispatchEvent(new Event('online'));
  same(it.dropped, 4, 'after the end');
  await db.close();
  delete globalThis.document;
});

alone('a fork of the same journal: by its stream, and by turns for what the stream has not', async () => {
  const { it, db, fork, following, said } = await followed({}, { master: 'm' });
  const master = await db.collection('m', schema);
  await it.answer('more', { sent: 'pull', rows: ['a'] });
  await it.answer('quiet', pulled);
  await said(['syncing 0', 'in sync 0']);
  same(text(it.streams), '["stream"]', 'a stream');
  // Each write of the master is followed by a delivery, and nothing is asked meanwhile.
  await pause(30);
  same(it.asked.length, 0, 'asked while nothing is written');
  await Promise.all([master.insert({ id: 'b' }), master.bulk([{ id: 'c' }, { id: 'd' }])]);
  await it.deliver(true, { rows: ['b'], took: 'taken' }, { rows: ['c', 'd'], took: 'taken' });
  await said(['syncing 0', 'in sync 0']);
  // What the fork writes is pushed, and the master's own event of it tells that all is level.
  await fork.insert({ id: 'e' });
  await it.answer('more', push(['e']));
  await it.deliver(true, { rows: ['e'], took: 'taken' });
  await said(['syncing 1', 'syncing 0', 'in sync 0']);
  // Where it isn't level a turn makes up for it.
  await master.remove('b');
  await it.deliver(false, { rows: ['b'], took: 'gap' });
  await it.answer('clock');
  await said(['syncing 0', 'offline 0 clock']);
  await it.answer('quiet', pulled);
  await said(['in sync 0']);
  following.now();
  await it.answer('quiet', pulled);
  following.close();
  await said(['complete']);
  same(text(it.streams), '["stream","unstream"]', 'and it is closed');
  await db.close();
});

alone('a stream that was ended is opened again, and one that was open before stays so', async () => {
  const { it, db, following, said } = await followed({}, { master: 'm' });
  const master = await db.collection('m', schema);
  await it.answer('quiet', pulled);
  await said(['syncing 0', 'in sync 0']);
  it.refused = { deliver: { code: 31, refused: 'no_stream' } };
  await master.insert({ id: 'a' });
  await until(() => it.streams.length === 2, 'it is opened again');
  it.refused = {};
  await it.answer('quiet', pulled);
  await said(['syncing 0', 'in sync 0']);
  following.close();
  await said(['complete']);
  await db.close();

  const other = await followed({}, { master: 'm', refused: { stream: { code: 9, refused: 'exists' } } });
  await other.it.answer('quiet', pulled);
  await other.said(['syncing 0', 'in sync 0']);
  await (await other.db.collection('m', schema)).insert({ id: 'a' });
  await other.it.deliver(true);
  await other.said(['syncing 0', 'in sync 0']);
  other.following.close();
  same(text(other.it.streams), '["stream"]', 'who opened it closes it');
  await other.db.close();
});

alone('a master of which nothing was told: its stream is refused where it is elsewhere', async () => {
  const it = new Program();
  it.refused = { stream: { code: 30, refused: 'remote' } };
  const db = await open(it.transport, { clock: () => 0 });
  const following = db.follow('r', { every: 5 });
  for (let n = 0; n < 3; n++) await it.answer('quiet', pulled);
  same(text(it.streams), '["stream"]', 'asked for once');
  following.close();
  await db.close();
});

alone('what a turn or a delivery of one fork writes is news of others', async () => {
  const it = new Program();
  const db = await open(it.transport, { clock: () => 0 });
  for (const name of 'mfgh') await db.collection(name, schema);
  for (const [name, fork, master] of [['r', 'f', 'm'], ['s', 'g', 'm'], ['t', 'h', 'f']]) {
    await db.replicate({ name, fork, master, handler: 'join' });
    db.follow(name);
  }
  for (let n = 0; n < 3; n++) await it.answer('quiet', pulled);
  const asked = () => it.asked.map(({ ok, name }) => `${ok} ${name}`).sort().join(', ');
  const are = (due) => until(() => asked() === due, `${due}, but ${asked()}`);
  const turn = db.turn('t'); // h pushes to f
  await are('turn t');
  await it.answer('more', push(['a']));
  await turn;
  // f has something to push, which comes to g then.
  await are('turn r');
  await it.answer('more', push(['a']));
  await are('deliver r, deliver s');
  for (let n = 0; n < 2; n++) await it.deliver(true);
  // What comes to f is news of h.
  const delivery = db.deliver('r');
  await it.deliver(true, { rows: ['b'], took: 'taken' });
  await delivery;
  await are('deliver t');
  await it.deliver(true);
  const missed = db.deliver('r');
  await it.deliver(false, { rows: ['b'], took: 'gap' });
  await missed;
  await are('turn r'); // and nothing was written that others hear of
  await it.answer('quiet', pulled);
  await db.close();
});

alone('the turns of a sweep are told of each fork, and what they write is news of others', async () => {
  const it = new Program();
  const db = await open(it.transport, { clock: () => 0 });
  const [, f] = await Promise.all([...'mfgh'].map((name) => db.collection(name, schema)));
  const states = {};
  for (const [name, fork, master] of [['r', 'f', 'm'], ['s', 'g', 'm'], ['t', 'h', 'f']]) {
    await db.replicate({ name, fork, master, handler: 'join' });
    db.follow(name).subscribe(({ state, pending }) => { states[name] = `${state} ${pending}`; });
  }
  for (let n = 0; n < 3; n++) await it.answer('quiet', pulled);
  const asked = () => it.asked.map(({ ok, name }) => `${ok} ${name}`).sort().join(', ');
  const are = (due) => until(() => asked() === due, `${due}, but ${asked()}`);
  const stand = (due) => until(() => text(states) === text(due), `${text(due)}, but ${text(states)}`);
  const level = { r: 'in sync 0', s: 'in sync 0', t: 'in sync 0' };
  await stand(level);

  const some = db.sweep('m');
  await are('sweep m');
  const [up, down] = ['up', 'down'].map((pass) => (replication, ...each) => ({ pass, replication, each }));
  await it.sweep('more', up('t', push(['a']), pulled), { ...up('r', push(['a', 'b'], { conflicts: ['b'] })), end: 'more' });
  await some;
  await stand({ r: 'syncing 1', s: 'syncing 0', t: 'syncing 0' }); // f has b to push still, and news for t
  await are('deliver s, deliver t, turn r');
  const inOrder = () => it.asked.sort((one, other) => one.name.localeCompare(other.name));
  inOrder();
  await it.answer('quiet', push(['b']), pulled);
  for (let n = 0; n < 2; n++) await it.deliver(true);
  await stand(level);
  await are('deliver s'); // it has b from r's push
  await it.deliver(true);

  // A whole sweep leaves all level, whatever was lost before.
  await f.insert({ id: 'c' });
  await are('deliver t, turn r');
  inOrder();
  const whole = db.sweep('m');
  await it.answer('clock');
  await it.deliver(true);
  await are('sweep m');
  await stand({ ...level, r: 'offline 1' });
  const turns = [up('t', pulled), up('r', push(['c']), pulled), up('s', { sent: 'pull', rows: ['c'] })];
  await it.sweep('quiet', ...turns, down('r', pulled), down('t', pulled), down('s', pulled));
  same((await whole).turns.length, 6, 'its turns');
  await stand(level);
  await db.close();
});

alone('how following ends: refused, closed, or with the program', async () => {
  const { it, db, said } = await followed();
  const refused = await new Promise((go) => db.follow('none').subscribe({ error: go }));
  same(refused.word, 'no_replication', 'refused');
  const warned = new Promise((go) => process.once('warning', go));
  const none = db.follow('none');
  same((await warned).word, 'no_replication', 'nobody takes it');
  same((await new Promise((go) => none.subscribe({ error: go }))).word, 'no_replication', 'who comes later');
  await it.answer('quiet', pulled);
  await said(['syncing 0', 'in sync 0']);
  const states = [];
  const read = (async () => { for await (const { state } of db.follow('r')) states.push(state); })();
  await pause(10);
  it.asked.splice(0);
  await db.close();
  await read;
  same(text(states), '["in sync"]', 'an iterator');
  await said(['complete']);

  const other = await followed();
  await other.said(['syncing 0']);
  other.it.stop('disk');
  await other.said(['error disk']);
});

const freePort = () => new Promise((go) => {
  const door = createServer().listen(0, '127.0.0.1', () => {
    const { port } = door.address();
    door.close(() => go(port));
  });
});

tests['a master that comes and goes'] = Object.assign(async (folder) => {
  const path = join(folder, 'master'), port = await freePort();
  const served = async (write) => {
    const db = await open(child(path, { program }));
    await write(await db.collection('m', schema));
    const digest = await (await db.collection('m')).digest();
    await db.close();
    const it = spawn(program, ['serve', path, 'm', `${port}`, '1000000'], { stdio: 'ignore' });
    const over = new Promise((go) => { it.on('close', go); });
    return { digest: text(digest), kill: () => { it.kill('SIGKILL'); return over; } };
  };
  const db = await open(child(join(folder, 'fork'), { program }));
  const fork = await db.collection('f', schema);
  await db.replicate({ name: 'r', fork: 'f', port, handler: 'fork_wins' });
  await fork.bulk([{ id: 'a', n: 1 }, { id: 'b', n: 1 }]);
  const following = db.follow('r', { every: 20, longest: 100, budget: 100 });
  let now;
  following.subscribe((it) => { now = it; });
  const is = (state, pending) => until(() => now?.state === state && now.pending === pending, `${state} ${pending}`);
  await is('offline', 2);
  const first = await served((m) => m.insert({ id: 'c', n: 1 }));
  await is('in sync', 0);
  same(await fork.count(), 3, 'what the master had');
  await fork.insert({ id: 'd', n: 1 });
  await is('in sync', 0);
  await first.kill();
  await fork.insert({ id: 'e', n: 1 });
  await is('offline', 1);
  const second = await served(async (m) => same(await m.count(), 4, 'what the fork sent'));
  await is('in sync', 0);
  following.close();
  await second.kill();
  const third = await served(() => {});
  await third.kill();
  same(third.digest, text(await fork.digest()), 'both sides');
  await db.close();
}, { needs: ['program'] });

await tryOne(tests);
