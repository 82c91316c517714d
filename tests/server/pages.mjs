// Pages in Chromium and processes that meet at the server, and at `rx serve` behind websockify. It wants
// wasm/out, as wasm/build.sh makes it. Pictures go to the folder that PICTURES names in the environment.
import { spawn } from 'node:child_process';
import { mkdirSync, readFileSync, writeFileSync } from 'node:fs';
import { createConnection, createServer } from 'node:net';
import { join } from 'node:path';
import { createInterface } from 'node:readline';
import { child, open } from '../../clients/js/rx.mjs';
import { launch, serve } from '../clients/chromium.mjs';
import { program, root, same, tryOne } from '../clients/shared.mjs';

const pictures = process.env.PICTURES;
const skipped = 77;
const pause = (ms) => new Promise((go) => { setTimeout(go, ms); });
const newest = { handler: 'greater', field: 'edited' };
const running = [];
const tests = {};
let site, chromium;

function start(word, words, stdio = 'ignore') {
  const it = spawn(word, words, { stdio: [stdio, stdio, stdio === 'pipe' ? 'inherit' : 'ignore'] });
  running.push(it);
  return it;
}

// Ends a program: one that has an input by its end.
function ended(it) {
  if (it.exitCode !== null) return null;
  const over = new Promise((go) => { it.on('close', go); });
  if (it.stdin) it.stdin.end();
  else it.kill('SIGKILL');
  return over;
}

async function until(isSo, what, seconds = 60) {
  for (const end = Date.now() + seconds * 1000; Date.now() < end; await pause(50)) {
    if (await isSo()) return;
  }
  throw new Error(`not in ${seconds} seconds: ${what}`);
}

// Whether somebody listens at a port. It is a connection for whoever does.
const listens = (port) => new Promise((go) => {
  const it = createConnection(port, '127.0.0.1', () => { it.destroy(); go(true); });
  it.on('error', () => go(false));
});

/**
 * A network in front of a port. It may be cut, so that nobody is reached, or fall silent: connections that had to
 * do with that stay dead when it is back.
 */
function network(to) {
  let way = 'open';
  const links = new Set();
  const door = createServer((near) => {
    if (way === 'cut') return near.destroy();
    const link = { near, far: createConnection(to, '127.0.0.1'), isDead: way !== 'open' };
    links.add(link);
    for (const [from, into] of [[link.near, link.far], [link.far, link.near]]) {
      from.on('error', () => {}).on('close', () => { into.destroy(); links.delete(link); });
      from.on('data', (it) => link.isDead || into.write(it));
    }
  });
  const turn = (how) => {
    way = how;
    for (const link of links) {
      if (how === 'cut') link.near.destroy();
      link.isDead ||= how !== 'open';
    }
  };
  return new Promise((go) => {
    door.listen(0, '127.0.0.1', () => go({ port: door.address().port, turn, close: () => door.close() }));
  });
}

const freePort = () => new Promise((go) => {
  const it = createServer().listen(0, '127.0.0.1', () => { const { port } = it.address(); it.close(() => go(port)); });
});

// The server over a PostgreSQL of its own.
async function standing(folder, ...more) {
  mkdirSync(folder);
  const words = ['-B', join(root, 'tests/server/standing.py'), folder, site.origin, ...more];
  const it = start('/usr/bin/python3', words, 'pipe');
  const lines = createInterface(it.stdout)[Symbol.asyncIterator]();
  const next = async () => JSON.parse((await lines.next()).value);
  const told = await next();
  if (told.missing) {
    console.log(told.missing);
    process.exit(skipped);
  }
  return { ...told, ask: (word) => { it.stdin.write(`${word}\n`); return next(); } };
}

function test(name, work, needs) {
  tests[name] = Object.assign(async (folder) => {
    site = await serve(root);
    chromium = await launch(join(folder, 'profile'));
    try {
      await work(folder);
    } finally {
      await chromium.close();
      site.close();
      await Promise.all(running.map(ended));
    }
  }, { needs });
}

// A page whose collection is a fork of the master that a WebSocket leads to.
async function forkInPage(name, master, schema, { how = newest, browser = chromium } = {}) {
  const page = await browser.page(`${site.origin}/empty`);
  await page.run(async (name, master, schema, how) => {
    const { open, wasm } = await import('/clients/js/rx.mjs');
    window.db = await open(wasm('/wasm/out', name, { masters: { 4001: master } }));
    window.todos = await db.collection('todos', schema);
    await db.replicate({ name: 'sync', fork: 'todos', port: 4001, ...how });
    window.turn = async (options) => {
      const { end, each } = await db.turn('sync', options);
      return end === 'lost' ? `lost by ${each.at(-1).lost}` : end;
    };
    window.quiet = async () => {
      for (let left = 100; left; left--) if (await turn() === 'quiet') return true;
      return false;
    };
  }, name, master, schema, how);
  return page;
}

async function forkOfProcess(folder, name, port, schema, how = newest) {
  const db = await open(child(join(folder, name), { program }));
  const todos = await db.collection('todos', schema);
  await db.replicate({ name: 'sync', fork: 'todos', port, ...how });
  const quiet = async () => {
    for (let left = 100; left; left--) if ((await db.turn('sync')).end === 'quiet') return true;
    return false;
  };
  return { db, todos, quiet };
}

const text = (it) => JSON.stringify({ count: it.count, digest: it.digest });

async function allTheSame(pages, native, due, what) {
  for (let round = 0; round < 2; round++) {
    for (const page of pages) same(await page.evaluate('quiet()'), true, `${what}: a page's turn`);
    same(await native.quiet(), true, `${what}: a process's turn`);
  }
  const wanted = text(due ? await due() : await native.todos.digest());
  same(text(await native.todos.digest()), wanted, `${what}: the process`);
  for (const page of pages) same(text(await page.evaluate('todos.digest()')), wanted, `${what}: a page`);
}

test('pages and a process meet at the server, which is killed between turns and within one', async (folder) => {
  const place = await standing(join(folder, 'place'));
  const master = { url: `ws://127.0.0.1:${place.websocket}/todos`, token: place.secret };
  const pages = [];
  for (const name of ['one', 'two']) pages.push(await forkInPage(name, master, place.schema));
  const native = await forkOfProcess(folder, 'native', place.port, place.schema);
  const digest = () => place.ask('digest');
  const doc = (id, title, edited) => ({ id, title, done: false, edited });
  await pages[0].run(async (it) => { await todos.insert(it); }, doc('a', 'Zürich, 日本語 \u0000 "\\', 1));
  await native.todos.insert(doc('b', 'From a process', 1));
  await allTheSame(pages, native, digest, 'writes on both sides');

  await pages[0].run(async (it) => { await todos.upsert(it); }, doc('a', 'earlier', 5));
  await pages[1].run(async (it) => { await todos.upsert(it); }, doc('a', 'later', 6));
  await allTheSame(pages, native, digest, 'a conflict');
  same((await native.todos.get('a')).doc.title, 'later', 'the later edit');

  const dials = async () => /rx_dials_total\{answer="admitted"\} (\d+)/.exec(await place.ask('metrics'))[1];
  const before = await dials();
  const ends = await pages[0].run(async () => {
    const ends = [];
    for (let n = 0; n < 50; n++) {
      await todos.upsert({ id: 'c', title: `${n}`, done: true, edited: n });
      ends.push(await turn());
    }
    return ends.filter((it) => it !== 'quiet').join();
  });
  same(ends, '', 'fifty turns');
  same(await dials(), before, 'fifty turns over one connection: dials');

  await place.ask('kill');
  same(/^lost by (dial|wire)$/.test(await pages[0].evaluate('turn()')), true, 'the server is gone');
  same(await pages[0].evaluate('turn()'), 'lost by dial', 'and still');
  await pages[0].run(async (it) => { await todos.insert(it); }, doc('d', 'Written offline', 9));
  await place.ask('start');
  await allTheSame(pages, native, digest, 'online again');

  await pages[1].run(async () => {
    for (let at = 0; at < 10; at++) {
      const title = 'ü'.repeat(80), one = (_, n) => ({ id: `${at}-${n}`, title, done: true, edited: 1 });
      await todos.bulk(Array.from({ length: 100 }, one));
    }
  });
  const during = pages[1].evaluate('turn({ batch: 1 })');
  await pause(1_000);
  await place.ask('kill');
  same(/^lost by (wire|dial)$/.test(await during), true, `killed within a turn: ${await during}`);
  await place.ask('start');
  await allTheSame(pages, native, digest, 'behind a turn that was cut off');

  const stranger = await forkInPage('stranger', { ...master, token: '0'.repeat(64) }, place.schema);
  same(await stranger.evaluate('turn()'), 'lost by dial', 'a token that is none');
  await native.db.close();
});

// `rx serve` over a journal with these documents: its port.
async function served(journal, schema, docs = []) {
  const seed = await open(child(journal, { program }));
  const todos = await seed.collection('todos', schema);
  for (const it of docs) await todos.insert(it);
  await seed.close();
  const port = await freePort();
  start(program, ['serve', journal, 'todos', `${port}`, '1000000']);
  await until(() => listens(port), '`rx serve` listens');
  return port;
}

// The URL of a WebSocket that websockify leads to a port.
async function websockify(port) {
  const front = await freePort();
  const origin = ['--auth-plugin', 'ExpectOrigin', '--auth-source', site.origin];
  start('websockify', [...origin, `127.0.0.1:${front}`, `127.0.0.1:${port}`]);
  await until(() => listens(front), 'websockify listens');
  return `ws://127.0.0.1:${front}`;
}

const todosSchema = JSON.parse(readFileSync(join(root, 'server/todos.json'), 'utf8'));

test('pages and a process meet at rx serve behind websockify', async (folder) => {
  const schema = todosSchema;
  const first = { id: 'a', title: 'From the master', done: false, edited: 1 };
  const port = await served(join(folder, 'master'), schema, [first]);
  const url = await websockify(port);
  const pages = [await forkInPage('one', url, schema), await forkInPage('two', url, schema)];
  const native = await forkOfProcess(folder, 'native', port, schema);
  await pages[0].run(() => todos.insert({ id: 'b', title: 'From a page', done: false, edited: 2 }));
  await native.todos.insert({ id: 'c', title: 'From a process', done: false, edited: 3 });
  await allTheSame(pages, native, null, 'writes on both sides');
  same((await native.todos.digest()).count, 3, 'documents');
  await native.db.close();
});

// ---- links that fail

const handlers = [{ handler: 'master_wins' }, { handler: 'fork_wins' }, newest, { handler: 'join' }];

// Numbers below a limit, as a seed says.
function numbersOf(seed) {
  let state = seed;
  return (most) => {
    state = (Math.imul(state, 1_103_515_245) + 12_345) & 0x7fffffff;
    return Math.floor((state / 0x80000000) * most);
  };
}

function editAtRandom(below) {
  const draw = below(20), id = `k${below(12)}`, edited = below(8);
  const titles = ['', 'Bread', 'Milch, 牛乳', '\u0000 "\\', '\u{1F600}'.repeat(80)];
  if (draw < 14) return ['upsert', { id, title: titles[below(titles.length)], done: below(2) === 1, edited }];
  return draw < 17 ? ['remove', id] : ['patch', id, { edited }];
}

// Edits of what isn't there are refused.
const play = async (todos, edits) => {
  for (const [call, ...words] of edits) {
    await todos[call](...words).catch((fault) => { if (fault.word !== 'no_document') throw fault; });
  }
};

/** A page and a process for each handler, as forks behind links of their own that fail. */
async function forksBehindLinks(folder, name, place, port) {
  const forks = [];
  const behind = async () => (await place.ask(`link ${port} ${forks.length}`));
  for (const how of handlers) {
    const page = await forkInPage(`${name}${forks.length}`, await websockify(await behind()), place.schema, { how });
    forks.push({
      edit: (edits) => page.evaluate(`(${play})(todos, ${JSON.stringify(edits)})`),
      turn: (options) => page.run((options) => turn(options), options),
      quiet: () => page.evaluate('quiet()'),
      digest: () => page.evaluate('todos.digest()'),
    });
    const native = await forkOfProcess(folder, `${name}${forks.length}`, await behind(), place.schema, how);
    forks.push({
      edit: (edits) => play(native.todos, edits),
      turn: async (options) => (await native.db.turn('sync', options)).end,
      quiet: native.quiet,
      digest: () => native.todos.digest(),
    });
  }
  return forks;
}

/** Edits and turns of all forks, as a seed says. The digest of all once they are quiet, and how turns ended. */
async function playForks(forks, place, rounds) {
  const below = numbersOf(7_919), ends = {};
  for (let round = 0; round < rounds; round++) {
    for (const it of forks) {
      await it.edit(Array.from({ length: below(4) }, () => editAtRandom(below)));
      const end = (await it.turn({ batch: [1, 2, 5, 100][below(4)] })).split(' ')[0];
      ends[end] = (ends[end] ?? 0) + 1;
    }
  }
  await place.ask('calm');
  for (const it of [...forks, ...forks]) same(await it.quiet(), true, 'a fork is quiet');
  const digests = new Set();
  for (const it of forks) digests.add(text(await it.digest()));
  same(digests.size, 1, `digests of ${forks.length} forks: ${[...digests]}`);
  return { digest: [...digests][0], ends };
}

test('pages and processes of every handler, over links that lose and repeat', async (folder) => {
  const place = await standing(join(folder, 'place')), rounds = 20;
  const mine = await playForks(await forksBehindLinks(folder, 'server', place, place.port), place, rounds);
  same(text(await place.ask('digest')), mine.digest, 'the server and its forks');
  const port = await served(join(folder, 'master'), place.schema);
  const due = await playForks(await forksBehindLinks(folder, 'served', place, port), place, rounds);
  same(mine.digest, due.digest, 'the server beside `rx serve`');
  same(mine.ends.lost > rounds, true, `turns that were lost: ${mine.ends.lost}`);
  console.log(JSON.stringify(mine.ends));
});

test('a page by wss, where its browser trusts the certificate', async (folder) => {
  const place = await standing(join(folder, 'place'), 'tls');
  const other = await launch(join(folder, 'other'), '--ignore-certificate-errors');
  try {
    const master = { url: `wss://127.0.0.1:${place.websocket}/todos`, token: place.secret };
    const stranger = await forkInPage('stranger', master, place.schema);
    same(await stranger.evaluate('turn()'), 'lost by dial', 'a certificate that nobody signed');
    const page = await forkInPage('page', master, place.schema, { browser: other });
    await page.run(() => todos.insert({ id: 'a', title: 'By wss', done: false, edited: 1 }));
    same(await page.evaluate('quiet()'), true, 'a turn by wss');
    same(text(await page.evaluate('todos.digest()')), text(await place.ask('digest')), 'the server and the page');
  } finally {
    await other.close();
  }
}, ['openssl']);

// ---- the demonstration

const url = (port) => `${site.origin}/server/demo/?master=ws://127.0.0.1:${port}/todos`;
const state = (page, it) => page.until(`document.getElementById('status').dataset.state === '${it}'`, 60);
const titles = (page) => page.evaluate(`[...document.querySelectorAll('li span')].map((it) => it.textContent).join()`);

async function add(page, title) {
  await page.evaluate(`document.querySelector('#add input').focus()`);
  await page.type(title);
  await page.key('Enter');
}

async function enter(page, secret, due = 'in sync') {
  await state(page, 'waiting');
  await page.evaluate(`document.querySelector('#enter input').focus()`);
  await page.type(secret);
  await page.key('Enter');
  await state(page, due);
}

test('two browsers whose network goes and comes: in sync within two seconds', async (folder) => {
  const place = await standing(join(folder, 'place'));
  const between = await network(place.websocket);
  const other = await launch(join(folder, 'other'));
  try {
    const pages = [
      await chromium.page(url(between.port), { width: 1000, height: 700 }),
      await other.page(url(between.port), { width: 390, height: 700 }),
    ];
    for (const page of pages) await enter(page, place.secret);
    const isOnline = async (is) => {
      const none = { latency: 0, downloadThroughput: -1, uploadThroughput: -1 };
      for (const page of pages) {
        await page.on('Network.enable');
        await page.on('Network.emulateNetworkConditions', { offline: !is, ...none });
      }
    };
    let due = [];
    for (const how of ['cut', 'silent']) {
      between.turn(how);
      await isOnline(false);
      for (const [n, page] of pages.entries()) {
        await add(page, `${how} ${n}`);
        await page.until(`document.getElementById('status').textContent.includes('To be sent later: 1.')`, 60);
      }
      due = [...due, `${how} 0`, `${how} 1`];
      between.turn('open');
      const since = performance.now();
      await isOnline(true);
      await until(async () => {
        for (const page of pages) if (await titles(page) !== due.join()) return false;
        return true;
      }, `${how}: ${due}`);
      for (const page of pages) await state(page, 'in sync');
      const ms = Math.round(performance.now() - since);
      same(ms < 2_000, true, `${how}: in sync after ${ms} ms, and within two seconds`);
      console.log(`${how}: in sync after ${ms} ms`);
    }
  } finally {
    await other.close();
    between.close();
  }
});

test('the demonstration on two browsers: edits apart, then in sync', async (folder) => {
  const place = await standing(join(folder, 'place'));
  const other = await launch(join(folder, 'other'));
  try {
    const own = url(place.websocket);
    const sizes = [{ width: 1000, height: 700 }, { width: 390, height: 700 }];
    const pages = [await chromium.page(own, sizes[0]), await other.page(own, sizes[1])];
    const picture = async (name) => {
      if (!pictures) return;
      for (const [n, page] of pages.entries()) {
        writeFileSync(join(pictures, `${name}-${n}.png`), await page.picture());
      }
    };
    await enter(pages[1], '0'.repeat(64), 'offline');
    await picture('0-another-token');
    await pages[1].evaluate(`document.getElementById('forget').click()`);
    for (const page of pages) {
      await enter(page, place.secret);
      same(await page.evaluate(`document.querySelector('#enter').offsetParent`), null, 'the form of the token');
    }
    const tab = await chromium.page(own, sizes[0]);
    await tab.until(`document.getElementById('status').textContent.includes('another tab')`, 60);
    await tab.close();
    await add(pages[0], 'Bake bread');
    await add(pages[1], 'Buy milk');
    const all = (due) => until(async () => {
      for (const page of pages) if (await titles(page) !== due) return false;
      return true;
    }, due);
    await all('Bake bread,Buy milk');
    await picture('1-in-sync');

    await place.ask('kill');
    await add(pages[0], 'Written offline');
    await add(pages[1], 'Also offline');
    const box = `document.querySelector('[aria-label="Buy milk: done"]')`;
    await pages[1].evaluate(`${box}.click()`);
    for (const page of pages) await state(page, 'offline');
    await picture('2-offline');
    await place.ask('start');
    for (const page of pages) await page.evaluate(`dispatchEvent(new Event('online'))`);
    const due = 'Also offline,Bake bread,Written offline,Buy milk';
    await all(due);
    await picture('3-again');
    await pages[0].go(own);
    await state(pages[0], 'in sync');
    same(await titles(pages[0]), due, 'after a reload, with the token that the browser keeps');
    for (const page of pages) await page.evaluate(`following.now()`);
    const held = async () => text(await place.ask('digest'));
    await until(async () => text(await pages[0].evaluate('todos.digest()')) === await held(), 'one digest');
  } finally {
    await other.close();
  }
});

await tryOne(tests);
