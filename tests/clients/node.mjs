// The client for JavaScript over a child process.
import { spawn, spawnSync } from 'node:child_process';
import {
  chmodSync, cpSync, existsSync, mkdirSync, readFileSync, readdirSync, readlinkSync, renameSync, statSync, symlinkSync,
  writeFileSync,
} from 'node:fs';
import { connect, createServer } from 'node:net';
import { join } from 'node:path';
import { child as childOf, compact as compactWith, open as openWith, wasm } from '../../clients/js/rx.mjs';
import { behaviours } from './behaviours.mjs';
import { emissionsOf, playScript } from './play.mjs';
import { schema } from './schema.mjs';
import { examples, journalName, program, quickstart, root, same, tryOne } from './shared.mjs';

const tests = {};
const client = JSON.stringify(join(root, 'clients/js/rx.mjs'));
const child = (journal, options) => childOf(journal, { program, ...options });
const open = (transport, options) => openWith(transport, { clock: () => 0, ...options });

/** What a program of Node does that has the client, in words of its own. */
function node(code, { env, cwd } = {}) {
  const words = ['--input-type=module', '-e', `import { child, open } from ${client};\n${code}`];
  const options = { encoding: 'utf8', cwd, env: { ...process.env, RX: program, ...env }, timeout: 60000 };
  return spawnSync(process.execPath, words, options);
}

for (const { name, after, script, out } of examples()) {
  tests[`examples/${name}, by the calls`] = async (folder) => {
    const path = join(folder, 'journal'), native = join(folder, 'native');
    if (after) {
      const first = examples().find((it) => it.name === after).script;
      for (const it of [path, native]) spawnSync(program, ['run', it], { input: first });
    }
    const played = await playScript(open, child(path), script);
    same(played.written, script, 'the lines that were written');
    same(played.output, out, 'the output');
    same(JSON.stringify(played.heard), JSON.stringify(emissionsOf(out)), 'what observers heard');
    spawnSync(program, ['run', native], { input: script });
    same(readFileSync(path, 'latin1'), readFileSync(native, 'latin1'), 'the journal');
  };
}

for (const [name, test] of Object.entries(behaviours)) {
  tests[name] = (folder) => {
    const transport = (options) => child(join(folder, journalName()), options);
    return test({ open, transport });
  };
}

tests['a child that is killed in mid-call'] = async (folder) => {
  const path = join(folder, 'journal');
  let running;
  const db = await open(async (hooks) => (running = await child(path)(hooks)));
  const c = await db.collection('c', schema);
  const stopped = new Promise((go) => c.observe({ limit: 1 }).subscribe({ error: go }));
  const answered = [];
  const calls = Array.from({ length: 3000 }, (_, i) => c.insert({ id: `k${i}`, n: i }).then(() => {
    answered.push(`k${i}`);
    if (answered.length === 20) running.kill();
  }));
  const faults = (await Promise.allSettled(calls)).filter((it) => it.status === 'rejected').map((it) => it.reason);
  same(faults.length > 0 && faults.every((it) => it.name === 'Stopped' && it.stop === 'killed'), true, 'each open call fails');
  same((await stopped).stop, 'killed', 'the observer');
  same((await c.count().catch((it) => it.stop)), 'killed', 'a later call');
  same((await db.stopped).stop, 'killed', 'stopped');
  same(await db.close().catch((it) => it.stop), 'killed', 'close');
  const again = await open(child(path));
  const rows = await (await again.collection('c')).find();
  same(answered.length >= 20 && answered.every((id) => rows.some((it) => it.id === id)), true, 'what was answered is there');
  await again.close();
};

const freePort = () => new Promise((go) => {
  const door = createServer().listen(0, '127.0.0.1', () => {
    const { port } = door.address();
    door.close(() => go(port));
  });
});

// Dials until it is answered.
const dialled = (port) => new Promise((go) => {
  const wire = connect(port, '127.0.0.1', () => { wire.end(); go(); });
  wire.on('error', () => setTimeout(() => dialled(port).then(go), 10));
});

tests['a fork of a master that another process serves'] = async (folder) => {
  const path = join(folder, 'master'), port = await freePort();
  const before = await open(child(path));
  await (await before.collection('m', schema)).bulk([{ id: 'a', n: 1 }, { id: 'b', n: 1 }]);
  await before.close();
  const served = spawn(program, ['serve', path, 'm', String(port), '3'], { stdio: ['ignore', 'pipe', 'inherit'] });
  let said = '';
  served.stdout.on('data', (it) => { said += it; });
  const over = new Promise((go) => served.on('close', go));
  await dialled(port);

  const db = await open(child(join(folder, 'fork')));
  const fork = await db.collection('f', schema);
  await db.replicate({ name: 'r', fork: 'f', port, handler: 'fork_wins' });
  const heard = [];
  fork.observe({ sort: [{ n: 'desc' }], limit: 1 }).subscribe((rows) => heard.push(rows.map((it) => it.n).join()));
  const told = ({ end, each }) => `${end}: ${each.map((it) => `${it.sent} ${it.rows}`).join(', ')}`;
  same(told(await db.turn('r')), 'quiet: pull a,b', 'a first pull');
  await fork.patch('a', { n: 5 });
  await fork.insert({ id: 'ä', n: 7 });
  same(told(await db.turn('r', { batch: 1 })), 'quiet: push a, push ä, pull a, pull ä, pull ', 'edits');
  same(heard.join(' '), ' 1 5 7', 'emissions');
  const mine = await fork.digest();
  await db.close();

  same(await over, 0, 'the status of the server');
  const due = [0, 1, 5].map((requests, i) => `{"connection":${i + 1},"end":"peer","requests":${requests}}\n`);
  same(said, due.join(''), 'what it said');
  const after = await open(child(path));
  const master = await after.collection('m');
  same(JSON.stringify(await master.digest()), JSON.stringify(mine), 'both sides');
  same((await master.get('a')).rev, '2-m', 'a push');
  await after.close();
};

tests['a journal that can not be had: open rejects, with the program\'s stop word'] = async (folder) => {
  const path = join(folder, 'journal');
  writeFileSync(path, 'something else than a journal');
  mkdirSync(join(folder, 'inner'));
  const cases = [
    [path, 'not_journal 7', `not_journal: ${path} is none`],
    [join(folder, 'none/journal'), 'disk 3', 'disk: ENOENT'],
    [join(folder, 'inner'), 'disk 3', 'disk: EISDIR'],
    ['', 'usage 2', 'usage: run ""'],
    ['--help', 'usage 2', 'usage: run "--help"'],
  ];
  for (const [journal, due, words] of cases) {
    const fault = await open(child(journal)).catch((it) => it);
    same(`${fault.stop} ${fault.status} ${fault.message.slice(0, words.length)}`, `${due} ${words}`, journal);
    const db = await open(child(journal), { clock: null });
    same((await db.collection('c', schema).catch((it) => it)).stop, due.split(' ')[0], 'the first call');
    same((await db.close().catch((it) => it)).stop, due.split(' ')[0], 'close');
  }
  same(readFileSync(path, 'utf8'), 'something else than a journal', 'it is left alone');
};

tests['what is no transport and no path is said so'] = async () => {
  const told = (call) => call().then(() => null, (it) => `${it.name} ${it.message}`);
  const cases = [
    [() => openWith('todos.journal'), 'TypeError open takes child(journal)'],
    [async () => openWith(childOf(undefined)), 'TypeError a journal is named by its path, and not by undefined'],
    [() => openWith(wasm('out', 'todos')), 'Stopped start: it wants a page of https or localhost'],
  ];
  for (const [call, due] of cases) same((await told(call))?.slice(0, due.length), due, due);
};

tests['a journal that another process has is in use, and may be waited for'] = async (folder) => {
  const path = join(folder, 'journal'), first = await open(child(path));
  await first.collection('c', schema);
  const fault = await open(child(path)).catch((it) => it);
  same(fault.message, `in_use: another process has ${path}`, 'in use');
  let times = 0, isOpen = false;
  const second = open(child(path), { waiting: () => { times += 1; } });
  second.then(() => { isOpen = true; });
  await new Promise((go) => setTimeout(go, 700));
  same(`${times} ${isOpen}`, '1 false', 'it waits');
  await first.close();
  same(await (await (await second).collection('c')).count(), 0, 'and goes on');
  await (await second).close();
};

tests['the program is found by argument, RX or the path, or it is said how to get it'] = async (folder) => {
  const bin = join(folder, 'bin');
  mkdirSync(bin);
  symlinkSync(program, join(bin, 'rx'));
  const code = (options) => `
    const db = await open(child('journal', ${options})).catch((it) => it);
    console.log(db.close ? (await db.close(), 'open') : db.message);`;
  const told = (options, env) => node(code(options), { env, cwd: folder }).stdout;
  const path = join(folder, 'none');
  same(told('{}', { PATH: bin, RX: '' }), 'open\n', 'on the path');
  same(told('{}', { PATH: path }), 'open\n', 'by RX');
  same(told(`{ program: '${program}' }`, { PATH: path, RX: path }), 'open\n', 'by its argument');
  const how = 'tools/install ~/.local';
  const none = told('{}', { PATH: path, RX: '' }), named = told('{}', { RX: path });
  same(none.startsWith('start: no rx on the path (ENOENT)') && none.includes(how), true, none);
  same(named.startsWith(`start: no program at ${path} (ENOENT)`) && named.includes(how), true, named);
};

tests['Node ends where close is forgotten, once all is answered and heard'] = async (folder) => {
  const { status, signal, stdout, stderr } = node(`
    const db = await open(child('journal'));
    const c = await db.collection('c', ${JSON.stringify(schema)});
    const next = (rows) => console.log(rows.length);
    c.observe({ limit: 1 }).subscribe({ next, complete: () => console.log('over') });
    await c.insert({ id: 'a' });
    c.insert({ id: 'b' });
    for await (const rows of c.observe()) console.log(rows.length);
    console.log('left');`, { cwd: folder });
  same(`${status} ${signal} ${stdout}${stderr}`, '0 null 0\n1\n2\nover\nleft\n', 'it ends');
  const db = await open(child(join(folder, 'journal')), { waiting() {} });
  same(await (await db.collection('c')).count(), 2, 'what is kept');
  await db.close();
};

tests['a refused query that nobody takes is a warning, and Node goes on'] = async (folder) => {
  const { status, stdout, stderr } = node(`
    const db = await open(child('journal'));
    const c = await db.collection('c', ${JSON.stringify(schema)});
    c.observe({ limit: -1 }).subscribe(() => {});
    console.log(await c.count());
    await db.close();`, { cwd: folder });
  const said = stderr.includes('Refused: query (16): limit is -1, and from 0 to 1000000000');
  same(`${status} ${stdout}${said}`, '0 0\ntrue', stderr);
};

tests['a refusal leads to the line that asked'] = async (folder) => {
  const { stderr } = node(`
    const db = await open(child('journal'));
    const c = await db.collection('c', ${JSON.stringify(schema)});
    async function look() { return c.get('none'); }
    async function work() { await look(); }
    await work();`, { cwd: folder });
  same(/^ +at async work \(file:/m.test(stderr), true, stderr);
};

// Lines as a program would write them, to be delivered in whatever pieces.
const scripted = (answers, pieces) => async (hooks) => ({
  send(text) {
    for (const line of text.split('\n').slice(0, -1)) {
      const answer = answers[line];
      if (answer === undefined) throw new Error(`not asked for: ${line}`);
      setTimeout(() => { for (const piece of answer.match(pieces)) hooks.output(piece); });
    }
  },
  end: () => setTimeout(() => hooks.ended({ status: 0 })),
  kill() {},
});

tests['emissions that are still to come when it is closed are heard, without a word'] = async (folder) => {
  const { status, stdout, stderr } = node(`
    const db = await open(child('journal'));
    const c = await db.collection('c', ${JSON.stringify(schema)});
    await c.bulk(Array.from({ length: 500 }, (_, n) => ({ id: 'k' + n, n })));
    let heard = 0;
    await c.observe().subscribe(() => { heard += 1; }).begun;
    for (let n = 0; n < 200; n++) c.patch('k' + n, { n: n + 1 });
    await db.close();
    console.log(heard);`, { cwd: folder });
  same(`${status} ${stdout}${stderr}`, '0 201\n', 'what was heard');
};

tests['replicate and turn, with the exchanges, over a scripted program'] = async () => {
  const exchanges = [
    '{"conflicts":["ä"],"exchange":1,"rows":["ä","b"],"sent":"push"}',
    '{"exchange":2,"place":{"id":"b","lwt":3},"rows":["b"],"sent":"pull"}',
  ];
  const answers = {
    '{"do":"replicate","name":"r","fork":"f","master":"m","handler":"greater","field":"n"}': '{"line":1,"ok":"replicate"}\n',
    '{"do":"turn","name":"r","batch":2}':
      `${exchanges.join('\n')}\n{"end":"quiet","exchanges":2,"line":2,"ok":"turn"}\n`,
    '{"do":"turn","name":"r"}': '{"end":"quiet","exchanges":0,"line":3,"ok":"turn"}\n',
    '{"do":"turn","name":"s"}': '{"code":18,"line":4,"refused":"no_replication"}\n',
  };
  for (const pieces of [/[^]/g, /[^]{1,7}/g, /[^]+/g]) {
    const db = await open(scripted(answers, pieces), { clock: null });
    await db.replicate({ name: 'r', fork: 'f', master: 'm', handler: 'greater', field: 'n' });
    const turn = await db.turn('r', { batch: 2 });
    same(JSON.stringify(turn), `{"end":"quiet","exchanges":2,"each":[${exchanges}]}`, 'a turn');
    same(JSON.stringify(await db.turn('r')), '{"end":"quiet","exchanges":0,"each":[]}', 'the next');
    same((await db.turn('s').catch((it) => it)).code, 18, 'none');
    await db.close();
  }
};

tests['a sweep, with the exchanges of each turn, over a scripted program'] = async () => {
  const push = '{"conflicts":["ä"],"exchange":1,"rows":["ä","b"],"sent":"push"}';
  const pull = (exchange, id) => `{"exchange":${exchange},"place":{"id":"${id}","lwt":3},"rows":["${id}"],"sent":"pull"}`;
  const made = (end, exchanges, pass, replication) =>
    `{"end":"${end}","exchanges":${exchanges},"pass":"${pass}","replication":"${replication}"`;
  const turns = [made('quiet', 2, 'up', 's'), made('quiet', 0, 'up', 'r'), made('more', 1, 'down', 'r')];
  const each = [[push, pull(2, 'b')], [], [pull(1, 'ä')]];
  const lines = turns.flatMap((it, at) => [...each[at], `${it}}`]);
  const answers = {
    '{"do":"sweep","name":"m","batch":2,"budget":5}': `${lines.join('\n')}\n{"end":"more","line":1,"ok":"sweep","turns":3}\n`,
    '{"do":"turn","name":"r"}': `${pull(1, 'd')}\n{"end":"quiet","exchanges":1,"line":2,"ok":"turn"}\n`,
    '{"do":"sweep","name":"m"}': `${turns[1]}}\n{"end":"quiet","line":3,"ok":"sweep","turns":1}\n{"emit":"q","rows":[]}\n`,
    '{"do":"sweep","name":"l"}': '{"end":"quiet","line":4,"ok":"sweep","turns":0}\n',
    '{"do":"sweep","name":"k"}': '{"code":19,"line":5,"refused":"no_handler"}\n',
  };
  const due = (indexes) => `[${indexes.map((at) => `${turns[at]},"each":[${each[at]}]}`)}]`;
  for (const pieces of [/[^]/g, /[^]{1,7}/g, /[^]+/g]) {
    const db = await open(scripted(answers, pieces), { clock: null });
    const first = await db.sweep('m', { batch: 2, budget: 5 });
    same(JSON.stringify(first), `{"end":"more","turns":${due([0, 1, 2])}}`, 'a sweep');
    same(JSON.stringify(await db.turn('r')), `{"end":"quiet","exchanges":1,"each":[${pull(1, 'd')}]}`, 'a turn');
    const whole = await db.line('{"do":"sweep","name":"m"}');
    same(JSON.stringify(whole), `{"end":"quiet","line":3,"ok":"sweep","turns":1,"each":${due([1])}}`, 'its line');
    same(JSON.stringify(await db.sweep('l')), '{"end":"quiet","turns":[]}', 'no turns');
    const words = "no_handler (19): a turn of k would go by a handler that isn't there";
    same((await db.sweep('k').catch((it) => it)).message, words, 'no handler');
    await db.close();
  }
};

tests['output that is no answer ends the database'] = async () => {
  const db = await open(scripted({ '{"do":"restart"}': 'Segmentation fault\n' }, /[^]+/g), { clock: null });
  same((await db.restart().catch((it) => it)).stop, 'output', 'output');
};

tests['an observer that throws disturbs no other'] = async (folder) => {
  const { stdout, stderr } = node(`
    const faults = [];
    process.on('uncaughtException', (it) => faults.push(it.message));
    const db = await open(child('journal'));
    const c = await db.collection('c', ${JSON.stringify(schema)});
    const query = c.observe();
    let heard = 0;
    query.subscribe(() => { throw new Error('its own'); });
    query.subscribe(() => { heard += 1; });
    await c.insert({ id: 'a' });
    await c.count();
    await db.close();
    await new Promise((go) => setTimeout(go, 20));
    console.log(heard, faults.join());`, { cwd: folder });
  same(stdout, '2 its own,its own\n', stderr);
};

/** A master and a fork with an edit to be pushed, in more bytes than that takes. */
async function longJournal(path) {
  const db = await open(child(path), { clock: Date.now });
  const [master, fork] = [await db.collection('m', schema), await db.collection('f', schema)];
  await db.replicate({ name: 'r', fork: 'f', master: 'm', handler: 'fork_wins' });
  await Promise.all(Array.from({ length: 200 }, (_, n) => master.upsert({ id: `k${n % 3}`, n })));
  await master.remove('k0');
  await db.turn('r');
  await fork.patch('k1', { n: 1000 });
  await db.close();
  return readFileSync(path, 'latin1');
}

/** What a report tells of a journal but for its bytes and its records, and its epoch. */
function report(path) {
  const { stdout, status } = spawnSync(program, ['check', path], { encoding: 'utf8' });
  same(status, 0, stdout);
  return stdout.replace(/"end":\d+/, '').replace(/"records":\d+/, '');
}

/** A program in the place of rx, by lines of a shell: $1 is `compact`, $2 the journal and $3 its copy. */
function standIn(folder, ...lines) {
  const path = join(folder, journalName());
  writeFileSync(path, ['#!/bin/sh', ...lines, ''].join('\n'), { mode: 0o755 });
  return path;
}

const compact = (journal, options) => compactWith(journal, { program, ...options });
const stopOf = (call) => call.then(() => 'made', (it) => it.stop ?? it);

tests['a compacted journal holds the same in fewer bytes, and is played on'] = async (folder) => {
  const path = join(folder, 'journal');
  const before = await longJournal(path), told = report(path);
  chmodSync(path, 0o640);
  const made = await compact(path), size = statSync(path).size;
  same(JSON.stringify(made), JSON.stringify({ bytes: size, from: before.length, records: made.records }), 'the answer');
  same(`${size < before.length / 5} ${statSync(path).mode & 0o777} ${readdirSync(folder)}`, 'true 416 journal', 'the file');
  same(report(path), told, 'what it holds');
  const db = await open(child(path), { clock: Date.now });
  const [master, fork] = [await db.collection('m', schema), await db.collection('f', schema)];
  same(`${master.isNew} ${await master.count()} ${(await fork.get('k1')).doc.n}`, 'false 2 1000', 'documents');
  const { each } = await db.turn('r');
  same(each.map((it) => `${it.sent} ${it.rows}`).join(), 'push k1,pull k1', 'the fork goes on');
  same(JSON.stringify(await master.digest()), JSON.stringify(await fork.digest()), 'both sides');
  await db.close();
  same((await compact(path)).from > size, true, 'what was written since');
};

tests['a journal that can not be compacted is left as it is'] = async (folder) => {
  const path = join(folder, 'journal'), text = join(folder, 'text');
  await longJournal(path);
  writeFileSync(text, 'something else than a journal');
  const db = await open(child(path));
  const opened = readFileSync(path, 'latin1');
  const fault = await compact(path).catch((it) => it);
  same(fault.message, `in_use: another process has ${path}`, 'in use');
  same(readFileSync(path, 'latin1'), opened, 'as it was');
  await db.close();
  const before = readFileSync(path, 'latin1');
  const full = await compact(path, { maxJournal: 100 }).catch((it) => it);
  same(`${full.stop} ${full.status} ${full.limit} ${full.would > 100}`, 'full 8 100 true', 'full');
  const cases = [
    [text, 'not_journal 7', `not_journal: ${text} is none`],
    [join(folder, 'absent'), 'disk null', 'disk: ENOENT'],
    [join(folder, 'none/journal'), 'disk null', 'disk: ENOENT'],
    [folder, 'disk null', 'disk: EISDIR'],
    ['', 'disk null', 'disk: ENOENT'],
  ];
  for (const [journal, due, words] of cases) {
    const { stop, status, message } = await compact(journal).catch((it) => it);
    same(`${stop} ${status} ${message.slice(0, words.length)}`, `${due} ${words}`, journal);
  }
  same(await stopOf(compact(path, { program: join(folder, 'none') })), 'start', 'no program');
  same((await compact(5).catch((it) => it)).name, 'TypeError', 'no path');
  same(`${readdirSync(folder)} ${readFileSync(text)}`, 'journal,text something else than a journal', 'the files');
  same(readFileSync(path, 'latin1'), before, 'as it was');
};

tests['what a killed compaction left is removed by the next, and a link stays one'] = async (folder) => {
  const [real, links] = ['real', 'links'].map((it) => join(folder, it));
  for (const it of [real, links]) mkdirSync(it);
  const path = join(real, 'journal'), link = join(links, 'link');
  symlinkSync('../real/journal', link);
  const before = await longJournal(path);
  const killed = standIn(folder, 'printf x > "$3"; kill -9 $$');
  same(await stopOf(compact(link, { program: killed })), 'killed', 'killed');
  same(readFileSync(path, 'latin1'), before, 'as it was');
  const others = ['journal-2', 'journal.compact', 'journal.compact-notes'];
  for (const it of [...others, 'journal.compact-0123456789abcdef']) writeFileSync(join(real, it), before.slice(0, 50));
  const { from, bytes } = await compact(link);
  same(`${from} ${bytes}`, `${before.length} ${statSync(path).size}`, 'the journal');
  same(`${readlinkSync(link)} ${readdirSync(links)}`, '../real/journal link', 'the link');
  same(readdirSync(real).sort().join(), ['journal', ...others].sort().join(), 'the files');
};

tests['a journal that another process had meanwhile keeps what that wrote'] = async (folder) => {
  const path = join(folder, 'journal');
  await longJournal(path);
  const cases = [
    [`${program} run "$2" < /dev/null`, 'in_use', 14],
    ['cp "$2" "$2.new"; mv "$2.new" "$2"', 'in_use', 0],
    ['rm "$3"', 'in_use', 0],
    ['mv "$2" "$2.old"', 'disk', 0],
  ];
  for (const [meanwhile, due, more] of cases) {
    const before = readFileSync(path, 'latin1').slice(0, -1);
    const other = standIn(folder, `${program} "$@"`, meanwhile);
    same(await stopOf(compact(path, { program: other })), due, meanwhile);
    if (existsSync(`${path}.old`)) renameSync(`${path}.old`, path);
    const after = readFileSync(path, 'latin1');
    same(`${after.startsWith(before)} ${after.length - before.length - 1}`, `true ${more}`, meanwhile);
    same(readdirSync(folder).filter((it) => it.includes('compact')).join(), '', meanwhile);
  }
};

/** What a quickstart of clients/README.md says in two runs, beside a copy of the client. */
function twice(folder, name) {
  cpSync(join(root, 'clients/js/rx.mjs'), join(folder, 'rx.mjs'));
  writeFileSync(join(folder, name), quickstart(name));
  const options = { cwd: folder, encoding: 'utf8', env: { ...process.env, RX: program } };
  return [1, 2].map(() => {
    const { stdout, stderr, status } = spawnSync(process.execPath, [name], options);
    same(`${status} ${stderr}`, '0 ', stdout);
    return stdout;
  });
}

tests['the quickstart of clients/README.md'] = async (folder) => {
  const [, second] = twice(folder, 'quickstart.mjs');
  same(second.includes('Bake bread'), true, 'the journal kept it');
};

tests['the fork of clients/README.md'] = async (folder) => {
  const milk = "on the server: [ 'Buy milk' ]\n", quiet = 'quiet []\n';
  const [first, second] = twice(folder, 'synced.mjs');
  same(first, `on the server: []\n${milk}${quiet}`, 'the first run');
  same(second, `${milk}${milk}${quiet}`, 'the second');
};

await tryOne(tests);
