// The package for JavaScript: packed, installed into an empty folder, checked by tsc, bundled by esbuild and
// observed by RxJS.
import { spawnSync } from 'node:child_process';
import { cpSync, existsSync, mkdirSync, readFileSync, readdirSync, symlinkSync, writeFileSync } from 'node:fs';
import { join } from 'node:path';
import { schema } from './schema.mjs';
import { program, quickstart, root, same, tryOne } from './shared.mjs';

const tests = {};
const test = (name, needs, work) => { tests[name] = Object.assign(work, { needs }); };

/** What a command says, which has to end well unless another status is due. */
function run(command, words, { cwd, env, due = 0 }) {
  const options = { cwd, encoding: 'utf8', env: { ...process.env, ...env } };
  const { status, stdout, stderr, error } = spawnSync(command, words, options);
  const said = stdout + stderr;
  if (status !== due) throw new Error(`${command} ${words.join(' ')}: ${error ?? status}\n${said}`);
  return said;
}

// Nobody serves a registry there, and nothing is cached.
const npm = (words, cwd, folder = cwd) => run('npm', words, {
  cwd,
  env: {
    npm_config_registry: 'http://127.0.0.1:1',
    npm_config_cache: join(folder, 'cache'),
    npm_config_fetch_retries: '0',
    npm_config_audit: 'false',
  },
});

/** A folder that has the package installed. */
function installed(folder) {
  npm(['pack', '--pack-destination', folder], join(root, 'clients', 'js'), folder);
  const app = join(folder, 'app');
  mkdirSync(app);
  npm(['install', join('..', readdirSync(folder).find((it) => it.endsWith('.tgz')))], app);
  return app;
}
const named = (code) => code.replaceAll("'./rx.mjs'", "'rx-client'");

test('packed, installed into an empty folder without network, and used', ['npm', 'program'], (folder) => {
  const app = installed(folder);
  writeFileSync(join(app, 'quickstart.mjs'), named(quickstart('quickstart.mjs')));
  const said = run(process.execPath, ['quickstart.mjs'], { cwd: app, env: { RX: program } });
  same(said.includes('refused: 14 conflict'), true, said);
  same(existsSync(join(app, 'todos.journal')), true, 'the journal');
});

test('what a page needs is copied into its folder', ['npm', 'wasm'], (folder) => {
  const app = installed(folder);
  run('npx', ['rx-client', 'page', 'public'], { cwd: app });
  const files = readdirSync(join(root, 'wasm/out')).map((it) => [`wasm/out/${it}`, `out/${it}`]);
  for (const [own, copy] of [['clients/js/rx.mjs', 'rx.mjs'], ...files]) {
    const [here, there] = [join(root, own), join(app, 'public', copy)].map((it) => readFileSync(it));
    same(here.equals(there), true, copy);
  }
  const usage = run('npx', ['rx-client', 'pages'], { cwd: app, due: 2 });
  same(usage, 'usage: rx-client page FOLDER\n', 'another word');
});

const tsc = (cwd, words, due) => run('tsc', [
  '--strict', '--noEmit', '--checkJs', '--allowJs', '--target', 'es2022', '--module', 'nodenext',
  '--moduleResolution', 'nodenext', '--lib', 'es2022,dom,dom.iterable', ...words,
], { cwd, due });

test('the quickstarts by tsc --strict, beside a copy of the client', ['tsc'], (folder) => {
  for (const name of ['rx.mjs', 'rx.d.mts']) cpSync(join(root, 'clients/js', name), join(folder, name));
  const script = quickstart('index.html').match(/<script type="module">\n([^]*)<\/script>/)[1];
  for (const name of ['quickstart.mjs', 'synced.mjs']) writeFileSync(join(folder, name), quickstart(name));
  writeFileSync(join(folder, 'page.mjs'), script);
  tsc(folder, ['quickstart.mjs', 'synced.mjs', 'page.mjs']);
  // It is the types that were read: a wrong call is told.
  writeFileSync(join(folder, 'wrong.mjs'), "import { open } from './rx.mjs';\nopen(7);\n");
  const said = tsc(folder, ['wrong.mjs'], 2);
  same(said.includes("'number' is not assignable to parameter of type 'Transport'"), true, said);
});

test('types of what users write, and of the installed package', ['npm', 'tsc'], (folder) => {
  const app = installed(folder);
  writeFileSync(join(app, 'types.mts'), named(readFileSync(join(root, 'tests/clients/types.mts'), 'utf8')));
  tsc(app, ['types.mts']);
});

test('esbuild takes the client for a page, as a module and as a script', ['npm', 'esbuild'], (folder) => {
  const app = installed(folder);
  const code = "import { open, wasm } from 'rx-client';\nopen(wasm('out', 'todos'));\n";
  writeFileSync(join(app, 'page.mjs'), code);
  for (const format of ['esm', 'iife']) {
    const words = ['page.mjs', '--bundle', '--platform=browser', `--format=${format}`, `--outfile=${format}.js`];
    const said = run('esbuild', words, { cwd: app });
    same(/warning|error/i.test(said), false, said);
  }
});

const reactive = `
import { firstValueFrom, from, map, take, toArray } from 'rxjs';
import { child, open } from 'rx-client';

const db = await open(child('journal'));
const todos = await db.collection('todos', ${JSON.stringify(schema)});
const counts = from(todos.observe({}, 'all')).pipe(map((rows) => rows.length), take(3), toArray());
const heard = firstValueFrom(counts);
await todos.insert({ id: 'a' });
await todos.insert({ id: 'b' });
console.log((await heard).join());
console.log(await db.explain('all').catch((fault) => fault.word));
from(todos.observe({ limit: -1 })).subscribe({ error: (fault) => console.log(fault.message) });
from(todos.observe()).subscribe({ complete: () => console.log('complete') });
await new Promise((go) => { from(db.follow('none')).subscribe({ error: go }); });
// @ts-expect-error
from(todos.observe()).pipe(map((rows) => rows.nothing));
await todos.count();
await db.close();
`;

test('RxJS takes what is observed, with its types', ['npm', 'tsc', 'rxjs', 'program'], (folder) => {
  const app = installed(folder);
  symlinkSync('/usr/share/nodejs/rxjs', join(app, 'node_modules', 'rxjs'));
  writeFileSync(join(app, 'reactive.mjs'), reactive);
  tsc(app, ['--skipLibCheck', 'reactive.mjs']); // the types of RxJS want those of Node
  const said = run(process.execPath, ['reactive.mjs'], { cwd: app, env: { RX: program } });
  const refused = 'query (16): limit is -1, and from 0 to 1000000000';
  same(said, `0,1,2\nno_query\n${refused}\ncomplete\n`, 'what was heard');
});

await tryOne(tests);
