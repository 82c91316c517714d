// The client over WebAssembly in Chromium, and the page of todos. It wants wasm/out, as wasm/build.sh makes it.
// Pictures of the page go to the folder that PICTURES names, if there is one in the environment: conflict.png is
// clients/web/todos.png.
import { spawnSync } from 'node:child_process';
import { cpSync, mkdirSync, mkdtempSync, readFileSync, writeFileSync } from 'node:fs';
import { join } from 'node:path';
import { behaviours } from './behaviours.mjs';
import { launch, serve } from './chromium.mjs';
import { emissionsOf } from './play.mjs';
import { schema } from './schema.mjs';
import { examples, journalName, program, quickstart, root, same, tryOne } from './shared.mjs';

const pictures = process.env.PICTURES;
// A worker that counts what is written to its file, and what the page is told before all of that is synced.
const counting = `
  const handle = FileSystemSyncAccessHandle.prototype, { write, flush } = handle, post = self.postMessage;
  let early = 0, synced = true, bytes = 0;
  handle.write = function (piece, how) { synced = false; bytes += piece.length; return write.call(this, piece, how); };
  handle.flush = function () { flush.call(this); synced = true; };
  self.postMessage = (it) => {
    if (typeof it === 'string' && !synced) early += 1;
    if ('ended' in Object(it)) post.call(self, JSON.stringify({ emit: 'counted', rows: [{ early, bytes }] }) + '\\n');
    post.call(self, it);
  };`;
const counted = () => ({
  '/wasm/counting.mjs': counting,
  '/wasm/counted/rx.wasm': readFileSync(join(root, 'wasm/out/rx.wasm')),
  '/wasm/counted/host.mjs': "import '/wasm/counting.mjs'; import '/wasm/out/host.mjs';",
});
const tests = {};
let served, chromium;
const empty = () => chromium.page(`${served.origin}/empty`);

// Adds a test that has the files of this repository served, and a Chromium.
function test(name, work, needs = []) {
  tests[name] = Object.assign(async (folder) => {
    served = await serve(root, counted());
    chromium = await launch(join(folder, 'profile'));
    try {
      await work(folder);
    } finally {
      await chromium.close();
      served.close();
    }
  }, { needs });
}

// These run in the page.
const playInPage = async (name, script, folder = '/wasm/out') => {
  const { open, wasm } = await import('/clients/js/rx.mjs');
  const { playScript } = await import('/tests/clients/play.mjs');
  return playScript(open, wasm(folder, name), script);
};
const readInPage = async (name) => {
  const folder = await navigator.storage.getDirectory();
  const file = await (await folder.getFileHandle(name)).getFile();
  return [...new Uint8Array(await file.arrayBuffer())];
};
const behaveInPage = async (name) => {
  const { open, wasm } = await import('/clients/js/rx.mjs');
  const { behaviours } = await import('/tests/clients/behaviours.mjs');
  let count = 0;
  await behaviours[name]({
    open: (transport, options) => open(transport, { clock: () => 0, ...options }),
    transport: (options) => wasm('/wasm/out', `${name.slice(0, 20)}${++count}`, options),
  });
};

for (const { name, after, script, out } of examples()) {
  test(`examples/${name}, by the calls, and its journal`, async (folder) => {
    const page = await empty(), file = journalName(), native = join(folder, file), copied = join(folder, `${file}-copy`);
    if (after) {
      const first = examples().find((it) => it.name === after).script;
      spawnSync(program, ['run', native], { input: first });
      await page.run(playInPage, file, first);
    }
    const played = await page.run(playInPage, file, script);
    same(played.written, script, 'the lines that were written');
    same(played.output, out, 'the output');
    same(JSON.stringify(played.heard), JSON.stringify(emissionsOf(out)), 'what observers heard');
    spawnSync(program, ['run', native], { input: script });
    const bytes = Buffer.from(await page.run(readInPage, file));
    same(bytes.toString('latin1'), readFileSync(native, 'latin1'), 'the journal');
    writeFileSync(copied, bytes);
    const { in: into, name: named } = JSON.parse(script.split('\n')[0]);
    const count = `{"do":"count","in":"${into ?? named}","query":{}}\n`;
    const [here, there] = [copied, native].map((it) => spawnSync(program, ['run', it], { input: count, encoding: 'utf8' }).stdout);
    same(here, there, 'the native program on it');
    same(/^\{"count":\d/.test(here), true, here);
    await page.close();
  });
}

for (const name of Object.keys(behaviours)) {
  test(name, async () => {
    const page = await empty();
    await page.run(behaveInPage, name);
    await page.close();
  });
}

const writeInPage = async (name, schema) => {
  const { open, wasm } = await import('/clients/js/rx.mjs');
  const db = await open(wasm('/wasm/out', name));
  const c = await db.collection('c', schema);
  globalThis.answered = 0;
  (async () => { for (let n = 0; ; n++) { await c.insert({ id: `k${n}`, n }); globalThis.answered = n + 1; } })();
};
const keysInPage = async (name) => {
  const { open, wasm } = await import('/clients/js/rx.mjs');
  const db = await open(wasm('/wasm/out', name));
  const rows = await (await db.collection('c')).find({ sort: [{ n: 'asc' }] });
  await db.close();
  return rows.map((it) => it.id);
};
const fronts = (keys, answered) => {
  same(keys.length >= answered && keys.every((key, n) => key === `k${n}`), true, `${answered} answered, ${keys.length} kept`);
};

test('a page that is closed in the middle, and opened again', async (folder) => {
  const file = journalName(), first = await empty();
  await first.run(writeInPage, file, schema);
  await first.until('answered > 50');
  const answered = await first.evaluate('answered');
  await first.close();
  const second = await empty();
  fronts(await second.run(keysInPage, file), answered);
  await second.close();
});

test('Chromium killed in the middle, and started again', async (folder) => {
  const file = journalName(), first = await empty();
  await first.run(writeInPage, file, schema);
  await first.until('answered > 50');
  const answered = await first.evaluate('answered');
  await chromium.kill();
  chromium = await launch(join(folder, 'profile'));
  const second = await empty();
  fronts(await second.run(keysInPage, file), answered);
  await second.close();
});

test('no room is left: the program ends by disk, and what was answered is there', async (folder) => {
  const file = journalName(), page = await empty();
  await page.on('Storage.overrideQuotaForOrigin', { origin: served.origin, quotaSize: 3000000 });
  const [answered, stopped] = await page.run(async (name, schema) => {
    const { open, wasm } = await import('/clients/js/rx.mjs');
    const db = await open(wasm('/wasm/out', name));
    const wide = { ...schema, properties: { ...schema.properties, t: { type: 'string', maxLength: 100000 } } };
    const c = await db.collection('c', wide);
    for (let n = 0; ; n++) {
      const stopped = await c.insert({ id: `k${n}`, n, t: 'x'.repeat(100000) }).then(() => null, (it) => `${it.stop} ${it.status}`);
      if (stopped) return [n, stopped];
    }
  }, file, schema);
  same(stopped, 'disk 3', 'the end');
  await page.on('Storage.overrideQuotaForOrigin', { origin: served.origin });
  fronts(await page.run(keysInPage, file), answered);
  same(answered > 5 && answered < 35, true, `${answered} documents of 100,000 bytes`);
  await page.close();
});

test('a journal that another page has is in use, and may be waited for', async (folder) => {
  const file = journalName(), [first, second, third] = [await empty(), await empty(), await empty()];
  await first.run(writeInPage, file, schema);
  const stopped = await second.run(async (name) => {
    const { open, wasm } = await import('/clients/js/rx.mjs');
    const fault = await open(wasm('/wasm/out', name)).catch((it) => it);
    globalThis.waits = 0;
    globalThis.later = open(wasm('/wasm/out', name), { waiting: () => { globalThis.waits += 1; } });
    return `${fault.name}: ${fault.message}`;
  }, file);
  same(stopped, `Stopped: in_use: another page has ${file}`, 'the second page');
  await second.until('waits === 1');
  const answered = await first.evaluate('answered');
  await first.close();
  const count = await second.run(async () => {
    const db = await globalThis.later;
    const c = await db.collection('c');
    globalThis.leave = async () => { await db.close(); };
    return [await c.count(), globalThis.waits];
  });
  same(count[0] >= answered && count[1] === 1, true, `${count} of ${answered}`);
  // A journal that was closed is free, though its page stays.
  await second.run(() => globalThis.leave());
  fronts(await third.run(keysInPage, file), count[0]);
  await second.close();
  await third.close();
});

test('a journal that can not be had: open rejects', async () => {
  const page = await empty(), file = journalName();
  const told = await page.run(async (name) => {
    const { open, wasm } = await import('/clients/js/rx.mjs');
    const folder = await navigator.storage.getDirectory();
    const to = await (await folder.getFileHandle(name, { create: true })).createWritable();
    await to.write('Dear Ada, this is no journal.');
    await to.close();
    const ends = ['a name of no file/', name].map((it) => open(wasm('/wasm/out', it)).catch(({ stop }) => stop));
    return (await Promise.all(ends)).join();
  }, file);
  same(told, 'start,not_journal', 'the words');
  same(Buffer.from(await page.run(readInPage, file)).toString(), 'Dear Ada, this is no journal.', 'it is left alone');
  await page.close();
});

test('what could not be had is told by its address', async () => {
  const page = await empty();
  const told = await page.run(async () => {
    const { open, wasm } = await import('/clients/js/rx.mjs');
    const message = (it) => `${it.stop} ${it.message}`;
    return [await open(wasm('out', 'a')).catch(message), await open(wasm('/nowhere', 'b')).catch(message)];
  });
  const own = `${served.origin}/clients/js/out/`;
  same(told[0].startsWith('start start: ') && told[0].includes(own), true, told[0]);
  same(told[1].includes(`${served.origin}/nowhere/`), true, told[1]);
  await page.close();
});

test('a program that ends is told to a page without observers', async () => {
  const page = await empty(), file = journalName();
  const told = await page.run(async (name, schema) => {
    const { open, wasm } = await import('/clients/js/rx.mjs');
    const db = await open(wasm('/wasm/out', name, { maxJournal: 500 }));
    const c = await db.collection('c', schema);
    for (let n = 0; n < 20; n++) c.insert({ id: `k${n}` }).catch(() => {});
    const { stop, limit } = await db.stopped;
    return [stop, limit, (await db.close().catch((it) => it)).stop].join(' ');
  }, file, schema);
  same(told, 'full 500 full', 'stopped');
  await page.close();
});

test('a page that esbuild made', async (folder) => {
  const own = mkdtempSync(join(folder, 'bundle-'));
  cpSync(join(root, 'wasm/out'), join(own, 'out'), { recursive: true });
  writeFileSync(join(own, 'app.mjs'), `
    import { open, wasm } from ${JSON.stringify(join(root, 'clients/js/rx.mjs'))};
    async function run() {
      const db = await open(wasm('out', 'bundled'));
      const c = await db.collection('c', ${JSON.stringify(schema)});
      await c.upsert({ id: 'a', n: 1 });
      document.title = JSON.stringify(await c.find());
    }
    run();`);
  const site = await serve(own);
  for (const [format, type] of [['esm', 'module'], ['iife', 'text/javascript']]) {
    const words = ['app.mjs', '--bundle', `--format=${format}`, `--outfile=${format}.js`];
    const { status, stderr } = spawnSync('esbuild', words, { cwd: own, encoding: 'utf8' });
    same(status, 0, stderr);
    const page = `<!doctype html><title>-</title><script type="${type}" src="${format}.js"></script>`;
    writeFileSync(join(own, `${format}.html`), page);
    const it = await chromium.page(`${site.origin}/${format}.html`);
    await it.until(`document.title === '[{"id":"a","n":1}]'`);
    await it.close();
  }
  site.close();
}, ['esbuild']);

test('each answer comes after its sync, and the journal is appended to', async (folder) => {
  const page = await empty(), file = journalName(), count = 200;
  const inserts = Array.from({ length: count }, (_, n) => ({ do: 'insert', in: 'c', doc: { id: `k${n}`, n } }));
  const script = [{ do: 'collection', name: 'c', schema }, ...inserts].map((it) => `${JSON.stringify(it)}\n`).join('');
  const { output } = await page.run(playInPage, file, script, '/wasm/counted');
  const { early, bytes } = JSON.parse(output.trim().split('\n').at(-1)).rows[0];
  const { length } = await page.run(readInPage, file);
  // Of the journal's bytes only the gates, one for each of 202 records, are written a second time.
  same(`${early} early, ${bytes} written`, `0 early, ${length + count + 2} written`, 'the writes');
  await page.close();
});

test('20,000 documents: output and journal are the native ones', async (folder) => {
  const lines = [{ do: 'collection', name: 'c', schema }];
  for (let n = 0; n < 20000; n += 1000) {
    lines.push({ do: 'bulk', in: 'c', docs: Array.from({ length: 1000 }, (_, i) => ({ id: `k${(n + i) * 7919 % 20000}`, n: i })) });
  }
  lines.push({ do: 'find', in: 'c', query: { selector: { n: { $mod: [97, 5] } }, sort: [{ n: 'desc' }], skip: 10, limit: 100 } });
  const script = lines.map((it) => `${JSON.stringify(it)}\n`).join('');
  const page = await empty(), file = journalName(), native = join(folder, file);
  const { output } = await page.run(playInPage, file, script);
  same(output, spawnSync(program, ['run', native], { input: script, encoding: 'utf8', maxBuffer: 1 << 26 }).stdout, 'output');
  same(Buffer.from(await page.run(readInPage, file)).equals(readFileSync(native)), true, 'the journal');
  await page.close();
});

async function take(page, name) {
  if (!pictures) return;
  mkdirSync(pictures, { recursive: true });
  writeFileSync(join(pictures, `${name}.png`), await page.picture());
}

// Expressions of the page of todos: a place shows so many, all that it shows, and that its last words begin so.
const shows = (place, count) => `document.querySelectorAll('#${place} .todos li').length === ${count}`;
const titlesOf = (place) => `Array.from(document.querySelectorAll('#${place} .title'), (it) => it.value).join('; ')`;
const says = (words) => `document.getElementById('status').textContent.startsWith(${JSON.stringify(words)})`;
const flip = (page, place) => page.run((place) => { document.querySelector(`#${place} .online input`).click(); }, place);

test('the page of todos, by keyboard, kept over a reload', async (folder) => {
  const page = await chromium.page(`${served.origin}/clients/web/`);
  for (const place of ['phone', 'server', 'laptop']) await page.until(shows(place, 5));
  await page.until(says('Ready'));
  const titles = (page) => page.run(() => Array.from(document.querySelectorAll('#phone .todos li'), (it) => {
    const [done, title] = it.children;
    return title.value + (done.checked ? ', done' : '');
  }).join('; '));
  const focus = () => page.run(() => document.activeElement.getAttribute('aria-label') ?? document.activeElement.textContent.trim());
  const tab = async (times) => { for (let i = 0; i < times; i++) await page.key('Tab'); };
  await take(page, 'wide');
  // From the top: the phone's switch, its new todo, Add, and then each todo's box, title and removal.
  await tab(1);
  await page.key(' ');
  await page.until(`document.querySelector('#phone').classList.contains('offline')`);
  await tab(1);
  same(await focus(), 'New todo on the phone', 'focus');
  await page.type('Learn to juggle');
  await page.key('Enter');
  await page.until(`document.querySelector('#phone .todos .title').value === 'Learn to juggle'`);
  await tab(3);
  same(await focus(), 'Title', 'focus');
  await page.type('Learn to juggle three balls'); // what is there is marked, and replaced
  await page.key('Enter');
  await page.until(`document.querySelector('#phone .todos .title').value.includes('three balls')`);
  await page.run(() => { document.querySelector('#phone .todos [type=checkbox]').focus(); });
  await page.key(' ');
  await page.until(`document.querySelector('#phone .todos li:last-child [type=checkbox]').checked`);
  same(await page.evaluate(`document.activeElement === document.querySelector('#phone .todos li:last-child [type=checkbox]')`), true, 'the box keeps the focus');
  const removed = await page.evaluate(`document.querySelector('#phone .todos .title').value`);
  await page.run(() => { document.querySelector('#phone .todos .remove').focus(); });
  await page.key('Enter');
  await page.until(shows('phone', 5));
  same(await focus(), 'Remove', 'the next removal has the focus');
  const before = await titles(page);
  same([before.includes(removed), before.includes('three balls, done')].join(), 'false,true', before);
  same(await page.evaluate(`${titlesOf('server')}.includes('three balls')`), false, 'the phone is offline');
  await flip(page, 'phone');
  await page.until(says('The phone came together with the server in 2 exchanges.'));
  for (const place of ['server', 'laptop']) await page.until(`${titlesOf(place)}.includes('three balls')`);
  await take(page, 'wide-after-sync');
  await page.close();

  const again = await chromium.page(`${served.origin}/clients/web/`, { width: 390, height: 844 });
  await again.until(shows('phone', 5));
  same(await titles(again), before, 'after a reload');
  same(await again.evaluate('document.documentElement.scrollWidth <= innerWidth'), true, 'nothing is cut off on a phone');
  await take(again, 'narrow');
  for (let n = 0; n < 8; n++) await again.run((n) => {
    const form = document.querySelector('#phone form');
    form.title.value = `Read chapter ${n}, with a title that is long enough to be cut off on a narrow screen`;
    form.requestSubmit();
  }, n);
  await again.until(`document.querySelector('#phone .more span').textContent === '6 of 13 shown'`);
  await again.run(() => { document.querySelector('#phone .more button').click(); });
  await again.until(shows('phone', 12));
  await take(again, 'narrow-long');
  await again.close();
});

test('the page of todos, in sync while it is online, and edited apart: a conflict shows its answer', async (folder) => {
  const site = await serve(root); // an origin of its own, where nothing is stored
  const page = await chromium.page(`${site.origin}/clients/web/`, { width: 1100, height: 1000 });
  const edit = (place, from, to) => page.run((place, from, to) => {
    const title = Array.from(document.querySelectorAll(`#${place} .title`)).find((it) => it.value === from);
    title.value = to;
    title.dispatchEvent(new Event('change'));
  }, place, from, to);

  for (const place of ['phone', 'server', 'laptop']) await page.until(shows(place, 5));
  await page.until(says('Ready'));
  // What is written on the server's side stands on each device at once, and so does what one of them wrote.
  await page.run(() => {
    const form = document.querySelector('#server form');
    form.title.value = 'Read the news';
    form.requestSubmit();
  });
  for (const place of ['phone', 'laptop']) await page.until(`${titlesOf(place)}.includes('Read the news')`);
  await edit('phone', 'Answer Ada', 'Answer Ada soon');
  for (const place of ['server', 'laptop']) await page.until(`${titlesOf(place)}.includes('Answer Ada soon')`);
  for (const place of ['phone', 'laptop']) {
    await flip(page, place);
    await page.until(says(`The ${place} is offline.`));
  }
  await edit('phone', 'Answer Ada soon', 'Answer Ada at once');
  await page.run(() => { Array.from(document.querySelectorAll('#phone .todos li')).find((it) => it.children[1].value === 'Buy oat milk').children[2].click(); });
  await page.until(shows('phone', 5));
  await edit('laptop', 'Answer Ada soon', 'Answer Ada and Grace');
  await edit('laptop', 'Buy oat milk', 'Buy soy milk');
  await page.until(`${titlesOf('laptop')}.includes('soy')`);
  same(await page.evaluate(`${titlesOf('server')}.includes('Answer Ada soon')`), true, 'nothing has come there');
  await take(page, 'apart');
  await flip(page, 'phone');
  await page.until(says('The phone came together with the server in 2 exchanges.'));
  await flip(page, 'laptop');
  await page.until(says('The laptop came together with the server in 3 exchanges. 2 todos had been edited on both sides, and the later edit was kept.'));
  await page.until(`${titlesOf('phone')} === ${titlesOf('server')} && ${titlesOf('laptop')} === ${titlesOf('server')}`);
  const told = await page.run(() => Array.from(document.querySelectorAll('.conflicts li p'), (it) => it.innerText.replace(/\s+/g, ' ').trim()).join('; '));
  const [ada, milk] = ['Laptop Answer Ada and Grace kept; Server Answer Ada at once', 'Laptop Buy soy milk kept; Server removed'];
  same([`${ada}; ${milk}`, `${milk}; ${ada}`].includes(told), true, told);
  same(await page.evaluate(`document.querySelector('#phone .conflicts').hidden`), true, 'the phone came first');
  await take(page, 'conflict');
  await page.close();
  site.close();
});

test('the page of todos in a second tab: it says that it waits, and takes over', async () => {
  const site = await serve(root); // an origin of its own, where nothing is stored
  const first = await chromium.page(`${site.origin}/clients/web/`);
  await first.until(shows('phone', 5));
  const second = await chromium.page(`${site.origin}/clients/web/`);
  await second.until(`document.getElementById('status').textContent.includes('open in another tab')`);
  await take(second, 'second-tab');
  same(await second.evaluate(`document.getElementById('places').children.length`), 0, 'nothing is shown');
  await first.close();
  await second.until(shows('phone', 5));
  await second.until(says('Ready'));
  await second.close();
  site.close();
});

test('the quickstart page of clients/README.md', async (folder) => {
  const own = mkdtempSync(join(folder, 'quick-'));
  cpSync(join(root, 'clients/js/rx.mjs'), join(own, 'rx.mjs'));
  cpSync(join(root, 'wasm/out'), join(own, 'out'), { recursive: true });
  writeFileSync(join(own, 'index.html'), quickstart('index.html'));
  const site = await serve(own);
  const page = await chromium.page(`${site.origin}/`);
  for (const title of ['Buy milk', 'Bake bread']) {
    await page.until(`document.activeElement.matches('[name=title]') && document.activeElement.value === ''
      && !document.querySelector('button').disabled`);
    await page.type(title);
    await page.key('Enter');
    await page.until(`document.querySelector('ul').textContent.includes('${title}')`);
  }
  await page.close();
  const again = await chromium.page(`${site.origin}/`);
  await again.until(`document.querySelector('ul').textContent === 'Bake breadBuy milk'`);
  await again.close();
  site.close();
});

await tryOne(tests);
