// The inspector: its parts over the native program, and its page in Chromium, which wants wasm/out.
// Pictures of the page go to the folder that PICTURES names, if there is one in the environment.
import { File } from 'node:buffer';
import { spawn, spawnSync } from 'node:child_process';
import { createHash } from 'node:crypto';
import { cpSync, mkdirSync, readFileSync, writeFileSync } from 'node:fs';
import { basename, join } from 'node:path';
import { chart, meanings, totals } from '../../clients/inspector/chart.mjs';
import { readJournal } from '../../clients/inspector/journal.mjs';
import { findPage, Journal } from '../../clients/inspector/model.mjs';
import { readTyped, typed } from '../../clients/inspector/query.mjs';
import * as rows from '../../clients/inspector/rows.mjs';
import { open } from '../../clients/js/rx.mjs';
import { launch, serve } from './chromium.mjs';
import { examples, program, root, same, tryOne } from './shared.mjs';

const tests = {};
const pictures = process.env.PICTURES;
const alike = (found, wanted, what) => same(JSON.stringify(found), JSON.stringify(wanted), what);

// ---- journals, by the native program

const schema = {
  version: 0,
  primaryKey: 'id',
  type: 'object',
  properties: {
    id: { type: 'string', maxLength: 20 },
    title: { type: 'string', maxLength: 300 },
    done: { type: 'boolean' },
    rank: { type: 'integer', minimum: 0, maximum: 999, multipleOf: 1 },
    edited: { type: 'integer' },
  },
  required: ['title'],
  indexes: [['done', 'rank'], 'rank'],
};
const titles = ['Buy oat milk', 'Call the dentist', 'Water the plants', 'Book the train', 'Answer Ada'];
const todo = (n) => ({
  id: `todo-${String(n).padStart(6, '0')}`,
  title: `${titles[n % 5]} (${n})`,
  rank: (n * 37) % 1000,
  edited: n,
  ...(n % 4 && { done: n % 3 === 0 }),
});

/** Lines that put in so many documents. */
function bulks(name, count) {
  const docs = Array.from({ length: count }, (_, n) => todo(n));
  return Array.from({ length: Math.ceil(count / 1000) }, (_, n) => {
    return { do: 'bulk', in: name, docs: docs.slice(n * 1000, n * 1000 + 1000) };
  });
}

/** What a command of the program writes, line by line. */
function answers(words, lines = []) {
  const input = lines.map((it) => `${JSON.stringify(it)}\n`).join('');
  const { stdout } = spawnSync(program, words, { input, encoding: 'utf8', maxBuffer: 1 << 28 });
  return stdout.trimEnd().split('\n').map((line) => JSON.parse(line));
}

const play = (journal, lines) => answers(['run', journal], lines);
const check = (journal) => answers(['check', journal]);
const read = (journal) => readJournal(new Uint8Array(readFileSync(journal)));

/** The journal of a server and a phone, each edited since the phone pulled, and of a fork of a port. */
function offline(folder, count) {
  const journal = join(folder, 'todos.rx');
  play(journal, [
    { do: 'collection', name: 'server', schema },
    { do: 'collection', name: 'phone', schema },
    { do: 'collection', name: 'empty', schema },
    { do: 'replicate', name: 'sync', fork: 'phone', master: 'server', handler: 'greater', field: 'edited' },
    { do: 'replicate', name: 'far', fork: 'empty', port: 4001, handler: 'join' },
    ...bulks('server', count),
    { do: 'turn', name: 'sync' },
    { do: 'upsert', in: 'phone', doc: { ...todo(1), title: 'Call Grace', edited: count } },
    { do: 'upsert', in: 'phone', doc: { ...todo(2), title: 'Water the roses', edited: count } },
    { do: 'remove', in: 'phone', key: todo(3).id },
    { do: 'upsert', in: 'server', doc: { ...todo(1), title: 'Call Ada', edited: count + 1 } },
  ]);
  return journal;
}

/** The native program over a journal. */
const native = (journal) => async ({ output, ended }) => {
  const it = spawn(program, ['run', journal], { stdio: ['pipe', 'pipe', 'inherit'] });
  it.stdout.setEncoding('utf8').on('data', output);
  it.stdin.on('error', () => {});
  it.on('close', (status) => ended({ status }));
  return { send: (text) => it.stdin.write(text), end: () => it.stdin.end(), kill: () => it.kill('SIGKILL') };
};

/** A copy that the native program has, in the place of the page's in the browser's storage. */
const nativeCopy = (folder) => async (file) => {
  const path = join(folder, `copy-of-${file.name}`);
  writeFileSync(path, new Uint8Array(await file.arrayBuffer()));
  const db = await open(native(path));
  const report = async (bytes) => {
    writeFileSync(`${path}-2`, bytes);
    return check(`${path}-2`);
  };
  return { db, report, bytes: async () => new Uint8Array(readFileSync(path)), close: () => db.close() };
};
const fileOf = (path) => new File([readFileSync(path)], basename(path));

// ---- parts

tests['what is typed is JSON, with bare names and single quotes'] = () => {
  const values = [
    ['', {}],
    [' {} ', {}],
    ['{"done":false,"rank":{"$gte":3}}', { done: false, rank: { $gte: 3 } }],
    ['{done: false, $or: [{rank: -1}, {rank: 2.5e3},],}',
      { done: false, $or: [{ rank: -1 }, { rank: 2500 }] }],
    [`{a: 'it\\'s "so"', b: "\\u00e9\\n", c: null}`, { a: `it's "so"`, b: 'é\n', c: null }],
    ['{\n  title:\t"{a: 1}"\n}', { title: '{a: 1}' }],
    ['[1, [], {}]', [1, [], {}]],
  ];
  for (const [text, value] of values) alike(readTyped(text), value, text);
  const faults = [
    ['{done: }', 'column 8: a value is due'],
    ['{done false}', 'column 7: “:” is due'],
    ['{done: false rank: 1}', 'column 14: “,” or “}” is due'],
    ['{\n  rank: 01\n}', 'line 2, column 9: a number is due'],
    ['{a: 1} {', 'column 8: nothing more is due'],
    ['{1: 2}', 'column 2: a name is due'],
    ['{a: "b', 'column 5: a value is due'],
    ['{a: tru}', 'column 5: a value is due'],
    ['[1', 'column 3: “,” or “]” is due'],
    ['{a: "\\x"}', 'column 5: a text is due'],
  ];
  for (const [text, due] of faults) {
    let told = 'it was read';
    try {
      readTyped(text);
    } catch (fault) {
      told = `${fault.name}: ${fault.message}`;
    }
    same(told, `SyntaxError: ${due}`, text);
  }
  const selector = { done: false, $or: [{ rank: { $lt: 3 } }, { title: 'a "b"' }] };
  const query = { selector, sort: [{ rank: 'asc' }], limit: 5 };
  alike(readTyped(typed(query)), query, 'typed and read');
  same(typed({ 'a-b': [true, 'c'], d: {} }), '{"a-b": [true, "c"], d: {}}', 'typed');
};

tests['columns, cells, forms, pages, and how results differ'] = () => {
  const columns = rows.columnsOf(schema);
  const told = columns.map((it) => `${it.name} ${it.kind} ${it.isRequired} ${it.indexes.join('|')}`);
  alike(told, ['id string true ', 'title string true ', 'done boolean false done,rank',
    'rank number false done,rank|rank', 'edited number false '], 'columns');
  const cells = [undefined, 0, false, 'a', 'é'.repeat(500)].map(rows.cellOf);
  alike(cells.map((it) => `${it.text.length} ${it.isMissing}`),
    ['1 true', '1 false', '5 false', '1 false', '161 false'], 'cells');
  same(rows.boundsOf(schema.properties.rank), 'from 0, to 999', 'bounds');
  same(rows.boundsOf({ maxLength: 8192 }), 'at most 8,192 characters', 'bounds');

  alike(rows.documentOf(columns, { id: 'a', title: '7', done: 'false', rank: '-3', edited: '' }),
    { id: 'a', title: '7', done: false, rank: -3 }, 'a form');
  alike(rows.documentOf(columns, { rank: '1.5', edited: 'x', done: 'yes' }),
    { done: 'yes', rank: '1.5', edited: 'x' }, 'what is of no kind is a text');
  const odd = { ...schema, properties: { id: schema.properties.id, constructor: { type: 'integer' } } };
  alike(rows.documentOf(rows.columnsOf(odd), { id: 'a' }), { id: 'a' }, 'a name that each object has');
  same(rows.fieldOf({ id: 'a' }, 'constructor'), undefined, 'a field that is missing');

  const pages = [
    [0, 0, { page: 0, last: 0, first: 0, end: 0 }],
    [0, 50, { page: 0, last: 0, first: 0, end: 50 }],
    [9, 101, { page: 2, last: 2, first: 100, end: 101 }],
    [-1, 101, { page: 0, last: 2, first: 0, end: 50 }],
    [2, 100, { page: 1, last: 1, first: 50, end: 100 }],
  ];
  for (const [page, total, due] of pages) alike(rows.pageOf(page, 50, total), due, `page ${page}`);
  const before = [{ id: 'a', n: 1 }, { id: 'b', n: 1 }, { id: 'c', n: 1 }];
  alike(rows.difference(before, [{ id: 'b', n: 1 }, { id: 'c', n: 2 }, { id: 'd', n: 1 }], 'id'),
    { came: 1, left: 1, changed: 1 }, 'difference');
};

tests['the chart of an explained query'] = async (folder) => {
  const db = await open(native(join(folder, 'journal')));
  const todos = await db.collection('todos', schema);
  const query = todos.observe({ sort: [{ rank: 'asc' }], limit: 2 });
  query.subscribe(() => {});
  const ranks = [['a', 5], ['b', 3], ['c', 9], ['d', 8], ['e', 7], ['b', 4]];
  for (const [id, rank] of ranks) await todos.upsert({ id, title: 't', rank });
  const counts = await query.explain();
  await db.close();

  const svg = chart(counts);
  const due = Object.values(counts.actions).sort((a, b) => b - a);
  const found = (pattern) => [...svg.matchAll(pattern)].map((it) => Number(it[1]));
  same(due.length > 1, true, `actions: ${JSON.stringify(counts)}`);
  alike(found(/text-anchor="end">(\d+)</g), due, 'the counts');
  const widths = due.map((n) => Number((100 * n / due[0]).toFixed(2)));
  alike(found(/class="bar" width="([\d.]+)%"/g), widths, 'the bars');
  const some = { changes: 6, asked: 1200, full: 0 }, one = { changes: 1, asked: 1, full: 1 };
  same(totals(some), '6 changes heard, 1,200 questions asked, 0 full runs', 'totals');
  same(totals(one), '1 change heard, 1 question asked, 1 full run', 'totals of one each');
  same(chart({ changes: 1, asked: 0, full: 0, actions: { '<b>': 1 } }).includes('<b>'), false, 'escaped');

  // Each action that docs/SCRIPT.md tells of has its words.
  const text = readFileSync(join(root, 'docs/SCRIPT.md'), 'utf8');
  const table = text.split('| action | what it does to the rows |')[1].split('\n\n')[0].split('\n').slice(2);
  const actions = table.flatMap((row) => row.split('|')[1].match(/\w+/g));
  alike(Object.keys(meanings).sort(), actions.sort(), 'the actions');
};

tests['journals are read as the program reports on them'] = (folder) => {
  const journals = examples().map(({ name, after, script }) => {
    const path = join(folder, name);
    const before = examples().find((it) => it.name === after)?.script;
    for (const input of [before, script].filter(Boolean)) spawnSync(program, ['run', path], { input });
    return path;
  });
  answers(['trial', join(folder, 'trial'), '7', '400']);
  const hash = (it) => createHash('sha256').update(JSON.stringify(it)).digest('hex');
  let quiet = 0;
  for (const path of [...journals, join(folder, 'trial'), offline(folder, 250)]) {
    const lines = check(path), { end, epoch, records } = lines.at(-1);
    const bytes = Buffer.concat([readFileSync(path), Buffer.from('what counts for nothing')]);
    const told = readJournal(new Uint8Array(bytes));
    alike([told.end, told.epoch, told.records], [end, epoch, records], path);
    const collections = [...told.collections.values()].map((it) => `${it.name} ${hash(it.schema)}`);
    const held = lines.filter((it) => it.collection).map((it) => `${it.collection} ${it.schema}`);
    alike(collections.sort(), held.sort(), `${path}, collections`);
    const ends = (name, { fork, master, port }) => `${name} ${fork} ${master ?? port}`;
    const replications = [...told.replications.values()].map((it) => ends(it.name, it));
    const made = lines.filter((it) => it.replication).map((it) => ends(it.replication, it));
    alike(replications.sort(), made.sort(), `${path}, replications`);

    // The last pull of a quiet turn tells the checkpoint down.
    for (const { name, master } of told.replications.values()) {
      if (!master) continue;
      const turn = play(path, [{ do: 'turn', name }]);
      if (turn.at(-1).end !== 'quiet') continue;
      const { id, lwt } = turn.at(-2).place, { down } = read(path).replications.get(name);
      alike([down.id, down.lwt], [id, lwt], `${path}, the checkpoint down`);
      quiet += 1;
    }
  }
  same(quiet > 1, true, `${quiet} quiet turns`);
  // What was written to the fork last is where the checkpoint up is, once it is pushed.
  const path = join(folder, 'todos.rx'), last = { do: 'get', in: 'phone', key: 'last' };
  const upsert = { do: 'upsert', in: 'phone', doc: { ...todo(5), id: 'last' } };
  const { lwt } = play(path, [upsert, last, { do: 'turn', name: 'sync' }])[1];
  const { up } = read(path).replications.get('sync');
  alike([up.id, up.lwt], ['last', lwt], 'the checkpoint up');
  const header = [...Buffer.from('RXJOURN1')];
  for (const bytes of [[], [0], header, [...header, 0]]) {
    const { collections, epoch, records } = readJournal(new Uint8Array(bytes));
    alike([collections.size, epoch, records], [0, 0, 0], `${bytes.length} bytes`);
  }
};

tests['a journal by its copy: counts, pages, what is pending and what is refused'] = async (folder) => {
  const path = offline(folder, 250), bytes = readFileSync(path, 'latin1');
  const journal = await Journal.of(fileOf(path), nativeCopy(folder));
  const counts = () => [...journal.collections.values()].map((it) => `${it.name} ${it.count} ${it.deleted}`);
  alike(counts(), ['server 250 undefined', 'phone 249 undefined', 'empty 0 undefined'], 'counts');
  alike([journal.name, journal.size, journal.epoch], ['todos.rx', bytes.length, 1], 'the file');
  await journal.report();
  alike(counts(), ['server 250 0', 'phone 249 1', 'empty 0 0'], 'counts of a report');
  const { sync, far } = Object.fromEntries(journal.replications);
  alike([sync.pending, sync.master, sync.handler, sync.field], [3, 'server', 'greater', 'edited'], 'sync');
  alike([sync.down.id, far.pending, far.port, far.down ?? null], ['todo-000249', 0, 4001, null], 'far');

  const server = journal.collection('server');
  const asked = { selector: { rank: { $gte: 100 } }, sort: { field: 'rank', direction: 'desc' } };
  const all = await server.find({ selector: asked.selector, sort: [{ rank: 'desc' }] });
  const paged = [];
  for (let page = 0, total = 1; paged.length < total; page++) {
    const found = await findPage(server, { ...asked, page }, 50, page ? total : undefined);
    alike([found.first, found.page], [paged.length, page], 'the place');
    total = found.total;
    paged.push(...found.rows);
  }
  alike(paged, all, 'all pages');
  same(all.length > 200 && all[0].rank > all.at(-1).rank, true, 'they are sorted');
  const refused = findPage(server, { selector: { colour: 1 }, sort: null, page: 0 }, 50);
  const { word, subject } = await refused.then(() => ({}), (fault) => fault);
  alike([word, subject], ['query', 'colour'], 'refused');
  const bounds = await server.insert({ ...todo(1), id: 'a', rank: 1000 }).then(() => ({}), (fault) => fault);
  alike([bounds.word, bounds.cause, bounds.subject], ['invalid', 'bounds', 'rank'], 'refused by the schema');
  same(journal.asked('server'), journal.asked('server'), 'what was asked is kept');

  await journal.db.turn('sync');
  await journal.report();
  const after = journal.replications.get('sync');
  alike([after.pending, journal.epoch], [0, 1], 'behind a turn');
  same(after.up.lwt > (sync.up?.lwt ?? 0) && after.down.lwt > sync.down.lwt, true, 'checkpoints rise');
  alike(counts(), ['server 249 1', 'phone 249 1', 'empty 0 0'], 'counts behind a turn');
  await journal.close();
  same(readFileSync(path, 'latin1'), bytes, 'the file');
};

tests['a file that is no journal is refused by the program’s word'] = async (folder) => {
  const files = { letter: 'Dear Ada, this is no journal.', cut: 'RXJOURN1\x01\0\0\0\x05\x09....\0' };
  for (const [name, text] of Object.entries(files)) {
    const path = join(folder, name);
    writeFileSync(path, text, 'latin1');
    const fault = await Journal.of(fileOf(path), nativeCopy(folder)).then(() => null, (it) => it);
    alike([fault?.name, fault?.stop], ['Stopped', 'not_journal'], name);
  }
};

// ---- the page

// Adds a test of the page, in a Chromium of its own. A visit is a page of it, of a size and in a theme.
function inPage(name, work) {
  tests[name] = async (folder) => {
    const served = await serve(root), chromium = await launch(join(folder, 'profile'));
    const visit = async (size, theme = 'light') => {
      const page = await chromium.page('about:blank', size);
      const features = [{ name: 'prefers-color-scheme', value: theme }];
      await page.on('Emulation.setEmulatedMedia', { features });
      await page.go(`${served.origin}/clients/inspector/`);
      await page.until(`document.getElementById('open')?.onclick`);
      return withHelps(page);
    };
    try {
      await work({ folder, visit });
    } finally {
      await chromium.close();
      served.close();
    }
  };
  tests[name].needs = ['chromium', 'wasm'];
}

const codes = {
  Tab: 9, Enter: 13, Escape: 27, ' ': 32, PageDown: 34, End: 35, Home: 36, ArrowRight: 39, ArrowDown: 40,
};

function withHelps(page) {
  const quoted = (it) => JSON.stringify(it);
  const all = (selector) => `[...document.querySelectorAll(${quoted(selector)})]`;
  return {
    ...page,
    /** Drops a file, as it comes from a folder. */
    async drop(path) {
      const data = { items: [], files: [path], dragOperationsMask: 1 };
      for (const type of ['dragEnter', 'dragOver', 'drop']) {
        await page.on('Input.dispatchDragEvent', { type, x: 200, y: 300, data });
      }
    },
    async choose(path) {
      const expression = `document.getElementById('chosen')`;
      const { objectId } = (await page.on('Runtime.evaluate', { expression })).result;
      await page.on('DOM.setFileInputFiles', { files: [path], objectId });
    },
    isOpen(path) {
      return this.shows('#status', `Opened a copy of ${basename(path)} `);
    },
    text: (selector) => page.evaluate(`document.querySelector(${quoted(selector)}).textContent`),
    texts: (selector) => page.evaluate(`${all(selector)}.map((it) => it.textContent)`),
    click: (selector) => page.evaluate(`document.querySelector(${quoted(selector)}).click()`),
    focus: () => page.run(() => {
      const it = document.activeElement;
      return it.getAttribute('aria-label') ?? it.firstElementChild?.textContent ?? it.textContent;
    }),
    /** Waits until an element has a text, or has it somewhere. */
    async shows(selector, text, how = 'has') {
      const wanted = { has: `.includes(${quoted(text)})`, is: ` === ${quoted(text)}` }[how];
      await page.until(`document.querySelector(${quoted(selector)}).textContent${wanted}`);
    },
    rows: (n) => page.until(`${all('.documents tbody tr')}.length === ${n}`),
    table: (of) => page.run((selector) => {
      const texts = (row) => Array.from(row.children, (it) => it.textContent);
      return Array.from(document.querySelectorAll(selector), texts);
    }, `${of} tbody tr`),
    /** Types into a box and sends its form. */
    ask: (box, typed) => page.run((selector, typed) => {
      const box = document.querySelector(selector);
      box.value = typed;
      box.form.requestSubmit();
    }, box, typed),
    /** Fills the form and sends it by a button. */
    write: (how, texts) => page.run((how, texts) => {
      const form = document.querySelector('.fields');
      document.querySelector('.said').textContent = '';
      for (const it of form.querySelectorAll('input, select')) it.value = texts[it.name] ?? '';
      form.requestSubmit(form.querySelector(`[name=${how}]`));
    }, how, texts),
    async press(key, times = 1) {
      const event = { key, code: key, windowsVirtualKeyCode: codes[key] };
      const text = { Enter: '\r', ' ': ' ' }[key];
      for (let n = 0; n < times; n++) {
        await page.on('Input.dispatchKeyEvent', { type: text ? 'keyDown' : 'rawKeyDown', text, ...event });
        await page.on('Input.dispatchKeyEvent', { type: 'keyUp', ...event });
      }
    },
    async tabTo(name) {
      for (let n = 0; n < 40 && await this.focus() !== name; n++) await this.press('Tab');
      same(await this.focus(), name, 'the focus');
    },
    /** The copies in the browser's storage, once they are so many. */
    async copies(count) {
      const names = () => page.run(async () => {
        const folder = await navigator.storage.getDirectory(), names = [];
        for await (const name of folder.keys()) names.push(name);
        return names;
      });
      for (let left = 800; left; left--) {
        const all = await names();
        if (all.length === count) return all;
        await new Promise((go) => setTimeout(go, 20));
      }
      throw new Error(`copies: ${await names()}`);
    },
    async take(name) {
      if (!pictures) return;
      mkdirSync(pictures, { recursive: true });
      writeFileSync(join(pictures, `inspector-${name}.png`), await page.picture());
    },
  };
}

const held = (page) => page.texts('nav button');

inPage('a journal is dropped and looked at, and the file stays as it was', async ({ folder, visit }) => {
  const path = offline(folder, 250), bytes = readFileSync(path, 'latin1');
  const { records, epoch } = check(path).at(-1), page = await visit();
  await page.drop(path);
  await page.isOpen(path);
  const size = bytes.length.toLocaleString('en');
  same(await page.text('#file'), `todos.rx ${size} bytes, ${records} records, epoch ${epoch}`, 'the file');
  await page.shows('.counts', '250 documents, 0 deleted', 'is');
  alike(await held(page), ['server 250', 'phone 249', 'empty 0', 'sync phone → server, 3 pending',
    'far empty → port 4001'], 'what it holds');

  // By a heading, once, twice and a third time; then by pages.
  const copy = join(folder, 'copy.rx');
  cpSync(path, copy);
  const cell = (it) => (it === undefined ? '–' : String(it));
  const find = (query) => play(copy, [{ do: 'find', in: 'server', query }])[0].rows
    .map((it) => ['id', 'done', 'edited', 'rank', 'title'].map((name) => cell(it[name])));
  const due = async (query, what) => {
    const rows = find(query);
    await page.until(`document.querySelectorAll('.documents tbody tr').length === ${rows.length}
      && document.querySelector('.documents tbody').textContent === ${JSON.stringify(rows.flat().join(''))}`);
    alike(await page.table('.documents'), rows, what);
  };
  const rank = '.documents th:nth-child(4) button';
  await due({ limit: 50 }, 'all');
  for (const [by, sort, skip, order] of [
    [rank, [{ rank: 'asc' }], 0, 'ascending'], [rank, [{ rank: 'desc' }], 0, 'descending'],
    ['.next', [{ rank: 'desc' }], 50, 'descending'], ['.last', [{ rank: 'desc' }], 200, 'descending'],
    ['.previous', [{ rank: 'desc' }], 150, 'descending'], ['.first', [{ rank: 'desc' }], 0, 'descending'],
    [rank, [], 0, 'none'],
  ]) {
    await page.click(by);
    await due({ sort, skip, limit: 50 }, `${by} ${order}`);
    same(await page.evaluate(`document.querySelector('${rank}').parentNode.ariaSort`), order, by);
    same(await page.text('.where'), `${skip + 1} to ${skip + 50} of 250`, by);
  }

  // By a selector, one that is no JSON, and one that is refused.
  const box = '.documents textarea', few = { selector: { done: true, rank: { $lt: 300 } } };
  await page.ask(box, '{done: true, rank: {$lt: 300}}');
  await due(few, 'selected');
  same(find(few).length > 2 && find(few).length < 50, true, `${find(few).length} are selected`);
  await page.ask(box, '{done: }');
  await page.shows('.documents .fault', 'column 8: a value is due', 'is');
  await page.ask(box, '{colour: 1}');
  await page.shows('.documents .fault', 'colour');
  await due(few, 'a refusal leaves the table');
  await page.ask(box, '{title: "nothing"}');
  await page.until(`!document.querySelector('.none').hidden`);
  await page.ask(box, '');
  await due({ limit: 50 }, 'all again');

  await page.click('.documents tbody tr:nth-child(3)');
  await page.until(`!document.querySelector('.one').hidden`);
  const shown = JSON.parse(await page.text('.one pre'));
  alike(Object.entries(shown).sort(), Object.entries(todo(2)).sort(), 'one document');
  await page.shows('.one p', 'revision 1-server, write time ');
  await page.click('[data-view=schema]');
  alike((await page.table('.schema')).at(-2),
    ['rank', 'integer', 'from 0, to 999', '', 'done, rank; rank'], 'a property');
  alike(JSON.parse(await page.text('.schema pre')).indexes, [['done', 'rank'], ['rank']], 'the schema');

  // The copy goes when another journal is opened, or the page is opened again; a page beside leaves it.
  same(readFileSync(path, 'latin1'), bytes, 'the file');
  const [first] = await page.copies(1);
  await page.drop(copy);
  await page.isOpen(copy);
  const [second] = await page.copies(1);
  same(first === second, false, 'another copy');
  const beside = await visit();
  alike(await beside.copies(1), [second], 'a page beside');
  await page.close();
  await beside.close();
  await (await visit()).copies(0);
});

inPage('an observed query beside a form that writes to the copy', async ({ folder, visit }) => {
  const path = offline(folder, 250), bytes = readFileSync(path, 'latin1'), page = await visit();
  await page.choose(path);
  await page.isOpen(path);
  await page.click('[data-view=observe]');
  const query = { selector: { rank: { $lt: 40 } }, sort: [{ rank: 'desc' }], limit: 4 };
  await page.ask('.observe textarea', typed(query));
  await page.shows('.observed .count', '4 rows', 'is');
  const doc = (id, rank, more) => ({ id, title: `Title of ${id}`, rank, ...more });
  const writes = [
    ['insert', doc('a', 39), 'Inserted a, revision 1-server.'],
    ['upsert', doc('a', 38, { done: true }), 'Upserted a, revision 2-server.'],
    ['insert', doc('b', 900), 'Inserted b, revision 1-server.'],
    ['remove', { id: 'a' }, 'Removed a, revision 3-server.'],
  ];
  for (const [how, fields, said] of writes) {
    await page.write(how, fields);
    await page.shows('.said', said, 'is');
  }
  alike(await page.texts('.emissions span'),
    ['1 came, 1 left', '1 changed', '1 came, 1 left', 'as it was observed'], 'emissions, the last one first');
  for (const [how, fields, word] of [
    ['insert', doc('b', 1), 'conflict'], ['upsert', doc('c', 1000), 'rank'], ['upsert', { id: 'c' }, 'title'],
    ['upsert', doc('c', 'many'), 'rank'], ['remove', { id: 'c' }, 'no_document'],
  ]) {
    await page.write(how, fields);
    await page.shows('.said.fault', word);
  }
  await page.shows('.counts', '251 documents, 1 deleted', 'is');

  // The same lines natively have the same result, and the same counts.
  const copy = join(folder, 'copy.rx');
  cpSync(path, copy);
  const [counts, found] = play(copy, [
    { do: 'observe', name: 'q', in: 'server', query },
    ...writes.map(([how, doc]) => {
      return { do: how, in: 'server', ...(how === 'remove' ? { key: doc.id } : { doc }) };
    }),
    { do: 'explain', name: 'q' },
    { do: 'find', in: 'server', query },
  ]).slice(-2);
  alike((await page.table('.observed')).map(([id]) => id), found.rows.map((it) => it.id), 'the result');
  await page.shows('.totals', totals(counts), 'is');
  const due = Object.entries(counts.actions).flatMap(([action, n]) => [action, String(n)]);
  alike((await page.texts('.chart text')).sort(), due.sort(), 'the chart');

  await page.ask('.observe textarea', '{limit: -1}');
  await page.shows('.observe .fault', 'limit');
  same(readFileSync(path, 'latin1'), bytes, 'the file');
});

inPage('replications: what is pending, checkpoints, and a turn in the copy', async ({ folder, visit }) => {
  const path = offline(folder, 250), bytes = readFileSync(path, 'latin1'), page = await visit();
  await page.drop(path);
  await page.isOpen(path);
  const place = (it, none) => (it ? `write time ${it.lwt}, key ${it.id}` : none);
  const { up, down } = read(path).replications.get('sync');
  await page.click('#replications [data-name=sync]');
  await page.shows('dl', '3 documents');
  const before = await page.texts('dd');
  alike(before, ['phone', 'server', 'the one with the greater number is kept (greater, edited)',
    '3 documents', place(up, 'nothing was pushed yet'), place(down, 'nothing was pulled yet')], 'before');
  await page.click('.turn');
  await page.shows('.ended', 'Quiet');
  await page.shows('dl', 'Pendingnothing');
  const [push] = await page.table('.exchanges');
  alike(push, ['1', 'push', 'todo-000001, todo-000002, todo-000003', 'todo-000001', ''], 'an exchange');
  const after = await page.texts('dd');
  same(after[4] === before[4] || after[5] === before[5], false, `checkpoints: ${after.slice(4)}`);
  await page.until(`document.querySelector('#collections').textContent.includes('server 249')`);

  // A write to the fork is pending when the replication is looked at again.
  await page.click('#collections [data-name=phone]');
  await page.click('[data-view=observe]');
  await page.write('upsert', { id: 'new', title: 'New' });
  await page.shows('.said', 'Upserted new, revision 1-phone.', 'is');
  await page.click('#replications [data-name=sync]');
  await page.shows('dl', '1 document');
  await page.click('#replications [data-name=far]');
  await page.click('.turn');
  await page.shows('.ended', 'this page dials no port');
  same((await page.table('.exchanges'))[0].at(-1), 'dial', 'lost');
  same(readFileSync(path, 'latin1'), bytes, 'the file');
});

inPage('by keyboard alone', async ({ folder, visit }) => {
  const path = offline(folder, 120), page = await visit();
  await page.press('Tab');
  same(await page.focus(), 'Open a journal …', 'the first stop');
  await page.on('Page.setInterceptFileChooserDialog', { enabled: true });
  await page.press('Enter');
  await page.choose(path);
  await page.isOpen(path);
  same(await page.focus(), 'server', 'the first collection');
  await page.rows(50);
  await page.tabTo('Documents');
  await page.press('Tab');
  await page.type('{rank: {$gte: 500}}');
  await page.press('Enter');
  const query = { selector: { rank: { $gte: 500 } } };
  const found = play(path, [{ do: 'find', in: 'server', query }])[0].rows;
  await page.shows('.where', `1 to 50 of ${found.length}`, 'is');
  await page.tabTo(found[0].id);
  await page.press('ArrowDown', 2);
  same(await page.focus(), found[2].id, 'two rows on');
  await page.press('PageDown');
  await page.shows('.where', `51 to ${found.length} of ${found.length}`, 'is');
  await page.press('End');
  const last = found.at(-1).id;
  same(await page.focus(), last, 'the last row');
  await page.press('Enter');
  await page.shows('.one h3', last, 'is');
  same(await page.focus(), 'Close', 'the document');
  await page.press('Escape');
  await page.until(`document.querySelector('.one').hidden`);
  same(await page.focus(), last, 'back in the table');
  await page.press('Enter');
  await page.until(`!document.querySelector('.one').hidden`);
  await page.tabTo('Edit in the form');
  await page.press(' ');
  await page.until(`document.activeElement.name === 'id' && document.activeElement.value === '${last}'`);
  while (await page.evaluate(`document.activeElement.name !== 'title'`)) await page.press('Tab');
  await page.type('By keyboard'); // what is there is marked, and replaced
  await page.press('Enter');
  await page.shows('.said', `Upserted ${last}, revision 2-server.`, 'is');
  await page.evaluate(`document.querySelector('[role=tab][tabindex="0"]').focus()`);
  await page.press('End');
  await page.press(' ');
  await page.until(`document.querySelector('.schema')`);
  await page.press('Home');
  await page.press('Enter');
  await page.until(`document.querySelector('.documents textarea')?.value === '{rank: {$gte: 500}}'`);
});

inPage('narrow and wide, light and dark', async ({ folder, visit }) => {
  const path = offline(folder, 640), backgrounds = new Set();
  for (const [width, height] of [[400, 860], [1600, 1000]]) {
    for (const theme of ['light', 'dark']) {
      const page = await visit({ width, height }, theme);
      const fits = async (name) => {
        const over = await page.evaluate('document.documentElement.scrollWidth - innerWidth');
        same(over <= 0, true, `${name} is ${over} too wide for ${width}`);
        await page.take(`${name}-${width}-${theme}`);
      };
      await fits('welcome');
      await page.drop(path);
      await page.isOpen(path);
      await page.rows(50);
      await page.shows('.counts', 'deleted');
      await fits('documents');
      await page.click('.documents tbody tr:nth-child(4)');
      await page.until(`!document.querySelector('.one').hidden`);
      await fits('one');
      await page.click('[data-view=observe]');
      await page.ask('.observe textarea', '{selector: {done: true}, sort: [{rank: "asc"}], limit: 8}');
      await page.shows('.observed .count', '8 rows', 'is');
      for (const [n, rank] of [400, 90, 5, 6, 300, 7, 8, 6, 999, 70, 2, 1].entries()) {
        const title = `Written here (${n + 1})`;
        await page.write('upsert', { ...todo(n % 5), title, done: n % 7 > 0, rank });
        await page.shows('.said', 'Upserted');
      }
      await page.shows('.totals', '12 changes');
      await fits('observe');
      await page.evaluate(`document.querySelector('.chart').scrollIntoView({ block: 'center' })`);
      await fits('explain');
      await page.click('[data-view=schema]');
      await fits('schema');
      await page.click('#replications [data-name=sync]');
      await page.click('.turn');
      await page.shows('.ended', 'Quiet');
      await page.shows('dl', 'Pendingnothing');
      same((await page.text('#status')).startsWith('Opened'), true, await page.text('#status'));
      await fits('replication');
      backgrounds.add(await page.evaluate('getComputedStyle(document.documentElement).backgroundColor'));
      await page.close();
    }
  }
  same(backgrounds.size, 2, `backgrounds: ${[...backgrounds]}`);
});

inPage('what is no journal is said so, and what is open stays', async ({ folder, visit }) => {
  const path = offline(folder, 60), letter = join(folder, 'letter.txt'), page = await visit();
  writeFileSync(letter, 'Dear Ada, this is no journal.');
  const said = 'letter.txt isn’t opened: it is no journal of rx, or its records aren’t legal.';
  await page.drop(letter);
  await page.shows('#status', said, 'is');
  same(await page.evaluate(`document.getElementById('journal').hidden`), true, 'nothing is shown');
  await page.copies(0);
  await page.drop(path);
  await page.isOpen(path);
  await page.drop(letter);
  await page.shows('#status', said, 'is');
  await page.click('#collections [data-name=phone]');
  await page.rows(50);
  await page.shows('.counts', '59 documents');
  await page.copies(1);
  // Nothing at all is a journal too.
  const nothing = join(folder, 'nothing.rx');
  writeFileSync(nothing, '');
  await page.drop(nothing);
  await page.isOpen(nothing);
  await page.shows('#shown', 'It is empty.', 'is');
});

inPage('100,000 documents are open in at most three seconds', async ({ folder, visit }) => {
  const path = join(folder, 'large.rx'), page = await visit(), times = [];
  play(path, [{ do: 'collection', name: 'todos', schema }, ...bulks('todos', 100000)]);
  // From the drop until the first page is there: of five tries, on a machine that may do other work, one.
  for (let n = 0; n < 5 && !(times.at(-1) <= 3000); n++) {
    await page.run(() => {
      document.getElementById('status').textContent = '';
      document.querySelector('.documents')?.remove();
      globalThis.took = new Promise((go) => {
        let begun;
        addEventListener('drop', () => { begun = performance.now(); }, { capture: true, once: true });
        const look = () => {
          if (document.querySelectorAll('.documents tbody tr').length === 50) go(performance.now() - begun);
        };
        new MutationObserver(look).observe(document.body, { childList: true, subtree: true });
      });
    });
    await page.drop(path);
    times.push(Math.round(await page.evaluate('took')));
    await page.isOpen(path);
    await page.shows('.counts', '100,000 documents, 0 deleted', 'is');
  }
  console.log(`${times.join(', ')} ms for ${readFileSync(path).length} bytes`);
  same(Math.min(...times) <= 3000, true, `the times: ${times}`);
  await page.shows('.where', '1 to 50 of 100,000', 'is');
  await page.click('.last');
  await page.shows('.where', '99,951 to 100,000 of 100,000', 'is');
  await page.shows('.documents tbody', todo(99999).title);
});

if (process.argv[2] === undefined) {
  for (const [name, { needs }] of Object.entries(tests)) console.log(JSON.stringify({ name, needs }));
} else {
  await tryOne(tests);
}
