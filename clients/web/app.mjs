// A todo list on two devices and a server, each a collection of one database in this tab. The devices' are forks of
// the server's, and follow it while they are online. Offline they are edited apart, and come together by a turn.
import { open, wasm } from '../js/rx.mjs';

const schema = {
  version: 0,
  primaryKey: 'id',
  type: 'object',
  properties: {
    id: { type: 'string', maxLength: 36 },
    title: { type: 'string', maxLength: 120 },
    done: { type: 'boolean' },
    made: { type: 'integer' },
    edited: { type: 'integer' },
  },
  required: ['title', 'done', 'made', 'edited'],
};
const devices = ['phone', 'laptop'];
const first = {
  phone: ['Buy oat milk', 'Call the dentist', 'Water the plants'],
  laptop: ['Book the train to Vienna', 'Answer Ada'],
  server: [],
};

const element = (id) => document.getElementById(id);
const copy = (id) => element(id).content.cloneNode(true).firstElementChild;
const say = (text) => { element('status').textContent = text; };
const todo = (title) => ({ id: crypto.randomUUID(), title, done: false, made: Date.now(), edited: Date.now() });

// A write that is refused says so, and leaves the list as it is.
const attempt = (write) => write.catch((fault) => say(`Not done: ${fault.message}`));

/** The collection of a place, with its first todos. */
async function collection(db, name) {
  const todos = await db.collection(name, schema);
  if (todos.isNew) await todos.bulk(first[name].map(todo));
  return todos;
}

/** Makes a device's collection a fork of the server's. Of two edits the later one is kept. */
async function replicate(db, name) {
  const replication = { name, fork: name, master: 'server', handler: 'greater', field: 'edited' };
  await db.replicate(replication).catch((fault) => { if (fault.word !== 'exists') throw fault; });
}

/** One place: its todos, which follow each change, and what can be done to them. Devices go on and off line. */
function show(todos, go) {
  const { name } = todos;
  const section = copy('place');
  const part = (selector) => section.querySelector(selector);
  const items = new Map(); // by key, so that what is edited keeps its place and its focus
  let limit = 6, subscription;

  const patch = (id, set) => attempt(todos.patch(id, { ...set, edited: Date.now() }));

  function item(row) {
    const li = copy('todo');
    const [done, title, remove] = li.children;
    done.onchange = () => patch(row.id, { done: done.checked });
    title.onchange = () => (title.value.trim() ? patch(row.id, { title: title.value.trim() }) : (title.value = title.defaultValue));
    title.onkeydown = ({ key }) => {
      if (key === 'Escape') title.value = title.defaultValue;
      if (key === 'Escape' || key === 'Enter') title.blur();
    };
    remove.onclick = () => {
      const next = li.nextElementSibling ?? li.previousElementSibling;
      (next?.querySelector('.remove') ?? part('form input')).focus();
      attempt(todos.remove(row.id));
    };
    return li;
  }

  function render(rows) {
    performance.mark('emission');
    const focused = document.activeElement;
    const shown = rows.map((row) => {
      const li = items.get(row.id) ?? item(row);
      const [done, title] = li.children;
      done.checked = row.done;
      if (title !== focused) title.value = row.title;
      title.defaultValue = row.title;
      return [row.id, li];
    });
    items.clear();
    for (const [id, li] of shown) items.set(id, li);
    part('.todos').replaceChildren(...items.values());
    if (section.contains(focused)) focused.focus();
    part('.empty').hidden = rows.length > 0;
    todos.count().then((count) => {
      part('.more span').textContent = count ? `${items.size} of ${count} shown` : '';
      part('.more button').hidden = items.size === count;
    }, () => {});
  }

  // The observed query: it is left for another one where more is to be shown.
  function observe() {
    subscription?.unsubscribe();
    subscription = todos
      .observe({ sort: [{ done: 'asc' }, { made: 'desc' }], limit })
      .subscribe({ next: render, error: (fault) => say(`Not shown: ${fault.message}`) });
  }

  part('h2').textContent = name;
  part('.online input').onchange = ({ target }) => {
    section.classList.toggle('offline', !target.checked);
    go(name, target.checked);
  };
  part('.conflicts button').onclick = () => { part('.conflicts').hidden = true; part('form input').focus(); };
  part('.more button').onclick = () => { limit += 6; observe(); };
  part('form').onsubmit = (event) => {
    event.preventDefault();
    const input = part('form input');
    if (input.value.trim()) attempt(todos.insert(todo(input.value.trim())));
    input.value = '';
  };
  part('form input').setAttribute('aria-label', `New todo on the ${name}`);
  if (name === 'server') for (const it of section.querySelectorAll('.online, .conflicts')) it.remove();
  section.id = name;
  observe();
  return section;
}

const text = (row) => (row ? `${row.title}${row.done ? ', done' : ''}` : 'removed');
const allRows = async (db, name) => new Map((await (await db.collection(name)).find()).map((row) => [row.id, row]));

/** A device pushes and pulls until nothing is left. Answers how, with what was edited on both sides. */
async function turn(db, name) {
  const [mine, theirs] = [await allRows(db, name), await allRows(db, 'server')];
  const { end, exchanges, each } = await db.turn(name);
  const kept = await allRows(db, name);
  const keys = new Set(each.flatMap((it) => it.conflicts ?? []));
  const conflicts = [...keys].map((key) => ({ mine: text(mine.get(key)), theirs: text(theirs.get(key)), kept: text(kept.get(key)) }));
  return { name, end, exchanges, conflicts: conflicts.filter((it) => it.mine !== it.theirs) };
}

/** Both edits of each conflict, with the one that was kept marked. */
function showConflicts(name, conflicts) {
  const panel = element(name).querySelector('.conflicts');
  panel.hidden = !conflicts.length;
  panel.querySelector('ul').replaceChildren(...conflicts.map(({ mine, theirs, kept }) => {
    const li = copy('conflict');
    for (const [edit, who, what] of [[li.children[0], name, mine], [li.children[1], 'server', theirs]]) {
      edit.children[0].textContent = who;
      edit.children[1].textContent = what;
      edit.children[2].hidden = what !== kept;
      edit.classList.toggle('kept', what === kept);
    }
    return li;
  }));
}

const count = (n, what) => `${n} ${what}${n === 1 ? '' : 's'}`;

const following = new Map(); // the devices that are online

/** What was edited apart comes together, and from then on each write of either side comes to the other. */
async function goOnline(db, name) {
  const { end, exchanges, conflicts } = await turn(db, name);
  following.set(name, db.follow(name));
  const trouble = ({ message }) => say(`The ${name} doesn’t follow the server: ${message}`);
  following.get(name).subscribe({ error: trouble });
  showConflicts(name, conflicts);
  if (end !== 'quiet') return say(`The ${name} is not through: its turn ended ${end}.`);
  const met = conflicts.length
    ? ` ${count(conflicts.length, 'todo')} had been edited on both sides, and the later edit was kept.` : '';
  say(`The ${name} came together with the server in ${count(exchanges, 'exchange')}.${met}`);
}

function goOffline(name) {
  following.get(name)?.close();
  following.delete(name);
  say(`The ${name} is offline. Edits go on, and come together later.`);
}

try {
  const waiting = () => say('These todos are open in another tab. Close that one, and they open here.');
  const db = await open(wasm('../../wasm/out', 'todos'), { waiting });
  db.stopped.then((why) => say(`The database has stopped: ${why.message}`));
  const places = await Promise.all(['phone', 'server', 'laptop'].map((name) => collection(db, name)));
  await Promise.all(devices.map((name) => replicate(db, name)));
  let switching = Promise.resolve(); // one after another, as the switches were flipped
  const go = (name, isOn) => {
    switching = switching.then(() => (isOn ? goOnline(db, name) : goOffline(name)))
      .catch((fault) => say(`Not synced: ${fault.message}`));
  };
  element('places').append(...places.map((it) => show(it, go)));
  for (const name of devices) go(name, true);
  await switching;
  say('Ready. Everything you do is kept in this browser.');
  navigator.storage.persist?.(); // so that the browser doesn't drop the journal when it is short of room
} catch (fault) {
  say(`The database didn’t start. ${fault.message}`);
}
