// A list of todos that is written offline, and comes together with those of other browsers at the server.
import { open, wasm } from '../../clients/js/rx.mjs';

const master = new URLSearchParams(location.search).get('master') ?? `ws://${location.hostname}:4000/todos`;
const port = 4000; // only a name here: the page has its URL
const byId = (id) => document.getElementById(id);

// A page isn't told why a server doesn't take it: until it did once, the token may be the reason.
let isTaken = false;

function say(state, text) {
  byId('status').dataset.state = state;
  byId('status').textContent = text;
  isTaken ||= state === 'in sync';
  byId('forget').hidden = isTaken || state !== 'offline';
}

// The token is kept by the browser, and goes to the server alone.
async function token() {
  const kept = localStorage.getItem('token');
  if (kept) return kept;
  const form = byId('enter');
  form.hidden = false;
  say('waiting', 'Enter the token that server/start has told.');
  await new Promise((go) => { form.onsubmit = (event) => { event.preventDefault(); go(); }; });
  form.hidden = true;
  localStorage.setItem('token', form.token.value.trim());
  return token();
}

byId('forget').onclick = () => {
  localStorage.removeItem('token');
  location.reload();
};

const schema = await (await fetch('../todos.json')).json();
const masters = { [port]: { url: master, token: await token() } };
say('starting', 'Starting …');
const waiting = () => say('waiting', 'The list is open in another tab. Close that one to have it here.');
const db = await open(wasm('../../wasm/out', 'todos', { masters }), { waiting }).catch((fault) => {
  say('failed', `The list can't be opened: ${fault.message}`);
  throw fault;
});
db.stopped.then((why) => say('failed', `The list was closed: ${why.message}`));
const todos = await db.collection('todos', schema);
await db.replicate({ name: 'sync', fork: 'todos', port, handler: 'greater', field: 'edited' })
  .catch((fault) => { if (fault.word !== 'exists') throw fault; });

todos.observe({ sort: [{ done: 'asc' }, { title: 'asc' }] }).subscribe((rows) => {
  document.querySelector('ul').replaceChildren(...rows.map((row) => {
    const make = (name) => document.createElement(name);
    const [item, box, title, remove] = ['li', 'input', 'span', 'button'].map(make);
    item.className = row.done ? 'done' : '';
    title.textContent = row.title;
    Object.assign(box, { type: 'checkbox', checked: row.done, ariaLabel: `${row.title}: done` });
    box.onchange = () => todos.patch(row.id, { done: box.checked, edited: Date.now() });
    Object.assign(remove, { textContent: '×', ariaLabel: `Remove ${row.title}` });
    // A removal counts as an edit, so that it is the greater one where another browser edited before.
    remove.onclick = async () => {
      await todos.patch(row.id, { edited: Date.now() });
      await todos.remove(row.id);
    };
    item.append(box, title, remove);
    return item;
  }));
});
byId('add').onsubmit = async (event) => {
  event.preventDefault();
  const title = event.target.title.value.trim();
  event.target.reset();
  if (!title) return;
  await todos.insert({ id: crypto.randomUUID(), title, done: false, edited: Date.now() });
};
byId('add').hidden = false;

const following = db.follow('sync');
following.subscribe(({ state, pending, lost }) => {
  const kept = pending ? ` To be sent later: ${pending}.` : '';
  if (state === 'in sync') say(state, 'In sync.');
  else if (state === 'offline') say(state, `Offline (${lost}). What you write is kept.${kept}`);
  else say(state, 'Syncing …');
});
Object.assign(window, { db, todos, following }); // for the console
