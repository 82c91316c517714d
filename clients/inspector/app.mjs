// The inspector's page: a journal is dropped or chosen, its copy is opened, and what it holds is shown.
import { copyOf, sweep } from './copy.mjs';
import { documentsView } from './documents.mjs';
import { copy, make, part, rove } from './dom.mjs';
import { Journal } from './model.mjs';
import { observingView } from './observing.mjs';
import { replicationView } from './replication.mjs';
import { columnsOf } from './rows.mjs';
import { schemaView } from './schema.mjs';
import { because, counted, number } from './words.mjs';

let journal = null; // the one that is open
let shown = view(); // of it
let opening = Promise.resolve();
let due; // the next report

const say = (text) => { part('status').textContent = text; };

// What is shown: how it shows counts that are told anew, how it is left, and its button in the list.
function view(button) {
  return { button, tell() {}, leave() {} };
}

/** Opens a file, and closes the one before once it is open. */
function open(file) {
  opening = opening.then(async () => {
    const begun = performance.now();
    say(`Opening ${file.name} …`);
    document.body.classList.add('busy');
    try {
      const next = await Journal.of(file, copyOf);
      shown.leave();
      await journal?.close();
      journal = next;
      next.db.stopped?.then((why) => {
        if (why.stop !== 'closed') say(`The program has ended: ${because(why)}.`);
      });
      showJournal();
      say(`Opened a copy of ${file.name} in ${number(Math.round(performance.now() - begun))} ms.`);
      reportSoon(); // it takes as long as an opening, so nothing waits for it
    } catch (fault) {
      say(`${file.name} isn’t opened: ${because(fault)}.`);
    }
    document.body.classList.remove('busy');
  });
}

function reportSoon() {
  clearTimeout(due);
  due = setTimeout(report, 500);
}

/** Looks at the copy as it is now, and shows what is told. */
async function report() {
  clearTimeout(due);
  const mine = journal;
  const fault = await mine.report().then(() => null, (it) => it);
  if (mine !== journal) return;
  if (fault) say(`There is no report of the copy: ${because(fault)}.`);
  tell();
}

function showJournal() {
  const { name, size, records, epoch, collections, replications } = journal;
  const facts = [counted(size, 'byte'), counted(records, 'record'), `epoch ${number(epoch)}`];
  part('welcome').hidden = true;
  part('journal').hidden = false;
  document.title = `${name} · rx inspector`;
  part('file').replaceChildren(make('b', { textContent: name }), ` ${facts.join(', ')}`);
  part('collections').replaceChildren(...items(collections, showCollection));
  part('replications').replaceChildren(...items(replications, showReplication));
  const first = document.querySelector('nav button');
  if (!first) part('shown').replaceChildren(make('p', { className: 'none', textContent: 'It is empty.' }));
  first?.click();
  first?.focus();
}

// The buttons of a list, or that there are none.
function items(held, show) {
  const all = [...held.keys()].map((name) => {
    const item = copy('item'), button = item.firstElementChild;
    button.dataset.name = name;
    button.children[0].textContent = name;
    button.onclick = () => {
      shown.leave();
      shown.button?.removeAttribute('aria-current');
      button.setAttribute('aria-current', 'true');
      shown = view(button);
      show(name);
      tell();
    };
    return item;
  });
  return all.length ? all : [make('li', { className: 'soft', textContent: 'none' })];
}

/** Shows counts, and what is pending, as they are known now. */
function tell() {
  for (const it of part('collections').querySelectorAll('button')) {
    it.children[1].textContent = number(journal.collections.get(it.dataset.name).count);
  }
  for (const it of part('replications').querySelectorAll('button')) {
    const { fork, master, port, pending } = journal.replications.get(it.dataset.name);
    const ends = `${fork} → ${master ?? `port ${port}`}`;
    it.children[1].textContent = pending ? `${ends}, ${number(pending)} pending` : ends;
  }
  shown.tell();
}

function showCollection(name) {
  const { schema } = journal.collections.get(name);
  const [collection, columns, asked] = [journal.collection(name), columnsOf(schema), journal.asked(name)];
  const section = copy('collection'), panel = section.querySelector('.view');
  const tabs = [...section.querySelectorAll('[role=tab]')];
  const wrote = () => {
    reportSoon();
    journal.count(name).then(tell, () => {});
  };
  const views = {
    documents: () => documentsView({ collection, columns, asked, edit }),
    observe: () => observingView({ collection, columns, asked, wrote }),
    schema: () => schemaView({ schema, columns }),
  };

  function edit(doc) {
    asked.texts = Object.fromEntries(Object.entries(doc).map(([field, value]) => [field, String(value)]));
    turnTo('observe');
    panel.querySelector('.fields input').focus();
  }

  function turnTo(tab) {
    shown.leave();
    asked.tab = tab;
    for (const it of tabs) {
      const isChosen = it.dataset.view === tab;
      it.setAttribute('aria-selected', isChosen);
      if (isChosen) panel.setAttribute('aria-label', it.textContent);
    }
    const { view, fit, leave } = views[tab]();
    shown.leave = leave ?? (() => {});
    panel.replaceChildren(view);
    fit?.();
  }

  section.querySelector('h2').textContent = name;
  shown.tell = () => {
    const { count, deleted } = journal.collections.get(name);
    const gone = deleted === undefined ? '' : `, ${number(deleted)} deleted`;
    section.querySelector('.counts').textContent = `${counted(count, 'document')}${gone}`;
  };
  part('shown').replaceChildren(section);
  rove(tabs, { next: 'ArrowRight', previous: 'ArrowLeft' });
  for (const it of tabs) it.onclick = () => turnTo(it.dataset.view);
  turnTo(asked.tab);
}

function showReplication(name) {
  const { view, tell } = replicationView({ journal, name, turned: report });
  shown.tell = tell;
  part('shown').replaceChildren(view);
  report(); // writes since the last one may be pending
}

part('open').onclick = () => part('chosen').click();
part('chosen').onchange = ({ target }) => {
  if (target.files[0]) open(target.files[0]);
  target.value = ''; // so that the same file may be chosen again
};
addEventListener('dragover', (event) => {
  event.preventDefault();
  document.body.classList.add('over');
});
addEventListener('dragleave', ({ relatedTarget }) => {
  document.body.classList.toggle('over', relatedTarget !== null);
});
addEventListener('drop', (event) => {
  event.preventDefault();
  document.body.classList.remove('over');
  const [file] = event.dataTransfer.files;
  if (file) open(file);
});
sweep();
