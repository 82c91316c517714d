// An observed query of a collection beside a form that writes to the copy: the query's result, its emissions,
// and what `explain` tells of it.
import { chart, totals } from './chart.mjs';
import { copy, documentRow, heading, make, sendsByEnter } from './dom.mjs';
import { readTyped, typed } from './query.mjs';
import { boundsOf, difference, documentOf, fieldOf } from './rows.mjs';
import { because, counted, number } from './words.mjs';

const [mostRows, mostEmissions] = [50, 100]; // so many are shown
const done = { insert: 'Inserted', upsert: 'Upserted', remove: 'Removed' };

/** A view. `asked` has the query and the form's texts, also for the next one. `wrote` hears of writes. */
export function observingView({ collection, columns, asked, wrote }) {
  const view = copy('observe');
  const find = (selector) => view.querySelector(selector);
  const [box, key] = [find('textarea'), columns[0].name];
  const fit = sendsByEnter(box);
  let observed, subscription, rows, emissions;

  function observe() {
    subscription?.unsubscribe();
    [rows, emissions] = [null, 0];
    find('.emissions').replaceChildren();
    observed = collection.observe(asked.query);
    subscription = observed.subscribe({ next: hear, error: fail });
  }

  function fail(fault) {
    observed = null;
    find('.fault').textContent = because(fault);
  }

  function hear(now) {
    const change = rows ? changeOf(difference(rows, now, key)) : 'as it was observed';
    [rows, emissions] = [now, emissions + 1];
    find('.fault').textContent = '';
    find('.count').textContent = now.length > mostRows
      ? `the first ${mostRows} of ${number(now.length)} rows` : counted(now.length, 'row');
    find('tbody').replaceChildren(...now.slice(0, mostRows).map((doc) => documentRow(columns, doc)));
    find('.none').hidden = now.length > 0;
    find('.emissions').prepend(make('li', { value: emissions },
      make('time', { textContent: new Date().toTimeString().slice(0, 8) }),
      make('b', { textContent: counted(now.length, 'row') }),
      make('span', { textContent: change })));
    if (emissions > mostEmissions) find('.emissions').lastElementChild.remove();
    explain();
  }

  async function explain() {
    const counts = await observed?.explain().catch(() => null);
    if (!counts) return;
    find('.totals').textContent = totals(counts);
    find('.chart').innerHTML = chart(counts);
  }

  function keep() {
    asked.texts = Object.fromEntries(new FormData(find('.fields')));
  }

  async function write(how) {
    keep();
    const said = find('.said');
    const doc = documentOf(columns, asked.texts);
    try {
      const rev = await (how === 'remove' ? collection.remove(doc[key] ?? '') : collection[how](doc));
      said.className = 'said';
      said.textContent = `${done[how]} ${doc[key]}, revision ${rev}.`;
      wrote();
    } catch (fault) {
      said.className = 'said fault';
      said.textContent = because(fault);
    }
    explain();
  }

  function field({ name, kind, property, isRequired }) {
    const input = kind === 'boolean'
      ? make('select', {}, ...['', 'true', 'false'].map((it) => new Option(it || '–', it)))
      : make('input', { autocomplete: 'off', spellcheck: false });
    Object.assign(input, { name, value: fieldOf(asked.texts, name) ?? '' });
    input.placeholder = [property.type, boundsOf(property)].filter(Boolean).join(', ');
    return make('label', {}, make('span', { textContent: isRequired ? `${name} *` : name }), input);
  }

  find('.inputs').append(...columns.map(field));
  find('thead tr').append(...columns.map((it) => heading(it, it.name)));
  find('.fields').oninput = keep;
  find('.fields').onsubmit = (event) => {
    event.preventDefault();
    write(event.submitter?.name ?? 'upsert');
  };
  find('form.query').onsubmit = (event) => {
    event.preventDefault();
    try {
      asked.query = readTyped(box.value);
      observe();
    } catch (fault) {
      find('.fault').textContent = fault.message;
    }
  };
  box.value = typed(asked.query);
  observe();
  return { view, fit, leave: () => subscription.unsubscribe() };
}

function changeOf({ came, left, changed }) {
  const parts = [[came, 'came'], [left, 'left'], [changed, 'changed']].filter(([n]) => n);
  return parts.map(([n, what]) => `${number(n)} ${what}`).join(', ') || 'in another order';
}
