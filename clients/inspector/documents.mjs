// The documents of a collection: a box for a selector, a table that its headings sort, its pages, and the
// JSON of one document.
import { copy, documentRow, heading, make, rove, sendsByEnter } from './dom.mjs';
import { findPage } from './model.mjs';
import { readTyped, typed } from './query.mjs';
import { because, number } from './words.mjs';

const size = 50; // rows of a page

/** A view. `asked` has what it asks for, also for the next one. `edit` is given a document. */
export function documentsView({ collection, columns, asked, edit }) {
  const view = copy('documents');
  const find = (selector) => view.querySelector(selector);
  const [box, body, one] = [find('textarea'), find('tbody'), find('.one')];
  const fit = sendsByEnter(box);
  let loads = 0, total;

  const headings = columns.map((it) => {
    const { name } = it;
    return heading(it, make('button', { type: 'button', textContent: name, onclick: () => sortBy(name) }));
  });

  function sortBy(name) {
    const { field, direction } = asked.sort ?? {};
    if (field !== name) asked.sort = { field: name, direction: 'asc' };
    else asked.sort = direction === 'asc' ? { field: name, direction: 'desc' } : null;
    turnTo(0);
  }

  function turnTo(page) {
    asked.page = page;
    load();
  }

  /** Asks for the page, and shows it if nothing else was asked for meanwhile. */
  async function load() {
    const mine = ++loads;
    try {
      const found = await findPage(collection, asked, size, total);
      if (mine === loads) show(found);
    } catch (fault) {
      if (mine === loads) find('.fault').textContent = because(fault);
    }
  }

  function show({ rows, page, last, first, end, total: count }) {
    const { field, direction } = asked.sort ?? {};
    const [hadFocus, key] = [body.contains(document.activeElement), columns[0].name];
    [asked.page, total] = [page, count];
    find('.fault').textContent = '';
    headings.forEach((it, i) => {
      it.setAttribute('aria-sort', columns[i].name === field ? `${direction}ending` : 'none');
    });
    body.replaceChildren(...rows.map((doc) => {
      const row = documentRow(columns, doc);
      row.onclick = () => open(doc[key], row);
      row.onkeydown = (event) => {
        const way = { PageDown: 1, PageUp: -1 }[event.key];
        if (event.key === 'Enter') row.click();
        if (!way) return;
        event.preventDefault();
        turnTo(page + way);
      };
      return row;
    }));
    rove(body.children, { next: 'ArrowDown', previous: 'ArrowUp' });
    if (hadFocus) body.firstElementChild?.focus();
    find('.none').hidden = count > 0;
    find('.where').textContent = count ? `${number(first + 1)} to ${number(end)} of ${number(count)}` : '';
    for (const [name, to] of [['first', 0], ['previous', page - 1], ['next', page + 1], ['last', last]]) {
      const button = find(`.${name}`);
      button.disabled = to === page || to < 0 || to > last;
      button.onclick = () => turnTo(to);
    }
  }

  async function open(key, row) {
    const [{ doc, rev, lwt }, fault] = await collection.get(key).then((it) => [it], (it) => [{}, it]);
    for (const it of body.children) it.setAttribute('aria-current', it === row);
    one.hidden = false;
    one.querySelector('h3').textContent = key;
    const stored = `revision ${rev}, write time ${lwt}${timeOf(lwt)}`;
    one.querySelector('p').textContent = doc ? stored : because(fault);
    one.querySelector('pre').textContent = doc ? JSON.stringify(doc, null, 2) : '';
    one.querySelector('.edit').hidden = !doc;
    one.querySelector('.edit').onclick = () => edit(doc);
    one.querySelector('.close').onclick = () => close(row);
    one.querySelector('.close').focus();
  }

  function close(row) {
    one.hidden = true;
    for (const it of body.children) it.removeAttribute('aria-current');
    (row.isConnected ? row : body.firstElementChild)?.focus();
  }

  one.onkeydown = ({ key }) => {
    if (key === 'Escape') one.querySelector('.close').click();
  };
  find('form').onsubmit = (event) => {
    event.preventDefault();
    try {
      asked.selector = readTyped(box.value);
      total = undefined;
      turnTo(0);
    } catch (fault) {
      find('.fault').textContent = fault.message;
    }
  };
  find('thead tr').append(...headings);
  box.value = Object.keys(asked.selector).length ? typed(asked.selector) : '';
  load();
  return { view, fit };
}

// A write time is a moment of the clock where the program was told the time, and else it counts.
function timeOf(lwt) {
  const isMoment = lwt > 1e12 && lwt < 1e13;
  return isMoment ? `, ${new Date(lwt).toISOString().replace('T', ' ').slice(0, 19)} UTC` : '';
}
