// The schema of a collection: a row for each property, and its JSON.
import { copy, make } from './dom.mjs';
import { boundsOf } from './rows.mjs';

export function schemaView({ schema, columns }) {
  const view = copy('schema');
  view.querySelector('tbody').replaceChildren(...columns.map((it) => make('tr', {},
    make('th', { scope: 'row', textContent: it.name }),
    make('td', { textContent: it.property.type }),
    make('td', { textContent: boundsOf(it.property) }),
    make('td', { textContent: it.isKey ? 'primary key' : it.isRequired ? 'yes' : '' }),
    make('td', { textContent: it.indexes.map((index) => index.join(', ')).join('; ') }))));
  view.querySelector('pre').textContent = JSON.stringify(schema, null, 2);
  return { view };
}
