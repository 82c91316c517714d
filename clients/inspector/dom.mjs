// Small helps for the page's elements.
import { cellOf, fieldOf } from './rows.mjs';

export const part = (id) => document.getElementById(id);
export const copy = (id) => part(id).content.cloneNode(true).firstElementChild;

/** A new element, with these properties and children. */
export function make(tag, properties = {}, ...children) {
  const it = Object.assign(document.createElement(tag), properties);
  it.append(...children);
  return it;
}

/** A row of a table with these texts. */
export const textRow = (...texts) => make('tr', {}, ...texts.map((it) => make('td', { textContent: it })));

/** A row of a table with a document's fields. */
export function documentRow(columns, doc) {
  return make('tr', {}, ...columns.map(({ name, kind, isKey }) => {
    const { text, isMissing } = cellOf(fieldOf(doc, name));
    const className = isMissing ? `${kind} missing` : kind;
    return make(isKey ? 'th' : 'td', { className, textContent: text, ...(isKey && { scope: 'row' }) });
  }));
}

/** A heading of a column. */
export const heading = ({ kind }, content) => {
  const it = make('th', { className: kind, scope: 'col' });
  it.append(content);
  return it;
};

/** Has a text box send its form by Enter, break lines by Shift and Enter, and be as high as its text. */
export function sendsByEnter(box) {
  const fit = () => {
    box.style.height = 'auto';
    box.style.height = `${box.scrollHeight + 2}px`;
  };
  box.addEventListener('input', fit);
  box.form.addEventListener('submit', fit);
  box.addEventListener('keydown', (event) => {
    if (event.key !== 'Enter' || event.shiftKey || event.isComposing) return;
    event.preventDefault();
    box.form.requestSubmit();
  });
  return fit;
}

/** Puts one of some elements on the way of the Tab key; the arrow keys lead from it to the others. */
export function rove(elements, { next, previous }) {
  const all = [...elements];
  all.forEach((it, i) => {
    it.tabIndex = i === 0 ? 0 : -1;
    it.addEventListener('focus', () => { for (const other of all) other.tabIndex = other === it ? 0 : -1; });
    it.addEventListener('keydown', (event) => {
      const to = { [next]: all[i + 1], [previous]: all[i - 1], Home: all[0], End: all.at(-1) }[event.key];
      if (!to) return;
      event.preventDefault();
      to.focus();
    });
  });
}
