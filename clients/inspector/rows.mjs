// Documents as rows of a table: their columns and cells, what a form says of one, and how two results differ.

const longest = 160; // so many characters of a text stand in a cell

/** The fields of a schema as columns, the primary key first. */
export function columnsOf({ primaryKey, properties, required = [], indexes = [] }) {
  const names = Object.keys(properties).sort((a, b) => (b === primaryKey) - (a === primaryKey));
  return names.map((name) => ({
    name,
    kind: properties[name].type === 'integer' ? 'number' : properties[name].type, // as a value's
    property: properties[name],
    isKey: name === primaryKey,
    isRequired: name === primaryKey || required.includes(name),
    indexes: indexes.filter((it) => [it].flat().includes(name)).map((it) => [it].flat()),
  }));
}

/** A document's field, if it has it: names that every object has are names of fields too. */
export const fieldOf = (doc, name) => (Object.hasOwn(doc, name) ? doc[name] : undefined);

/** What a cell shows of a value, and of none. */
export function cellOf(value) {
  if (value === undefined) return { text: '–', isMissing: true };
  const text = String(value);
  return { text: text.length > longest ? `${text.slice(0, longest)}…` : text, isMissing: false };
}

/** The bounds of a property, in words. */
export function boundsOf({ maxLength, minimum, maximum, multipleOf }) {
  return [
    maxLength !== undefined && `at most ${maxLength.toLocaleString('en')} characters`,
    minimum !== undefined && `from ${minimum}`,
    maximum !== undefined && `to ${maximum}`,
    multipleOf !== undefined && multipleOf !== 1 && `a multiple of ${multipleOf}`,
  ].filter(Boolean).join(', ');
}

/**
 * The document that a form says, by the text of each field: an empty one leaves the field out. What isn't of
 * the field's kind stays a text, for the program to refuse it by name.
 */
export function documentOf(columns, texts) {
  const doc = {};
  for (const { name, kind } of columns) {
    const text = fieldOf(texts, name) ?? '';
    if (text === '') continue;
    if (kind === 'boolean' && /^(true|false)$/.test(text)) doc[name] = text === 'true';
    else if (kind === 'number' && /^-?\d+$/.test(text)) doc[name] = Number(text);
    else doc[name] = text;
  }
  return doc;
}

/** How many rows came into a result, left it, and are there with other fields. */
export function difference(before, after, primaryKey) {
  const old = new Map(before.map((row) => [row[primaryKey], row]));
  let came = 0, changed = 0;
  for (const row of after) {
    const was = old.get(row[primaryKey]);
    old.delete(row[primaryKey]);
    if (!was) came += 1;
    else if (JSON.stringify(was) !== JSON.stringify(row)) changed += 1;
  }
  return { came, left: old.size, changed };
}

/** Which rows a page shows, from 0 on, of so many. A page beyond the last is the last. */
export function pageOf(number, size, total) {
  const last = Math.max(0, Math.ceil(total / size) - 1);
  const page = Math.min(Math.max(0, number), last);
  return { page, last, first: page * size, end: Math.min(total, (page + 1) * size) };
}
