// What is typed into the query boxes: JSON in which names need no quotes and texts may have single ones, as
// {done: false, rank: {$gte: 3}}. Nothing at all means {}. Whether it is a query is the program's to say.

// A text, a number, a word, or a sign; the sign at the end is ''.
const tokens = /\s*(?:("(?:[^"\\]|\\.)*"|'(?:[^'\\]|\\.)*')|(-?\d[\w.+-]*)|([a-z_$][\w$]*)|([{}[\]:,]|$))/iy;
const words = new Map([['true', true], ['false', false], ['null', null]]);

/** The value of a text, or a SyntaxError that says where it is none. */
export function readTyped(typed) {
  if (!typed.trim()) return {};
  const reader = new Reader(typed);
  const value = reader.value();
  if (reader.sign !== '') reader.fail('nothing more');
  return value;
}

/** How a value is typed shortest, on one line. */
export function typed(value) {
  if (Array.isArray(value)) return `[${value.map(typed).join(', ')}]`;
  if (typeof value !== 'object' || value === null) return JSON.stringify(value);
  const name = (it) => (/^[A-Za-z_$][\w$]*$/.test(it) ? it : JSON.stringify(it));
  return `{${Object.entries(value).map(([key, it]) => `${name(key)}: ${typed(it)}`).join(', ')}}`;
}

// It stands before a token.
class Reader {
  #typed;
  #at = 0; // where the token begins
  #next = 0; // and where it ends

  constructor(text) {
    this.#typed = text;
    this.#step();
  }

  #step() {
    tokens.lastIndex = this.#next;
    const found = tokens.exec(this.#typed);
    this.#at = this.#next + this.#typed.slice(this.#next).search(/\S|$/);
    [this.text, this.number, this.word, this.sign] = found ? found.slice(1) : [];
    this.#next = found ? tokens.lastIndex : this.#next;
  }

  fail(due) {
    const lines = this.#typed.slice(0, this.#at).split('\n');
    const line = lines.length > 1 ? `line ${lines.length}, ` : '';
    throw new SyntaxError(`${line}column ${lines.at(-1).length + 1}: ${due} is due`);
  }

  // Steps over a sign, if it is there.
  #over(sign) {
    if (this.sign !== sign) return false;
    this.#step();
    return true;
  }

  value() {
    if (this.#over('{')) return Object.fromEntries(this.#list('}', () => this.#member()));
    if (this.#over('[')) return this.#list(']', () => this.value());
    let value;
    if (this.text !== undefined) value = this.#string();
    else if (this.number !== undefined) value = this.#json(this.number, 'a number');
    else if (words.has(this.word)) value = words.get(this.word);
    else this.fail('a value');
    this.#step();
    return value;
  }

  #list(end, item) {
    const items = [];
    while (!this.#over(end)) {
      items.push(item());
      if (!this.#over(',') && this.sign !== end) this.fail(`“,” or “${end}”`);
    }
    return items;
  }

  #member() {
    if (this.word === undefined && this.text === undefined) this.fail('a name');
    const name = this.word ?? this.#string();
    this.#step();
    if (!this.#over(':')) this.fail('“:”');
    return [name, this.value()];
  }

  #string() {
    if (this.text[0] === '"') return this.#json(this.text, 'a text');
    const inside = this.text.slice(1, -1).replace(/\\.|"/g, (it) => ({ '"': '\\"', "\\'": "'" })[it] ?? it);
    return this.#json(`"${inside}"`, 'a text');
  }

  #json(text, due) {
    try {
      return JSON.parse(text);
    } catch {
      return this.fail(due);
    }
  }
}
