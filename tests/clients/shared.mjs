// What the tests in Node and those in Chromium share.
import { mkdtempSync, readFileSync, readdirSync, rmSync } from 'node:fs';
import { tmpdir } from 'node:os';
import { join } from 'node:path';

export const root = join(import.meta.dirname ?? new URL('.', import.meta.url).pathname, '..', '..');
export const program = process.env.RX ?? join(root, 'crates/rx/out/rx');
let journals = 0;

/** A name that no other journal of this test has. */
export const journalName = () => `journal-${++journals}`;

/** The scripts of examples/, each with the script on whose journal it goes on, or none. */
export function examples() {
  const folder = join(root, 'examples');
  const names = readdirSync(folder).filter((it) => it.endsWith('.jsonl')).map((it) => it.slice(0, -6));
  const text = (name) => readFileSync(join(folder, name), 'utf8');
  return names.map((name) => ({
    name,
    after: name === 'again' ? 'documents' : null,
    script: text(`${name}.jsonl`),
    out: text(`${name}.out`),
  }));
}

export function same(found, wanted, what) {
  if (found === wanted) return;
  const [mine, due] = [found, wanted].map((it) => String(it).split('\n'));
  const at = due.findIndex((line, i) => line !== mine[i]);
  throw new Error(`${what}, line ${at + 1}:\n  ${mine[at]}\nand not\n  ${due[at]}`);
}

/** Tries the test that is this program's word, in a folder of its own, or prints all with what each needs. */
export async function tryOne(tests) {
  const name = process.argv[2];
  if (name === undefined) {
    for (const [it, { needs }] of Object.entries(tests)) console.log(JSON.stringify({ name: it, needs }));
    return;
  }
  const folder = mkdtempSync(join(tmpdir(), 'rx-'));
  let status = 0;
  try {
    await tests[name](folder);
  } catch (fault) {
    status = 1;
    console.log(fault.stack ?? fault);
  }
  rmSync(folder, { recursive: true, force: true, maxRetries: 5 });
  process.exit(status);
}

/** The code of the quickstart that a README shows under a file's name. */
export function quickstart(name) {
  const text = readFileSync(join(root, 'clients', 'README.md'), 'utf8');
  const found = text.match(new RegExp(`\`${name.replace('.', '\\.')}\`[^]*?\n\`\`\`\\w*\n([^]*?)\n\`\`\``));
  if (!found) throw new Error(`clients/README.md shows no ${name}`);
  return `${found[1]}\n`;
}
