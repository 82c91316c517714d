#!/usr/bin/env node
// rx-client page FOLDER: copies what a page needs into a folder that is served: the client, and beside it the
// program for browsers, as `out`.
import { cpSync, existsSync } from 'node:fs';
import { join } from 'node:path';
import { fileURLToPath } from 'node:url';

const [command, folder, ...others] = process.argv.slice(2);
const here = fileURLToPath(new URL('.', import.meta.url));

function fail(said, status) {
  console.error(said);
  process.exit(status);
}

if (command !== 'page' || !folder || others.length) fail('usage: rx-client page FOLDER', 2);
if (!existsSync(join(here, 'out', 'rx.wasm'))) {
  fail("this package has no program for pages: wasm/build.sh of rx's repository makes it for npm pack", 1);
}
for (const name of ['rx.mjs', 'out']) cpSync(join(here, name), join(folder, name), { recursive: true });
