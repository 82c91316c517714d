// The loads of bench/clients.py in JavaScript, in Node and in Chromium.
//
//   node bench/clients.mjs node PROGRAM FOLDER COUNT       prints the seconds of each load
//   node bench/clients.mjs chromium PROGRAM FOLDER COUNT   and of the page of todos, until its first emission

import { schema } from '../tests/clients/schema.mjs';

async function timed(work) {
  const start = performance.now();
  await work();
  return (performance.now() - start) / 1000;
}

/** Each load over a database of its own. */
export async function runLoads(open, transport, count) {
  const db = await open(transport);
  const key = (n) => `k${n * 7919 % count}`;
  const made = async (name) => {
    const c = await db.collection(name, schema);
    await c.bulk(Array.from({ length: count }, (_, n) => ({ id: key(n), n })));
    return c;
  };
  const inserts = await db.collection('inserts', schema), bulk = await db.collection('bulk', schema);
  const together = await db.collection('together', schema);
  const gets = await made('gets'), observed = await made('observed');
  const seconds = {
    insert: await timed(async () => { for (let n = 0; n < count; n++) await inserts.insert({ id: key(n), n }); }),
    together: await timed(() => Promise.all(Array.from({ length: count }, (_, n) => together.insert({ id: key(n), n })))),
    bulk: await timed(async () => {
      for (let at = 0; at < count; at += 500) await bulk.bulk(Array.from({ length: Math.min(500, count - at) }, (_, i) => ({ id: key(at + i), n: i })));
    }),
    get: await timed(async () => { for (let n = 0; n < count; n++) await gets.get(key(n)); }),
  };
  const emissions = observed.observe({ sort: [{ n: 'desc' }], limit: 10 })[Symbol.asyncIterator]();
  await emissions.next();
  seconds.observed = await timed(async () => {
    for (let n = 0; n < count; n++) {
      observed.patch(key(n), { n: count + n });
      await emissions.next();
    }
  });
  await emissions.return();
  await db.close();
  return seconds;
}

async function inNode(program, folder, count) {
  const { child, open } = await import('../clients/js/rx.mjs');
  const { mkdtempSync, rmSync } = await import('node:fs');
  const own = mkdtempSync(`${folder}/rx-bench-`);
  const seconds = await runLoads(open, child(`${own}/journal`, { program }), count);
  rmSync(own, { recursive: true });
  return seconds;
}

async function inChromium(folder, count) {
  const { launch, serve } = await import('../tests/clients/chromium.mjs');
  const { mkdtempSync, rmSync } = await import('node:fs');
  const own = mkdtempSync(`${folder}/rx-bench-`);
  const served = await serve(new URL('..', import.meta.url).pathname);
  const chromium = await launch(own);
  try {
    const page = await chromium.page(`${served.origin}/empty`);
    const seconds = await page.run(async (count) => {
      const { open, wasm } = await import('/clients/js/rx.mjs');
      const { runLoads } = await import('/bench/clients.mjs');
      return runLoads(open, wasm('/wasm/out', 'bench'), count);
    }, count);
    await page.close();
    const loads = [];
    for (let n = 0; n < 4; n++) {
      const todos = await chromium.page(`${served.origin}/clients/web/`);
      await todos.until(`document.querySelectorAll('#phone li').length`);
      loads.push(await todos.evaluate(`performance.getEntriesByName('emission')[0].startTime / 1000`));
      await todos.close();
    }
    return { ...seconds, 'first load': loads[0], 'next load': Math.min(...loads.slice(1)) };
  } finally {
    await chromium.close();
    served.close();
    rmSync(own, { recursive: true, force: true, maxRetries: 5 });
  }
}

if (globalThis.process?.argv[1] === new URL(import.meta.url).pathname) {
  const [where, program, folder, count] = process.argv.slice(2);
  console.log(JSON.stringify(await (where === 'node' ? inNode(program, folder, +count) : inChromium(folder, +count))));
}
