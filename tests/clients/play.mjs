// Plays a script by the calls of the client, and gives back what was written both ways. It runs in Node and in a page.

// What a call that is refused answers is in the program's output, which is compared.
async function refusals(call) {
  try {
    return await call();
  } catch (fault) {
    if (fault.name !== 'Refused') throw fault;
    return null;
  }
}

async function play(db, text, observed) {
  if (!text.trim()) return db.line(text);
  const line = JSON.parse(text);
  const collection = line.in && (await db.collection(line.in));
  switch (line.do) {
    case 'collection': return db.collection(line.name, line.schema);
    case 'migrate': return db.migrate(line.in, line.schema, line.steps);
    case 'insert': return collection.insert(line.doc);
    case 'bulk': return collection.bulk(line.docs);
    case 'upsert': return collection.upsert(line.doc);
    case 'patch': return collection.patch(line.key, line.set, line.rev);
    case 'update': return collection.update(line.key, line.update, line.rev);
    case 'hook': return collection.hook(line.when, line.hook, line.field);
    case 'remove': return collection.remove(line.key, line.rev);
    case 'get': return collection.get(line.key);
    case 'find': return collection.find(line.query);
    case 'count': return collection.count(line.query);
    case 'changes': return collection.changes(line);
    case 'digest': return collection.digest();
    case 'explain': return db.explain(line.name);
    case 'tick': return db.tick(line.at);
    case 'restart': return db.restart();
    case 'replicate': return db.replicate(line);
    case 'turn': return db.turn(line.name, line);
    case 'sweep': return db.sweep(line.name, line);
    case 'stream': return db.stream(line.name);
    case 'deliver': return db.deliver(line.name, line);
    case 'unstream': return db.unstream(line.name);
    case 'observe': {
      const heard = observed.get(line.name)?.heard ?? []; // of a name that was observed before it goes on
      const first = new Promise((go, fail) => {
        const next = (rows) => { heard.push(rows); go(); };
        observed.set(line.name, { heard, subscription: collection.observe(line.query, line.name).subscribe(next, fail) });
      });
      return first;
    }
    case 'unobserve': return observed.get(line.name).subscription.unsubscribe();
    default: return db.call(line);
  }
}

/** The caller ticks, so that no line is written but those of the script. */
export async function playScript(open, transport, script) {
  let written = '', output = '';
  const observed = new Map();
  const db = await open(async (hooks) => {
    const it = await transport({ ...hooks, output(text) { output += text; hooks.output(text); } });
    return { ...it, send(text) { written += text; it.send(text); } };
  }, { clock: null });
  for (const text of script.split('\n').slice(0, -1)) await refusals(() => play(db, text, observed));
  await db.close();
  const heard = {};
  for (const [name, it] of observed) heard[name] = it.heard;
  return { written, output, heard };
}

/** What a script's output says that each observed query heard. */
export function emissionsOf(output) {
  const heard = {};
  for (const line of output.split('\n').filter((it) => it.startsWith('{"emit"'))) {
    const { emit, rows } = JSON.parse(line);
    (heard[emit] ??= []).push(rows);
  }
  return heard;
}
