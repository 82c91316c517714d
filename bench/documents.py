#!/usr/bin/env python3
"""Documents written and read a second, beside sqlite3.

    bench/documents.py [PROGRAM] [FOLDER] [--json FILE]

The files lie in FOLDER, or in memory-backed storage where it is left out. Upserts, patches, updates
and gets start from 100,000 documents, and sqlite3 does the same on a database in the same folder, in
WAL mode with synchronous=FULL. What it takes to make those documents is taken off both. The two take turns, three
runs each, and the best time counts. Then the processor time of one upsert and of one get as the
collection grows, and the opening of a journal of 200,000 records.
"""
import os
import sys
import tempfile

from measuring import collection, compact, documents, figure, measure, processor, program, report, sqlite

RUNS = 3
COUNT = 100_000
STORAGE = sys.argv[2] if len(sys.argv) > 2 else "/dev/shm"
PRAGMAS = ["PRAGMA journal_mode=WAL;", "PRAGMA synchronous=FULL;"]
TABLE = "CREATE TABLE c(id TEXT PRIMARY KEY, n INTEGER) WITHOUT ROWID;"


def batches(count, size=1_000):
    """Documents of all keys, in bulks."""
    for start in range(0, count, size):
        docs = [{"id": f"k{key}", "n": 0} for key in range(start, min(count, start + size))]
        yield compact({"do": "bulk", "in": "c", "docs": docs})


def made(count):
    return [collection(), *batches(count)]


def made_in_sql(count):
    rows = f"WITH RECURSIVE k(i) AS (SELECT 0 UNION ALL SELECT i+1 FROM k WHERE i<{count - 1})"
    return [*PRAGMAS, TABLE, f"{rows} INSERT INTO c SELECT 'k'||i, 0 FROM k;"]


def inserts(count):
    return [compact({"do": "insert", "in": "c", "doc": {"id": k, "n": n}}) for k, n in documents(count)]


def inserts_in_sql(count):
    return [f"INSERT INTO c VALUES('{k}',{n}) RETURNING '1-c';" for k, n in documents(count)]


def upserts(count):
    return [compact({"do": "upsert", "in": "c", "doc": {"id": k, "n": n}}) for k, n in documents(count)]


def upserts_in_sql(count):
    return [f"INSERT INTO c VALUES('{k}',{n}) ON CONFLICT DO UPDATE SET n={n} RETURNING '2-c';" for k, n in documents(count)]


def patches(count):
    return [compact({"do": "patch", "in": "c", "key": k, "set": {"n": n}}) for k, n in documents(count)]


def patches_in_sql(count):
    return [f"UPDATE c SET n={n} WHERE id='{k}' RETURNING '2-c';" for k, n in documents(count)]


def hooked_patches(count):
    hook = {"do": "hook", "in": "c", "when": "save", "hook": "zero", "field": "n"}
    return [compact(hook), *patches(count)]


def updates(count):
    return [compact({"do": "update", "in": "c", "key": k, "update": {"$inc": {"n": 1}}}) for k, _ in documents(count)]


def updates_in_sql(count):
    return [f"UPDATE c SET n=n+1 WHERE id='{k}' RETURNING '2-c';" for k, _ in documents(count)]


def gets(count):
    return [compact({"do": "get", "in": "c", "key": k}) for k, _ in documents(count)]


def gets_in_sql(count):
    return [f"SELECT json_object('id',id,'n',n) FROM c WHERE id='{k}';" for k, _ in documents(count)]


def bulks(count):
    keys = [k for k, _ in documents(count)]
    for start in range(0, count, 100):
        docs = [{"id": k, "n": 1} for k in keys[start:start + 100]]
        yield compact({"do": "bulk", "in": "c", "docs": docs})


def bulks_in_sql(count):
    keys = [k for k, _ in documents(count)]
    for start in range(0, count, 100):
        rows = ",".join(f"('{k}',1)" for k in keys[start:start + 100])
        yield f"INSERT INTO c VALUES{rows} RETURNING '1-c';"


def observed_inserts(count):
    return [compact({"do": "observe", "name": "q", "in": "c", "query": {"selector": {"n": 1}}}), *inserts(count)]


def observed_inserts_in_sql(count):
    for (key, n), line in zip(documents(count), inserts_in_sql(count)):
        yield line
        if n == 1:
            yield "SELECT json_object('id',id,'n',n) FROM c WHERE n=1 ORDER BY id;"


def run(command, lines):
    """One run over a file of its own."""
    with tempfile.TemporaryDirectory(dir=STORAGE) as folder:
        return measure([*command, os.path.join(folder, "file")], lines)


def compare(load, count, ours, theirs, start, start_in_sql):
    rx, peer = [program(), "run"], [sqlite(), "-batch"]
    pairs = [(run(rx, start + ours), run(rx, start), run(peer, start_in_sql + theirs), run(peer, start_in_sql)) for _ in range(RUNS)]
    seconds = report(load, "rx", count, [(whole[0] - begun[0], whole[1]) for whole, begun, _, _ in pairs])
    peer_seconds = report(load, "sqlite3", count, [(whole[0] - begun[0], whole[1]) for _, _, whole, begun in pairs])
    print(f"{load}: rx takes {seconds / peer_seconds:.2f} times the time of sqlite3", flush=True)
    figure(load, ratio=seconds / peer_seconds, rx=count / seconds, sqlite3=count / peer_seconds)


def used(command, lines):
    """The seconds of a processor of the best run."""
    times = []
    for _ in range(RUNS):
        before = processor()
        run(command, lines)
        times.append(processor() - before)
    return min(times)


def costs(command, start, loads, count):
    """The microseconds of a line of each load, behind the lines that make the documents."""
    begun = used(command, start)
    return [(used(command, start + lines) - begun) / count * 1e6 for lines in loads]


def growth():
    """The cost of one line over few and over many documents, whose keys come in no order."""
    count, names = 200_000, ("upserts", "gets")
    rx, peer, first = [program(), "run"], [sqlite(), "-batch"], None
    for size in (1_000, 10_000, 100_000, 1_000_000):
        keys = [f"k{i * 7_919 % size}" for i in range(count)]
        ours = [[compact({"do": "upsert", "in": "c", "doc": {"id": key, "n": i}}) for i, key in enumerate(keys)],
                [compact({"do": "get", "in": "c", "key": key}) for key in keys]]
        theirs = [[f"INSERT INTO c VALUES('{key}',{i}) ON CONFLICT DO UPDATE SET n={i} RETURNING '2-c';" for i, key in enumerate(keys)],
                  [f"SELECT json_object('id',id,'n',n) FROM c WHERE id='{key}';" for key in keys]]
        both = costs(rx, made(size), ours, count), costs(peer, made_in_sql(size), theirs, count)
        first = first or both[0]
        for name, cost, other, least in zip(names, *both, first):
            print(f"{name} over {size:,} documents: rx {cost:.1f} us of a processor each, sqlite3 {other:.1f}; "
                  f"rx takes {cost / least:.2f} times as long as over 1,000", flush=True)
            figure(f"{name} by documents", documents=size, rx=cost, sqlite3=other)


def opening():
    """A second run that opens a journal of 200,000 records and does nothing."""
    with tempfile.TemporaryDirectory(dir=STORAGE) as folder:
        path = os.path.join(folder, "file")
        measure([program(), "run", path], [collection(), *inserts(200_000)])
        size = os.path.getsize(path) / 1e6
        runs = [measure([program(), "run", path], []) for _ in range(RUNS)]
    seconds = report("opening", "rx", 200_000, runs)
    print(f"opening: {size / seconds:,.0f} MB a second, {size:.1f} MB")


def main():
    empty, empty_in_sql = [collection()], [*PRAGMAS, TABLE]
    full, full_in_sql = made(COUNT), made_in_sql(COUNT)
    compare("inserts", COUNT, inserts(COUNT), inserts_in_sql(COUNT), empty, empty_in_sql)
    compare("observed inserts", 2_000, observed_inserts(2_000), list(observed_inserts_in_sql(2_000)), empty, empty_in_sql)
    compare("upserts", COUNT, upserts(COUNT), upserts_in_sql(COUNT), full, full_in_sql)
    compare("patches", COUNT, patches(COUNT), patches_in_sql(COUNT), full, full_in_sql)
    compare("patches behind a hook", COUNT, hooked_patches(COUNT), patches_in_sql(COUNT), full, full_in_sql)
    compare("updates", COUNT, updates(COUNT), updates_in_sql(COUNT), full, full_in_sql)
    compare("bulks of 100", 1_000, list(bulks(COUNT)), list(bulks_in_sql(COUNT)), empty, empty_in_sql)
    compare("gets", COUNT, gets(COUNT), gets_in_sql(COUNT), full, full_in_sql)
    growth()
    opening()


main()
