#!/usr/bin/env python3
"""Lines a second while queries are observed, beside sqlite3 asked again after each change.

    bench/observed.py [PROGRAM] [FOLDER] [--json FILE]

A random stream of writes (one in ten inserts, one removes, the others set the number of a document)
goes over collections of 1,000, 10,000 and 100,000 documents with 0, 16, 64 and 256 observed queries.
Each query has a selector, a sort and a limit of 20, and an index holds its rows in order. sqlite3 gets the same
writes and is asked for the rows of all queries after each, since any of them may have changed: with the same index,
and for 64 queries also without one, over a few of the writes. What it takes to make the documents and to observe is taken off
both. Beside 64 and 256 queries rx is timed over 20,000 writes, so that caches are warm and the difference of two runs is more
than their noise; sqlite3 takes milliseconds for each and gets the first 500 of them. Then the queries are explained: the share
of the changes by what was done to the rows.
"""
import json
import os
import random
import subprocess
import sys
import tempfile
from collections import Counter

from measuring import compact, figure, measure, program, sqlite

RUNS = 3
# More writes where each takes less, of each peer.
LINES = {0: 40_000, 16: 8_000, 64: 20_000, 256: 20_000}
THEIR_LINES = {0: 40_000, 16: 8_000, 64: 500, 256: 500}
STORAGE = sys.argv[2] if len(sys.argv) > 2 else "/dev/shm"
SCHEMA = {
    "version": 0, "primaryKey": "id", "type": "object", "required": ["id"],
    "properties": {
        "id": {"type": "string", "maxLength": 20},
        "g": {"type": "integer", "minimum": 0, "maximum": 255, "multipleOf": 1},
        "n": {"type": "integer", "minimum": 0, "maximum": 1_000_003, "multipleOf": 1},
    },
    "indexes": [["g", "n"]],
}
PRAGMAS = ["PRAGMA journal_mode=WAL;", "PRAGMA synchronous=FULL;"]
TABLE = "CREATE TABLE c(id TEXT PRIMARY KEY, g INTEGER, n INTEGER) WITHOUT ROWID;"
INDEX = "CREATE INDEX i ON c(g, n, id);"


def made(count):
    yield compact({"do": "collection", "name": "c", "schema": SCHEMA})
    for start in range(0, count, 1_000):
        docs = [{"id": f"k{k}", "g": k % 256, "n": k * 7_919 % 1_000_003} for k in range(start, start + 1_000)]
        yield compact({"do": "bulk", "in": "c", "docs": docs})


def made_in_sql(count, index):
    rows = f"WITH RECURSIVE k(i) AS (SELECT 0 UNION ALL SELECT i+1 FROM k WHERE i<{count - 1})"
    return [*PRAGMAS, TABLE, index, f"{rows} INSERT INTO c SELECT 'k'||i, i%256, i*7919%1000003 FROM k;"]


def observed(queries):
    for q in range(queries):
        query = {"selector": {"g": q}, "sort": [{"n": "asc"}], "limit": 20}
        yield compact({"do": "observe", "name": f"q{q}", "in": "c", "query": query})


def writes(count, lines):
    """The same writes for both: whether to remove, a key that is there or a new one, and two numbers."""
    numbers = random.Random(count)
    keys = [f"k{k}" for k in range(count)]
    for i in range(lines):
        kind, place = numbers.randrange(10), numbers.randrange(len(keys))
        if kind == 0:
            keys.append(f"k{count + i}")
            place = -1
        key = keys[place]
        if kind == 1:
            keys[place] = keys[-1]
            keys.pop()
        yield kind == 1, key, numbers.randrange(256), numbers.randrange(1_000_003)


def ours(count, lines):
    for is_removal, key, g, n in writes(count, lines):
        if is_removal:
            yield compact({"do": "remove", "in": "c", "key": key})
        else:
            yield compact({"do": "upsert", "in": "c", "doc": {"id": key, "g": g, "n": n}})


def theirs(count, queries, lines):
    asked = "".join(
        f"SELECT json_group_array(json_object('id',id,'g',g,'n',n)) FROM (SELECT * FROM c WHERE g={q} ORDER BY n,id LIMIT 20);"
        for q in range(queries)
    )
    for is_removal, key, g, n in writes(count, lines):
        if is_removal:
            yield f"DELETE FROM c WHERE id='{key}';{asked}"
        else:
            yield f"INSERT INTO c VALUES('{key}',{g},{n}) ON CONFLICT DO UPDATE SET g={g},n={n};{asked}"


def run(command, lines):
    with tempfile.TemporaryDirectory(dir=STORAGE) as folder:
        path = os.path.join(folder, "file")
        seconds, memory = measure([*command, path], lines)
        return seconds, memory, os.path.getsize(path)


def explained(count, queries):
    """The counts of all queries after the stream, by action, and how many questions were asked."""
    lines = [*made(count), *observed(queries), *ours(count, LINES[queries])]
    lines += [compact({"do": "explain", "name": f"q{q}"}) for q in range(queries)]
    with tempfile.TemporaryDirectory(dir=STORAGE) as folder:
        text = "".join(line + "\n" for line in lines).encode()
        done = subprocess.run([program(), "run", os.path.join(folder, "file")], input=text, capture_output=True)
    actions, asked = Counter(), 0
    for line in done.stdout.decode().splitlines()[-queries:]:
        reply = json.loads(line)
        actions.update(reply["actions"])
        asked += reply["asked"]
    return actions, asked


def asked_again(count, queries, index, lines):
    """The seconds of one write with all queries asked again by sqlite3."""
    peer, start = [sqlite(), "-batch"], made_in_sql(count, index)
    begun = min(run(peer, start)[0] for _ in range(RUNS))
    # One run is enough where each write takes long.
    runs = 1 if queries >= 64 else RUNS
    return (min(run(peer, start + list(theirs(count, queries, lines)))[0] for _ in range(runs)) - begun) / lines


def compare(count, queries):
    lines, rx, start = LINES[queries], [program(), "run"], [*made(count), *observed(queries)]
    begun = min(run(rx, start)[0] for _ in range(RUNS))
    seconds, memory, size = min(run(rx, start + list(ours(count, lines))) for _ in range(RUNS))
    taken = max(seconds - begun, 1e-6) / lines
    peer = asked_again(count, queries, INDEX, THEIR_LINES[queries])
    print(f"{count:,} documents, {queries} queries: rx {1 / taken:,.0f} lines a second, peak {memory:,} KiB, journal {size // 1024:,} KiB")
    print(f"    sqlite3 with an index {1 / peer:,.0f}: {peer / taken:.1f} times the time", flush=True)
    figure("writes", documents=count, queries=queries, rx=1 / taken, sqlite3=1 / peer)
    if queries == 64:
        slow = asked_again(count, queries, "", 20)
        print(f"    sqlite3 without one {1 / slow:,.0f}: {slow / taken:.1f} times the time", flush=True)


def shares(count, queries):
    actions, asked = explained(count, queries)
    total = sum(actions.values())
    print(f"{count:,} documents, {queries} queries: {asked / total:.1f} questions a change; of {total:,} changes heard", end="")
    print("".join(f", {name} {n / total:.4%}" for name, n in actions.most_common()), flush=True)


def main():
    for count in (1_000, 10_000, 100_000):
        for queries in LINES:
            compare(count, queries)
        shares(count, 64)


main()
