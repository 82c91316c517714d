#!/usr/bin/env python3
"""Queries and writes by an index, beside sqlite3 with the same index.

    bench/indexed.py [PROGRAM] [FOLDER] [--json FILE] [--only loads]

100,000 documents stand in an index by group and number. Both peers are asked for one document by its key, for a
range of a group with a limit, for the first 20 of a group by number, for the count of a group, and for that of
a group from a number on; then a mix of the first ones and of upserts. sqlite3 has a database in the same
folder, in WAL mode with synchronous=FULL, and gives rows as JSON too. What it takes to make the documents is
taken off both; the two take turns, three runs each, and the best times count. Then the cost of one upsert with
0, 1, 4 and 16 indexes as the collection grows, and what a document takes in memory with them, unless
only the loads are asked for.
"""
import os
import random
import sys
import tempfile
from itertools import chain, islice

from measuring import compact, figure, measure, option, program, report, sqlite

RUNS = 3
ONLY = option("--only")
COUNT, LINES = 100_000, 40_000
STORAGE = sys.argv[2] if len(sys.argv) > 2 else "/dev/shm"
NUMBER = {"type": "integer", "minimum": 0, "maximum": 1_000_003, "multipleOf": 1}
PRAGMAS = ["PRAGMA journal_mode=WAL;", "PRAGMA synchronous=FULL;"]
TABLE = "CREATE TABLE c(id TEXT PRIMARY KEY, g INTEGER, n INTEGER) WITHOUT ROWID;"
INDEX = "CREATE INDEX i ON c(g, n, id);"
# Sixteen ways to order by four numbers.
INDEXES = [[name] for name in "abcd"] + [[x, y] for x in "abcd" for y in "abcd" if x != y]


def schema(fields, indexes):
    properties = {"id": {"type": "string", "maxLength": 20}, **{field: NUMBER for field in fields}}
    return {"version": 0, "primaryKey": "id", "type": "object", "properties": properties, "indexes": indexes}


def bulks(docs, size=1_000):
    """Lines made as they are written, since what this process holds would count as its child's."""
    while batch := list(islice(docs, size)):
        yield compact({"do": "bulk", "in": "c", "docs": batch})


def made():
    docs = ({"id": f"k{k}", "g": k % 256, "n": k * 7_919 % 1_000_003} for k in range(COUNT))
    return [compact({"do": "collection", "name": "c", "schema": schema("gn", [["g", "n"]])}), *bulks(docs)]


def made_in_sql():
    rows = f"WITH RECURSIVE k(i) AS (SELECT 0 UNION ALL SELECT i+1 FROM k WHERE i<{COUNT - 1})"
    return [*PRAGMAS, TABLE, INDEX, f"{rows} INSERT INTO c SELECT 'k'||i, i%256, i*7919%1000003 FROM k;"]


def found(query):
    return compact({"do": "find", "in": "c", "query": query})


def found_in_sql(rest):
    return f"SELECT json_group_array(json_object('id',id,'g',g,'n',n)) FROM (SELECT * FROM c {rest});"


def point(numbers):
    key = f"k{numbers.randrange(COUNT)}"
    return found({"selector": {"id": key}}), found_in_sql(f"WHERE id='{key}'")


def part(numbers):
    group, low = numbers.randrange(256), numbers.randrange(900_000)
    selector = {"g": group, "n": {"$gte": low, "$lt": low + 100_000}}
    query = {"selector": selector, "sort": [{"n": "asc"}], "limit": 10}
    return found(query), found_in_sql(f"WHERE g={group} AND n>={low} AND n<{low + 100_000} ORDER BY n,id LIMIT 10")


def first(numbers):
    group = numbers.randrange(256)
    query = {"selector": {"g": group}, "sort": [{"n": "asc"}], "limit": 20}
    return found(query), found_in_sql(f"WHERE g={group} ORDER BY n,id LIMIT 20")


def count(numbers):
    group = numbers.randrange(256)
    line = compact({"do": "count", "in": "c", "query": {"selector": {"g": group}}})
    return line, f"SELECT count(*) FROM c WHERE g={group};"


def count_from(numbers):
    group, low = numbers.randrange(256), numbers.randrange(1_000_003)
    line = compact({"do": "count", "in": "c", "query": {"selector": {"g": group, "n": {"$gte": low}}}})
    return line, f"SELECT count(*) FROM c WHERE g={group} AND n>={low};"


def upsert(numbers):
    key, group, n = f"k{numbers.randrange(COUNT)}", numbers.randrange(256), numbers.randrange(1_000_003)
    line = compact({"do": "upsert", "in": "c", "doc": {"id": key, "g": group, "n": n}})
    return line, f"INSERT INTO c VALUES('{key}',{group},{n}) ON CONFLICT DO UPDATE SET g={group},n={n} RETURNING '2-c';"


def mixed(numbers):
    return numbers.choice([upsert, upsert, upsert, point, point, part, first, count])(numbers)


def run(command, lines):
    with tempfile.TemporaryDirectory(dir=STORAGE) as folder:
        return measure([*command, os.path.join(folder, "file")], lines)


def added(whole, begun):
    """The best time of the whole runs beyond the best of their beginnings, and the greatest peak."""
    return min(whole)[0] - min(begun)[0], max(peak for _, peak in whole)


def compare(load, one):
    numbers = random.Random(load)
    pairs = [one(numbers) for _ in range(LINES)]
    ours, theirs = [pair[0] for pair in pairs], [pair[1] for pair in pairs]
    rx, peer, start, start_in_sql = [program(), "run"], [sqlite(), "-batch"], made(), made_in_sql()
    rows = [(run(rx, start + ours), run(rx, start), run(peer, start_in_sql + theirs), run(peer, start_in_sql)) for _ in range(RUNS)]
    seconds = report(load, "rx", LINES, [added([row[0] for row in rows], [row[1] for row in rows])])
    peer_seconds = report(load, "sqlite3", LINES, [added([row[2] for row in rows], [row[3] for row in rows])])
    print(f"{load}: rx takes {seconds / peer_seconds:.2f} times the time of sqlite3", flush=True)
    figure(load, ratio=seconds / peer_seconds, rx=LINES / seconds, sqlite3=LINES / peer_seconds)


def numbered(numbers, key):
    return {"id": f"k{key}", **{name: numbers.randrange(1_000_003) for name in "abcd"}}


def numbered_made(indexes, size):
    numbers = random.Random(size)
    yield compact({"do": "collection", "name": "c", "schema": schema("abcd", INDEXES[:indexes])})
    yield from bulks(numbered(numbers, key) for key in range(size))


def growth(indexes):
    """The cost of one upsert over few and over many documents, and the memory of a document."""
    rx, costs, memory = [program(), "run"], [], []
    sizes = (1_000, 10_000, 100_000, 1_000_000)
    for size in sizes:
        numbers = random.Random(indexes)
        lines = [compact({"do": "upsert", "in": "c", "doc": numbered(numbers, numbers.randrange(size))}) for _ in range(20_000)]
        begun = min(run(rx, numbered_made(indexes, size)) for _ in range(RUNS))
        whole = min(run(rx, chain(numbered_made(indexes, size), lines))[0] for _ in range(RUNS))
        costs.append((whole - begun[0]) / 20_000 * 1e6)
        memory.append(begun[1])
        print(f"{indexes} indexes, {size:,} documents: {costs[-1]:.1f} us an upsert, peak {begun[1]:,} KiB", flush=True)
        figure("upserts by documents", indexes=indexes, documents=size, rx=costs[-1], peak=begun[1])
    grown = (memory[-1] - memory[-2]) * 1024 / (sizes[-1] - sizes[-2])
    print(f"{indexes} indexes: over 1,000,000 documents {costs[-1] / costs[0]:.2f} times as long as over 1,000; {grown:.0f} bytes a document", flush=True)


def main():
    for load, one in (("by key", point), ("range", part), ("first 20", first), ("count", count), ("count from", count_from), ("mixed", mixed)):
        compare(load, one)
    for indexes in () if ONLY else (0, 1, 4, 16):
        growth(indexes)


main()
