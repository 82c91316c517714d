#!/usr/bin/env python3
"""Sorted queries with a limit and observed windows, beside sqlite3 with the same indexes.

    bench/windows.py [PROGRAM] [FOLDER] [--json FILE] [--most DOCUMENTS] [--only queries|windows]

1,000 and 100,000 documents, and 1,000,000 where DOCUMENTS says so, stand in two indexes, by rank and by
group and rank. Each peer holds them in a file, sqlite3 in WAL mode with synchronous=FULL, and is asked for
windows of 20 rows, as JSON: the first and the last by rank, those that a field without an index leaves, the
last above a bound, those behind 1,000 others, those that one document in a thousand matches, and the last of
a group. What it takes to open the file is taken off. Of each load a peer gets as many lines as take it half a
second or more; the two take turns, three runs each over files of their own, and the best times count.

Then 10,000 documents, and 100,000 where DOCUMENTS says 1,000,000, are written to at random (one line in ten
inserts, one removes, the others set the numbers of a document) while 64 and 256 windows are observed, each
over an open selector without an index, a sort by rank, rising or falling, and a limit of 20. sqlite3 gets the
same writes and is asked for all windows after each. Last, the share of the changes for which the decision table
wants a full run; the rows behind a window may spare it.
"""
import json
import os
import random
import shutil
import subprocess
import sys
import tempfile
from collections.abc import Callable, Iterator
from contextlib import contextmanager

from measuring import compact, figure, measure, option, program, sqlite

RUNS = 3
MOST, ONLY = int(option("--most") or 100_000), option("--only")
STORAGE = sys.argv[2] if len(sys.argv) > 2 else "/dev/shm"
SIZES = [size for size in (1_000, 100_000, 1_000_000) if size <= MOST]
WINDOWS = [10_000, 100_000] if MOST >= 1_000_000 else [10_000]
LIMIT, LINES, SECONDS = 20, 65_536, 0.5
GROUPS, NUMBERS, RANKS = 256, 1_000, 1_000_003


def whole(most: int) -> dict:
    return {"type": "integer", "minimum": 0, "maximum": most - 1, "multipleOf": 1}


SCHEMA = {
    "version": 0, "primaryKey": "id", "type": "object", "required": ["id"], "indexes": [["r"], ["g", "r"]],
    "properties": {
        "id": {"type": "string", "maxLength": 20},
        "g": whole(GROUPS), "n": whole(NUMBERS), "r": whole(RANKS),
    },
}
TABLES = [
    "PRAGMA journal_mode=WAL;", "PRAGMA synchronous=FULL;",
    "CREATE TABLE c(id TEXT PRIMARY KEY, g INTEGER, n INTEGER, r INTEGER) WITHOUT ROWID;",
    "CREATE INDEX by_rank ON c(r, id);", "CREATE INDEX by_group ON c(g, r, id);",
]


# ---- documents

def drawn(numbers: random.Random) -> dict:
    return {"g": numbers.randrange(GROUPS), "n": numbers.randrange(NUMBERS), "r": numbers.randrange(RANKS)}


def made(size: int) -> Iterator[str]:
    numbers = random.Random(size)
    yield compact({"do": "collection", "name": "c", "schema": SCHEMA})
    for start in range(0, size, 1_000):
        docs = [{"id": f"k{k}", **drawn(numbers)} for k in range(start, start + 1_000)]
        yield compact({"do": "bulk", "in": "c", "docs": docs})


def made_in_sql(size: int) -> Iterator[str]:
    numbers = random.Random(size)
    yield from [*TABLES, "BEGIN;"]
    for k in range(size):
        yield "INSERT INTO c VALUES('k{}',{g},{n},{r});".format(k, **drawn(numbers))
    yield "COMMIT;"


# ---- windows: what both are asked, and a new one for each line

def asked(selector: dict, where: str, way: str = "asc", skip: int = 0) -> tuple[dict, str]:
    query = {"selector": selector, "sort": [{"r": way}], "skip": skip, "limit": LIMIT}
    rows = f"SELECT * FROM c WHERE {where} ORDER BY r {way}, id LIMIT {LIMIT} OFFSET {skip}"
    return query, f"SELECT json_group_array(json_object('id',id,'g',g,'n',n,'r',r)) FROM ({rows});"


def thousandth(numbers: random.Random) -> tuple[dict, str]:
    n = numbers.randrange(NUMBERS)
    return asked({"n": n}, f"n={n}")


def of_a_group(numbers: random.Random) -> tuple[dict, str]:
    group = numbers.randrange(GROUPS)
    return asked({"g": group}, f"g={group}", "desc")


LOADS: dict[str, Callable] = {
    "first by rank": lambda _: asked({}, "true"),
    "last by rank": lambda _: asked({}, "true", "desc"),
    "half of them, first by rank": lambda _: asked({"n": {"$gte": 500}}, "n>=500"),
    "above a bound, last by rank": lambda _: asked({"r": {"$gte": 900_000}}, "r>=900000", "desc"),
    "behind 1,000": lambda _: asked({}, "true", skip=1_000),
    "one in a thousand": thousandth,
    "last of a group": of_a_group,
}


# ---- measuring

def peers(folder: str) -> list[list[str]]:
    ours = [program(), "run", os.path.join(folder, "journal"), "--max-journal", "4294967295"]
    return [ours, [sqlite(), "-batch", os.path.join(folder, "database")]]


@contextmanager
def held(size: int) -> Iterator[str]:
    """A folder with the documents of both."""
    with tempfile.TemporaryDirectory(dir=STORAGE) as folder:
        for peer, lines in zip(peers(folder), (made(size), made_in_sql(size))):
            measure(peer, lines)
        yield folder


def seconds(folder: str, which: int, lines: list[str]) -> float:
    """What a peer takes over files of its own."""
    with tempfile.TemporaryDirectory(dir=STORAGE) as own:
        shutil.copytree(folder, own, dirs_exist_ok=True)
        return measure(peers(own)[which], lines)[0]


def begun(folder: str, begins: list[list[str]]) -> list[float]:
    return [min(seconds(folder, which, begin) for _ in range(RUNS)) for which, begin in enumerate(begins)]


def costs(folder: str, begins: list[list[str]], starts: list[float], streams: list[list[str]]) -> list[float]:
    """The seconds that a line of each peer takes behind its beginning."""
    given = []
    # So many that the beginning's own spread doesn't tell.
    for which, (begin, start, stream) in enumerate(zip(begins, starts, streams)):
        count, least = 16, start + max(SECONDS, start / 2)
        while count < len(stream) and seconds(folder, which, begin + stream[:count]) < least:
            count *= 8
        given.append(stream[:count])
    runs = [[seconds(folder, which, begins[which] + given[which]) for which in (0, 1)] for _ in range(RUNS)]
    return [(min(it) - start) / len(lines) for it, start, lines in zip(zip(*runs), starts, given)]


def queries(size: int) -> None:
    with held(size) as folder:
        begins = [[], []]
        starts = begun(folder, begins)
        for load, one in LOADS.items():
            numbers = random.Random(load)
            asks = [one(numbers) for _ in range(LINES)]
            ours = [compact({"do": "find", "in": "c", "query": query}) for query, _ in asks]
            rx, peer = costs(folder, begins, starts, [ours, [sql for _, sql in asks]])
            print(f"{load}, {size:,} documents: rx {rx * 1e6:,.1f} us, sqlite3 {peer * 1e6:,.1f} us: "
                  f"{rx / peer:.2f} times the time", flush=True)
            figure(load, documents=size, ratio=rx / peer, rx=1 / rx, sqlite3=1 / peer)


# ---- observed windows

def windows(count: int) -> Iterator[tuple[dict, str]]:
    for q in range(count):
        low = q * NUMBERS // count
        yield asked({"n": {"$gte": low}}, f"n>={low}", "desc" if q % 2 else "asc")


def writes(size: int, lines: int) -> Iterator[tuple[str, str]]:
    """For both the same line: it removes, or puts a document that is there or a new one."""
    numbers, keys = random.Random(size), [f"k{k}" for k in range(size)]
    for i in range(lines):
        draw, at = numbers.randrange(10), numbers.randrange(len(keys))
        if draw == 0:
            keys[at], keys[-1] = keys[-1], keys[at]
            key = keys.pop()
            yield compact({"do": "remove", "in": "c", "key": key}), f"DELETE FROM c WHERE id='{key}';"
            continue
        if draw == 1:
            keys.append(f"k{size + i}")
            at = -1
        key, it = keys[at], drawn(numbers)
        put = f"INSERT INTO c VALUES('{key}',{it['g']},{it['n']},{it['r']})"
        yield (compact({"do": "upsert", "in": "c", "doc": {"id": key, **it}}),
               f"{put} ON CONFLICT DO UPDATE SET g=excluded.g,n=excluded.n,r=excluded.r;")


def full_runs(folder: str, lines: list[str], count: int) -> float:
    """The share of the changes heard by windows for which the decision table wants a full run."""
    explains = [compact({"do": "explain", "name": f"q{q}"}) for q in range(count)]
    source = "".join(f"{line}\n" for line in [*lines, *explains]).encode()
    done = subprocess.run(peers(folder)[0], input=source, stdout=subprocess.PIPE, check=True)
    told = [json.loads(line) for line in done.stdout.splitlines()[-count:]]
    return sum(it["full"] for it in told) / sum(it["changes"] for it in told)


def observe(size: int, count: int) -> None:
    asks = list(windows(count))
    observes = ({"do": "observe", "name": f"q{q}", "in": "c", "query": it[0]} for q, it in enumerate(asks))
    begins = [[*map(compact, observes)], []]
    again, stream = "".join(sql for _, sql in asks), list(writes(size, LINES))
    # Each line of sqlite3 asks for all windows, so a few of them are enough.
    streams = [[ours for ours, _ in stream], [theirs + again for _, theirs in stream[:1_024]]]
    with held(size) as folder:
        rx, peer = costs(folder, begins, begun(folder, begins), streams)
        share = full_runs(folder, begins[0] + streams[0][:2_000], count)
    print(f"{count} windows, {size:,} documents: rx {rx * 1e6:,.1f} us a write, sqlite3 asked again "
          f"{peer * 1e6:,.1f} us: {peer / rx:.1f} times as fast; a full run is wanted after {share:.3%} of the changes",
          flush=True)
    figure("writes", documents=size, queries=count, ratio=rx / peer, rx=1 / rx, sqlite3=1 / peer, full=share)


def main() -> None:
    for size in SIZES if ONLY != "windows" else ():
        queries(size)
    for size in WINDOWS if ONLY != "queries" else ():
        for count in (64, 256):
            observe(size, count)


main()
