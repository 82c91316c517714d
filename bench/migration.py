#!/usr/bin/env python3
"""A master and its fork taken to the next schema in one line, beside sqlite3.

    bench/migration.py [PROGRAM] [FOLDER] [FEWER] [--json FILE]

100,000 documents and then 1,000,000, on both sides and known to the fork, with so many times fewer where
FEWER is given; four steps: a field becomes another, is multiplied, one goes and one comes. sqlite3 does
the same to two tables, the master's and the fork's, in one transaction: two columns are added to each,
all rows updated, and two columns dropped; in WAL mode with synchronous=FULL. It has no table of what the
fork knows, which rx takes along. The files lie in FOLDER, or where it is left out first in memory-backed
storage and then on this folder's disk.

The line is timed from its writing to its reply, in a run that has opened the journal before, and the
greatest memory of that run is told before the line and behind it. The two take turns, three runs each, on
copies of one file, and the best time counts. Then runs without lines open the journal with the record, and
a copy that has none, in turn.
"""
import os
import shutil
import sqlite3
import sys
import tempfile
import time

from measuring import HERE, SCHEMA, Talk, compact, figure, measure, peak_of, program

RUNS = 3
FOLDERS = [sys.argv[2]] if len(sys.argv) > 2 else ["/dev/shm", HERE]
FEWER = int(sys.argv[3]) if len(sys.argv) > 3 else 1
COUNTS = [count // FEWER for count in (100_000, 1_000_000)]
MOST = ["--max-journal", "4294967295"]
BULK = 1_000
TEXT = {"type": "string", "maxLength": 80}
OLD = {**SCHEMA, "properties": {**SCHEMA["properties"], "note": TEXT}}
KEY = SCHEMA["properties"]["id"]
NEXT = {**SCHEMA, "version": 1, "required": ["id", "done"],
        "properties": {"id": KEY, "rank": {"type": "integer"}, "done": {"type": "boolean"}}}
STEPS = [{"rename": "n", "to": "rank"}, {"scale": "rank", "by": 10}, {"drop": "note"},
         {"set": "done", "value": False}]
LINE = compact({"do": "migrate", "in": "m", "schema": NEXT, "steps": STEPS})


def note(key):
    return f"what is to be said of {key}"


def sides(count):
    """The lines that make the documents of a master and have its fork pull them."""
    yield from ({"do": "collection", "name": name, "schema": OLD} for name in "mf")
    yield {"do": "replicate", "name": "r", "fork": "f", "master": "m", "handler": "master_wins"}
    for start in range(0, count, BULK):
        keys = range(start, min(count, start + BULK))
        docs = [{"id": f"k{key}", "n": key, "note": note(key)} for key in keys]
        yield {"do": "bulk", "in": "m", "docs": docs}
    yield {"do": "turn", "name": "r", "budget": 100_000}


def make(journal, database, count):
    """The files that each run gets a copy of."""
    measure([program(), "run", journal, *MOST], map(compact, sides(count)))
    db = sqlite3.connect(database, isolation_level=None)
    db.execute("PRAGMA journal_mode=WAL")
    db.execute("BEGIN")
    for side in "mf":
        db.execute(f"CREATE TABLE {side}(id TEXT PRIMARY KEY, n INTEGER, note TEXT, deleted INTEGER, "
                   "height INTEGER, lwt INTEGER) WITHOUT ROWID")
        db.executemany(f"INSERT INTO {side} VALUES(?, ?, ?, 0, 1, 1)",
                       ((f"k{key}", key, note(key)) for key in range(count)))
    db.execute("COMMIT")
    db.close()


# ---- the line, and the transaction

def migrate(journal, count):
    """The seconds of the line, and the most memory in bytes before it and behind it."""
    talk = Talk(journal, *MOST)
    talk.ask(compact({"do": "tick", "at": 0}))
    before, start = peak_of(talk.child), time.perf_counter()
    reply = talk.ask(LINE)
    seconds, after = time.perf_counter() - start, peak_of(talk.child)
    found = [talk.ask(compact({"do": "digest", "in": side})) for side in "mf"]
    doc = talk.ask(compact({"do": "get", "in": "f", "key": "k1"}))["doc"]
    if reply.get("collections") != ["m", "f"] or talk.end() or doc != {"done": False, "id": "k1", "rank": 10}:
        sys.exit(f"rx: {reply}, {doc}")
    if len({it["digest"] for it in found}) != 1 or found[0]["count"] != count:
        sys.exit(f"rx: the sides are {found}")
    return seconds, before, after


def migrate_in_sql(database, count):
    db = sqlite3.connect(database, isolation_level=None)
    db.execute("PRAGMA synchronous=FULL")
    start = time.perf_counter()
    db.execute("BEGIN IMMEDIATE")
    for side in "mf":
        db.execute(f"ALTER TABLE {side} ADD COLUMN rank INTEGER")
        db.execute(f"ALTER TABLE {side} ADD COLUMN done INTEGER")
        db.execute(f"UPDATE {side} SET rank = n * 10, done = 0")
        db.execute(f"ALTER TABLE {side} DROP COLUMN n")
        db.execute(f"ALTER TABLE {side} DROP COLUMN note")
    db.execute("COMMIT")
    seconds = time.perf_counter() - start
    found = [db.execute(f"SELECT count(*), max(rank) FROM {side}").fetchone() for side in "mf"]
    db.close()
    if found != [(count, 10 * (count - 1))] * 2:
        sys.exit(f"sqlite3: the sides are {found}")
    return seconds


def compare(folder, template, count):
    """Both on copies in a folder. The last journal stays there, as `with`."""
    ours, theirs = [], []
    for _ in range(RUNS):
        for name, run, seen in (("journal", migrate, ours), ("database", migrate_in_sql, theirs)):
            path = os.path.join(folder, "with" if run is migrate else name)
            shutil.copy(os.path.join(template, name), path)
            seen.append(run(path, count))
    seconds, before, after = min(it[0] for it in ours), max(it[1] for it in ours), max(it[2] for it in ours)
    peer, where = min(theirs), os.path.dirname(folder)
    print(f"{count:,} documents on each side in {where}: rx {seconds:.3f} s, sqlite3 {peer:.3f} s; "
          f"rx takes {seconds / peer:.2f} times as long")
    print(f"peak {before >> 20:,} MiB before the line, {after >> 20:,} MiB behind it, "
          f"{after / before:.2f} times")
    figure(f"migration of {count} in {where}", ratio=seconds / peer, rx=seconds, sqlite3=peer,
           peak=after / before)


def opening(folder, template, count):
    """Runs that open the journal with the record of the migration, and one without it."""
    paths = {"without the record": os.path.join(folder, "without"), "with it": os.path.join(folder, "with")}
    shutil.copy(os.path.join(template, "journal"), paths["without the record"])
    runs = {what: [] for what in paths}
    for _ in range(RUNS):
        for what, path in paths.items():
            runs[what].append(measure([program(), "run", path, *MOST], []))
    without, with_it = (min(seconds for seconds, _ in of) for of in runs.values())
    print(f"opening: {without:.3f} s without the record, {with_it:.3f} s with it, "
          f"{with_it / without:.2f} times", flush=True)
    figure(f"opening behind a migration of {count} in {os.path.dirname(folder)}", ratio=with_it / without)


def main():
    for count in COUNTS:
        with tempfile.TemporaryDirectory(dir="/dev/shm") as template:
            make(os.path.join(template, "journal"), os.path.join(template, "database"), count)
            for where in FOLDERS:
                with tempfile.TemporaryDirectory(dir=where) as folder:
                    compare(folder, template, count)
                    opening(folder, template, count)


main()
