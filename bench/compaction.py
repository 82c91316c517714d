#!/usr/bin/env python3
"""A journal copied without what is outdated, beside sqlite3's VACUUM INTO.

    bench/compaction.py [PROGRAM] [FOLDER] [FEWER] [--json FILE]

The loads are 1,000,000 upserts over 1,000 keys, and 1,000,000 documents, with so many times fewer of each where
FEWER is given. sqlite3 has the same documents in a table of a key and a text of JSON, written by the same upserts
in one transaction; in WAL mode with synchronous=FULL. The files lie in FOLDER, or where it is left out first in
memory-backed storage and then on this folder's disk.

`rx compact` and sqlite3, each a process of its own from its start to its end, take turns, three runs each, and the
best time counts. Beside it stand the peak memory of the copy and of `rx check`, and runs without lines that open
the journal and its copy, in documents a second. Both have to hold the same documents, or the benchmark stops.
"""
import json
import os
import sqlite3
import subprocess
import sys
import tempfile

from measuring import HERE, SEED, collection, compact, figure, measure, program, sqlite

RUNS = 3
FOLDERS = [sys.argv[2]] if len(sys.argv) > 2 else ["/dev/shm", HERE]
FEWER = int(sys.argv[3]) if len(sys.argv) > 3 else 1
RECORDS = 1_000_000 // FEWER
KEYS = max(1, 1_000 // FEWER)
# How many documents the records write.
LOADS = {f"{RECORDS:,} upserts over {KEYS:,} keys": KEYS, f"{RECORDS:,} documents": RECORDS}
MOST = ["--max-journal", "4294967295"]


def upserts(count):
    """Each key in an order that the seed mixes, again and again, with another number each time."""
    for number in range(RECORDS):
        yield f"k{number * SEED % count}", number


def make(journal, database, count):
    """The files that each run reads."""
    lines = (compact({"do": "upsert", "in": "c", "doc": {"id": key, "n": n}}) for key, n in upserts(count))
    measure([program(), "run", journal, *MOST], (it for part in ([collection()], lines) for it in part))
    db = sqlite3.connect(database, isolation_level=None)
    db.execute("PRAGMA journal_mode=WAL")
    db.execute("PRAGMA synchronous=FULL")
    db.execute("CREATE TABLE c(id TEXT PRIMARY KEY, doc TEXT) WITHOUT ROWID")
    db.execute("BEGIN")
    db.executemany("INSERT INTO c VALUES(?, ?) ON CONFLICT(id) DO UPDATE SET doc = excluded.doc",
                   ((key, compact({"id": key, "n": n})) for key, n in upserts(count)))
    db.execute("COMMIT")
    db.execute("PRAGMA wal_checkpoint(TRUNCATE)")
    db.close()


def told(journal):
    """What a report tells of the collection, and of the file."""
    done = subprocess.run([program(), "check", journal], capture_output=True, check=True)
    return [json.loads(line) for line in done.stdout.splitlines()]


def fresh(path):
    if os.path.exists(path):
        os.remove(path)
    return path


def same_documents(journal, copy, database, count):
    before, after = told(journal), told(copy)
    if before[0] != after[0] or after[0]["count"] != count or before[1]["epoch"] != after[1]["epoch"]:
        sys.exit(f"rx: the copy is {after}, and not {before}")
    db = sqlite3.connect(database)
    found = db.execute("SELECT count(*), max(json_extract(doc, '$.n')) FROM c").fetchone()
    db.close()
    if found != (count, RECORDS - 1):
        sys.exit(f"sqlite3: the copy is {found}")


def compare(folder, load, count):
    """Both copy what they have, in turn. The last copies stay there."""
    names = "journal", "database", "copy", "vacuumed"
    journal, database, copy, vacuumed = (os.path.join(folder, it) for it in names)
    ours, theirs = [], []
    for _ in range(RUNS):
        ours.append(measure([program(), "compact", journal, fresh(copy), *MOST], []))
        statements = ["PRAGMA synchronous=FULL;", f"VACUUM INTO '{fresh(vacuumed)}';"]
        theirs.append(measure([sqlite(), "-batch", "-bail", database], statements))
    same_documents(journal, copy, vacuumed, count)
    seconds, peer, where = min(it[0] for it in ours), min(it[0] for it in theirs), os.path.dirname(folder)
    sizes = [os.path.getsize(it) / 1e6 for it in (journal, copy, database, vacuumed)]
    print(f"{load} in {where}: rx {seconds:.3f} s, sqlite3 {peer:.3f} s; rx takes {seconds / peer:.2f} times as long")
    print("rx {:,.1f} MB to {:,.1f} MB, sqlite3 {:,.1f} MB to {:,.1f} MB".format(*sizes))
    checks = [measure([program(), "check", journal], []) for _ in range(RUNS)]
    peak, check = (max(it[1] for it in runs) for runs in (ours, checks))
    print(f"peak {peak:,} KiB, of a check {check:,} KiB, {peak / check:.2f} times; of sqlite3 "
          f"{max(it[1] for it in theirs):,} KiB")
    figure(f"copy of {load} in {where}", ratio=seconds / peer, rx=seconds, sqlite3=peer, peak=peak / check)


def opening(folder, load, count):
    """Runs that open the journal and its copy in turn, each of which begins an epoch."""
    runs = {"journal": [], "copy": []}
    for _ in range(RUNS):
        for name, seen in runs.items():
            seen.append(measure([program(), "run", os.path.join(folder, name), *MOST], [])[0])
    journal, copy = map(min, runs.values())
    print(f"opening: {count / journal:,.0f} documents a second in {journal:.3f} s, of the copy "
          f"{count / copy:,.0f} in {copy:.3f} s, {journal / copy:.2f} times faster", flush=True)
    figure(f"opening a copy of {load} in {os.path.dirname(folder)}", ratio=copy / journal, rx=count / copy)


def main():
    for where in FOLDERS:
        for load, count in LOADS.items():
            with tempfile.TemporaryDirectory(dir=where) as folder:
                make(os.path.join(folder, "journal"), os.path.join(folder, "database"), count)
                compare(folder, load, count)
                opening(folder, load, count)


main()
