#!/usr/bin/env python3
"""Durable inserts a second, one by one, beside the raw floor and sqlite3, on one disk.

    bench/durable.py [PROGRAM] [FOLDER] [--json FILE]

The floor is what a journal can't do without: for each record two writes and two syncs of the data,
of the same lengths, by os.pwrite and os.fdatasync. rx gets a line once the one before is answered,
and beside that all lines in a file, where those that it reads together share their syncs. sqlite3
inserts the same documents as statements of their own, with its rollback journal and with its
write-ahead log, synchronous=FULL. All take turns, three runs each, and the best time counts. FOLDER
is where the files lie, this folder's disk where it is left out.
"""
import os
import sys
import tempfile
import time

from measuring import HERE, Talk, collection, compact, documents, figure, measure, program, report, sqlite

RUNS = 3
COUNT = 1_000
FOLDER = sys.argv[2] if len(sys.argv) > 2 else HERE
TABLE = "CREATE TABLE c(id TEXT PRIMARY KEY, n INTEGER) WITHOUT ROWID;"
# a record of these documents has about so many bytes, with its length and gate
RECORD = 76


def floor(path):
    start = time.perf_counter()
    file = os.open(path, os.O_RDWR | os.O_CREAT)
    place = 8
    for _ in range(COUNT):
        os.pwrite(file, bytes(RECORD), place + 1)
        os.fdatasync(file)
        os.pwrite(file, b"\1", place)
        os.fdatasync(file)
        place += RECORD
    os.close(file)
    return time.perf_counter() - start, 0


def one_by_one(path, lines):
    start = time.perf_counter()
    talk = Talk(path)
    if not all(map(talk.ask, lines)) or talk.end():
        sys.exit("the run ended early")
    return time.perf_counter() - start, 0


def in_folder(run):
    with tempfile.TemporaryDirectory(dir=FOLDER) as folder:
        return run(os.path.join(folder, "file"))


def sqlite_run(mode):
    lines = [f"PRAGMA journal_mode={mode};", "PRAGMA synchronous=FULL;", TABLE]
    lines += [f"INSERT INTO c VALUES('{k}',{n}) RETURNING '1-c';" for k, n in documents(COUNT)]
    return lambda path: measure([sqlite(), "-batch", path], lines)


def main():
    lines = [collection()]
    lines += [compact({"do": "insert", "in": "c", "doc": {"id": k, "n": n}}) for k, n in documents(COUNT)]
    peers = {
        "rx": lambda path: one_by_one(path, lines),
        "rx, read together": lambda path: measure([program(), "run", path], lines),
        "floor": floor,
        "sqlite3, rollback journal": sqlite_run("DELETE"),
        "sqlite3, write-ahead log": sqlite_run("WAL"),
    }
    runs = {who: [] for who in peers}
    for _ in range(RUNS):
        for who, run in peers.items():
            runs[who].append(in_folder(run))
    seconds = {who: report("durable inserts", who, COUNT, runs[who]) for who in peers}
    for who in list(peers)[1:]:
        print(f"durable inserts: rx takes {seconds['rx'] / seconds[who]:.2f} times the time of {who}")
        figure(f"inserts beside {who}", ratio=seconds["rx"] / seconds[who], rx=COUNT / seconds["rx"])


main()
