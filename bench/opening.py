#!/usr/bin/env python3
"""Opening a journal of a gigabyte, of documents of 100,000 letters written ten times each, one of a
million records, which is checked too, and one of a fork that pulled 100,000 documents.

    bench/opening.py [PROGRAM] [FOLDER]

A second run with an empty script opens the journal that the first one left. Beside it a bare loop
reads the same file in pieces of a window's size. Then a journal of 1,000,000 records, each of one
document, is opened so and by `rx check` in turn, three times each. The last has a master's bulks of
1,000 and the fork's exchanges of 100. The files lie in FOLDER, or else in memory-backed storage.
"""
import os
import shutil
import subprocess
import sys
import time

from measuring import collection, compact, documents, measure, processor, program

LETTERS = 100_000
KEYS = 1_000
TIMES = 10
WINDOW = 65_536
RECORDS = 1_000_000
PULLED = 100_000
BULK = 1_000
MOST = 4_294_967_295
SCHEMA = {
    "version": 0,
    "primaryKey": "id",
    "type": "object",
    "properties": {"id": {"type": "string", "maxLength": 20}, "t": {"type": "string", "maxLength": LETTERS}},
    "required": ["id"],
}


def lines():
    yield compact({"do": "collection", "name": "c", "schema": SCHEMA})
    for number in range(KEYS * TIMES):
        text = chr(ord("a") + number % 26) * LETTERS
        yield compact({"do": "upsert", "in": "c", "doc": {"id": f"k{number % KEYS}", "t": text}})


def read_bare(path):
    """The seconds in which a bare loop reads the file."""
    start = time.perf_counter()
    with open(path, "rb", buffering=0) as file:
        while file.read(WINDOW):
            pass
    return time.perf_counter() - start


def small():
    yield collection()
    for key, n in documents(RECORDS - 1):
        yield compact({"do": "insert", "in": "c", "doc": {"id": key, "n": n}})


def open_large(command, journal):
    made, made_peak = measure(command, lines())
    size = os.path.getsize(journal)
    bare = min(read_bare(journal) for _ in range(3))
    opened, peak = min(measure(command, []) for _ in range(3))
    print(f"{size / 1e6:,.0f} MB made in {made:.1f} s, peak {made_peak:,} KiB")
    print(f"opened in {opened:.2f} s, {size / opened / 1e6:,.0f} MB a second, peak {peak:,} KiB")
    print(f"read bare in {bare:.2f} s, {opened / bare:.1f} times faster", flush=True)


def timed(command):
    """The seconds of a processor and by the clock, and the peak memory in KiB, of a run without lines."""
    before = processor()
    seconds, peak = measure(command, [])
    return processor() - before, seconds, peak


def check_small(command, journal):
    made, _ = measure(command, small())
    size = os.path.getsize(journal)
    check = [program(), "check", journal]
    told = subprocess.run(check, capture_output=True, check=True).stdout.splitlines()
    runs = [(timed(command), timed(check)) for _ in range(3)]
    opened, checked = (min(side) for side in zip(*runs))
    print(f"{told[1].decode()}: {size / 1e6:,.1f} MB made in {made:.1f} s")
    for what, (used, seconds, peak) in (("opened", opened), ("checked", checked)):
        print(f"{what} in {used:.2f} s of a processor, {seconds:.2f} s by the clock, peak {peak:,} KiB")
    print(f"a check takes {checked[0] / opened[0]:.2f} times as long")


def pulled():
    yield from (collection(name) for name in "mf")
    yield compact({"do": "replicate", "name": "r", "fork": "f", "master": "m", "handler": "master_wins"})
    for start in range(0, PULLED, BULK):
        docs = [{"id": f"k{key}", "n": key % 2} for key in range(start, start + BULK)]
        yield compact({"do": "bulk", "in": "m", "docs": docs})
    yield compact({"do": "turn", "name": "r", "budget": 100_000})


def open_fork(command, journal):
    measure(command, pulled())
    size = os.path.getsize(journal)
    used, seconds, peak = min(timed(command) for _ in range(3))
    print(f"{PULLED:,} documents of a master and its fork, {size / 1e6:,.1f} MB: opened in {used:.2f} s of a processor, "
          f"{seconds:.2f} s by the clock, {size / used / 1e6:,.0f} MB a second, peak {peak:,} KiB")


def main():
    folder = sys.argv[2] if len(sys.argv) > 2 else "/dev/shm"
    path = os.path.join(folder, f"rx-opening-{os.getpid()}")
    os.mkdir(path)
    try:
        for name, measured in (("large", open_large), ("small", check_small), ("fork", open_fork)):
            journal = os.path.join(path, name)
            measured([program(), "run", journal, "--max-journal", str(MOST)], journal)
            os.remove(journal)
    finally:
        shutil.rmtree(path)


if __name__ == "__main__":
    main()
