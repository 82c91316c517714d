#!/usr/bin/env python3
"""Deliveries of a stream, beside the turns that bring the same rows and beside sqlite3.

    bench/streams.py [PROGRAM] [FOLDER] [FEWER] [--json FILE]

The files lie in FOLDER, or in memory-backed storage where it is left out. A master has 1 fork and then 16,
each with a stream of its own, of 1,000 documents and then of 100,000, with so many times fewer of both
where FEWER is given. The master is written, 1 document at a time and then 100, and after each write every
fork is delivered to, or makes a turn. What counts is the processor time, in the best of five blocks: of one
delivery beside one turn; and beside sqlite3, and over more documents, of one delivery with what its stream
adds to the master's write. The writes are asked for one by one, so that none shares a commit with others.
Both sides have to be the same at the end, or the benchmark stops.

sqlite3 keeps a table for the master, and for each fork its documents, what it knows of the master and a
queue. A trigger on the master fills the queues, and each is drained in one transaction, which sees whether
something is to be pushed, writes what differs, keeps what is known and the checkpoint, and empties it; in
WAL mode with synchronous=FULL.
"""
import json
import os
import sqlite3
import subprocess
import sys
import tempfile
import time

from measuring import SCHEMA, compact, figure, processor_of, program

STORAGE = sys.argv[2] if len(sys.argv) > 2 else "/dev/shm"
FEWER = int(sys.argv[3]) if len(sys.argv) > 3 else 1
FORKS = (1, 16)
ROWS = (1, 100)
COUNTS = [count // FEWER for count in (1_000, 100_000)]
WRITES = {1: 40, 100: 10}
BLOCKS = 5
BULK = 1_000
SECONDS = 600


def keys_of(block, write, rows):
    """The keys of one write, which no other one has."""
    return [f"w{block}-{write}-{row}" for row in range(rows)]


# ---- rx

class Played:
    """A run over a master with forks, all of which have its documents."""

    def __init__(self, folder, forks, count):
        command = [program(), "run", os.path.join(folder, "file"), "--max-journal", "4294967295"]
        self.child = subprocess.Popen(command, stdin=subprocess.PIPE, stdout=subprocess.PIPE)
        self.names = [f"r{fork}" for fork in range(forks)]
        self.sides = ["m", *(f"f{fork}" for fork in range(forks))]
        self.ask([{"do": "collection", "name": side, "schema": SCHEMA} for side in self.sides])
        self.ask([{"do": "replicate", "name": name, "fork": fork, "master": "m", "handler": "master_wins"}
                  for name, fork in zip(self.names, self.sides[1:])])
        for start in range(0, count, BULK):
            docs = [{"id": f"k{key}", "n": key} for key in range(start, min(count, start + BULK))]
            self.ask([{"do": "bulk", "in": "m", "docs": docs}])
        self.each("turn", budget=100_000)

    def ask(self, lines):
        """The replies, without the lines of exchanges and events."""
        self.child.stdin.write("".join(compact(line) + "\n" for line in lines).encode())
        self.child.stdin.flush()
        replies = []
        while len(replies) < len(lines):
            reply = json.loads(self.child.stdout.readline())
            if "line" in reply:
                replies.append(reply)
        if any("refused" in reply for reply in replies):
            sys.exit(f"rx: {[reply for reply in replies if 'refused' in reply][:1]}")
        return replies

    def each(self, do, **more):
        """One line for each fork, all in one piece."""
        return self.ask([{"do": do, "name": name, **more} for name in self.names])

    def block(self, do, keys, **more):
        """The seconds of writes, and of what brings each of them to the forks."""
        written = brought = 0
        for some in keys:
            docs = [{"id": key, "n": 1} for key in some]
            start = processor_of(self.child)
            self.ask([{"do": "bulk", "in": "m", "docs": docs}])
            middle = processor_of(self.child)
            replies = self.each(do, **more)
            brought += processor_of(self.child) - middle
            written += middle - start
            if do == "deliver" and not all(reply["level"] for reply in replies):
                sys.exit(f"rx: a delivery that isn't level, {replies}")
        return written, brought

    def deliveries(self, keys):
        self.each("stream")
        seconds = self.block("deliver", keys)
        self.each("unstream")
        return seconds

    def turns(self, keys):
        return self.block("turn", keys, budget=1)

    def end(self):
        digests = {reply["digest"] for reply in self.ask([{"do": "digest", "in": it} for it in self.sides])}
        if len(digests) != 1:
            sys.exit("rx: the sides differ")
        self.child.stdin.close()
        self.child.wait(SECONDS)


# ---- sqlite3

TABLES = """
PRAGMA journal_mode=WAL;
PRAGMA synchronous=FULL;
CREATE TABLE m(id TEXT PRIMARY KEY, n INTEGER, deleted INTEGER, height INTEGER, lwt INTEGER) WITHOUT ROWID;
CREATE INDEX m_place ON m(lwt, id);
"""
FORK = """
CREATE TABLE f{0}(id TEXT PRIMARY KEY, n INTEGER, deleted INTEGER, height INTEGER, lwt INTEGER, pending INTEGER)
  WITHOUT ROWID;
CREATE TABLE known{0}(id TEXT PRIMARY KEY, n INTEGER, deleted INTEGER) WITHOUT ROWID;
CREATE TABLE down{0}(lwt INTEGER, id TEXT);
INSERT INTO down{0} VALUES(0, '');
CREATE TABLE queue{0}(place INTEGER PRIMARY KEY, id TEXT, n INTEGER, deleted INTEGER, lwt INTEGER);
CREATE INDEX f{0}_place ON f{0}(lwt, id);
CREATE INDEX f{0}_pending ON f{0}(lwt, id) WHERE pending;
"""
FILL = """
INSERT INTO f{0} SELECT id, n, deleted, 1, lwt, 0 FROM m;
INSERT INTO known{0} SELECT id, n, deleted FROM m;
"""
QUEUE = "INSERT INTO queue{0}(id, n, deleted, lwt) VALUES(NEW.id, NEW.n, NEW.deleted, NEW.lwt);"
WRITE = """
INSERT INTO m VALUES(?, 1, 0, 1, ?)
ON CONFLICT DO UPDATE SET n=excluded.n, deleted=excluded.deleted, height=height+1, lwt=excluded.lwt
"""
PENDING = "SELECT 1 FROM f{0} WHERE pending LIMIT 1"
PULL = """
INSERT INTO f{0} SELECT q.id, q.n, q.deleted, 1, (SELECT coalesce(max(lwt), 0) + 1 FROM f{0}), 0
FROM queue{0} q LEFT JOIN f{0} USING(id) WHERE f{0}.n IS NOT q.n OR f{0}.deleted IS NOT q.deleted
ON CONFLICT DO UPDATE SET n=excluded.n, deleted=excluded.deleted, height=height+1, lwt=excluded.lwt, pending=0
"""
LEARN = """
INSERT INTO known{0} SELECT id, n, deleted FROM queue{0} WHERE true
ON CONFLICT DO UPDATE SET n=excluded.n, deleted=excluded.deleted
"""
GO_ON = "UPDATE down{0} SET (lwt, id) = (SELECT lwt, id FROM queue{0} ORDER BY place DESC LIMIT 1)"


class SqlPlayed:
    """The same by sqlite3."""

    def __init__(self, folder, forks, count):
        self.db = sqlite3.connect(os.path.join(folder, "file"), isolation_level=None)
        self.db.executescript(TABLES)
        self.forks, self.lwt = range(forks), count // BULK + 1
        self.db.execute("BEGIN")
        self.db.executemany("INSERT INTO m VALUES(?, ?, 0, 1, ?)",
                            ((f"k{key}", key, key // BULK + 1) for key in range(count)))
        self.db.execute("COMMIT")
        for fork in self.forks:
            self.db.executescript(FORK.format(fork))
            self.db.executescript(f"BEGIN; {FILL.format(fork)} COMMIT;")

    def write(self, keys):
        self.db.execute("BEGIN IMMEDIATE")
        self.lwt += 1
        self.db.executemany(WRITE, ((key, self.lwt) for key in keys))
        self.db.execute("COMMIT")

    def drain(self, fork):
        self.db.execute("BEGIN IMMEDIATE")
        if self.db.execute(PENDING.format(fork)).fetchone():
            sys.exit("sqlite3: something is to be pushed")
        for statement in (PULL, LEARN, GO_ON, "DELETE FROM queue{0}"):
            self.db.execute(statement.format(fork))
        self.db.execute("COMMIT")

    def trigger(self):
        queues = "\n".join(QUEUE.format(fork) for fork in self.forks)
        for what in ("INSERT", "UPDATE"):
            self.db.execute(f"CREATE TRIGGER after_{what} AFTER {what} ON m BEGIN {queues} END")

    def deliveries(self, keys):
        self.trigger()
        written = brought = 0
        for some in keys:
            start = time.process_time()
            self.write(some)
            middle = time.process_time()
            for fork in self.forks:
                self.drain(fork)
            brought += time.process_time() - middle
            written += middle - start
        for what in ("INSERT", "UPDATE"):
            self.db.execute(f"DROP TRIGGER after_{what}")
        return written, brought

    def plain(self, keys):
        """The seconds of writes that nobody hears of, which each fork gets untimed."""
        written = 0
        for some in keys:
            start = time.process_time()
            self.write(some)
            written += time.process_time() - start
            for fork in self.forks:
                marks = ", ".join("?" * len(some))
                self.db.execute(f"INSERT INTO queue{fork}(id, n, deleted, lwt) SELECT id, n, deleted, lwt FROM m "
                                f"WHERE id IN ({marks}) ORDER BY id", some)
                self.drain(fork)
        return written

    def end(self):
        sides = {self.db.execute(f"SELECT count(*), sum(n), max(id) FROM {side}").fetchone()
                 for side in ("m", *(f"f{fork}" for fork in self.forks))}
        if len(sides) != 1:
            sys.exit(f"sqlite3: the sides are {sides}")
        self.db.close()


# ---- both

def run_rx(forks, rows, count):
    """The best seconds of a delivery, of one with what its stream adds to the write, and of a turn."""
    deliveries, with_writes, turns = [], [], []
    with tempfile.TemporaryDirectory(dir=STORAGE) as folder:
        played = Played(folder, forks, count)
        for block in range(BLOCKS):
            writes = WRITES[rows]
            keys = [keys_of(f"t{block}", write, rows) for write in range(writes)]
            alone, brought = played.turns(keys)
            turns.append(brought / writes / forks)
            keys = [keys_of(f"s{block}", write, rows) for write in range(writes)]
            written, brought = played.deliveries(keys)
            deliveries.append(brought / writes / forks)
            with_writes.append((brought + max(0, written - alone)) / writes / forks)
        played.end()
    return min(deliveries), min(with_writes), min(turns)


def run_sqlite(forks, rows, count):
    """The best seconds of a queue that is filled and drained."""
    seen = []
    with tempfile.TemporaryDirectory(dir=STORAGE) as folder:
        played = SqlPlayed(folder, forks, count)
        for block in range(BLOCKS):
            writes = WRITES[rows]
            alone = played.plain([keys_of(f"t{block}", write, rows) for write in range(writes)])
            written, brought = played.deliveries([keys_of(f"s{block}", write, rows) for write in range(writes)])
            seen.append((brought + max(0, written - alone)) / writes / forks)
        played.end()
    return min(seen)


def compare(forks, rows, count):
    """The seconds of a delivery with its part of the write."""
    delivery, ours, turn = run_rx(forks, rows, count)
    theirs = run_sqlite(forks, rows, count)
    streams, many = f"{forks} stream{'s' * (forks > 1)}", f"{rows} row{'s' * (rows > 1)}"
    print(f"{streams}, {many}, {count:,} documents: a delivery {delivery * 1e6:,.1f} us, {delivery / turn:.2f} of "
          f"a turn's {turn * 1e6:,.1f} us; with its part of the write {ours * 1e6:,.1f} us, {ours / theirs:.2f} of "
          f"sqlite3's {theirs * 1e6:,.1f} us", flush=True)
    figure(f"a delivery of {many}, {streams}", documents=count, ratio=ours / theirs, of_turn=delivery / turn,
           delivery=delivery * 1e6, turn=turn * 1e6, rx=ours * 1e6, sqlite3=theirs * 1e6)
    return ours


def main():
    for forks in FORKS:
        for rows in ROWS:
            few, many = (compare(forks, rows, count) for count in COUNTS)
            print(f"over {COUNTS[1]:,} documents it takes {many / few:.2f} times as long as over {COUNTS[0]:,}",
                  flush=True)
            figure(f"{forks} streams, {rows} rows, by documents", ratio=many / few)


if __name__ == "__main__":
    main()
