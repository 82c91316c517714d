#!/usr/bin/env python3
"""Turns of a fork and its master: exchanges and documents a second, beside sqlite3.

    bench/replication.py [PROGRAM] [FOLDER] [FEWER] [--json FILE]

The files lie in FOLDER, or in memory-backed storage where it is left out. A first pull of 100,000
documents, 10,000 documents pushed, and 1,000 conflicts with each handler, each with batches of 1, 10
and 100; with so many times fewer documents where FEWER is given. sqlite3 does the same by statements
over whole batches: a table each for the master, for the fork, for the states known of the master
and for the checkpoints, an index of what is to be pushed, and a transaction an exchange, in WAL mode
with synchronous=FULL. What it takes to make the documents is taken off both. The two take turns,
three runs each, and the best time counts. Both make as many exchanges and have the same documents on
both sides at the end, or the benchmark stops. A run that takes more than ten minutes is given up.

Then turns of one exchange and one document over forks of 1,000, 10,000 and 100,000: pulled where the
fork never pushed, and pulled and pushed where it did. What counts is the processor time of a document's
insert and its turn, 50 in a block, in the best of five blocks. sqlite3 does the same over as many.
"""
import json
import os
import sqlite3
import subprocess
import sys
import tempfile
import time

from measuring import SCHEMA, compact, figure, processor_of, program

RUNS = 3
SECONDS = 600
STORAGE = sys.argv[2] if len(sys.argv) > 2 else "/dev/shm"
FEWER = int(sys.argv[3]) if len(sys.argv) > 3 else 1
PULLED, PUSHED, CONFLICTS = 100_000 // FEWER, 10_000 // FEWER, 1_000 // FEWER
BATCHES = (1, 10, 100)
BUDGET = 100_000
HANDLERS = ("master_wins", "fork_wins", "greater", "join")
FORKS = [count // FEWER for count in (1_000, 10_000, 100_000)]
BLOCK, BLOCKS = 50, 5


class Late(Exception):
    """It takes too long."""


# ---- rx

def begun(handler):
    field = {"field": "n"} if handler == "greater" else {}
    return [
        *({"do": "collection", "name": name, "schema": SCHEMA} for name in ("m", "f")),
        {"do": "replicate", "name": "r", "fork": "f", "master": "m", "handler": handler, **field},
    ]


def written(side, count, n):
    for start in range(0, count, 1_000):
        docs = [{"id": f"k{key}", "n": n} for key in range(start, min(count, start + 1_000))]
        yield {"do": "bulk", "in": side, "docs": docs}


def play(lines):
    """The seconds of a run, and its answers but for the lines of exchanges."""
    with tempfile.TemporaryDirectory(dir=STORAGE) as folder, tempfile.TemporaryFile("w+") as source:
        source.writelines(compact(line) + "\n" for line in lines)
        source.flush()
        source.seek(0)
        command = [program(), "run", os.path.join(folder, "file"), "--max-journal", "4294967295"]
        start = time.perf_counter()
        try:
            done = subprocess.run(command, stdin=source, stdout=subprocess.PIPE, check=True,
                                  timeout=SECONDS)
        except subprocess.TimeoutExpired:
            raise Late from None
        seconds = time.perf_counter() - start
    heads = (b'{"end"', b'{"count"')
    lines = (line for line in done.stdout.splitlines() if line.startswith(heads))
    return seconds, [json.loads(line) for line in lines]


def turns(handler, filled, batch, count):
    """The lines that make the documents, and those that bring both sides together after them."""
    made = [*begun(handler), *(line for side, n in filled for line in written(side, count, n))]
    turn = {"do": "turn", "name": "r", "batch": batch, "budget": BUDGET}
    # Each document takes three exchanges at most: two pushes and a pull.
    return made, [turn] * (3 * count // (batch * BUDGET) + 1)


def check(answers):
    """How many exchanges were made up to the first quiet end, after which the sides are the same."""
    ends = [answer for answer in answers if answer["ok"] == "turn"]
    sides = {(answer["count"], answer["digest"]) for answer in answers if answer["ok"] == "digest"}
    quiet = next((i for i, end in enumerate(ends) if end["end"] == "quiet"), None)
    if quiet is None or len(sides) != 1:
        sys.exit(f"rx: the last turn is {ends[-1]}, and there are {len(sides)} digests")
    return sum(end["exchanges"] for end in ends[:quiet + 1])


# ---- sqlite3

TABLES = """
PRAGMA journal_mode=WAL;
PRAGMA synchronous=FULL;
PRAGMA temp_store=MEMORY;
CREATE TABLE m(id TEXT PRIMARY KEY, n INTEGER, deleted INTEGER, height INTEGER, lwt INTEGER)
  WITHOUT ROWID;
CREATE TABLE f(id TEXT PRIMARY KEY, n INTEGER, deleted INTEGER, height INTEGER, lwt INTEGER,
  pending INTEGER) WITHOUT ROWID;
CREATE TABLE known(id TEXT PRIMARY KEY, n INTEGER, deleted INTEGER) WITHOUT ROWID;
CREATE TABLE ends(up_lwt INTEGER, up_id TEXT, down_lwt INTEGER, down_id TEXT);
INSERT INTO ends VALUES(0, '', 0, '');
CREATE INDEX m_place ON m(lwt, id);
CREATE INDEX f_place ON f(lwt, id);
CREATE INDEX f_pending ON f(lwt, id) WHERE pending;
CREATE TEMP TABLE batch(place INTEGER PRIMARY KEY, id TEXT, n INTEGER, deleted INTEGER, lwt INTEGER,
  is_conflict INTEGER, real_n INTEGER, real_deleted INTEGER);
"""
KEYS = "SELECT id, lwt FROM batch ORDER BY place"
# The first rows to be pushed, each with the master's state and whether it is another than assumed.
PENDING = """
INSERT INTO batch SELECT NULL, f.id, f.n, f.deleted, f.lwt,
  m.id IS NOT NULL AND (m.n IS NOT known.n OR m.deleted IS NOT known.deleted), m.n, m.deleted
FROM f LEFT JOIN known USING(id) LEFT JOIN m USING(id) WHERE f.pending ORDER BY f.lwt, f.id LIMIT ?
"""
PUSH = """
INSERT INTO m SELECT id, n, deleted, 1, ? FROM batch WHERE NOT is_conflict
ON CONFLICT DO UPDATE SET n=excluded.n, deleted=excluded.deleted, height=height+1, lwt=excluded.lwt
"""
LEARN = """
INSERT INTO known SELECT id, iif(is_conflict, real_n, n), iif(is_conflict, real_deleted, deleted)
FROM batch WHERE true
ON CONFLICT DO UPDATE SET n=excluded.n, deleted=excluded.deleted
"""
SENT = """
UPDATE f SET pending=0 FROM batch WHERE f.id=batch.id
  AND (NOT is_conflict OR (real_n IS batch.n AND real_deleted IS batch.deleted))
"""
# What each handler gives, as the numbers of a live document.
RESOLVE = """
UPDATE f SET n={0}, deleted=real_deleted, height=height+1, lwt=?, pending={0} IS NOT real_n
FROM batch WHERE f.id=batch.id AND is_conflict AND (real_n IS NOT batch.n OR real_deleted IS NOT batch.deleted)
"""
ANSWERS = {
    "master_wins": "real_n",
    "fork_wins": "batch.n",
    "greater": "max(real_n, batch.n)",
    "join": "max(real_n, batch.n)",
}
SINCE = """
INSERT INTO batch SELECT NULL, id, n, deleted, lwt, 0, NULL, NULL FROM m WHERE (lwt, id) > (?, ?)
ORDER BY lwt, id LIMIT ?
"""
PULL = """
INSERT INTO f SELECT batch.id, batch.n, batch.deleted, 1, ?, 0 FROM batch LEFT JOIN f USING(id)
WHERE f.n IS NOT batch.n OR f.deleted IS NOT batch.deleted
ON CONFLICT DO UPDATE SET
  n=excluded.n, deleted=excluded.deleted, height=height+1, lwt=excluded.lwt, pending=0
"""


def exchange(db, batch, handler):
    """One exchange, and whether it ends the turn."""
    db.execute("BEGIN")
    db.execute("DELETE FROM batch")
    db.execute(PENDING, (batch,))
    rows = db.execute(KEYS).fetchall()
    own = db.execute("SELECT coalesce(max(lwt), 0) + 1 FROM f").fetchone()[0]
    if rows:
        next_lwt = db.execute("SELECT coalesce(max(lwt), 0) + 1 FROM m").fetchone()[0]
        db.execute(PUSH, (next_lwt,))
        db.execute(LEARN)
        db.execute(SENT)
        db.execute(RESOLVE.format(ANSWERS[handler]), (own,))
        db.execute("UPDATE ends SET up_lwt=?, up_id=?", (rows[-1][1], rows[-1][0]))
        db.execute("COMMIT")
        return False
    db.execute(SINCE, (*db.execute("SELECT down_lwt, down_id FROM ends").fetchone(), batch))
    rows = db.execute(KEYS).fetchall()
    if rows:
        db.execute(PULL, (own,))
        db.execute(LEARN)
        db.execute("UPDATE ends SET down_lwt=?, down_id=?", (rows[-1][1], rows[-1][0]))
    db.execute("COMMIT")
    return len(rows) < batch


def sql_turn(db, batch, handler):
    """How many exchanges it took."""
    end = time.perf_counter() + SECONDS
    count = 1
    while not exchange(db, batch, handler):
        count += 1
        if time.perf_counter() > end:
            raise Late
    return count


def fill(db, side, count, n):
    more = ", 1" if side == "f" else ""
    db.execute("BEGIN")
    rows = ((f"k{key}", n, key // 1_000 + 1) for key in range(count))
    db.executemany(f"INSERT INTO {side} VALUES(?,?,0,1,?{more})", rows)
    db.execute("COMMIT")


def sql_run(filled, batch, count, handler):
    """The seconds and the exchanges of a turn."""
    with tempfile.TemporaryDirectory(dir=STORAGE) as folder:
        db = sqlite3.connect(os.path.join(folder, "file"), isolation_level=None)
        db.executescript(TABLES)
        for side, n in filled:
            fill(db, side, count, n)
        start = time.perf_counter()
        exchanges = sql_turn(db, batch, handler)
        seconds = time.perf_counter() - start
        same = db.execute("SELECT count(*) FROM m JOIN f USING(id) WHERE m.n IS f.n").fetchone()[0]
        db.close()
    if same != count:
        sys.exit(f"sqlite3 has {same} of {count} documents on both sides")
    return seconds, exchanges


# ---- both

def run_both(load, count, filled, handler, batch):
    """The best seconds of each, and how many exchanges each makes."""
    made, after = turns(handler, filled, batch, count)
    digests = [{"do": "digest", "in": side} for side in "mf"]
    ours, before, theirs, exchanges = [], [], [], set()
    for _ in range(RUNS):
        before.append(play([*made, *digests])[0])
        seconds, answers = play([*made, *after, *digests])
        ours.append(seconds)
        exchanges.add(check(answers))
        seconds, peers = sql_run(filled, batch, count, handler)
        theirs.append(seconds)
        exchanges.add(peers)
    if len(exchanges) != 1:
        sys.exit(f"{load}: other exchanges, {exchanges}")
    return min(ours) - min(before), min(theirs), exchanges.pop()


def compare(load, count, filled, handler, batch):
    try:
        ours, theirs, exchanges = run_both(load, count, filled, handler, batch)
    except Late:
        print(f"{load}, batch {batch}: not done in {SECONDS} seconds", flush=True)
        return
    print(f"{load} of {count:,}, batch {batch}: rx {exchanges / ours:,.0f} exchanges and "
          f"{count / ours:,.0f} documents a second, sqlite3 {exchanges / theirs:,.0f} and "
          f"{count / theirs:,.0f}; rx takes {ours / theirs:.2f} times the time of sqlite3",
          flush=True)
    figure(load, batch=batch, ratio=ours / theirs, rx=count / ours, sqlite3=count / theirs)


# ---- turns of one exchange

class Played:
    """A run over a fork that is filled by pulls where `m` is the side that has the documents, or by pushes."""

    def __init__(self, folder, side, count):
        command = [program(), "run", os.path.join(folder, "file"), "--max-journal", "4294967295"]
        self.child = subprocess.Popen(command, stdin=subprocess.PIPE, stdout=subprocess.PIPE)
        for line in (*begun("master_wins"), *written(side, count, 0)):
            self.ask([line])
        self.level()

    def ask(self, lines):
        """The replies, without the lines of exchanges."""
        self.child.stdin.write("".join(compact(line) + "\n" for line in lines).encode())
        self.child.stdin.flush()
        replies = []
        while len(replies) < len(lines):
            reply = self.child.stdout.readline()
            if not reply.startswith((b'{"conflicts"', b'{"exchange"')):
                replies.append(json.loads(reply))
        return replies

    def level(self):
        self.ask([{"do": "turn", "name": "r", "budget": BUDGET}])

    def block(self, side, number):
        """The seconds of inserts, each with a turn that brings it to the other side."""
        docs = [{"id": f"{side}{number}-{n}", "n": n} for n in range(BLOCK)]
        turn = {"do": "turn", "name": "r", "budget": 1}
        lines = [line for doc in docs for line in ({"do": "insert", "in": side, "doc": doc}, turn)]
        start = processor_of(self.child)
        replies = self.ask(lines)
        seconds = processor_of(self.child) - start
        due = "more" if side == "f" else "quiet"
        if any(reply["end"] != due or reply["exchanges"] != 1 for reply in replies[1::2]):
            sys.exit(f"rx: other turns, {replies[1]}")
        return seconds

    def end(self):
        digests = self.ask([{"do": "digest", "in": side} for side in "mf"])
        if digests[0]["digest"] != digests[1]["digest"]:
            sys.exit("rx: the sides differ")
        self.child.stdin.close()
        self.child.wait(SECONDS)


class SqlPlayed:
    """The same by sqlite3."""

    def __init__(self, folder, side, count):
        self.db = sqlite3.connect(os.path.join(folder, "file"), isolation_level=None)
        self.db.executescript(TABLES)
        fill(self.db, side, count, 0)
        self.level()

    def level(self):
        sql_turn(self.db, 100, "master_wins")

    def block(self, side, number):
        more = ", 1" if side == "f" else ""
        insert = f"INSERT INTO {side} VALUES(?, ?, 0, 1, (SELECT max(lwt) + 1 FROM {side}){more})"
        start = time.process_time()
        for n in range(BLOCK):
            self.db.execute(insert, (f"{side}{number}-{n}", n))
            if exchange(self.db, 100, "master_wins") != (side == "m"):
                sys.exit("sqlite3: another exchange")
        return time.process_time() - start

    def end(self):
        sides = [self.db.execute(f"SELECT id, n FROM {side} ORDER BY id").fetchall() for side in "mf"]
        if sides[0] != sides[1]:
            sys.exit("sqlite3: the sides differ")
        self.db.close()


def one_by_one(kind, filled, sides, count):
    """The best seconds of one insert and its turn, by the side that is written."""
    best = {}
    with tempfile.TemporaryDirectory(dir=STORAGE) as folder:
        played = kind(folder, filled, count)
        for number in range(BLOCKS):
            for side in sides:
                seconds = played.block(side, number) / BLOCK
                best[side] = min(best.get(side, seconds), seconds)
                played.level()
        played.end()
    return best


def table():
    for load, filled, sides in (("only pulls", "m", "m"), ("pushes", "f", "fm")):
        for count in FORKS:
            ours, theirs = (one_by_one(kind, filled, sides, count) for kind in (Played, SqlPlayed))
            for side in sides:
                done = "pulled" if side == "m" else "pushed"
                print(f"a fork of {count:,} that {load}, one {done}: rx {ours[side] * 1e6:,.1f} us, "
                      f"sqlite3 {theirs[side] * 1e6:,.1f} us", flush=True)
                figure(f"one {done} where the fork {load}", documents=count, rx=ours[side] * 1e6, sqlite3=theirs[side] * 1e6)


def main():
    for batch in BATCHES:
        compare("first pull", PULLED, [("m", 0)], "master_wins", batch)
    for batch in BATCHES:
        compare("pushes", PUSHED, [("f", 0)], "master_wins", batch)
    for handler in HANDLERS:
        for batch in BATCHES:
            compare(f"conflicts by {handler}", CONFLICTS, [("m", 1), ("f", 2)], handler, batch)
    table()


if __name__ == "__main__":
    main()
