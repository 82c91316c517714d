#!/usr/bin/env python3
"""Sweeps of trees, beside the turns that they are made of and beside sqlite3.

    bench/trees.py [PROGRAM] [FOLDER] [FEWER] [--json FILE]

The files lie in FOLDER, or in memory-backed storage where it is left out. The trees are a chain of 8 forks and
a star of 63, which with its root has as many collections as a journal may have. All collections of one have the
same documents: 1,000, then 10,000, then 100,000, with so many times fewer where FEWER is given.

Over each of these it tells what a sweep with nothing to do takes a replication, which is the two turns of it.
Over 10,000 documents 1, 100 and then 1,000 of them are edited besides, at the last fork or at the root, and a
sweep brings them to all collections. What counts is the processor time, in the best of five blocks: of a sweep;
beside it of the same turns in the same order, by lines that are asked for in one piece, and by lines of which
each waits for the one before; each after edits of its own, over one journal. A sweep has to make the same
exchanges as the turns do and to end quiet, and at the end all collections have to be the same, or the benchmark
stops. The star over 100,000 documents has 6.4 million of them, and a journal of some 0.6 GB.

sqlite3 keeps a table for each collection, with an index by the moment of a row's last write, and for each fork
what it knows of its master and the moment of its last turn. A turn first asks whether something was written
since on either side. Where it was, the fork's own edits go up, those that the master doesn't have otherwise
meanwhile, and then what is new in the master comes down, all of it by a few statements over whole sets. A sweep
is one transaction, in WAL mode with synchronous=FULL.
"""
import itertools
import json
import os
import sqlite3
import subprocess
import sys
import tempfile
import time

from measuring import SCHEMA, SEED, compact, figure, processor_of, program

STORAGE = sys.argv[2] if len(sys.argv) > 2 else "/dev/shm"
FEWER = int(sys.argv[3]) if len(sys.argv) > 3 else 1
# By its name, the master of each fork: 0 is the root, and 1 the first fork.
TREES = {"a chain of 8 forks": list(range(8)), "a star of 63 forks": [0] * 63}
COUNTS = [count // FEWER for count in (1_000, 10_000, 100_000)]
EDITED = 10_000 // FEWER
SIDES = ("the last fork", "the root")
# How many are edited, and how often in a block.
EDITS = {rows: times for rows, times in {1: 40, 100: 10, 1_000: 2}.items() if rows <= EDITED}
QUIET = 400  # replications that are swept in a block with nothing to do
BLOCKS = 5
BULK = 1_000
BUDGET = 100_000
SECONDS = 600


def below(masters, at):
    """The forks of a collection, in their order."""
    return [fork for fork, master in enumerate(masters, 1) if master == at]


def upwards(masters, at=0):
    """The forks of a tree, each behind those below it."""
    return [it for fork in below(masters, at) for it in (*upwards(masters, fork), fork)]


def downwards(masters, at=0):
    """The forks of a tree, each before those below it."""
    return [it for fork in below(masters, at) for it in (fork, *downwards(masters, fork))]


# Each edit writes another number, and none that a document began with.
NUMBERS = itertools.count(1_000_000)


def keys_of(number, rows, count):
    """The keys of some edits."""
    return [f"k{(number + row) * SEED % count}" for row in range(rows)]


# ---- rx

class Played:
    """A run over a tree, all collections of which have the same documents."""

    def __init__(self, folder, masters, count):
        command = [program(), "run", os.path.join(folder, "file"), "--max-journal", "4294967295"]
        self.child = subprocess.Popen(command, stdin=subprocess.PIPE, stdout=subprocess.PIPE)
        self.sides = [f"c{at}" for at in range(len(masters) + 1)]
        self.order = [f"r{fork}" for fork in upwards(masters) + downwards(masters)]
        self.ask([{"do": "collection", "name": side, "schema": SCHEMA} for side in self.sides])
        self.ask([{"do": "replicate", "name": f"r{fork}", "fork": f"c{fork}", "master": f"c{master}",
                   "handler": "master_wins"} for fork, master in enumerate(masters, 1)])
        for start in range(0, count, BULK):
            docs = [{"id": f"k{key}", "n": key} for key in range(start, min(count, start + BULK))]
            self.ask([{"do": "bulk", "in": "c0", "docs": docs}])
        for name in self.order[len(masters):]:
            self.ask([{"do": "turn", "name": name, "budget": BUDGET}])
        self.sweep()

    def ask(self, lines):
        """The replies, each with the lines before it."""
        self.child.stdin.write("".join(compact(line) + "\n" for line in lines).encode())
        self.child.stdin.flush()
        replies, before = [], []
        while len(replies) < len(lines):
            it = json.loads(self.child.stdout.readline())
            if "line" not in it:
                before.append(it)
                continue
            if "refused" in it:
                sys.exit(f"rx: {it}")
            replies.append((it, before))
            before = []
        return replies

    def edit(self, at, keys, number):
        self.ask([{"do": "upsert", "in": self.sides[at], "doc": {"id": key, "n": number}} for key in keys])

    def sweep(self):
        """The seconds of a sweep, and the turns that it made with how many exchanges."""
        start = processor_of(self.child)
        [(reply, before)] = self.ask([{"do": "sweep", "name": "c0", "budget": BUDGET}])
        seconds = processor_of(self.child) - start
        turns = [(it["replication"], it["exchanges"]) for it in before if "pass" in it]
        if reply["end"] != "quiet" or [name for name, _ in turns] != self.order:
            sys.exit(f"rx: another sweep, {reply} {turns}")
        return seconds, turns

    def together(self):
        """The same of the turns, whose lines are in one piece."""
        return self.turns([self.order])

    def one_by_one(self):
        """The same of the turns, each of which waits for the one before."""
        return self.turns([[name] for name in self.order])

    def turns(self, pieces):
        lines = [[{"do": "turn", "name": name, "budget": BUDGET} for name in names] for names in pieces]
        start = processor_of(self.child)
        replies = [reply for some in lines for reply, _ in self.ask(some)]
        seconds = processor_of(self.child) - start
        if any(reply["end"] != "quiet" for reply in replies):
            sys.exit("rx: a turn that isn't quiet")
        return seconds, [(name, reply["exchanges"]) for name, reply in zip(self.order, replies)]

    def ways(self):
        return {"sweep": self.sweep, "together": self.together, "one by one": self.one_by_one}

    def end(self):
        digests = {reply["digest"] for reply, _ in self.ask([{"do": "digest", "in": it} for it in self.sides])}
        if len(digests) != 1:
            sys.exit("rx: the collections differ")
        self.child.stdin.close()
        self.child.wait(SECONDS)


# ---- sqlite3

TABLES = """
PRAGMA journal_mode=WAL;
PRAGMA synchronous=FULL;
PRAGMA temp_store=MEMORY;
CREATE TABLE turned(fork INTEGER PRIMARY KEY, moment INTEGER);
CREATE TEMP TABLE batch(id TEXT, n INTEGER, deleted INTEGER, is_conflict INTEGER, real_n INTEGER, real_deleted INTEGER);
"""
SIDE = """
CREATE TABLE c{0}(id TEXT PRIMARY KEY, n INTEGER, deleted INTEGER, height INTEGER, moment INTEGER) WITHOUT ROWID;
CREATE INDEX c{0}_moment ON c{0}(moment);
"""
FORK = """
CREATE TABLE known{0}(id TEXT PRIMARY KEY, n INTEGER, deleted INTEGER) WITHOUT ROWID;
INSERT INTO c{0} SELECT id, n, deleted, 1, moment FROM c0;
INSERT INTO known{0} SELECT id, n, deleted FROM c0;
INSERT INTO turned VALUES({0}, (SELECT max(moment) FROM c0));
"""
# The statements of a turn. {0} is the fork, and {1} its master.
SINCE = "moment > (SELECT moment FROM turned WHERE fork={0})"
LOOK = f"SELECT EXISTS(SELECT 1 FROM c{{0}} WHERE {SINCE}), EXISTS(SELECT 1 FROM c{{1}} WHERE {SINCE})"
EDITS_OF_FORK = f"""
INSERT INTO batch SELECT f.id, f.n, f.deleted,
  m.id IS NOT NULL AND (m.n IS NOT known{{0}}.n OR m.deleted IS NOT known{{0}}.deleted), m.n, m.deleted
FROM c{{0}} f LEFT JOIN known{{0}} USING(id) LEFT JOIN c{{1}} m USING(id)
WHERE f.{SINCE} AND (f.n IS NOT known{{0}}.n OR f.deleted IS NOT known{{0}}.deleted)
"""
PUSH = """
INSERT INTO c{1} SELECT id, n, deleted, 1, ? FROM batch WHERE NOT is_conflict
ON CONFLICT DO UPDATE SET n=excluded.n, deleted=excluded.deleted, height=height+1, moment=excluded.moment
"""
LEARN = """
INSERT INTO known{0} SELECT id, iif(is_conflict, real_n, n), iif(is_conflict, real_deleted, deleted)
FROM batch WHERE true
ON CONFLICT DO UPDATE SET n=excluded.n, deleted=excluded.deleted
"""
RESOLVE = """
UPDATE c{0} SET n=real_n, deleted=real_deleted, height=height+1, moment=?
FROM batch WHERE c{0}.id=batch.id AND is_conflict
"""
NEWS_OF_MASTER = f"INSERT INTO batch SELECT id, n, deleted, 0, NULL, NULL FROM c{{1}} WHERE {SINCE}"
PULL = """
INSERT INTO c{0} SELECT batch.id, batch.n, batch.deleted, 1, ? FROM batch LEFT JOIN c{0} f USING(id)
WHERE f.n IS NOT batch.n OR f.deleted IS NOT batch.deleted
ON CONFLICT DO UPDATE SET n=excluded.n, deleted=excluded.deleted, height=height+1, moment=excluded.moment
"""
END = "UPDATE turned SET moment=? WHERE fork={0}"


class SqlPlayed:
    """The same by sqlite3."""

    def __init__(self, folder, masters, count):
        # as many statements as all turns have are kept ready
        self.db = sqlite3.connect(os.path.join(folder, "file"), isolation_level=None, cached_statements=1_000)
        self.db.executescript(TABLES)
        self.sides, self.moment = range(len(masters) + 1), count // BULK + 1
        for side in self.sides:
            self.db.executescript(SIDE.format(side))
        self.db.execute("BEGIN")
        self.db.executemany("INSERT INTO c0 VALUES(?, ?, 0, 1, ?)",
                            ((f"k{key}", key, key // BULK + 1) for key in range(count)))
        self.db.execute("COMMIT")
        for fork, _ in enumerate(masters, 1):
            self.db.executescript(f"BEGIN; {FORK.format(fork)} COMMIT;")
        self.order = [self.statements(fork, masters[fork - 1]) for fork in upwards(masters) + downwards(masters)]
        self.sweep()

    @staticmethod
    def statements(fork, master):
        all_of_them = (LOOK, EDITS_OF_FORK, PUSH, LEARN, RESOLVE, NEWS_OF_MASTER, PULL, END)
        return [it.format(fork, master) for it in all_of_them]

    def edit(self, at, keys, number):
        self.moment += 1
        self.db.execute("BEGIN IMMEDIATE")
        self.db.executemany(f"UPDATE c{self.sides[at]} SET n=?, height=height+1, moment=? WHERE id=?",
                            ((number, self.moment, key) for key in keys))
        self.db.execute("COMMIT")

    def sweep(self):
        """The seconds of a sweep, and which of its turns found something to do."""
        start, busy = time.process_time(), []
        self.db.execute("BEGIN IMMEDIATE")
        for statements in self.order:
            busy.append(self.turn(*statements))
        self.db.execute("COMMIT")
        return time.process_time() - start, busy

    def turn(self, look, edits, push, learn, resolve, news, pull, end):
        is_edited, is_new = self.db.execute(look).fetchone()
        if not is_edited and not is_new:
            return False
        if is_edited:
            self.db.execute(edits)
            if self.db.execute("SELECT 1 FROM batch LIMIT 1").fetchone():
                self.moment += 1
                self.db.execute(push, (self.moment,))
                self.db.execute(learn)
                self.db.execute(resolve, (self.moment,))
                self.db.execute("DELETE FROM batch")
        self.db.execute(news)
        self.moment += 1
        self.db.execute(pull, (self.moment,))
        self.db.execute(learn)
        self.db.execute("DELETE FROM batch")
        self.db.execute(end, (self.moment,))
        return True

    def ways(self):
        return {"sweep": self.sweep}

    def end(self):
        sides = {self.db.execute(f"SELECT count(*), sum(n), max(n) FROM c{side}").fetchone() for side in self.sides}
        if len(sides) != 1:
            sys.exit(f"sqlite3: the collections are {sides}")
        self.db.close()


# ---- both

def quiet_of(played, forks):
    """The best seconds of each way, a replication, where nothing was written."""
    times = max(1, QUIET // forks)
    seen = {}
    for _ in range(BLOCKS):
        for way, call in played.ways().items():
            seconds = sum(call()[0] for _ in range(times)) / times / forks
            seen[way] = min(seconds, seen.get(way, seconds))
    return seen


def edited_of(played, at, rows, count):
    """The best seconds of each way, where so many rows of a collection were edited before."""
    seen, number = {}, 0
    for _ in range(BLOCKS):
        made = {}
        for way, call in played.ways().items():
            seconds = 0
            for _ in range(EDITS[rows]):
                number += rows
                played.edit(at, keys_of(number, rows, count), next(NUMBERS))
                took, made[way] = call()
                seconds += took
            seen[way] = min(seconds / EDITS[rows], seen.get(way, seconds))
        if any(it != made["sweep"] for it in made.values()):
            sys.exit(f"the ways make other exchanges: {made}")
    return seen


def run(kind, masters, count):
    """The best seconds by the load, and then by the way."""
    with tempfile.TemporaryDirectory(dir=STORAGE) as folder:
        played = kind(folder, masters, count)
        seen = {"quiet": quiet_of(played, len(masters))}
        if count == EDITED:
            seen |= {(at, rows): edited_of(played, at, rows, count) for at in (-1, 0) for rows in EDITS}
        played.end()
    return seen


def tell(load, count, unit, ours, theirs):
    """Prints the seconds of a load, and keeps them."""
    sweep, together, one_by_one = (it * 1e6 for it in ours.values())
    theirs = theirs["sweep"] * 1e6
    print(f"{load}, {count:,} documents: a sweep {sweep:,.1f} us{unit}, {sweep / together:.2f} of its turns' "
          f"{together:,.1f} us in one piece and {sweep / one_by_one:.2f} of {one_by_one:,.1f} us one by one, "
          f"{sweep / theirs:.2f} of sqlite3's {theirs:,.1f} us", flush=True)
    figure(load, documents=count, ratio=sweep / theirs, of_turns=sweep / together, of_turns_one_by_one=sweep / one_by_one,
           rx=sweep, turns=together, one_by_one=one_by_one, sqlite3=theirs)


def compare(tree, count):
    """The seconds of a sweep with nothing to do, a replication."""
    ours, theirs = (run(kind, TREES[tree], count) for kind in (Played, SqlPlayed))
    for load, seen in ours.items():
        if load == "quiet":
            tell(f"{tree}, nothing to do", count, " a replication", seen, theirs[load])
        else:
            at, rows = load
            edits = f"{rows:,} edit{'s' * (rows > 1)} at {'the root' if at == 0 else 'the last fork'}"
            tell(f"{tree}, {edits}", count, "", seen, theirs[load])
    return ours["quiet"]["sweep"]


def main():
    for tree in TREES:
        few, *_, many = (compare(tree, count) for count in COUNTS)
        print(f"{tree}, nothing to do: over {COUNTS[-1]:,} documents it takes {many / few:.2f} times as long as over "
              f"{COUNTS[0]:,}", flush=True)
        figure(f"{tree}, nothing to do, by documents", ratio=many / few)


if __name__ == "__main__":
    main()
