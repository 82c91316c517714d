#!/usr/bin/env python3
"""Requests and bytes a second of a served collection, beside sqlite3 and a bare echo.

    bench/serve.py [PROGRAM] [FOLDER] [FEWER] [--json FILE]

Pulls and pushes of 1, 10 and 100 rows, over 1,000 and 100,000 documents, and a pull of all of the
100,000; with so many times fewer documents where FEWER is given. The files lie in FOLDER, or where
it is left out first in memory-backed storage and then on this folder's disk. One client asks by a
socket on 127.0.0.1, one request after another, up to 2,000 of them or for five seconds.

sqlite3 does the same without a wire: a push is a transaction that compares each row and writes it,
a pull reads on from a write time and a key by an index, in WAL mode with synchronous=FULL. The echo
is a process in Python that answers as many bytes to as many bytes, and does nothing else. The three
take turns, three runs each, and the best counts. A push that isn't taken whole, a page of another
length, and requests that the program counts otherwise stop the benchmark.
"""
import json
import multiprocessing
import os
import random
import shutil
import socket
import sqlite3
import subprocess
import sys
import tempfile
import time

from measuring import HERE, SCHEMA, collection, compact, figure, free_port, hash_of, measure, program

RUNS = 3
SECONDS, MOST = 5, 2_000
FOLDERS = [sys.argv[2]] if len(sys.argv) > 2 else ["/dev/shm", HERE]
FEWER = int(sys.argv[3]) if len(sys.argv) > 3 else 1
FEW, MANY = 1_000 // FEWER, 100_000 // FEWER
ROWS = (1, 10, 100)
BULK = 1_000
HASH = hash_of(SCHEMA)


# ---- what is asked

def places(size):
    """Where each document stands, in order: a thousand are written at a time."""
    return sorted((n // BULK + 1, f"k{n}") for n in range(size))


def pages(size, rows):
    """The places above which pages of so many rows are asked for."""
    numbers, ends = random.Random(rows), places(size)[:-rows]
    return [(numbers.choice(ends), rows, rows) for _ in range(MOST)]


def all_pages(size, rows):
    """One page after another, the first from the start, and the length that each has."""
    ends = [(0, ""), *places(size)[rows - 1::rows]]
    return [(place, rows, min(rows, size - number * rows)) for number, place in enumerate(ends)]


def pushes(size, rows):
    """Keys, each with the number that it has and the one that it gets."""
    numbers, values = random.Random(rows), [0] * size
    for _ in range(MOST):
        keys = numbers.sample(range(size), rows)
        yield [(f"k{n}", values[n], values[n] + 1) for n in keys]
        for n in keys:
            values[n] += 1


def pull_line(number, asked):
    (lwt, held), rows, _ = asked
    place = {"place": {"id": held, "lwt": lwt}} if lwt else {}
    return {"ask": "pull", "batch": rows, "epoch": 1, "n": number, **place, "schema": HASH}


def state(key, n):
    return {"_deleted": False, "id": key, "n": n}


def push_line(number, asked):
    rows = [{"assumed": state(key, old), "new": state(key, new)} for key, old, new in asked]
    return {"ask": "push", "epoch": 1, "n": number, "rows": rows, "schema": HASH}


def is_answered(number, asked, reply):
    if isinstance(asked, list):
        return reply == {"conflicts": [], "epoch": 1, "n": number}
    return (len(reply["docs"]), reply["n"]) == (asked[2], number)


# ---- a wire

def connected(port):
    end = time.monotonic() + 60
    while True:
        try:
            wire = socket.create_connection(("127.0.0.1", port), 60)
            break
        except ConnectionRefusedError:
            if time.monotonic() > end:
                sys.exit("nothing listens")
            time.sleep(0.01)
    wire.setsockopt(socket.IPPROTO_TCP, socket.TCP_NODELAY, 1)
    return wire


def ask_all(wire, lines):
    """The seconds that it took, and the replies to as many of the lines as there was time for."""
    replies = []
    start = time.perf_counter()
    end = start + SECONDS
    for line in lines:
        wire.sendall(line)
        reply = wire.recv(1 << 20)
        while not reply.endswith(b"\n"):
            piece = wire.recv(1 << 20)
            if not piece:
                sys.exit(f"the peer ended: {reply[-200:]}")
            reply += piece
        replies.append(reply)
        if time.perf_counter() > end:
            break
    return time.perf_counter() - start, replies


# ---- the three

def make(path, size):
    """A journal of so many documents, whose number is 0."""
    docs = [{"id": f"k{n}", "n": 0} for n in range(size)]
    bulks = [{"do": "bulk", "in": "c", "docs": docs[at:at + BULK]} for at in range(0, size, BULK)]
    measure([program(), "run", path], [collection(), *map(compact, bulks)])


def rx_run(made, asked, lines):
    """The seconds, how many requests were made, and the bytes of requests and of replies."""
    with tempfile.TemporaryDirectory(dir=os.path.dirname(made)) as folder:
        path, port = shutil.copy(made, folder), str(free_port())
        words = [program(), "serve", path, "c", port, "1", "--max-journal", "4294967295"]
        served = subprocess.Popen(words, stdout=subprocess.PIPE)
        with connected(int(port)) as wire:
            seconds, replies = ask_all(wire, lines)
        told, _ = served.communicate(timeout=60)
    if json.loads(told) != {"connection": 1, "end": "peer", "requests": len(replies)}:
        sys.exit(f"{len(replies)} requests, and the program says {told}")
    for number, (what, reply) in enumerate(zip(asked, replies), 1):
        if not is_answered(number, what, json.loads(reply)):
            sys.exit(f"request {number} is answered {reply[:200]}")
    sent = sum(len(line) for line, _ in zip(lines, replies))
    return seconds, len(replies), sent, sum(map(len, replies))


def echo(door, reply):
    wire, _ = door.accept()
    wire.setsockopt(socket.IPPROTO_TCP, socket.TCP_NODELAY, 1)
    for _ in wire.makefile("rb"):
        wire.sendall(reply)


def echo_run(lines, size):
    """The seconds of a request and a reply of so many bytes."""
    with socket.create_server(("127.0.0.1", 0)) as door:
        child = multiprocessing.Process(target=echo, args=(door, b" " * (size - 1) + b"\n"))
        child.start()
        with connected(door.getsockname()[1]) as wire:
            seconds, replies = ask_all(wire, lines)
        child.join()
    return seconds / len(replies)


TABLE = """
PRAGMA journal_mode=WAL;
PRAGMA synchronous=FULL;
CREATE TABLE c(id TEXT PRIMARY KEY, n INTEGER, deleted INTEGER, height INTEGER, lwt INTEGER)
  WITHOUT ROWID;
CREATE INDEX place ON c(lwt, id);
"""
PAGE = """
SELECT json_object('_deleted', json(iif(deleted, 'true', 'false')), 'id', id, 'n', n), lwt, id FROM c
WHERE (lwt, id) > (?, ?) ORDER BY lwt, id LIMIT ?
"""
WRITE = "UPDATE c SET n=?, height=height+1, lwt=? WHERE id=? AND n IS ? AND NOT deleted"


def sql_pull(db, asked):
    (lwt, held), rows, due = asked
    return len(db.execute(PAGE, (lwt, held, rows)).fetchall()) == due


def sql_push(db, asked):
    db.execute("BEGIN")
    lwt = db.execute("SELECT max(lwt) + 1 FROM c").fetchone()[0]
    taken = db.executemany(WRITE, [(new, lwt, key, old) for key, old, new in asked]).rowcount
    db.execute("COMMIT")
    return taken == len(asked)


def sql_run(storage, size, asked):
    """The seconds of a pull or a push."""
    with tempfile.TemporaryDirectory(dir=storage) as folder:
        db = sqlite3.connect(os.path.join(folder, "file"), isolation_level=None)
        db.executescript(TABLE)
        db.execute("BEGIN")
        rows = ((f"k{n}", n // BULK + 1) for n in range(size))
        db.executemany("INSERT INTO c VALUES(?,0,0,1,?)", rows)
        db.execute("COMMIT")
        count, start = 0, time.perf_counter()
        for count, what in enumerate(asked, 1):
            if not (sql_push if isinstance(what, list) else sql_pull)(db, what):
                sys.exit(f"sqlite3: request {count}")
            if time.perf_counter() > start + SECONDS:
                break
        seconds = time.perf_counter() - start
        db.close()
    return seconds / count


def compare(load, made, size, asked):
    line_of = push_line if isinstance(asked[0], list) else pull_line
    lines = [compact(line_of(n, what)).encode() + b"\n" for n, what in enumerate(asked, 1)]
    ours, theirs, floor = [], [], []
    for _ in range(RUNS):
        seconds, count, sent, came = rx_run(made, asked, lines)
        ours.append((seconds / count, (sent + came) / count))
        theirs.append(sql_run(os.path.dirname(made), size, asked))
        floor.append(echo_run(lines, came // count))
    (each, size_of_each), peer, bare = min(ours), min(theirs), min(floor)
    print(f"{load}: rx {1 / each:,.0f} requests and {size_of_each / each / 1e6:,.1f} MB a second, "
          f"sqlite3 {1 / peer:,.0f} and the echo {1 / bare:,.0f}; rx takes "
          f"{each / (peer + bare):.2f} times the time of both", flush=True)
    figure(load, ratio=each / (peer + bare), rx=1 / each)


def main():
    for storage in FOLDERS:
        for size in (FEW, MANY):
            with tempfile.TemporaryDirectory(dir=storage) as folder:
                made = os.path.join(folder, "made")
                make(made, size)
                for rows in (it for it in ROWS if it < size):
                    of = f"of {rows} of {size:,} documents in {storage}"
                    compare(f"pulls {of}", made, size, pages(size, rows))
                    compare(f"pushes {of}", made, size, list(pushes(size, rows)))
                if size == MANY:
                    load = f"all {size:,} documents in {storage}"
                    compare(load, made, size, all_pages(size, 100))


main()
