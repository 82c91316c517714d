#!/usr/bin/python3
"""What the server over PostgreSQL costs beside bare statements of psycopg, in the same run.

    bench/server.py [PROGRAM] [--documents N] [--connected N] [--writing N] [--seconds N] [--json FILE]

A push of 1 and of 100 documents and a pull of 100, by one client over TCP and by one over a WebSocket, and by one
connection of psycopg in turn: the same statements in one transaction, and the same SELECT with its states joined
as JSON. Then N (1,000) clients are connected, every second one by a WebSocket, of which N (100) push a document
each half second, and in a second load 100 documents each 2.5 seconds, for N (20) seconds while the others pull 100
pages of 100 a second; in turn with them as many threads do the bare statements at the same pace, over as many
connections as the server has. Last N (1,000,000) documents are pulled by a client that is new, and where PROGRAM
is there by a fork of it, which is quiet then and has the server's digest. Clients are processes of their own, two
of them. The cluster is the benchmark's own, in a temporary folder.
"""
import functools
import itertools
import json
import multiprocessing
import os
import statistics
import struct
import sys
import tempfile
import threading
import time

from measuring import HERE, figure, option, program

sys.path.insert(0, os.path.join(HERE, "..", "tests", "server"))
import psycopg  # noqa: E402
from psycopg_pool import ConnectionPool  # noqa: E402

from place import SCHEMA, Place, doc, pull_line, push_line  # noqa: E402
from shared import Talk, ask, compact, insist, peak_of  # noqa: E402

DOCUMENTS, CONNECTED, WRITING, SECONDS = (
    int(option(name) or usual) for name, usual in
    (("--documents", 1_000_000), ("--connected", 1_000), ("--writing", 100), ("--seconds", 20)))
CLIENTS = 2
# As the server has where nothing else is said.
CONNECTIONS = 8
PAGE, BATCH = 100, 100
# Seconds between the pushes of a client, by their documents, and between the pulls of a process.
PUSH_EVERY, PULL_EVERY = {1: 0.5, BATCH: 2.5}, 0.02
LIMITS = "requests_a_second = 1000000\nrows_a_second = 100000000\nidle_seconds = 600"


# ---- figures

def times_of(count, ready, call):
    """How long each call takes, of what is made ready before."""
    times = []
    for _ in range(count):
        made = ready()
        begun = time.perf_counter()
        call(made)
        times.append(time.perf_counter() - begun)
    return times


def quantiles(times):
    return statistics.median(times) * 1e3, sorted(times)[len(times) * 99 // 100] * 1e3


def told(times):
    return "p50 {:.2f} ms, p99 {:.2f} ms".format(*quantiles(times))


def beside(what, found, due):
    ratio = statistics.median(found) / statistics.median(due)
    print(f"{what}: {told(found)}; bare {told(due)}; {ratio:.2f} times", flush=True)
    p50, p99 = quantiles(found)
    figure(what, ratio=ratio, p50=p50, p99=p99, bare_p50=quantiles(due)[0], bare_p99=quantiles(due)[1])


def by_turns(what, count, mine, bare):
    """The same count of either, in turn, so that both meet the same machine. Each is what makes a call ready, and
    the call."""
    found, due = [], []
    for _ in range(4):
        due += times_of(count // 4, *bare)
        found += times_of(count // 4, *mine)
    beside(what, found, due)


# ---- clients

class Page:
    """A WebSocket by hand, as little as it needs: its mask is of zeros, which leave a message as it is."""

    def __init__(self, place):
        self.wire = place.dial(port=place.websocket)
        self.wire.sendall(f"GET /c HTTP/1.1\r\nHost: 127.0.0.1\r\nUpgrade: websocket\r\nConnection: Upgrade\r\n"
                          "Sec-WebSocket-Version: 13\r\nSec-WebSocket-Key: AAAAAAAAAAAAAAAAAAAAAA==\r\n"
                          f"Sec-WebSocket-Protocol: rx, token.{place.secret}\r\n\r\n".encode())
        head = b""
        while not head.endswith(b"\r\n\r\n"):
            head += self.wire.recv(1)
        insist(b" 101 " in head, head)
        self.came = self.wire.makefile("rb")

    def ask(self, line):
        message = line.encode() + b"\n"
        size, form = (len(message), "!BB") if len(message) < 126 else (126, "!BBH")
        self.wire.sendall(struct.pack(form, 0x82, 0x80 | size, *[len(message)] * (size == 126)) + bytes(4) + message)
        while True:
            kind, size = self.came.read(2)
            if size > 125:
                size = int.from_bytes(self.came.read(2 if size == 126 else 8), "big")
            told = self.came.read(size)
            if kind == 0x82:
                return json.loads(told)


def by_port(place):
    wire = place.dial("c")
    return lambda line: ask(wire, line)


def by_page(place):
    return Page(place).ask


DOORS = {"TCP": by_port, "a WebSocket": by_page}


def dialled(place, number):
    """A client's way to ask. Every second one has a WebSocket."""
    return (by_port, by_page)[number % 2](place)


# ---- the bare statements

def rows_of(keys):
    return [key.encode() for key in keys], [f'{{"_deleted":false,"id":"{key}","n":1}}' for key in keys]


def bare_push(connection, rows):
    keys, states = rows
    with connection.transaction():
        (last,) = connection.execute("SELECT last FROM rx.collections WHERE name = 'c' FOR UPDATE").fetchone()
        connection.execute("SELECT key, state FROM documents.c WHERE key = ANY(%s)", (keys,)).fetchall()
        connection.execute("INSERT INTO documents.c SELECT key, state, %s, false "
                           "FROM unnest(%s::bytea[], %s::text[]) AS it (key, state) "
                           "ON CONFLICT (key) DO UPDATE SET state = excluded.state", (last + 1, keys, states))
        connection.execute("UPDATE rx.collections SET last = %s WHERE name = 'c'", (last + 1,))


def bare_pull(connection):
    rows = connection.execute(f"SELECT state, lwt, key FROM documents.c ORDER BY lwt, key LIMIT {PAGE}").fetchall()
    return ('{"docs":[' + ",".join(row[0] for row in rows) + "]}").encode()


# ---- many at once

class Crowd:
    """Threads of this process that push or pull at their pace until a moment, and how long each call took."""

    def __init__(self, until):
        self.until, self.threads = until, []
        self.times = {"push": [], "pull": []}

    def add(self, what, ready, call, every, share=0.0):
        """A call is of what was made ready for its number. The first begins at this share of the time between."""
        def live():
            mine, numbers, due = [], itertools.count(), time.time() + share * every
            while time.time() < self.until:
                made = ready(next(numbers))
                time.sleep(max(0, due - time.time()))
                begun = time.perf_counter()
                call(made)
                mine.append(time.perf_counter() - begun)
                due += every
            self.times[what] += mine

        self.threads.append(threading.Thread(target=live))

    def lived(self):
        for it in self.threads:
            it.start()
        for it in self.threads:
            it.join()
        return self.times


def keys_of(letter, at, n, rows):
    """The keys of a writer's push, which nobody pushed before: they may have six code points."""
    return [f"{letter}{at:02}{chr(0x4e00 + it // 100)}{it % 100:02}" for it in range(n * rows, n * rows + rows)]


def line_of(keys):
    return push_line(1, [doc(key) for key in keys])


def push_new(asked, line):
    insist(not asked(line)["conflicts"], "a document that isn't new")


def forks(place, letter, rows, number, until):
    """A process's part of the connected clients: those that write, and one that pulls by all others in turn."""
    crowd = Crowd(until)
    for at in range(number, WRITING, CLIENTS):
        crowd.add("push", lambda n, at=at: line_of(keys_of(letter, at, n, rows)),
                  functools.partial(push_new, dialled(place, at // CLIENTS)), PUSH_EVERY[rows], at / WRITING)
    others = [dialled(place, at // CLIENTS) for at in range(number, CONNECTED - WRITING, CLIENTS)]
    for asked in others:
        asked(pull_line(1))
    crowd.add("pull", lambda n: others[n % len(others)], lambda asked: asked(pull_line(1)), PULL_EVERY)
    return crowd.lived()


def pool_of(conninfo):
    """As the server has it, half of its connections write and half read, of which this process has its part."""
    return ConnectionPool(conninfo, min_size=1, max_size=CONNECTIONS // 2 // CLIENTS, timeout=600,
                          kwargs={"autocommit": True})


def bare_forks(place, letter, rows, number, until):
    """The same calls by the bare statements, over this process's part of the connections."""
    crowd, conninfo = Crowd(until), place.cluster.conninfo
    with pool_of(conninfo) as writing, pool_of(conninfo) as reading:
        def push(made):
            with writing.connection() as connection:
                bare_push(connection, made)

        def pull(_):
            with reading.connection() as connection:
                bare_pull(connection)

        for at in range(number, WRITING, CLIENTS):
            crowd.add("push", lambda n, at=at: rows_of(keys_of(letter, at, n, rows)), push, PUSH_EVERY[rows],
                      at / WRITING)
        crowd.add("pull", lambda _: None, pull, PULL_EVERY)
        return crowd.lived()


def part(call, where, number, until, told_to):
    told_to.put(call(*where, number, until))


def lived(call, *where):
    """What all processes of clients saw."""
    # Connecting takes a while, before the seconds that count.
    until, told_to = time.time() + SECONDS / 2 + CONNECTED / 200, multiprocessing.Queue()
    children = [multiprocessing.Process(target=part, args=(call, where, number, until, told_to))
                for number in range(CLIENTS)]
    for it in children:
        it.start()
    parts = [told_to.get() for _ in children]
    for it in children:
        it.join()
    return {what: [time for it in parts for time in it[what]] for what in ("push", "pull")}


def crowds(place, rows, letters):
    """Both sides in turn, once for each letter, with which its keys begin."""
    of, due, found = f"{CONNECTED:,} connected, {WRITING} writing {rows} each {PUSH_EVERY[rows]} s", {}, {}
    for letter in letters:
        for seen, call, own in ((due, bare_forks, letter.upper()), (found, forks, letter)):
            for what, times in lived(call, place, own, rows).items():
                seen.setdefault(what, []).extend(times)
    for what, words in (("push", f"pushes of {rows}"), ("pull", f"pulls of {PAGE}")):
        print(f"{of}: {len(found[what]):,} {words}, and {len(due[what]):,} bare", flush=True)
        beside(f"{of}, {words}", found[what], due[what])


# ---- new forks

def fill(place, count):
    with psycopg.connect(place.cluster.conninfo) as connection:
        connection.execute(
            "INSERT INTO documents.c SELECT convert_to('f' || to_hex(n), 'UTF8'), "
            "'{\"_deleted\":false,\"id\":\"f' || to_hex(n) || '\",\"n\":1}', 1 + n / 100, false "
            "FROM generate_series(1, %s) AS n ON CONFLICT DO NOTHING", (count,))
        connection.execute("UPDATE rx.collections SET last = greatest(last, 1 + %s / 100) WHERE name = 'c'",
                           (count,))


def pull_all(place):
    """How many documents a client pulls that is new."""
    count, at = 0, {}
    with place.dial("c") as wire:
        while True:
            reply = ask(wire, pull_line(1, **at))
            count += len(reply["docs"])
            if len(reply["docs"]) < BATCH:
                return count
            at = {"place": reply["place"]}


def pull_by_program(place, folder):
    """How many documents a fork of the program has that is new."""
    talk = Talk(os.path.join(folder, "fork"), "--max-journal", "4294967295")
    for line in ({"do": "collection", "name": "f", "schema": SCHEMA},
                 {"do": "replicate", "name": "r", "fork": "f", "port": place.ports["c"], "handler": "join"}):
        insist("ok" in talk.ask(compact(line)), f"{line}")
    reply = talk.ask(compact({"do": "turn", "name": "r", "budget": 100_000}))
    while "exchange" in reply:
        reply = json.loads(talk.child.stdout.readline())
    insist(reply["end"] == "quiet", f"{reply}")
    found = talk.ask(compact({"do": "digest", "in": "f"}))
    talk.end()
    due = place.digest("c")
    insist({it: found[it] for it in due} == due, f"the fork has {found}, and the server {due}")
    return found["count"]


def new_fork(place, who, call):
    before, begun = peak_of(place.child), time.perf_counter()
    count = call()
    rate = count / (time.perf_counter() - begun)
    after = peak_of(place.child)
    print(f"{who}: {count:,} documents, {rate:,.0f} a second; memory of the server {before >> 20} MiB "
          f"before, at most {after >> 20} MiB", flush=True)
    figure(who, documents=count, rate=rate, memory=after)


def singles(place, door, dial):
    """One client beside one connection of psycopg."""
    fresh, asked = itertools.count(), dial(place)

    def keys(side, count):
        return [f"{side}{door[0]}{next(fresh):x}" for _ in range(count)]

    with psycopg.connect(place.cluster.conninfo, autocommit=True) as bare:
        for count, times in ((1, 400), (BATCH, 80)):
            by_turns(f"a push of {count} over {door}", times,
                     (lambda count=count: line_of(keys("s", count)), lambda line: push_new(asked, line)),
                     (lambda count=count: rows_of(keys("b", count)), lambda rows: bare_push(bare, rows)))
        bare.execute("ANALYZE documents.c")
        by_turns(f"a pull of {PAGE} over {door}", 400, (lambda: pull_line(1), asked),
                 (lambda: None, lambda _: bare_pull(bare)))


def measure(place, folder):
    for door, dial in DOORS.items():
        singles(place, door, dial)
    crowds(place, 1, "vw")
    crowds(place, BATCH, "xy")
    fill(place, DOCUMENTS)
    new_fork(place, "a new client", lambda: pull_all(place))
    if os.path.exists(program()):
        new_fork(place, "a new fork of the program", lambda: pull_by_program(place, folder))


def main():
    with tempfile.TemporaryDirectory(ignore_cleanup_errors=True) as folder:
        os.chmod(folder, 0o711)
        place = Place(folder, {"c": SCHEMA}, limits=LIMITS).start()
        try:
            measure(place, folder)
        finally:
            place.end()


if __name__ == "__main__":
    main()
