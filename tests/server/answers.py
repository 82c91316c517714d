"""What the server answers: beside a model, and beside `rx serve`."""
import collections
import json
import os
import random
import threading
import time

import replies
from model import MAX_TIME, START, Collection, Replication, printed
from place import HASH, KEYS, SCHEMA, Place, pull_line, state_at_random
from requests import ODD, near_miss, read
from shared import LONGEST, SEED, Server, ask, case, compact, insist, run, said, said_line, same

FAST = f"line_bytes = {LONGEST}\nrequests_a_second = 100000\nrows_a_second = 1000000"


# ---- answers beside the model

def moment():
    return time.time_ns() // 1_000_000


class Judge:
    """A collection as docs/WIRE.md has it, and what it answers."""

    def __init__(self):
        self.side = Collection("m")

    def due(self, request):
        """The answer to a request, and whether it writes. A write counts a time on."""
        each = {name: request[name] for name in ("epoch", "n")}
        if request["ask"] == "pull":
            at = request.get("place")
            keys = self.side.page((at["lwt"], at["id"].encode()) if at else START, request["batch"])
            if keys:
                at = replies.place(self.side.docs[keys[-1]][1], keys[-1])
            return {"docs": [self.side.state(key) for key in keys], **({"place": at} if at else {}), **each}, False
        before, rows = self.side.last, [(row.get("assumed"), row["new"]) for row in request["rows"]]
        conflicts = Replication(None, self.side, None).handle(("push", rows), 0)
        return {"conflicts": conflicts, **each}, self.side.last > before

    def page_behind(self):
        """What asks for the last write's documents, and where they are."""
        before = [key for key in self.side.docs if self.side.docs[key][1] < self.side.last]
        at = max(map(self.side.place, before), default=None)
        return pull_line(1, **({"place": replies.place(at[0], at[1].decode())} if at else {}))

    def learn(self, lwt, since):
        """The last write has this time: the present moment, or one more than the time before."""
        counted, self.side.last = self.side.last, lwt
        insist(max(counted, since) <= lwt <= max(counted, moment()), f"{lwt}: neither now nor the next time")
        self.side.docs = {key: (height, lwt if at == counted else at, state)
                          for key, (height, at, state) in self.side.docs.items()}


def rows_at_random(numbers, judge):
    keys = numbers.sample(KEYS, numbers.randint(1, 4))
    for key in keys:
        held, draw = judge.side.state(key), numbers.random()
        guess = held if draw < 0.6 else state_at_random(numbers, key) if draw < 0.8 else None
        yield {**({"assumed": guess} if guess else {}), "new": state_at_random(numbers, key)}


def place_at_random(numbers, judge):
    """A place where a document is, or near one, or none."""
    if not judge.side.docs or numbers.random() < 0.2:
        return {}
    lwt, key = judge.side.place(numbers.choice([*judge.side.docs]))
    key = numbers.choice([key.decode(), numbers.choice(KEYS), ""])
    return {"place": replies.place(lwt + numbers.choice([0, 0, -1, 1]), key)}


def line_at_random(numbers, judge):
    """A request that is right in three of five cases, and else most likely isn't one."""
    each = {"epoch": numbers.choice([1, numbers.randint(1, MAX_TIME)]), "n": numbers.randint(1, 20), "schema": HASH}
    if numbers.random() < 0.5:
        batch = numbers.choice([1, 2, 3, 100])
        line = {"ask": "pull", "batch": batch, **place_at_random(numbers, judge), **each}
    else:
        line = {"ask": "push", "rows": list(rows_at_random(numbers, judge)), **each}
    line = printed(line).encode()
    return line if numbers.random() < 0.6 else near_miss(numbers, line)


@case("answers beside the model", seconds=3_600)
def beside_the_model(folder):
    """Of each push that writes, the next request asks for the page behind it, which tells its time."""
    place, numbers, judge = Place(folder, {"c": SCHEMA}, limits=FAST).start(), random.Random(SEED), Judge()
    side, seen, lines = Side(lambda: place.dial("c")), collections.Counter(), iter(ODD)
    count, has_written, since = int(os.environ.get("REQUESTS", "10000")), False, 0
    while sum(seen.values()) < count:
        line = judge.page_behind().encode() if has_written else next(lines, None)
        line = line_at_random(numbers, judge) if line is None else line
        if b"\n" in line:
            continue
        begun, reply, request = moment(), side.ask(line), read(line)
        if has_written:
            judge.learn(json.loads(reply)["place"]["lwt"], since)
        due, has_written = judge.due(request) if isinstance(request, dict) else ({"fault": request}, False)
        same(reply, printed(due).encode() + b"\n", f"{line[:300]}")
        since = begun
        seen[request["ask"] if isinstance(request, dict) else request] += 1
    side.leave()
    same(place.digest("c"), {"count": len(judge.side.docs), "digest": judge.side.digest()}, "the digest")
    place.end()
    return told(seen)


def told(seen):
    return ", ".join(f"{count:,} {name}" for name, count in sorted(seen.items()))


# ---- answers beside `rx serve`

def requests_at_random(numbers):
    """Requests whose places are the same on every master: below all documents, or above."""
    each = {"epoch": numbers.randint(1, 3), "n": numbers.randint(1, 20), "schema": HASH}
    if numbers.random() < 0.5:
        at = numbers.choice([{}, {"place": replies.place(5, "k1")}, {"place": replies.place(MAX_TIME, "z")}])
        return printed({"ask": "pull", "batch": numbers.choice([1, 2, 100]), **at, **each}).encode()
    rows = [{"new": state_at_random(numbers, key), **({"assumed": state_at_random(numbers, key)}
             if numbers.random() < 0.5 else {})} for key in numbers.sample(KEYS, numbers.randint(1, 3))]
    return printed({"ask": "push", "rows": rows, **each}).encode()


class Side:
    """A master that is asked line by line, and dialled again where it ended."""

    def __init__(self, dial):
        self.dial, self.wire = dial, None

    def ask(self, line):
        if self.wire is None:
            self.wire = self.dial()
        self.wire.sendall(line + b"\n")
        reply = b""
        while not reply.endswith(b"\n") and (piece := self.wire.recv(1 << 16)):
            reply += piece
        if b'"fault"' in reply[:9] or not reply:
            insist(not self.wire.recv(1), f"{line[:80]}: the connection goes on behind {reply}")
            self.leave()
        return reply

    def leave(self):
        if self.wire:
            self.wire.close()
            self.wire = None


def without_times(reply):
    """A reply without its write time, which is each master's own."""
    value = json.loads(reply)
    if "place" in value and value["place"]["lwt"] not in (5, MAX_TIME):
        value["place"]["lwt"] = "a time"
    return value


@case("answers beside rx serve", seconds=3_600, needs=["program"])
def beside_rx_serve(folder):
    count, numbers, faults = 20_000, random.Random(SEED), collections.Counter()
    place = Place(folder, {"c": SCHEMA}, limits=FAST).start()
    journal = os.path.join(folder, "journal")
    insist(run(journal, [compact({"do": "collection", "name": "c", "schema": SCHEMA})])[0] == 0, "no journal")
    master = Server(folder, 1_000_000).wait()
    # It tells of each connection, and would wait where nobody reads that.
    threading.Thread(target=master.child.stdout.read, daemon=True).start()
    sides = Side(lambda: place.dial(port=master.port)), Side(lambda: place.dial("c"))
    lines = [*ODD, *(requests_at_random(numbers) if numbers.random() < 0.3
                     else near_miss(numbers, requests_at_random(numbers)) for _ in range(count))]
    for line in lines:
        if b"\n" in line:
            continue
        due, found = (it.ask(line) for it in sides)
        faults[json.loads(due).get("fault", "answered")] += 1
        if due != found:
            same(without_times(found), without_times(due), f"{line[:300]}")
    for it in sides:
        it.leave()
    master.child.kill()
    master.child.wait()
    held = run(journal, [compact({"do": "digest", "in": "c"})])[1][0]
    same(place.digest("c"), {it: held[it] for it in ("count", "digest")}, "the digests")
    place.end()
    return told(faults)


@case("lines of 256 MiB", seconds=1_800)
def longest_lines(folder):
    place = Place(folder, {"c": SCHEMA}, limits=f"line_bytes = {LONGEST}").start()
    row = {"new": {"_deleted": False, "id": "k", "n": 1, "t": ""}}
    head, tail = printed({"ask": "push", "epoch": 1, "n": 1, "rows": [row], "schema": HASH}).split('"t":""')
    head, tail = f'{head}"t":"'.encode(), f'"{tail}'.encode()
    for size, due in [(LONGEST, "invalid"), (LONGEST + 1, "too_long")]:
        with place.dial("c") as wire:
            piece, left = b"a" * (1 << 20), size - len(head) - len(tail)
            wire.sendall(head)
            while left > 0:
                left -= wire.send(piece[:left])
            wire.sendall(tail + b"\n")
            same(said(wire), f'{{"fault":"{due}"}}\n'.encode(), f"{size} bytes")
        with place.dial("c") as wire:
            insist(ask(wire, pull_line(1))["docs"] == [], "the next connection")
    place.end()
    # Where no length is given, it is that of the longest request of the schema.
    inner = os.path.join(folder, "usual")
    os.mkdir(inner)
    place = Place(inner, {"c": SCHEMA}).start()
    states = [{"_deleted": False, "b": False, "id": "\u0001" * 4 + f"{n:02}", "n": -2, "t": "\u0001" * 3}
              for n in range(100)]
    rows = [{"assumed": it, "new": it} for it in states]
    with place.dial("c") as wire:
        line = printed({"ask": "push", "epoch": MAX_TIME, "n": MAX_TIME, "rows": rows, "schema": HASH})
        same(ask(wire, line), {"conflicts": [], "epoch": MAX_TIME, "n": MAX_TIME}, "the longest request")
        wire.sendall(b"a" * 100_000 + b"\n")
        same(said_line(wire), b'{"fault":"too_long"}\n', "a longer line")
    place.end()
    return "`invalid` at the limit and `too_long` above it; without one, the longest right request is taken"
