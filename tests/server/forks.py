"""Forks of the server by the program, over links that lose and repeat; and kills."""
import collections
import json
import os
import random
import socket
import threading
import time

from link import Link
from place import KEYS, SCHEMA, Place, doc, pull_line, push_line, rows_line, state_at_random
from shared import HANDLERS, SEED, Server, Talk, ask, case, compact, insist, run, same


# ---- forks of the server

class Fork:
    """A run whose collection f is a fork of the master at a port."""

    def __init__(self, folder, name, port, how):
        self.talk = Talk(os.path.join(folder, name))
        self.ask({"do": "collection", "name": "f", "schema": SCHEMA})
        self.ask({"do": "replicate", "name": "r", "fork": "f", "port": port, **how})

    def ask(self, line):
        reply = self.talk.ask(compact(line))
        insist(reply, f"{line}: the run ended")
        return reply

    def edit(self, numbers):
        key, draw = numbers.choice([*KEYS, *(f"m{n}" for n in range(30))]), numbers.random()
        state = {it: value for it, value in state_at_random(numbers, key).items() if it != "_deleted"}
        if draw < 0.7:
            self.ask({"do": "upsert", "in": "f", "doc": state})
        elif draw < 0.85:
            self.ask({"do": "remove", "in": "f", "key": key})
        else:
            self.ask({"do": "patch", "in": "f", "key": key, "set": {"n": numbers.randint(-2, 12)}})

    def turn(self, **more):
        """The end of a turn, and why its last exchange was lost."""
        reply, why = self.ask({"do": "turn", "name": "r", **more}), None
        while "exchange" in reply:
            why = reply.get("lost")
            reply = json.loads(self.talk.child.stdout.readline())
        return reply["end"], why

    def until_quiet(self):
        end = time.monotonic() + 120
        while self.turn()[0] != "quiet":
            insist(time.monotonic() < end, "no turn is quiet")
            time.sleep(0.05)

    def digest(self):
        reply = self.ask({"do": "digest", "in": "f"})
        return {it: reply[it] for it in ("count", "digest")}

    def end(self):
        insist(self.talk.end() in (0, 1), "the run of a fork failed")


class Writer:
    """A program that writes on the master's side, by requests of its own."""

    def __init__(self, port):
        self.port, self.n = port, 0

    def write(self, numbers):
        with socket.create_connection(("127.0.0.1", self.port)) as wire:
            held = {it["id"]: it for it in ask(wire, pull_line(1))["docs"]}
            new = state_at_random(numbers, numbers.choice(KEYS))
            known = {"assumed": held[new["id"]]} if new["id"] in held else {}
            ask(wire, rows_line(2, [{"new": new, **known}]))


def play_forks(folder, port, rounds):
    """Forks of every handler edited and turned in turn over a link, as a seed says. The digest of all once
    they are quiet, what they saw, and the link."""
    numbers, seen = random.Random(SEED), collections.Counter()
    link, writer = Link(port, random.Random(SEED + 1)), Writer(port)
    forks = [Fork(folder, f"fork{number}", link.port_in_front(), how) for number, how in enumerate(HANDLERS)]
    for _ in range(rounds):
        for fork in forks:
            for _ in range(numbers.randrange(4)):
                fork.edit(numbers)
            end, why = fork.turn(batch=numbers.choice([1, 2, 5, 100]))
            seen[why or end] += 1
        writer.write(numbers)
    link.numbers = None
    for fork in forks * 2:
        fork.until_quiet()
    digests = [fork.digest() for fork in forks]
    for fork in forks:
        fork.end()
    insist(digests.count(digests[0]) == len(digests), f"forks differ: {digests}")
    return digests[0], seen, link


@case("forks over links that lose and repeat", seconds=1_800, needs=["program"])
def forks_over_links(folder):
    rounds, digests = 60, []
    place = Place(folder, {"c": SCHEMA}).start()
    found, seen, link = play_forks(folder, place.ports["c"], rounds)
    same(place.digest("c"), found, "the server and its forks")
    place.end()
    inner = os.path.join(folder, "served")
    os.mkdir(inner)
    line = compact({"do": "collection", "name": "c", "schema": SCHEMA})
    insist(run(os.path.join(inner, "journal"), [line])[0] == 0, "no journal")
    master = Server(inner, 1_000_000).wait()
    due, _, _ = play_forks(inner, master.port, rounds)
    master.kill()
    same(found, due, "the server beside `rx serve`")
    told = [f"{count} {name}" for name, count in sorted((link.seen + seen).items())]
    return f"{found['count']} documents: {', '.join(told)}"


@case("many forks at once", seconds=3_600, needs=["program"])
def many_forks(folder):
    """Twelve of them write, or a tenth of all."""
    place, count = Place(folder, {"c": SCHEMA}).start(), int(os.environ.get("FORKS", "12"))
    links = [Link(place.ports["c"], random.Random(SEED + number)) for number in range(count)]
    forks = [Fork(folder, f"fork{number}", link.port_in_front(), HANDLERS[number % 4])
             for number, link in enumerate(links)]
    writing, failed = max(12, count // 10), []

    def live(number):
        try:
            numbers = random.Random(SEED * (number + 1))
            for _ in range(25):
                for _ in range(numbers.randrange(4) if number < writing else 0):
                    forks[number].edit(numbers)
                forks[number].turn(batch=numbers.choice([1, 3, 100]))
            links[number].numbers = None
            forks[number].until_quiet()
        except Exception as fault:  # pylint: disable=broad-except
            failed.append(repr(fault))

    threads = [threading.Thread(target=live, args=(number,)) for number in range(count)]
    for it in threads:
        it.start()
    for it in threads:
        it.join()
    insist(not failed, f"{failed}")
    for fork in forks * 2:
        fork.until_quiet()
    found = place.digest("c")
    for fork in forks:
        same(fork.digest(), found, "a fork and the server")
        fork.end()
    place.end()
    return f"{count} forks at once over links that lose, of which {min(count, writing)} write: " \
           f"{found['count']} documents on all"


# ---- kills

class Load:
    """Clients that push documents of their own as fast as they are answered, and what was answered."""

    def __init__(self, place, count):
        self.place, self.over, self.acknowledged, self.broken, self.wrong = place, False, set(), 0, []
        self.threads = [threading.Thread(target=self.write, args=(number,)) for number in range(count)]
        for it in self.threads:
            it.start()

    def write(self, number):
        n = 0
        while not self.over:
            try:
                with self.place.dial("c") as wire:
                    wire.settimeout(30)
                    while not self.over:
                        n += 1
                        key = f"{number}{n:05x}"
                        reply = ask(wire, push_line(n, [doc(key)]))
                        if reply is None:
                            break
                        if reply == {"conflicts": [], "epoch": 1, "n": n}:
                            self.acknowledged.add(key)
                        else:
                            self.wrong.append(reply)
            except OSError:
                pass
            self.broken += 1
            time.sleep(0.05)

    def end(self):
        self.over = True
        for it in self.threads:
            it.join()


@case("kills of the server and of PostgreSQL", seconds=7_200, needs=["program"])
def kills(folder):
    rounds, numbers = int(os.environ.get("KILLS", "5")), random.Random(SEED)
    place = Place(folder, {"c": SCHEMA}).start()
    load, fork = Load(place, 5), Fork(folder, "fork", place.ports["c"], HANDLERS[3])
    for number in range(rounds):
        time.sleep(numbers.uniform(0.2, 1.5))
        fork.edit(numbers)
        if number % 3 != 1:
            place.kill()
        if number % 3 != 0:
            place.cluster.stop(immediately=True)
            place.cluster.start()
        if number % 3 != 1:
            place.start()
        fork.until_quiet()
    load.end()
    held = {key.decode() for (key,) in place.sql("SELECT key FROM documents.c")}
    lost = load.acknowledged - held
    insist(not lost, f"{len(lost)} of {len(load.acknowledged)} acknowledged pushes are lost: {sorted(lost)}")
    insist(not load.wrong, f"replies to pushes of new documents: {load.wrong[:3]}")
    insist(load.broken > rounds, f"{load.broken} connections were cut off")
    fork.until_quiet()
    same(fork.digest(), place.digest("c"), "a fork and the server")
    fork.end()
    place.end()
    return f"{rounds} times: all of {len(load.acknowledged):,} acknowledged pushes are there"
