#!/usr/bin/env python3
"""Ten minutes of one large journal: many collections, mixed lines as fast as they are answered, and kills.

Every answer is compared with a model. Behind each kill all that was answered stands, and of the lines behind
that the first ones and no other. SOAK_FIGURES names a file that gets the memory as lines for bench/plots.py.
"""
import array
import collections
import json
import os
import random
import signal
import subprocess
import threading
import time

import shared
from shared import Talk, case, collection, compact, insist, main, same

COLLECTIONS, DOCUMENTS, BULK = 64, 100_000, 1_000
SECONDS, BETWEEN = 600, 10
BLOCK = 64
LARGE = ("--max-journal", "4294967295")
# The order of writing keeps the places that documents had before until these are half of it.
MOST_GROWTH = 1.2
GONE = -1


def name_of(place):
    return f"c{place:02}"


def key_of(place):
    return f"k{place:05}"


def document(place, number):
    return {"id": key_of(place), "n": number}


class Model:
    """What each document holds, and what a line does to it."""

    def __init__(self):
        self.random = random.Random(shared.SEED)
        self.held = [array.array("q", [place % 7 for place in range(DOCUMENTS)]) for _ in range(COLLECTIONS)]

    def line(self):
        """A line, what its answer has to have, and what it writes: the document, with what was before."""
        of, place, kind = self.random.randrange(COLLECTIONS), self.random.randrange(DOCUMENTS), self.random.random()
        held, at = self.held[of], {"in": name_of(of), "key": key_of(place)}
        before, number = held[place], self.random.randrange(1 << 40)
        if kind < 0.45:
            line = {"do": "upsert", "in": name_of(of), "doc": document(place, number)}
            return self.writes(line, of, place, number)
        if kind < 0.60:
            line = {"do": "patch", **at, "set": {"n": number}}
            return self.refused(line) if before == GONE else self.writes(line, of, place, number)
        if kind < 0.75:
            line = {"do": "remove", **at}
            return self.refused(line) if before == GONE else self.writes(line, of, place, GONE)
        if kind < 0.95:
            line = {"do": "get", **at}
            return self.refused(line) if before == GONE else (line, {"ok": "get", "doc": document(place, before)}, None)
        low = max(place - 9, 0)
        rows = [document(it, held[it]) for it in range(low, place + 1) if held[it] != GONE]
        within = {"id": {"$gte": key_of(low), "$lte": key_of(place)}}
        return {"do": "find", "in": name_of(of), "query": {"selector": within}}, {"ok": "find", "rows": rows}, None

    def writes(self, line, of, place, number):
        before, self.held[of][place] = self.held[of][place], number
        return line, {"ok": line["do"]}, (of, place, before, number)

    @staticmethod
    def refused(line):
        return line, {"refused": True}, None

    def undo(self, written):
        of, place, before, _ = written
        self.held[of][place] = before


def fits(reply, due):
    if "refused" in due:
        return "refused" in reply
    return all(reply.get(name) == it for name, it in due.items())


class Round:
    """One run, to which lines are sent until it is killed."""

    def __init__(self, journal, model):
        self.model, self.talk, self.wrong = model, Talk(journal, *LARGE), None
        # Lines that weren't answered yet: what is due, and what each writes.
        self.open, self.answered, self.memory = collections.deque(), 0, []

    def read(self):
        for line in self.talk.child.stdout:
            if not line.endswith(b"\n"):
                return
            due, _ = self.open[0]
            reply = json.loads(line)
            if not fits(reply, due) and self.wrong is None:
                self.wrong = f"answered {reply} where {due} was due"
            self.open.popleft()
            self.answered += 1

    def send(self):
        lines = []
        for _ in range(BLOCK):
            line, due, written = self.model.line()
            self.open.append((due, written))
            lines.append(compact(line))
        self.talk.send(lines)

    def play(self, note):
        """Sends lines for as long as a round takes, and kills the run. Answers what it didn't answer."""
        reader, begun = threading.Thread(target=self.read), time.monotonic()
        reader.start()
        next_look = 0
        while (now := time.monotonic() - begun) < BETWEEN and self.wrong is None:
            if now >= next_look:
                note(memory_of(self.talk.child))
                next_look += 1
            self.send()
        os.kill(self.talk.child.pid, signal.SIGKILL)
        reader.join()
        self.talk.child.wait()
        insist(self.wrong is None, self.wrong)
        return [written for _, written in self.open if written]


def memory_of(child):
    """The memory that a running program has now, in MiB."""
    with open(f"/proc/{child.pid}/status", encoding="ascii") as status:
        return int(next(line for line in status if line.startswith("VmRSS")).split()[1]) / 1024


def fill(journal):
    """Makes all collections with all documents."""
    talk = subprocess.Popen([shared.RX, "run", journal, *LARGE], stdin=subprocess.PIPE, stdout=subprocess.DEVNULL)
    for of in range(COLLECTIONS):
        lines = [collection(name_of(of))]
        for first in range(0, DOCUMENTS, BULK):
            docs = [document(place, place % 7) for place in range(first, first + BULK)]
            lines.append(compact({"do": "bulk", "in": name_of(of), "docs": docs}))
        talk.stdin.write(shared.text(lines))
    talk.stdin.close()
    same(talk.wait(), 0, "the status of the run that makes the documents")


def number_at(talk, of, place):
    """What a document holds in the journal."""
    reply = talk.ask(compact({"do": "get", "in": name_of(of), "key": key_of(place)}))
    insist(reply is not None, "the run that looks ended")
    return reply["doc"]["n"] if "ok" in reply else GONE


def settle(talk, model, rest):
    """Finds how many of the lines that weren't answered stand, and has the model follow."""
    number_at(talk, 0, 0)  # so that the journal is open
    found = {(of, place): number_at(talk, of, place) for of, place, _, _ in rest}
    for written in reversed(rest):
        model.undo(written)
    off = sum(model.held[of][place] != it for (of, place), it in found.items())
    for count, (of, place, _, number) in enumerate(rest):
        if off == 0:
            return count
        held, it = model.held[of], found[of, place]
        off += (held[place] == it) - (number == it)
        held[place] = number
    insist(off == 0, f"{off} documents hold neither what was answered nor what the first lines behind that wrote")
    return len(rest)


def all_stands(talk, model):
    """Compares each document with the model."""
    for of in range(COLLECTIONS):
        reply = talk.ask(compact({"do": "find", "in": name_of(of), "query": {}}))
        due = [document(place, number) for place, number in enumerate(model.held[of]) if number != GONE]
        insist(reply and reply["rows"] == due, f"{name_of(of)} isn't what was written to it")


def kept(figures):
    """Keeps the memory for the plot."""
    if path := os.environ.get("SOAK_FIGURES"):
        with open(path, "w", encoding="utf-8") as file:
            for seconds, mebibytes in figures:
                it = {"bench": "soak", "load": "memory", "seconds": round(seconds), "mebibytes": round(mebibytes, 1)}
                file.write(compact(it) + "\n")


@case("ten minutes with kills", seconds=3_600)
def soaked(folder):
    journal, model = os.path.join(folder, "journal"), Model()
    fill(journal)
    begun, memory, kills, answered, standing = time.monotonic(), [], 0, 0, 0
    rest = []
    while time.monotonic() - begun < SECONDS:
        round_ = Round(journal, model)
        standing += settle(round_.talk, model, rest)
        rest = round_.play(lambda it: memory.append((time.monotonic() - begun, it)))
        kills, answered = kills + 1, answered + round_.answered
    looked = Talk(journal, *LARGE)
    standing += settle(looked, model, rest)
    all_stands(looked, model)
    insist(looked.end() in (0, 1), "the run that looks ended early")
    kept(memory)
    least, most = min(it for _, it in memory), max(it for _, it in memory)
    insist(most <= MOST_GROWTH * least, f"memory went from {least:,.0f} to {most:,.0f} MiB")
    insist(answered >= 1_000_000, f"only {answered:,} lines were answered")
    return (f"{kills} kills, {answered:,} lines answered, {standing:,} more stand: nothing lost of "
            f"{COLLECTIONS * DOCUMENTS:,} documents; {least:,.0f} to {most:,.0f} MiB")


if __name__ == "__main__":
    main()
