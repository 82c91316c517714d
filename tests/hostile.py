#!/usr/bin/env python3
"""Forks of a master that answers what it likes: what they take, and why they take nothing else.

A fork dials a peer that knows what each request has to be and what the right reply to it is. It sends
100,000 replies: right ones, near misses of them by one edit (a byte is another, gone, or there twice; a
member is another; another spelling), and replies to other requests. A near miss that a fork has to take
all the same counts as right. What a fork makes of each, the requests, the lines of the exchanges, the
emissions and, after each turn, the fork's digest are those of a model of docs/SCRIPT.md and docs/WIRE.md,
byte for byte. Then there are peers that end, hang, or send without an end. A peer that hangs is waited
for as long as the program waits: a minute, and for one that takes nothing of a long request a second more
for each 64 KiB that the system took for it.
"""
import collections
import json
import os
import random
import socket
import threading

import replies
from model import MAX_TIME, QUERY, START, Clock, Collection, Model, Replication, printed
from shared import (HANDLERS, LONGEST, SECONDS, SEED, Talk, case, checked, compact, hash_of, insist,
                    main, peak_of, reset, said_line)

REPLIES = 100_000
ROUND = 1_000
# So many write times stay with the master, whatever it said.
LATE = 1_000_000
# Behind this a call of the program doesn't wait any longer.
LONGEST_WAIT = 300
KEYS = [f"k{n}" for n in range(12)]
HASH = hash_of(replies.SCHEMA)


def door():
    it = socket.create_server(("127.0.0.1", 0))
    it.settimeout(SECONDS)
    return it


# ---- the model

class Elsewhere(Replication):
    """What a fork knows of a master at a port, and the lines that go between them."""

    def request_line(self, request, epoch):
        each = {"epoch": epoch, "n": len(self.asked), "schema": HASH}
        if request[0] == "push":
            rows = [{"new": new} if old is None else {"assumed": old, "new": new} for old, new in request[1]]
            return printed({"ask": "push", "rows": rows, **each})
        at = {} if request[1] == START else {"place": replies.place(request[1][0], request[1][1].decode())}
        return printed({"ask": "pull", "batch": request[2], **at, **each})

    def right_reply(self, request, epoch):
        """The master's, once it has done what it was asked for."""
        answer, each = self.handle(request, 0), {"epoch": epoch, "n": len(self.asked)}
        if request[0] == "push":
            return printed({"conflicts": answer, **each})
        docs, (lwt, key) = answer
        at = {} if (lwt, key) == START else {"place": replies.place(lwt, key.decode())}
        return printed({"docs": docs, **at, **each})

    def hear(self, request, line, numbers, now):
        """The line of an exchange in which this line was heard, or none, and how it ends the turn."""
        why, reply = ("reply", None) if line is None else replies.judged(line, request, numbers)
        rows = {"rows": [new["id"] for _, new in request[1]]} if request[0] == "push" else {}
        if why:
            return {"lost": why, "sent": request[0], **rows}, "lost"
        if rows:
            self.take(request, reply["conflicts"], now)
            return {"conflicts": [it["id"] for it in reply["conflicts"]], "sent": "push", **rows}, None
        self.take(request, (reply["docs"], replies.place_of(reply)), now)
        # A master that said so has written up to there, so what it writes next is above.
        self.master.last = max(self.master.last, min(self.down[0], MAX_TIME - LATE))
        at = {"place": reply["place"]} if "place" in reply else {}
        shown = {"rows": [it["id"] for it in reply["docs"]], "sent": "pull", **at}
        return shown, "quiet" if len(reply["docs"]) < request[2] else None


class Fork(Model):
    """What a run is answered whose collection f is the fork of a master at a port, which is a peer."""

    def __init__(self, how, peer):
        super().__init__()
        self.how, self.peer, self.sides["m"] = how, peer, Collection("m")

    def replicate(self, _line, _out):
        self.replications["r"] = Elsewhere(self.sides["f"], self.sides["m"], self.how)
        return {}

    def turn(self, line, out):
        """Plays the peer's part in a turn that the program has begun."""
        batch, budget = line.get("batch", 100), line.get("budget", 1_000)
        with self.peer.accept() as wire:
            for number in range(1, budget + 1):
                try:
                    shown, end = self.exchange(wire, batch)
                except Clock:
                    number, end = number - 1, "clock"
                    break
                out.append({"exchange": number, **shown})
                if end:
                    break
            self.peer.leave(wire)
        return {"end": end or "more", "exchanges": number}

    def exchange(self, wire, batch):
        fork = self.replications["r"]
        request, numbers = fork.ask(batch), (self.epoch, len(fork.asked))
        due, line = fork.request_line(request, self.epoch), self.peer.hear(wire)
        insist(line == due, f"request: found {line}, due {due}")
        line = self.peer.answer(wire, lambda: fork.right_reply(request, self.epoch))
        return fork.hear(request, line, numbers, self.moment)

    def find(self, _line, _out):
        side = self.sides["f"]
        live = (side.state(key) for key in sorted(side.docs, key=str.encode) if side.live(key))
        return {"rows": [{name: it for name, it in state.items() if name != "_deleted"} for state in live]}


# ---- the peer

class Peer:
    """Answers right, nearly right, or something else."""

    def __init__(self, numbers):
        self.numbers, self.door = numbers, door()
        self.sent, self.kinds = [b"\n"], collections.Counter()

    def port(self):
        return self.door.getsockname()[1]

    def accept(self):
        wire, _ = self.door.accept()
        wire.settimeout(SECONDS)
        wire.setsockopt(socket.IPPROTO_TCP, socket.TCP_NODELAY, 1)
        self.unread, self.heard, self.last = b"", b"", None
        return wire

    def hear(self, wire):
        while b"\n" not in self.heard:
            piece = wire.recv(1 << 16)
            insist(piece, f"the program ended its wire before a request, behind {self.last}")
            self.heard += piece
        line, self.heard = self.heard.split(b"\n", 1)
        return line.decode()

    def answer(self, wire, right):
        """The line that the program receives, or none where it comes to no end."""
        if b"\n" not in self.unread:
            self.last = self.piece(right)
            wire.sendall(self.last)
            self.unread += self.last
        if b"\n" not in self.unread:
            wire.shutdown(socket.SHUT_WR)
            return None
        line, self.unread = self.unread.split(b"\n", 1)
        return line

    def piece(self, right):
        """What is sent. A reply to another request leaves the master as it is."""
        draw = self.numbers.randrange(100)
        if draw < 8:
            self.kinds["replies to other requests"] += 1
            return self.numbers.choice(self.sent[-20:])
        line = right().encode() + b"\n"
        self.sent.append(line)
        if draw < 30:
            self.kinds["right replies"] += 1
            return line
        if draw < 72:
            edit = replies.edited_byte
        else:
            edit = replies.edited_member if draw < 94 else replies.edited_spelling
        line = edit(self.numbers, line)
        if draw == 99:
            line += self.numbers.choice(self.sent)
        self.kinds["near misses"] += 1
        return line

    def leave(self, wire):
        """The program ends its wire with the turn, and asks nothing more. What it didn't receive resets it."""
        try:
            rest = wire.recv(1 << 16)
        except ConnectionResetError:
            rest = b""
        insist(not self.heard + rest, f"behind the turn and {self.last} there came {self.heard + rest}")
        reset(wire)


# ---- a round

def fields(numbers):
    there = {"b": numbers.choice([None, False, True]), "n": numbers.randint(0, 3),
             "t": numbers.choice([None, "", "k\u00e9", '"\\\n'])}
    return {name: value for name, value in there.items() if value is not None}


def edit_at_random(numbers, side):
    key, draw = numbers.choice(KEYS), numbers.randrange(10)
    if draw < 6:
        return {"do": "upsert", "in": side, "doc": {"id": key, **fields(numbers)}}
    if draw < 8:
        return {"do": "remove", "in": side, "key": key}
    return {"do": "patch", "in": side, "key": key, "set": {"n": numbers.randint(0, 3)}}


def turn_at_random(numbers):
    line = {"do": "turn", "name": "r"}
    if numbers.random() < 0.9:
        line["batch"] = numbers.choice([1, 2, 3, 5, 8, 100])
    if numbers.random() < 0.3:
        line["budget"] = numbers.randint(1, 4)
    return line


def lines_at_random(numbers, fork):
    """Edits on both sides, a turn, and what the fork holds then. The master's are no lines."""
    for _ in range(numbers.randrange(3)):
        try:
            getattr(fork, (line := edit_at_random(numbers, "m"))["do"])(line, [])
        except Clock:
            pass
    yield from (edit_at_random(numbers, "f") for _ in range(numbers.randrange(3)))
    if numbers.random() < 0.05:
        yield {"do": "tick", "at": numbers.randrange(3_000)}
    if numbers.random() < 0.02:
        yield {"do": "restart"}
    yield turn_at_random(numbers)
    yield {"do": "digest", "in": "f"}
    if numbers.random() < 0.1:
        yield {"do": "find", "in": "f", "query": {}}
        yield {"do": "changes", "in": "f"}


def at_the_end_of_time():
    """The fork has no write time left for what a pull brings."""
    return [{"do": "tick", "at": MAX_TIME}, {"do": "upsert", "in": "f", "doc": {"id": "last", "n": 0}},
            {"do": "tick", "at": 0}, {"do": "turn", "name": "r"}, {"do": "turn", "name": "r", "batch": 1},
            {"do": "digest", "in": "f"}]


class Round:
    """A journal with a fork, and the runs over it."""

    def __init__(self, folder, number):
        self.numbers = random.Random(SEED * number)
        self.peer = Peer(self.numbers)
        self.fork = Fork(HANDLERS[number % len(HANDLERS)], self.peer)
        self.journal = os.path.join(folder, f"journal{number}")
        self.seen = collections.Counter()

    def begin(self, lines=()):
        self.run = Talk(self.journal)
        self.fork.open()
        for line in lines:
            self.play(line)
        self.play({"do": "observe", "name": "q", "in": "f", "query": QUERY})

    def play(self, line):
        """Plays a line, and compares each line of the answer."""
        self.run.send([compact(line)])
        try:
            due = self.fork.play(line)
        except TimeoutError:
            due = ["a wire is dialled, and says what is due"]
        for text in due:
            found = self.run.child.stdout.readline().decode()
            insist(found == text + "\n", f"{compact(line)}: found {found}, due {text}")
            self.count(json.loads(text))

    def count(self, reply):
        if "exchange" in reply:
            self.seen[reply.get("lost", "taken")] += 1
        elif "end" in reply:
            self.seen["turns"] += 1
            self.seen["quiet"] += reply["end"] == "quiet"
        elif "digest" in reply:
            self.seen["digests"] += 1

    def end(self):
        insist(self.run.end() in (0, 1), f"the run ended with {self.run.child.returncode}")
        side, pending = self.fork.sides["f"], len(self.fork.replications["r"].pending())
        texts = checked(self.journal)
        insist((texts[0]["count"], texts[0]["digest"]) == (len(side.docs), side.digest()), f"a report: {texts}")
        due = {"fork": "f", "pending": pending, "port": self.peer.port(), "replication": "r"}
        insist(texts[1] == due, f"a report: found {texts[1]}, due {due}")

    def made(self):
        return sum(self.peer.kinds.values())


def play_round(folder, number):
    it = Round(folder, number)
    it.begin([{"do": "collection", "name": "f", "schema": replies.SCHEMA},
              {"do": "replicate", "name": "r", "fork": "f", "port": it.peer.port(), **it.fork.how}])
    runs = it.numbers.randint(1, 3)
    for run in range(1, runs + 1):
        while it.made() < ROUND * run // runs:
            for line in lines_at_random(it.numbers, it.fork):
                it.play(line)
        if run < runs:
            it.end()
            it.begin()
    for line in at_the_end_of_time():
        it.play(line)
    it.end()
    it.peer.door.close()
    os.remove(it.journal)
    return it


@case("replies at random", seconds=7_200, in_memory=True)
def replies_at_random(folder):
    seen, kinds, number = collections.Counter(), collections.Counter(), 0
    while sum(kinds.values()) < REPLIES:
        number += 1
        try:
            it = play_round(folder, number)
        except OSError as fault:
            insist(False, f"round {number}: {fault}")
        seen += it.seen
        kinds += it.peer.kinds
    told = [f"{count:,} {name}" for name, count in [*sorted(kinds.items()), *sorted(seen.items())]]
    return f"{number} forks: {', '.join(told)}"


# ---- lists at their limits

@case("lists at their limits")
def long_lists(folder):
    """A page may have as many documents as were asked for, and no reply has more than a hundred."""
    tried = [(100, 100, None), (101, 100, "reply"), (50, 50, None), (51, 50, "bad_reply"), (0, 1, None)]
    for number, (count, batch, due) in enumerate(tried):
        call = Call(folder, f"journal{number}")
        docs = [{"_deleted": False, "id": f"k{n}", "n": n} for n in range(count)]
        at = {"place": replies.place(1, docs[-1]["id"])} if docs else {}
        call.begin(batch=batch, budget=1)
        with call.door.accept()[0] as wire:
            asked = json.loads(said_line(wire))
            wire.sendall(printed({"docs": docs, **at, "epoch": asked["epoch"], "n": asked["n"]}).encode() + b"\n")
            if due:
                insist((why := call.lost()) == due, f"{count} documents for {batch}: {why}")
            else:
                found = [json.loads(call.run.child.stdout.readline()) for _ in range(2)]
                insist(len(found[0].get("rows", "")) == count, f"{count} documents for {batch}: {found[0]}")
        insist(call.digest()["count"] == (0 if due else count), "the fork")
        call.leave()
    return "a hundred documents are taken, one more is `reply`, and one more than was asked for `bad_reply`"


# ---- peers that end, hang, or come to no end

class Call:
    """A run with a fork of a master at a door, with so many documents to be pushed, of so many letters."""

    def __init__(self, folder, name, pending=0, letters=1):
        self.door, schema = door(), {**replies.SCHEMA, "properties": {
            "id": {"type": "string", "maxLength": 6}, "n": {"type": "integer"},
            "t": {"type": "string", "maxLength": 100_000}}}
        self.run, self.made = Talk(os.path.join(folder, name)), pending
        self.limit = threading.Timer(LONGEST_WAIT, self.run.child.kill)
        self.limit.start()
        self.ask({"do": "collection", "name": "f", "schema": schema})
        port = self.door.getsockname()[1]
        self.ask({"do": "replicate", "name": "r", "fork": "f", "port": port, "handler": "fork_wins"})
        for n in range(pending):
            self.ask({"do": "insert", "in": "f", "doc": {"id": f"k{n}", "n": 1, "t": "a" * letters}})
        self.before = self.digest()["digest"]

    def ask(self, line):
        reply = self.run.ask(compact(line))
        insist(reply and "ok" in reply, f"{compact(line)[:60]}: {reply}")
        return reply

    def digest(self):
        return self.ask({"do": "digest", "in": "f"})

    def begin(self, **more):
        self.run.send([compact({"do": "turn", "name": "r", **more})])

    def lost(self):
        """Why the first exchange of the turn was lost, which left the fork as it was."""
        first, last = (json.loads(self.run.child.stdout.readline() or "{}") for _ in range(2))
        insist(("lost" in first, last.get("end"), last.get("exchanges")) == (True, "lost", 1), f"{first} {last}")
        insist(first["sent"] == ("push" if self.made else "pull"), f"{first}")
        insist(self.digest()["digest"] == self.before, f"{first}: the fork was changed")
        return first["lost"]

    def go_on(self):
        """The next turn, of which each request is answered right, reaches quiet."""
        self.begin()
        wire, _ = self.door.accept()
        with wire, wire.makefile("rb") as requests:
            asked = None
            while asked != "pull":
                request = json.loads(requests.readline())
                asked, same = request["ask"], {"epoch": request["epoch"], "n": request["n"]}
                body = {"docs": []} if asked == "pull" else {"conflicts": []}
                wire.sendall(printed({**body, **same}).encode() + b"\n")
            replies_left = 2 if self.made else 1
            lines = [json.loads(self.run.child.stdout.readline()) for _ in range(replies_left + 1)]
        insist(lines[-1].get("end") == "quiet", f"the next turn: {lines}")
        insist(self.digest()["digest"] == self.before, "the next turn changed the fork")
        self.leave()

    def leave(self):
        insist(self.run.end() == 0, "the run failed")
        self.limit.cancel()
        self.door.close()


def end_at_once(wire):
    wire.close()


def end_behind_the_request(wire):
    said_line(wire)
    wire.close()


def end_within_a_reply(wire):
    said_line(wire)
    wire.sendall(b'{"docs":[],"epoch":1,"n":1')
    wire.close()


def reset_at_once(wire):
    reset(wire)


def reset_behind_the_request(wire):
    said_line(wire)
    reset(wire)


ENDS = {
    end_at_once: {"dial", "reply", "wire"}, end_behind_the_request: {"reply"}, end_within_a_reply: {"reply"},
    reset_at_once: {"dial", "wire"}, reset_behind_the_request: {"wire"},
}


@case("peers that end", seconds=1_800)
def peers_that_end(folder):
    seen = collections.Counter()
    for number in range(40):
        for end, due in ENDS.items():
            call = Call(folder, f"{end.__name__}{number}", pending=number % 2)
            call.begin()
            end(call.door.accept()[0])
            why = call.lost()
            insist(why in due, f"{end.__name__}: {why}")
            seen[end.__name__.replace("_", " "), why] += 1
            call.go_on()
    return ", ".join(f"{end}: {count} {why}" for (end, why), count in sorted(seen.items()))


@case("nobody at the port")
def nobody_there(folder):
    for pending in (0, 1):
        call = Call(folder, f"journal{pending}", pending)
        address = call.door.getsockname()
        call.door.close()
        for _ in range(100):
            call.begin()
            insist((why := call.lost()) == "dial", why)
        call.door = socket.create_server(address)
        call.go_on()
    return "`dial` each time, and the next turn goes on once there is one"


def flood(call, size, tail):
    """Sends a line of so many bytes, as long as it is taken."""
    call.begin()
    wire, _ = call.door.accept()
    with wire:
        said_line(wire)
        piece = b"[" * (1 << 20)
        try:
            while size:
                size -= wire.send(piece[:size])
            wire.sendall(tail)
            if not tail:
                wire.shutdown(socket.SHUT_WR)
        except ConnectionError:
            pass
        why = call.lost()
    insist(why == "reply", why)


@case("lines without an end", seconds=1_800)
def lines_without_an_end(folder):
    for number, (size, tail) in enumerate([(1 << 20, b""), (1 << 20, b"\n"), (LONGEST, b"\n"),
                                           (LONGEST + 1, b"a")]):
        call = Call(folder, f"journal{number}", pending=number % 2)
        flood(call, size, tail)
        peak = peak_of(call.run.child)
        insist(peak < 2.5 * max(size, 64 << 20), f"a peak of {peak:,} bytes for a line of {size:,}")
        call.go_on()
    return f"`reply` for a megabyte and for one byte too many, the last with a peak of {peak >> 20} MiB"


def hang_behind_the_request(wire):
    said_line(wire)


def hang_within_a_reply(wire):
    said_line(wire)
    wire.sendall(b'{"docs":[]')


@case("peers that hang", seconds=1_800)
def peers_that_hang(folder):
    """All at once: one takes no connection in, one none at all, one says nothing, one stops within a
    reply, one takes nothing of a long request."""
    calls = {name: Call(folder, name, pending, letters) for name, pending, letters in [
        ("not_accepted", 0, 0), ("not_connected", 1, 1), ("says_nothing", 0, 0), ("stops", 1, 1),
        ("takes_nothing", 100, 100_000)]}
    calls["not_connected"].door.listen(0)
    full = socket.create_connection(calls["not_connected"].door.getsockname())
    calls["takes_nothing"].door.setsockopt(socket.SOL_SOCKET, socket.SO_RCVBUF, 1 << 14)
    wires = []
    for name, call in calls.items():
        call.begin()
        if not name.startswith("not"):
            wires.append(call.door.accept()[0])
    hang_behind_the_request(wires[0])
    hang_within_a_reply(wires[1])
    for name, call in calls.items():
        why = call.lost()
        insist(why == ("dial" if name == "not_connected" else "wire"), f"{name}: {why}")
    full.close()
    for name in ("not_accepted", "not_connected"):
        calls[name].door.accept()[0].close()
    for wire in wires:
        wire.close()
    for call in calls.values():
        call.go_on()
    return "given up, four by `wire` and the one that isn't connected by `dial`, and the next turn goes on"


if __name__ == "__main__":
    main()
