#!/usr/bin/env python3
"""Each allocation and each call of a file or a socket of the built program refused in turn.

It plays every script of examples/, a migration by itself, a trial, a report, a copy, a served connection with
pulls and pushes, and turns with a served master. At each fault the status is the one that the fault may
cause, what was written is a front of the whole output and then the stop line, the journal opens, and it
holds what was answered. A socket that fails loses a turn with a served master at most, and after any fault
the next turn brings both sides together. A call that moves one byte where more were asked for changes
nothing. Where no other process is met the program is also killed within each call, with half of its bytes
moved. examples/apart, which takes two processes at once, isn't played here: the turns with a served master
stand for it.
"""
import collections
import json
import os
import subprocess
import tempfile

from shared import (HERE, SCHEMA, Server, Wrong, add, answers, ask, checked, collection, command, compact, content,
                    digest, examples, free_port, insert, insist, main, pull, push, records, run, stand_of, text,
                    world_of)

KILLED = -9
KINDS = {"alloc": {6}, "allocs": {6}, "call": {3, 4, 5}, "short": set(), "kill": {KILLED}}
LIMIT = 7_200


class Play:
    """A command over a journal of its own, in a folder of its own."""

    KINDS = tuple(KINDS)

    def __init__(self, word, *more, script=b"", before=b""):
        self.word, self.more, self.script, self.before = word, more, script, before
        self.counts = {}

    def journal(self, folder):
        path = os.path.join(folder, "journal")
        if os.path.exists(path):
            os.remove(path)
        if self.before:
            insist(command("run", path, script=self.before)[0] in (0, 1), "the script before failed")
        return path

    def play(self, folder, env):
        return command(self.word, self.journal(folder), *self.more, script=self.script, env=env)

    def front_of(self, whole, written):
        """What was written before the stop line, which is a front of the whole, as far as its lines are."""
        lines = written.splitlines(keepends=True)
        if lines and lines[-1].startswith((b'{"stop":', b'{"limit":')):
            written = b"".join(lines[:-1])
        insist(whole.startswith(written), f"written is {written[-100:]}")
        return written[:written.rfind(b"\n") + 1]

    def compare(self, folder, written, whole):
        """The journal has a front of the records of the whole play, and those of all answered lines."""
        found = records(os.path.join(folder, "journal"))
        insist(found == whole[:len(found)], "other records stand there")
        insist(len(found) >= self.least(folder, written), "a record of an answered line is lost")

    def least(self, folder, written):
        """How many records the lines up to the last one answered make."""
        lines = [json.loads(line) for line in written.splitlines()]
        answered = max((line["line"] for line in lines if "line" in line), default=0)
        if answered not in self.counts:
            script = b"".join(self.script.splitlines(keepends=True)[:answered])
            with tempfile.TemporaryDirectory(dir=folder) as inner:
                path = self.journal(inner)
                if answered:
                    command("run", path, script=script)
                self.counts[answered] = len(records(path))
        return self.counts[answered]


class Copied(Play):
    """A copy of a journal, which stays as it is. What is left of the copy is refused, has no record, or is whole."""

    def __init__(self, *, before):
        super().__init__("compact", before=before)
        self.kept = None

    def journal(self, folder):
        """It is made once, and by no faulty program."""
        if self.kept is None:
            self.kept = content(super().journal(folder))
            self.world = world_of(checked(os.path.join(folder, "journal")))
        path = os.path.join(folder, "journal")
        with open(path, "wb") as file:
            file.write(self.kept)
        return path

    def play(self, folder, env):
        journal, self.copy = self.journal(folder), os.path.join(folder, "copy")
        if os.path.exists(self.copy):
            os.remove(self.copy)
        return command(self.word, journal, self.copy, env=env)

    def compare(self, folder, written, whole):
        insist(content(os.path.join(folder, "journal")) == self.kept, "the journal was changed")
        stand = stand_of(self.copy, self.world)
        insist(stand == "whole" or not written, f"a copy is told, and is {stand}")


class Served(Play):
    """A served connection: two pushes and two pulls, and what each was answered."""

    LINES = [push(1, ["a", "b"]), pull(2), push(3, ["c"]), pull(4)]
    KINDS = ("alloc", "allocs", "call", "short")

    def __init__(self):
        super().__init__("serve", before=text([collection()]))

    def play(self, folder, env):
        self.journal(folder)
        server, self.answered = Server(folder, 1, env=env), []
        try:
            with server.dial() as wire:
                for line in self.LINES:
                    if (reply := ask(wire, line)) is None:
                        break
                    self.answered.append(reply)
        except OSError:
            pass
        return server.ended()

    def front_of(self, whole, written):
        """A failing wire ends the connection and not the command."""
        if written.startswith(b'{"connection":1,"end":"wire",'):
            written = b""
        return super().front_of(whole, written)

    def compare(self, folder, written, whole):
        status, replies = run(os.path.join(folder, "journal"),
                              [compact({"do": "find", "in": "c", "query": {}})])
        insist(status == 0, f"the next run ended with {status}")
        found = {row["id"] for row in replies[0]["rows"]}
        for n, keys in ((1, {"a", "b"}), (3, {"c"})):
            if any(reply["n"] == n for reply in self.answered):
                insist(keys <= found, f"the answered push {n} is lost")


class Dialled(Play):
    """Two turns with a served master, of which a failing socket may lose one."""

    KINDS = ("alloc", "allocs", "call", "short")
    # Far ahead of the clock, so that what a server writes has the same times in each play.
    MASTER = [collection(), compact({"do": "tick", "at": 9_000_000_000_000}), *map(insert, "ab")]

    def __init__(self):
        self.port = free_port()
        replicate = {"do": "replicate", "name": "r", "fork": "f", "port": self.port, "handler": "fork_wins"}
        self.begin = [collection("f"), compact(replicate)]
        self.turn = compact({"do": "turn", "name": "r", "batch": 2})
        edits = [compact({"do": "insert", "in": "f", "doc": {"id": key, "n": 2}}) for key in "bcd"]
        super().__init__("run", script=text([*self.begin, *edits[:2], self.turn, edits[2], self.turn]))

    def play(self, folder, env):
        self.master = os.path.join(folder, "master")
        if os.path.exists(self.master):
            os.remove(self.master)
        insist(run(self.master, self.MASTER)[0] == 0, "no master")
        return self.beside_master(folder, lambda: super(Dialled, self).play(folder, env))

    def beside_master(self, folder, call):
        server = Server(folder, 1_000_000, journal="master", port=self.port).wait()
        try:
            return call()
        finally:
            server.kill()

    def front_of(self, whole, written):
        """What was written before a turn that was lost, where one was, is a front of the whole."""
        front, lost, why = written.partition(b'"lost":')
        if not lost:
            return super().front_of(whole, written)
        insist(why.startswith((b'"dial"', b'"wire"')) and why.count(lost) == 0, f"lost: {written[-200:]}")
        insist(b"refused" not in why, f"refused: {written[-200:]}")
        super().front_of(whole, front[:front.rfind(b"\n") + 1])
        return written

    def compare(self, folder, written, whole):
        """The next turn brings both sides together, with each insert that was answered."""
        journal = os.path.join(folder, "journal")
        after = [*self.begin, self.turn, digest("f"), compact({"do": "find", "in": "f", "query": {}})]
        status, replies = self.beside_master(folder, lambda: run(journal, after))
        insist(status in (0, 1), f"the next run ended with {status}")
        turn, same, found = (reply for reply in replies if reply.get("ok") in ("turn", "digest", "find"))
        insist(turn["end"] == "quiet", f"the next turn ended {turn}")
        insist(checked(self.master)[0]["digest"] == same["digest"], "the sides differ")
        kept = sum(it.get("ok") == "insert" for it in answers(written))
        keys = {row["id"] for row in found["rows"]}
        insist({"a", "b", *"bcd"[:kept]} <= keys, f"an answered insert is lost: {keys}")


def try_faults(play, kind, folder, env, whole, count):
    seen = collections.Counter()
    status, written, records_due = whole
    for number in range(1, count + 1):
        ended, came = play.play(folder, {**env, "RX_FAULT": f"{kind} {number}"})
        at = f"{kind} {number} of {count}: "
        insist(ended == status or ended in KINDS[kind], f"{at}status {ended}")
        insist(kind != "short" or ended == status, f"{at}status {ended}")
        insist(kind != "kill" or ended == KILLED, f"{at}status {ended}")
        insist(kind == "call" or ended != status or came == written, f"{at}another output: {came[-100:]}")
        try:
            play.compare(folder, play.front_of(written, came), records_due)
            insist(run(os.path.join(folder, "journal"), [])[0] == 0, "the journal doesn't open")
        except Wrong as why:
            raise Wrong(f"{at}{why}") from why
        seen[ended] += 1
    ends = " ".join(f"{times} of {status}" for status, times in sorted(seen.items()))
    return f"{kind}, {count:,}: {ends}"


def try_play(play, folder):
    library, counts = os.path.join(folder, "faults.so"), os.path.join(folder, "counts")
    source = os.path.join(HERE, "faults.c")
    subprocess.run(["cc", "-shared", "-fPIC", "-O2", "-o", library, source, "-ldl"], check=True)
    env = {"LD_PRELOAD": library, "RX_COUNTS": counts}
    status, written = play.play(folder, env)
    insist(status in (0, 1), f"without a fault it ended with {status}")
    allocs, calls = map(int, content(counts).split())
    whole = status, written, records(os.path.join(folder, "journal"))
    return "; ".join(try_faults(play, kind, folder, env, whole, allocs if kind.startswith("alloc") else calls)
                     for kind in play.KINDS)


def group():
    """A master and two forks, one of the other, each with an edit of its own."""
    sides = {"f": "m", "g": "f"}
    yield from (collection(name) for name in "mfg")
    for fork, master in sides.items():
        yield compact({"do": "replicate", "name": fork, "fork": fork, "master": master, "handler": "join"})
    yield compact({"do": "bulk", "in": "m", "docs": [{"id": key, "n": 1} for key in "abc"]})
    yield from (compact({"do": "turn", "name": fork}) for fork in sides)
    for side, key in zip("mfg", "abc"):
        yield compact({"do": "patch", "in": side, "key": key, "set": {"n": 2}})


def edited_group():
    """The same with conflicts that a turn settled, a document that was removed, and a fork of a port."""
    yield from group()
    yield compact({"do": "remove", "in": "f", "key": "c"})
    yield compact({"do": "turn", "name": "f", "budget": 3})
    yield collection("p")
    yield compact({"do": "replicate", "name": "p", "fork": "p", "port": 1, "handler": "join"})


def migration():
    """The line that takes the group to its next schema, and what tells that it did."""
    properties = {"id": SCHEMA["properties"]["id"], "v": {"type": "integer"}, "t": {"type": "string"}}
    schema = {**SCHEMA, "version": 1, "properties": properties}
    steps = [{"rename": "n", "to": "v"}, {"scale": "v", "by": 7}, {"set": "t", "value": "new"}]
    yield compact({"do": "migrate", "in": "f", "schema": schema, "steps": steps})
    yield from (compact({"do": "find", "in": side, "query": {"selector": {"v": 14}}}) for side in "mfg")


def plays():
    for name, script, before, _ in examples():
        yield f"examples, {name}", Play("run", script=script, before=before)
    yield "a migration", Play("run", script=text(migration()), before=text(group()))
    yield "a trial", Play("trial", "7", "40")
    yield "a report", Play("check", before=text([collection(), *map(insert, "abc")]))
    yield "a copy", Copied(before=text(edited_group()))
    yield "a served connection", Served()
    yield "turns with a served master", Dialled()


for played, each in plays():
    add(played, lambda folder, play=each: try_play(play, folder), seconds=LIMIT, in_memory=True)

if __name__ == "__main__":
    main()
