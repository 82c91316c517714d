#!/usr/bin/env python3
"""The built program over a real file and real streams, of which no clause speaks: what else has the
journal, what stands in its place, what fails, and a kill at any moment.

An insert counts as acknowledged once its reply was read. What can't be shown here is a power cut: a
killed run leaves to the system all that it wrote, synced or not.
"""
import json
import os
import random
import resource
import shutil
import subprocess
import tempfile
import time
from collections import Counter

from model import Rules
from shared import (RX, SCHEMA, SECONDS, SEED, Talk, all_there, answers, calls_in, case, collection, compact, content,
                    digest, held, insert, inserts, insist, main, needs_trace, number, packed, packed_state,
                    packed_value, records, room, run, same, text, tracing, written)

DISK = {"stop": "disk"}


def start(journal, lines):
    """A run that has its whole script at once."""
    with tempfile.TemporaryFile() as script:
        script.write(text(lines))
        script.seek(0)
        return subprocess.Popen([RX, "run", journal], stdin=script, stdout=subprocess.PIPE,
                                stderr=subprocess.DEVNULL)


def acknowledged(keys, replies):
    """The keys whose inserts were answered with `ok`, where the first line made the collection."""
    said = {reply["line"] for reply in replies if reply.get("ok") == "insert"}
    return {key for line, key in enumerate(keys, 2) if line in said}


@case("two runs that write by turns")
def two_runs_by_turns(folder):
    journal = os.path.join(folder, "journal")
    first = Talk(journal)
    first.ask(collection())
    kept = set()
    for turn in range(50):
        reply = first.ask(insert(f"first{turn}"))
        insist(reply and reply.get("ok") == "insert", f"the first run answered {reply}")
        kept.add(f"first{turn}")
        if turn % 10 == 0:
            before = os.path.getsize(journal)
            status, replies = run(journal, inserts([f"second{turn}"]))
            insist((status, replies) == (3, [DISK]), f"the second run: {status} {replies}")
            insist(os.path.getsize(journal) == before, "the second run wrote to the journal")
    insist(first.end() == 0, "the first run failed")
    insist(held(journal) == kept, "the journal holds other documents")
    return "the second is refused with 3 and writes nothing; all 50 inserts of the first are there"


@case("runs that start at once")
def runs_at_once(folder):
    """Each race is for a journal that isn't there yet, or is."""
    wrote = 0
    for race in range(40):
        journal = os.path.join(folder, f"journal{race // 2}")
        keys = [[f"k{race}-{runner}-{key}" for key in range(10)] for runner in range(4)]
        runs = [start(journal, inserts(mine)) for mine in keys]
        ends = [(child.communicate(timeout=SECONDS)[0], child.returncode) for child in runs]
        insist({status for _, status in ends} <= {0, 3}, f"statuses {[end[1] for end in ends]}")
        kept = [acknowledged(mine, answers(end[0])) for mine, end in zip(keys, ends)]
        all_there(journal, set().union(*kept))
        wrote += sum(map(bool, kept))
    insist(wrote >= 40, f"{wrote} runs of 160 came to write")
    return f"40 races of 4 runs: {wrote} wrote, the others ended with 3, and all acknowledged is there"


def renamed(path):
    os.rename(path, path + ".other")


def replaced(path):
    """By another journal, which has a run of its own then."""
    other = path + ".other"
    insist(run(other, inserts(["other"]))[0] == 0, "no other journal")
    os.replace(other, path)


def remade(path):
    """Renamed, and a run after it makes a journal of that name."""
    os.rename(path, path + ".other")
    status, replies = run(path, inserts(["new"]))
    insist(status == 0 and len(replies) == 2, f"the second run: {status} {replies}")


WRITE, AGAIN = insert("b"), compact({"do": "restart"})


@case("a journal that is renamed, removed or replaced while a run has it")
def journal_that_goes(folder):
    """The run ends before it answers another line that writes or reads the file."""
    for number, (goes, line) in enumerate((it, line) for it in (renamed, os.remove, replaced, remade)
                                          for line in (WRITE, AGAIN)):
        journal = os.path.join(folder, f"journal{number}")
        first, at = Talk(journal), f"{goes.__name__}, {line}"
        insist(first.ask(collection()).get("ok") == "collection", f"{at}: no collection")
        insist(first.ask(insert("a")).get("ok") == "insert", f"{at}: no insert")
        goes(journal)
        insist(first.ask(line) == DISK, f"{at}: it is answered")
        insist(first.end() == 3, f"{at}: another status")
        if os.path.exists(journal + ".other"):
            all_there(journal + ".other", {"a"})
        if os.path.exists(journal):
            insist(held(journal) in ({"new"}, {"other"}), f"{at}: the other journal changed")
    return f"{number + 1} times: 3 before another answer, and what was acknowledged is in the file"


@case("a journal at the end of a link")
def journal_by_a_link(folder):
    """The path leads there, also where the link is another one later."""
    journal, link = os.path.join(folder, "journal"), os.path.join(folder, "link")
    insist(run(journal, inserts(["a"]))[0] == 0, "no journal")
    os.symlink(journal, link)
    first = Talk(link)
    insist(first.ask(insert("b")).get("ok") == "insert", "by a link")
    os.remove(link)
    os.link(journal, link)
    insist(first.ask(insert("d")).get("ok") == "insert", "by another one")
    insist(first.end() == 0 and held(journal) == {"a", "b", "d"}, "another end")
    return "a link leads to it as its own name does"


@case("closed standard streams")
def closed_streams(folder):
    """All seven ways to leave standard streams closed, over a journal that is there and a new one."""
    keys = [f"k{key}" for key in range(5)]
    for new in (False, True):
        for closed in range(1, 8):
            journal = os.path.join(folder, f"journal{new}{closed}")
            kept = set()
            if not new:
                kept = acknowledged(keys, run(journal, inserts(keys))[1])
                insist(len(kept) == 5, "the run before failed")
            shut = [stream for stream in range(3) if closed >> stream & 1]
            redirects = " ".join([">&-" if s == 1 else f"{s}{'<' if s == 0 else '>'}&-" for s in shut])
            shell = ["sh", "-c", f'exec "$0" "$@" {redirects}', RX]
            status, replies = run(journal, inserts(["more"]), command=shell)
            due = {4} if 0 in shut else {5} if 1 in shut else {0}
            insist(status in due, f"{redirects}: status {status}, not {due}")
            insist(0 in shut or 1 in shut or len(replies) == 2, f"{redirects}: {replies}")
            if os.path.exists(journal):
                insist(content(journal)[:8] == b"RXJOURN1", f"{redirects}: the journal's header is gone")
            all_there(journal, kept)
    return "input fails with 4, output with 5, and the journal never stands in their place"


def trace(folder, journal, lines):
    """The system calls of a run."""
    out = os.path.join(folder, "trace")
    status, _ = run(journal, lines, command=[*tracing(out), RX], cwd=folder)
    insist(status == 0, f"the traced run ended with {status}")
    return calls_in(out)


@case("the lock and the folder's sync", needs=["strace"])
def order_of_calls(folder):
    needs_trace()
    for journal, parent in ((os.path.join(folder, "journal"), folder), ("near", ".")):
        for keys in (["a", "b"], ["c", "d"]):
            calls = trace(folder, journal, inserts(keys))
            opened = [place for place, (name, words, answer) in enumerate(calls)
                      if name == "openat" and f'"{journal}"' in words and answer >= 0]
            insist(len(opened) == 1, f"the journal was opened {len(opened)} times")
            locked_and_named(calls[opened[0]:], parent)
    return "each run locks before it reads or writes, and syncs the folder once, before any reply"


def locked_and_named(calls, parent):
    """The calls of a run from where it opened its journal on."""
    journal = str(calls[0][2])
    names = [name for name, _, _ in calls]
    insist("flock" in names, "the file was not locked")
    locked = names.index("flock")
    insist(calls[locked][1] == f"{journal}, LOCK_EX|LOCK_NB", f"the lock: {calls[locked][1]}")
    touched = [names.index(name) for name in ("pread64", "pwrite64") if name in names]
    insist(locked < min(touched), "the file was read or written before it was locked")
    replies = [place for place, name in enumerate(names) if name == "write"]
    insist(("close", journal, 0) not in calls[:replies[-1]], "the lock was given up before the end")
    folders = [place for place, (name, words, _) in enumerate(calls)
               if name == "openat" and f'"{parent}"' in words]
    insist(len(folders) == 1, f"the folder was opened {len(folders)} times")
    insist(folders[0] < replies[0], "a reply was written before the folder was synced")
    synced = ("fsync", str(calls[folders[0]][2]), 0)
    insist(synced in calls[folders[0]:replies[0]], "the folder was not synced")


@case("syncs before replies", needs=["strace"])
def synced_before_reply(folder):
    needs_trace()
    journal = os.path.join(folder, "journal")
    calls = trace(folder, journal, inserts([f"k{key}" for key in range(20)]))
    open_writes = 0
    for name, words, _ in calls:
        if name == "pwrite64":
            open_writes += 1
        elif name == "fdatasync":
            open_writes = 0
        elif name == "write" and words.startswith("1,"):
            insist(open_writes == 0, "a reply was written before its record was synced")
    return "no reply goes out while a write isn't synced"


@case("a full disk")
def full_disk(folder):
    """The file may grow to each length in turn, so that each write of a run fails once."""
    keys = [f"k{key}" for key in range(8)]
    whole = os.path.join(folder, "whole")
    status, _ = run(whole, inserts(keys))
    insist(status == 0, f"the whole run ended with {status}")
    most = os.path.getsize(whole)
    for size in range(0, most + 1, 3):
        journal = os.path.join(folder, f"journal{size}")
        status, replies = run(journal, inserts(keys), prepare=room(size))
        insist(status in ({3} if size < most else {0, 3}), f"{size} bytes: status {status}")
        insist(status == 0 or replies[-1] == DISK, f"{size} bytes: {replies[-1:]}")
        all_there(journal, acknowledged(keys, replies))
    return f"at each third length up to {most} bytes: 3, and all acknowledged is there"


@case("something else in the journal's place")
def other_things_in_its_place(folder):
    pipe = os.path.join(folder, "pipe")
    os.mkfifo(pipe)
    places = [folder, os.path.join(folder, "missing", "journal"), pipe, "/dev/null", "/dev/full",
              "/dev/zero", os.path.join(folder, "name" * 100)]
    for place in places:
        status, replies = run(place, inserts(["a"]))
        insist((status, replies) == (3, [DISK]), f"{place}: {status} {replies}")
    return "a folder, a missing folder, a pipe, devices, a name too long: 3"


@case("a file that is no journal")
def no_journal(folder):
    """A file of more than nine bytes that is no journal is left as it is."""
    other = os.path.join(folder, "other")
    contents = [b"a letter to a friend\n", b"RXJOURN1" + b"\1" * 40, b"RXJOURN2" + bytes(20), bytes(10)]
    for before in contents:
        with open(other, "wb") as file:
            file.write(before)
        status, replies = run(other, inserts(["a"]))
        insist((status, replies) == (7, [{"stop": "not_journal"}]), f"{before}: {status} {replies}")
        insist(content(other) == before, f"{before} was changed")
    return "7, and it stays as it was"


# ---- the records of migrations, byte by byte as docs/JOURNAL.md has them

def commit(name, docs):
    """The first write of a collection."""
    rows = (number(1, 8) + packed_state(it) for it in sorted(docs, key=lambda it: it["id"]))
    return b"\2" + packed(name) + number(1, 8) + number(len(docs)) + b"".join(rows)


def made(name, schema):
    return b"\1" + packed(name) + packed(Rules(schema).text)


def rename(field, to):
    return b"\0" + packed(field) + packed(to)


def fill(field, value):
    return b"\1" + packed(field) + packed_value(value)


def drop(field):
    return b"\2" + packed(field)


def scale(field, by):
    return b"\3" + packed(field) + number(by, 2)


def migration(steps, schema=None, name="c", text=None, count=None):
    """The record that takes a collection, c, to its next schema."""
    text = Rules(schema or NEXT).text if text is None else text
    count = len(steps) if count is None else count
    return b"\6" + packed(name) + packed(text) + number(count) + b"".join(steps)


NEXT = {**SCHEMA, "version": 1, "properties": {**SCHEMA["properties"], "t": {"type": "string"}}}
LETTERS = ["", "9", "_", "a-b", "a b", "\u00e9", "$a", "a" * 65]


def steps_that_name(field):
    return [rename(field, "n"), rename("n", field), fill(field, "x"), drop(field), scale(field, 1)]


def legal_migrations():
    """What the two documents of a collection are after it."""
    a, b = {"id": "a", "n": 3}, {"id": "b"}
    yield migration([]), [a, b]
    yield migration([fill("t", "x")]), [{**a, "t": "x"}, {**b, "t": "x"}]
    yield migration([scale("n", 1_000), drop("z")]), [{**a, "n": 3_000}, b]
    yield migration([rename("n", "n"), rename("z", "n")]), [a, b]
    yield migration([drop("n"), fill("n", -7)]), [{**a, "n": -7}, {**b, "n": -7}]
    yield migration([scale("n", 2)] * 5 + [fill("a" * 64, True), drop("a" * 64)]), [{**a, "n": 96}, b]
    yield migration([drop("t")] * 64), [a, b]


def illegal_migrations():
    yield "65 steps", migration([drop("t")] * 65)
    yield "one step less than it says", migration([drop("t")], count=2)
    yield "one step more", migration([drop("t")] * 2, count=1)
    yield "a byte behind it", migration([drop("t")]) + b"\0"
    yield "a step of no kind", migration([b"\4" + packed("t")])
    yield "nothing times n", migration([scale("n", 0)])
    yield "1,001 times n", migration([scale("n", 1_001)])
    yield "a flag of 2", migration([fill("t", False)[:-1] + b"\2"])
    yield "a value of no kind", migration([b"\1" + packed("t") + b"\3"])
    yield "a number out of range", migration([fill("n", 2**53)])
    for field in LETTERS:
        yield from ((f"a field {field!r}", migration([step])) for step in steps_that_name(field))
    yield from (("a step of the key", migration([step])) for step in steps_that_name("id"))
    yield "a product out of range", migration([scale("n", 1_000)] * 6)
    yield "a text in a number", migration([drop("n"), fill("n", "x")])
    yield "a field that isn't there any more", migration([rename("n", "z")])
    yield "the version that is held", migration([], SCHEMA)
    yield "two versions on", migration([], {**NEXT, "version": 2})
    properties = {**NEXT["properties"], "t": SCHEMA["properties"]["id"]}
    other = {**NEXT, "primaryKey": "t", "properties": properties}
    yield "another primary key", migration([fill("t", "x")], other)
    yield "a required field", migration([], {**NEXT, "required": ["t"]})
    yield "a collection that isn't there", migration([], name="d")
    yield "no canonical text", migration([], text=compact(NEXT))
    yield "no schema", migration([], text="{}")


@case("migrations that a file has and no line would write")
def migrations_in_a_file(folder):
    """Those that are legal are opened, and what they made is there. With another one it is no journal, and
    stays as it is."""
    documents = commit("c", [{"id": "a", "n": 3}, {"id": "b"}])
    legal, refused = [*legal_migrations()], [*illegal_migrations()]
    found = compact({"do": "find", "in": "c", "query": {}})
    for place, (record, rows) in enumerate(legal):
        journal = os.path.join(folder, f"legal{place}")
        written(journal, made("c", SCHEMA), documents, record)
        get = compact({"do": "get", "in": "c", "key": "a"})
        status, replies = run(journal, [collection("c", NEXT), found, get])
        same((status, replies[0]["new"], replies[1]["rows"]), (0, False, rows), f"legal {place}")
        same((replies[2]["lwt"], replies[2]["rev"]), (1, "1-c"), f"legal {place}, a")
    for what, record in refused:
        journal = os.path.join(folder, "journal")
        before = written(journal, made("c", SCHEMA), documents, record)
        same(run(journal, [found]), (7, [{"stop": "not_journal"}]), what)
        insist(content(journal) == before, f"{what}: it was changed")
    return f"{len(legal)} are opened, and {len(refused)} refused with 7"


@case("a migration in a file, of a fork and its master")
def migrations_of_a_group_in_a_file(folder):
    """Both go, with what the fork knows. Where a state that it knows can't, or its master is at a port, it is
    no journal."""
    state = {"id": "a", "n": 3}
    sides = [made("m", SCHEMA), made("f", SCHEMA), commit("m", [state])]
    place = b"\1" + number(1, 8) + packed("a")
    local = b"\3" + packed("r") + packed("f") + b"\0" + packed("m") + packed("join") + b"\0"
    remote = b"\3" + packed("r") + packed("f") + b"\1" + number(4_001, 2) + packed("join") + b"\0"
    pulled = (b"\4" + packed("r") + number(1, 8) + number(1) + number(1, 8) + packed_state(state)
              + number(1) + packed_state(state) + b"\0" + place)
    rest = number(2, 8) + number(1) + number(2, 8) + packed_state({"id": "a", "n": 9_000})
    edited = [b"\2" + packed(side) + rest for side in "mf"]
    journal = os.path.join(folder, "journal")

    written(journal, *sides, local, pulled, migration([scale("n", 10)], name="f"))
    lines = [collection(side, NEXT) for side in "mf"]
    lines += [compact({"do": "get", "in": side, "key": "a"}) for side in "mf"]
    status, replies = run(journal, [*lines, compact({"do": "turn", "name": "r"})])
    same((status, [it["doc"] for it in replies[2:4]]), (0, [{"id": "a", "n": 30}] * 2), "both sides")
    quiet = [{"exchange": 1, "place": {"id": "a", "lwt": 1}, "rows": [], "sent": "pull"},
             {"end": "quiet", "exchanges": 1, "line": 5, "ok": "turn"}]
    same(replies[4:], quiet, "a turn")

    at_least = {**NEXT, "properties": {**NEXT["properties"], "n": {"type": "integer", "minimum": 100}}}
    cases = {
        "a state that the fork knows": [*sides, local, pulled, *edited, migration([], at_least, name="m")],
        "a master at a port": [*sides, remote, migration([], name="f")],
    }
    for what, bodies in cases.items():
        before = written(journal, *bodies)
        same(run(journal, []), (7, [{"stop": "not_journal"}]), what)
        insist(content(journal) == before, f"{what}: it was changed")
        written(journal, *bodies[:-1])
        same(run(journal, [])[0], 0, f"{what}, without the migration")
    return "both sides and what the fork knows go, or none"


@case("a cap on memory")
def little_memory(folder):
    """Caps on the address space, from where an empty script runs to where this one does."""
    docs = [[{"id": f"k{bulk}-{key}", "n": key} for key in range(500)] for bulk in range(60)]
    lines = [collection(), *(compact({"do": "bulk", "in": "c", "docs": some}) for some in docs)]
    ended, cap = {}, 4 << 20
    while ended.get(0, 0) == 0:
        insist(cap < 2 << 30, f"no cap is large enough; statuses {ended}")
        journal = os.path.join(folder, f"journal{cap}")

        def limit(cap=cap):
            resource.setrlimit(resource.RLIMIT_AS, (cap, cap))

        cap = cap * 9 // 8
        if run(os.path.join(folder, f"empty{cap}"), [], prepare=limit)[0] != 0:
            continue
        status, replies = run(journal, lines, prepare=limit)
        insist(status in {0, 6}, f"{cap >> 10} KiB: status {status} {replies[-1:]}")
        insist(status == 0 or replies[-1] == {"stop": "memory"}, f"{cap >> 10} KiB: {replies[-1:]}")
        done = {reply["line"] for reply in replies if reply.get("ok") == "bulk"}
        all_there(journal, {doc["id"] for line in done for doc in docs[line - 2]})
        ended[status] = ended.get(status, 0) + 1
    insist(ended.get(6, 0) >= 2, f"statuses {ended}")
    return f"{ended[6]} caps: 6, and all acknowledged is there"


@case("an output that is full or goes away")
def output_that_takes_nothing(folder):
    journal = os.path.join(folder, "journal")
    keys = [f"k{key}" for key in range(100)]
    kept = acknowledged(keys[:50], run(journal, inserts(keys[:50]))[1])
    with open("/dev/full", "wb") as full:
        status, _ = run(journal, inserts(keys[50:]), stdout=full)
    insist(status == 5, f"a full output: status {status}")
    all_there(journal, kept)
    for lines_read in (0, 1, 30):
        reader, writer = os.pipe()
        child = subprocess.Popen([RX, "run", journal], stdin=subprocess.PIPE, stdout=writer)
        os.close(writer)
        with open(reader, "rb") as replies:
            child.stdin.write(text([collection()]))
            for line in range(lines_read):
                child.stdin.write(text([insert(f"gone{lines_read}-{line}")]))
                child.stdin.flush()
                replies.readline()
                kept.add(f"gone{lines_read}-{line - 1}") if line else None
        try:
            for line in range(200):
                child.stdin.write(text([insert(f"late{lines_read}-{line}")]))
            child.stdin.close()
        except BrokenPipeError:
            pass
        status = child.wait(SECONDS)
        insist(status == 5, f"an output that went away after {lines_read} lines: status {status}")
        all_there(journal, kept)
    return "5 where it is full or goes away, and all acknowledged is there"


@case("kill -9 in a loop")
def killed_in_a_loop(folder):
    """SIGKILL in a loop: after some replies that were read, while more lines are played."""
    journal = os.path.join(folder, "journal")
    moments = random.Random(SEED)
    kept, rounds = set(), 60
    for turn in range(rounds):
        talk = Talk(journal)
        insist(talk.ask(collection()), f"round {turn}: the journal doesn't open")
        keys = [f"k{turn}-{key}" for key in range(moments.randrange(30))]
        for key in keys:
            reply = talk.ask(insert(key))
            insist(reply and reply.get("ok") == "insert", f"round {turn}: {reply}")
            kept.add(key)
        more = [f"more{turn}-{key}" for key in range(20)]
        talk.send(map(insert, more))
        time.sleep(moments.uniform(0, 0.02))
        rest = answers(talk.kill())
        kept |= set(more[:sum(reply.get("ok") == "insert" for reply in rest)])
        all_there(journal, kept)
    return f"{rounds} times: the next run has all acknowledged inserts, {len(kept):,} in the end"


@case("kill -9 in a group")
def killed_in_a_group(folder):
    """SIGKILL while lines that were sent in one piece are played. The first of them stand and no other,
    and all that were answered do."""
    moments = random.Random(SEED)
    keys = [f"k{key:03}" for key in range(200)]
    rounds, between, answered = 300, 0, 0
    for round_ in range(rounds):
        journal = os.path.join(folder, f"journal{round_}")
        talk = Talk(journal)
        insist(talk.ask(collection()), f"round {round_}: no journal")
        talk.send(map(insert, keys))
        time.sleep(moments.uniform(0, 0.01))
        rest = sum(reply.get("ok") == "insert" for reply in answers(talk.kill()))
        stand = held(journal)
        insist(stand == set(keys[:len(stand)]), f"round {round_}: {len(stand)} stand, not the first")
        insist(len(stand) >= rest, f"round {round_}: {rest} answered, {len(stand)} stand")
        between += 0 < len(stand) < len(keys)
        answered += rest > 0
        os.remove(journal)
    return f"{rounds} times, {answered} behind an answer, {between} with a part of the lines: the first stand"


@case("kill -9 in a turn")
def killed_in_a_turn(folder):
    """SIGKILL while exchanges are made. Numbers rise with each write on either side, and of two that
    conflict the greater is kept: so each key has to have the number that was acknowledged last."""
    journal = os.path.join(folder, "journal")
    moments, kept, rounds, cut = random.Random(SEED), {}, 40, 0
    begin = [collection(name) for name in "mf"]
    begin.append(compact({"do": "replicate", "name": "r", "fork": "f", "master": "m",
                          "handler": "greater", "field": "n"}))
    turn = {"do": "turn", "name": "r", "batch": 1}
    number = 0
    for round_ in range(rounds):
        talk = Talk(journal)
        insist(all([talk.ask(line) for line in begin]), f"round {round_}: the journal doesn't open")
        for number in range(number + 1, number + 1 + moments.randrange(20)):
            key, side = f"k{moments.randrange(30)}", moments.choice("mf")
            reply = talk.ask(compact({"do": "upsert", "in": side, "doc": {"id": key, "n": number}}))
            insist(reply and reply.get("ok") == "upsert", f"round {round_}: {reply}")
            kept[key] = number
        talk.send([compact(turn)])
        time.sleep(moments.uniform(0, 0.02))
        cut += not answers(talk.kill())
    found = [compact({"do": "find", "in": side, "query": {}}) for side in "mf"]
    status, replies = run(journal, [compact(turn), *found])
    insist(status == 0, f"the next run ended with {status}")
    insist(replies[-3]["end"] == "quiet", f"the next turn: {replies[-3]}")
    for reply in replies[-2:]:
        there = {row["id"]: row["n"] for row in reply["rows"]}
        wrong = {key: (there.get(key), n) for key, n in kept.items() if there.get(key) != n}
        insist(there.keys() == kept.keys() and not wrong, f"found and due: {wrong}")
    return f"{rounds} times, {cut} before the turn's answer: the next is quiet, and no update is lost"


SWEEP = compact({"do": "sweep", "name": "m", "batch": 1})
BELOW = {"f": "m", "g": "f", "h": "f", "i": "m"}


@case("kill -9 in a sweep")
def killed_in_a_sweep(folder):
    """SIGKILL while a sweep over a master, its two forks and two of one of these is made. Of the records that it
    makes where it isn't killed the first stand and no other, all where it was answered. Numbers are as in a turn."""
    journal, whole = os.path.join(folder, "journal"), os.path.join(folder, "whole")
    moments, kept, rounds, stood, longest, number = random.Random(SEED), {}, 40, Counter(), 0.2, 0
    begin = [collection(name) for name in "mfghi"]
    begin += (compact({"do": "replicate", "name": f"{fork}-{master}", "fork": fork, "master": master,
                       "handler": "greater", "field": "n"}) for fork, master in BELOW.items())
    for round_ in range(rounds):
        talk = Talk(journal)
        insist(all([talk.ask(line) for line in begin]), f"round {round_}: the journal doesn't open")
        for number in range(number + 1, number + 1 + moments.randint(20, 60)):
            key, side = f"k{moments.randrange(30)}", moments.choice("mfghi")
            reply = talk.ask(compact({"do": "upsert", "in": side, "doc": {"id": key, "n": number}}))
            insist(reply and reply.get("ok") == "upsert", f"round {round_}: {reply}")
            kept[key] = number
        before = len(records(journal))
        shutil.copy(journal, whole)
        begun = time.monotonic()
        talk.send([SWEEP])
        if round_:
            time.sleep(moments.uniform(0, 1.5 * longest))
        else:  # how long one takes that isn't killed
            while b'"turns":' not in talk.child.stdout.readline():
                pass
            longest = time.monotonic() - begun
        is_answered = any("turns" in it for it in answers(talk.kill())) or not round_
        insist(run(whole, [SWEEP])[0] == 0, f"round {round_}: the whole sweep")
        # The run over the copy began another epoch.
        due, stand = records(whole)[before + 1:], records(journal)[before:]
        insist(stand == due[:len(stand)], f"round {round_}: other records than the first of {len(due)} stand")
        insist(len(stand) == len(due) or not is_answered, f"round {round_}: what was answered is lost")
        stood["all" if len(stand) == len(due) else "some" if stand else "none"] += 1
    status, replies = run(journal, [SWEEP, *(compact({"do": "find", "in": side, "query": {}}) for side in "mfghi")])
    insist(status == 0, f"the next run ended with {status}")
    same(replies[-6], {"end": "quiet", "line": 1, "ok": "sweep", "turns": 8}, "the next sweep")
    for reply in replies[-5:]:
        there = {row["id"]: row["n"] for row in reply["rows"]}
        same(there, kept, "the numbers")
    told = ", ".join(f"{what} {count} times" for what, count in sorted(stood.items()))
    insist(stood["none"] and stood["all"], told)
    return f"{rounds} times: of the records {told}; the next is quiet, and no update is lost"


DELIVER = compact({"do": "deliver", "name": "r"})


def bulk(round_, number, count):
    """The keys of a bulk of its own, and its line."""
    keys = [f"k{round_}-{number}-{key}" for key in range(count)]
    return keys, compact({"do": "bulk", "in": "m", "docs": [{"id": key, "n": number} for key in keys]})


def found_behind(journal, round_):
    """What stands of a round's documents on the fork, behind which a turn brings both sides together."""
    lines = [DELIVER, compact({"do": "find", "in": "f", "query": {}}), compact({"do": "turn", "name": "r"}),
             *map(digest, "mf")]
    status, replies = run(journal, lines)
    insist(status == 1 and replies[0].get("refused") == "no_stream", f"round {round_}: {status} {replies[:1]}")
    insist(replies[-3].get("end") == "quiet", f"round {round_}: the next turn {replies[-3]}")
    insist(replies[-2]["digest"] == replies[-1]["digest"], f"round {round_}: the sides differ")
    return {row["id"] for row in replies[1]["rows"] if row["id"].startswith(f"k{round_}-")}


@case("kill -9 in a delivery")
def killed_in_a_delivery(folder):
    """SIGKILL while events are delivered. The fork has the first of them and no other, all where the delivery was
    answered, and a turn in the next run brings the rest."""
    journal, rounds, cut = os.path.join(folder, "journal"), 40, 0
    replicate = {"do": "replicate", "name": "r", "fork": "f", "master": "m", "handler": "join"}
    insist(run(journal, [collection("m"), collection("f"), compact(replicate)])[0] == 0, "the first run")
    moments, longest = random.Random(SEED), 0.2
    for round_ in range(rounds):
        talk, events = Talk(journal), []
        insist(talk.ask(compact({"do": "stream", "name": "r"})), f"round {round_}: the journal doesn't open")
        for number in range(moments.randint(1, 60)):
            keys, line = bulk(round_, number, moments.randint(1, 20))
            insist("ok" in talk.ask(line), f"round {round_}: a bulk")
            events.append(keys)
        begun = time.monotonic()
        talk.send([DELIVER])
        if round_:
            time.sleep(moments.uniform(0, 1.5 * longest))
            replies = answers(talk.kill())
        else:  # how long one takes that isn't killed
            replies = [json.loads(talk.child.stdout.readline()) for _ in range(len(events) + 1)]
            longest = time.monotonic() - begun
            talk.kill()
        is_answered = any("level" in it for it in replies)
        stand = found_behind(journal, round_)
        fronts = [{key for keys in events[:count] for key in keys} for count in range(len(events) + 1)]
        insist(stand in fronts, f"round {round_}: {len(stand)} documents stand, no front of the events")
        insist(stand == fronts[-1] or not is_answered, f"round {round_}: what was answered is lost")
        cut += not is_answered
    return f"{rounds} times, {cut} before the answer: a front of the events stands, and a turn brings the rest"


FIELDS = "nv"


def at_version(version):
    """A schema whose number has one name or the other."""
    properties = {"id": SCHEMA["properties"]["id"], FIELDS[version % 2]: {"type": "integer"}}
    return {**SCHEMA, "version": version, "properties": properties}


def migrate(into, version):
    """The line that takes a collection there from the version before."""
    return compact({"do": "migrate", "in": into, "schema": at_version(version),
                    "steps": [{"rename": FIELDS[(version + 1) % 2], "to": FIELDS[version % 2]}]})


def held_version(journal, version, count):
    """Which of two versions a fork and its master have, both the same one, with all documents of that."""
    lines = [collection(side, at_version(one)) for one in (version, version + 1) for side in "mf"]
    _, replies = run(journal, [*lines, *(compact({"do": "find", "in": side, "query": {}}) for side in "mf")])
    has = ["ok" in it for it in replies[:4]]
    insist(has in ([True, True, False, False], [False, False, True, True]), f"at {version}: {replies[:4]}")
    version += has[2]
    rows = [row for reply in replies[4:] for row in reply["rows"]]
    insist(len(rows) == 2 * count, f"at {version}: {len(rows)} documents")
    insist(all(row.keys() == {"id", FIELDS[version % 2]} for row in rows), f"at {version}: other fields")
    return version


@case("kill -9 in a migration")
def killed_in_a_migration(folder):
    """SIGKILL while a fork and its master migrate. Both have the schema of before, or the next one with all of
    their documents, which they have where the line was answered."""
    journal, count, rounds, cut = os.path.join(folder, "journal"), 1_000, 40, 0
    docs = [{"id": f"k{key}", "n": key % 100} for key in range(count)]
    begin = [collection(side) for side in "mf"]
    begin.append(compact({"do": "replicate", "name": "r", "fork": "f", "master": "m", "handler": "join"}))
    begin.append(compact({"do": "bulk", "in": "m", "docs": docs}))
    status, _ = run(journal, [*begin, compact({"do": "turn", "name": "r"})])
    insist(status == 0, f"the first run ended with {status}")
    # How long one takes that isn't killed.
    talk, moments, version = Talk(journal), random.Random(SEED), 1
    insist(talk.ask(compact({"do": "tick", "at": 0})), "the journal doesn't open")
    begun = time.monotonic()
    insist("ok" in talk.ask(migrate("m", version)), "the first migration")
    longest = time.monotonic() - begun
    insist(talk.end() == 0, "the run of the first migration")
    for round_ in range(rounds):
        talk = Talk(journal)
        insist(talk.ask(compact({"do": "tick", "at": 0})), f"round {round_}: the journal doesn't open")
        talk.send([migrate(moments.choice("mf"), version + 1)])
        time.sleep(moments.uniform(0, 1.5 * longest))
        replies = answers(talk.kill())
        insist(not replies or "ok" in replies[0], f"round {round_}: {replies}")
        now = held_version(journal, version, count)
        insist(now > version or not replies, f"round {round_}: what was answered is lost")
        version, cut = now, cut + (not replies)
    _, replies = run(journal, [compact({"do": "turn", "name": "r"})])
    quiet = {"end": "quiet", "exchanges": 1, "line": 1, "ok": "turn"}
    insist(replies[-1] == quiet, f"the last turn: {replies}")
    return f"{rounds} times, {cut} before the answer: {version} migrations stand, each of both sides"


if __name__ == "__main__":
    main()
