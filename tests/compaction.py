#!/usr/bin/env python3
"""The command `compact` of the built program over real files: each byte of a copy, what may stand in its place,
what fails while it is made, kills at any moment, and scripts that are played on over a journal and its copy.

Whatever happens the journal stays as it was, and the copy is absent, without a record, refused as no journal, or
whole.
"""
import fcntl
import hashlib
import json
import os
import random
import shutil
import signal
import subprocess
import time
from collections import Counter
from itertools import islice

from model import Rules
from shared import (HANDLERS, RX, SCHEMA, SECONDS, SEED, Server, Skipped, Talk, add, all_there, answers, calls_in, case,
                    checked, collection, command, compact, content, held, insert, inserts, insist, journal_of, killed,
                    main, needs_trace, number, packed, packed_state, room, run, same, stand_of, text, tracing, world_of,
                    written)

DISK, EXISTS, NOT_JOURNAL, EPOCH, USAGE = (
    text([compact({"stop": cause})]) for cause in ("disk", "exists", "not_journal", "epoch", "usage"))
# What a run without lines leaves.
EMPTY = bytes.fromhex("52584a4f55524e31 01 00000009 05 0000000000000001 00")
SECOND = b"RXJOURN2"
MOST_EPOCH = 2**52
NOBODY = 65_534


def made(end, source, records):
    """What is told of a copy."""
    return text([compact({"bytes": end, "from": source, "records": records})])


def full(limit, would):
    return text([compact({"limit": limit, "stop": "full", "would": would})])


def copy_of_nothing(epoch):
    """The copy of a world without collections."""
    return bytes.fromhex("52584a4f55524e32 01 00000009 09") + number(epoch, 8) + b"\0"


def put(path, before):
    """Makes a file, or leaves it absent where that is None."""
    if before is not None:
        with open(path, "wb") as file:
            file.write(before)


def found(path):
    return content(path) if os.path.exists(path) else None


def copied(journal, out, *more, prepare=None, words=(RX,), **streams):
    """The status of a command that copies a journal, and what it wrote."""
    done = subprocess.run([*words, "compact", journal, out, *more], stdin=subprocess.DEVNULL, preexec_fn=prepare,
                          timeout=SECONDS, check=False,
                          **{"stdout": subprocess.PIPE, "stderr": subprocess.DEVNULL, **streams})
    return done.returncode, done.stdout


def whole_copy(journal, out):
    """Copies a journal, and answers what is told of it."""
    status, said = copied(journal, out)
    insist(status == 0, f"a copy: {status} {said}")
    return json.loads(said)


# ---- bytes

@case("the copies of empty worlds")
def empty_worlds(folder):
    """What has no record stays as it is, also where it is absent."""
    nothing = [None, b"", b"a", b"RXJOURN1", b"RXJOURN1\0", b"RXJOURN2\0", bytes(9), b"a letter."]
    cases = [(it, copy_of_nothing(0), 9) for it in nothing]
    cases += [(EMPTY, copy_of_nothing(1), 23), (copy_of_nothing(0), copy_of_nothing(0), 23),
              (EMPTY + b"any bytes", copy_of_nothing(1), 23)]
    for at, (before, due, source) in enumerate(cases):
        journal, out = (os.path.join(folder, f"{name}{at}") for name in ("journal", "out"))
        put(journal, before)
        same(copied(journal, out), (0, made(23, source, 1)), f"{before}")
        same((content(out), found(journal)), (due, before), f"{before}: the copy and the journal")
    same(run(out, []), (0, []), "a run over a copy")
    same(content(out), due[:-1] + bytes.fromhex("01 00000009 05 0000000000000002 00"), "what it left")
    before = content(out)
    same((copied(journal, out), content(out)), ((11, EXISTS), before), "a second copy")
    return f"{len(cases)} journals without a collection: 23 bytes each, and a run goes on behind them"


# The lines, the journal's length and, where they are known, its epoch and the hash of the copy.
TRIALS = [
    (2_000, 314_568, 115, "8ad45d0e06218234df585a9c0e569c7114502873f3466938b9ff9a775ebf0f00"),
    (4_000, 622_527, None, None),
]
TRIAL_COPY = 9_263


def trial(folder, lines):
    """A journal that a trial left, without the limit of time of other commands."""
    journal = os.path.join(folder, f"journal{lines}")
    done = subprocess.run([RX, "trial", journal, "7", str(lines)], capture_output=True, check=False)
    insist(done.returncode == 0, f"a trial: {done.returncode} {done.stdout}")
    return journal


@case("the copy of a trial", seconds=3_600)
def trials(folder):
    for lines, source, epoch, digest in TRIALS:
        journal, out = trial(folder, lines), os.path.join(folder, f"out{lines}")
        before = content(journal)
        same(copied(journal, out), (0, made(TRIAL_COPY, source, 7)), f"{lines} lines")
        insist(content(journal) == before, f"{lines} lines: the journal was changed")
        same(len(content(out)), TRIAL_COPY, f"{lines} lines: the bytes of the copy")
        insist(digest in (None, hashlib.sha256(content(out)).hexdigest()), f"{lines} lines: other bytes")
        told, copy = checked(journal), checked(out)
        same(copy[:-1], told[:-1], f"{lines} lines: a report")
        same(copy[-1], {**told[-1], "end": TRIAL_COPY, "records": 7}, f"{lines} lines: its last line")
        insist(epoch in (None, told[-1]["epoch"]), f"{lines} lines: the epoch {told[-1]['epoch']}")
    return f"journals of {' and '.join(f'{it[1]:,}' for it in TRIALS)} bytes: {TRIAL_COPY:,}"


@case("a copy that is a byte too long", seconds=3_600)
def too_long(folder):
    journal, out = trial(folder, TRIALS[1][0]), os.path.join(folder, "out")
    before, limit = content(journal), TRIAL_COPY - 1
    same(copied(journal, out, "--max-journal", str(limit)), (8, full(limit, TRIAL_COPY)), "what is told")
    insist(content(journal) == before, "the journal was changed")
    # All but the last record, with its gate and its length.
    same(len(content(out)), TRIAL_COPY - 14, "the bytes that are left")
    same(stand_of(out, world_of(checked(journal))), "refused", "a copy without an end")
    return f"8, and {TRIAL_COPY - 14:,} bytes are left, which a run refuses"


def state(key, n):
    return {"id": key, "n": n}


def keys(count):
    """Some keys, as they rise by their bytes."""
    return [f"k{at:03}" for at in range(count)]


def listed(parts):
    parts = [*parts]
    return number(len(parts)) + b"".join(parts)


def row(height, key, n, is_deleted=False):
    return number(height, 8) + packed_state(state(key, n), is_deleted)


def commit(name, moment, rows):
    return b"\2" + packed(name) + number(moment, 8) + listed(rows)


def exchange(name, moment, rows, known, up, down):
    return b"\4" + packed(name) + number(moment, 8) + listed(rows) + listed(known) + up + down


def replication(name, fork, master, handler, field=b"\0"):
    return b"\3" + packed(name) + packed(fork) + master + packed(handler) + field


def parts_of(kind, name, of, behind=b""):
    """The records of a list, a hundred each."""
    return [kind + packed(name) + listed(of[at:at + 100]) + behind for at in range(0, len(of), 100)]


def place(moment, key):
    return b"\1" + number(moment, 8) + packed(key)


NONE = b"\0"
COUNTS = (1, 99, 100, 101, 200, 250)


def world_by_hand(count):
    """The records of a journal whose master has so many documents, half of them written again later and every
    seventh of these removed; a fork that knows them, one at a port that knows a checkpoint alone, one that knows
    nothing. And those of its copy."""
    schema = packed(Rules(SCHEMA).text)
    sides = [b"\1" + packed(name) + schema for name in ("master", "fork", "away", "idle")]
    joins = [
        replication("z", "fork", b"\0" + packed("master"), "greater", b"\1" + packed("n")),
        replication("b", "away", b"\1" + number(4_001, 2), "join"),
        replication("a", "idle", b"\0" + packed("fork"), "fork_wins"),
    ]
    first, again = keys(count), keys(count)[::2]
    removed = again[::7]
    states = {key: packed_state(state(key, -1 if key in again else 1), key in removed) for key in first}
    known = [states[key] for key in first]
    last = place(5, again[-1])
    fork_rows = [number(1, 8) + it for it in known]
    bodies = [
        *sides, b"\5" + number(1, 8), *joins,
        commit("master", 3, [row(1, key, 1) for key in first]),
        commit("master", 5, [row(2, key, -1, key in removed) for key in again]),
        b"\5" + number(2, 8),
        exchange("z", 8, fork_rows, known, place(8, first[0]), last),
        exchange("b", 0, [], [], NONE, place(7, "q")),
    ]
    early = [number(3, 8) + number(1, 8) + states[key] for key in first if key not in again]
    late = [number(5, 8) + number(2, 8) + states[key] for key in again]
    copy = [
        *sides, *joins, *parts_of(b"\7", "master", early + late),
        *parts_of(b"\7", "fork", [number(8, 8) + it for it in fork_rows]),
        *parts_of(b"\x08", "z", known, place(8, first[0]) + last),
        b"\x08" + packed("b") + listed([]) + NONE + place(7, "q"),
        b"\x09" + number(2, 8),
    ]
    return bodies, copy


@case("a copy record by record")
def record_by_record(folder):
    """Worlds that are written by hand: parts of a hundred documents by their places, and of a hundred known states
    by their keys, each with both checkpoints."""
    for count in COUNTS:
        journal, out = (os.path.join(folder, f"{name}{count}") for name in ("journal", "out"))
        bodies, copy = world_by_hand(count)
        before, due = written(journal, *bodies), journal_of(*copy, header=SECOND)
        same(copied(journal, out), (0, made(len(due), len(before), len(copy))), f"{count} documents")
        insist(content(journal) == before, f"{count} documents: the journal was changed")
        insist(content(out) == due, f"{count} documents: another copy")
        same(world_of(checked(out)), world_of(checked(journal)), f"{count} documents: a report")
    return f"masters of {', '.join(map(str, COUNTS))} documents: each copy has the records that are due"


# A journal of few documents, and the records of its copy.
SMALL, SMALL_COPY = world_by_hand(20)
SMALL_BYTES = journal_of(*SMALL_COPY, header=SECOND)


# The migrated schema's steps, and the first of the copy's parts behind them.
MIGRATED = {"id": SCHEMA["properties"]["id"], "count": {"type": "integer"}, "on": {"type": "boolean"}}
STEPS = [{"rename": "n", "to": "count"}, {"scale": "count", "by": 10}, {"set": "on", "value": True}]
MIGRATED_PART = (
    "07 00000001 6d 00000001 0000000000000001 0000000000000001 00000001 61 00 00000003 00000005 636f756e74"
    "01 000000000000000a 00000002 6964 02 00000001 61 00000002 6f6e 00 01")
MIGRATED_HASH = "da9299e907dc7e30affff2d474400b8fc4a66bbd78e1b9d0b95ce874af59a241"


def migrated():
    """A fork that has pulled a document goes to the next schema with its master, and turns again."""
    import turns
    schema = {"version": 1, "primaryKey": "id", "type": "object", "properties": MIGRATED, "required": ["id", "on"]}
    turn = compact({"do": "turn", "name": "r"})
    return [*turns.tree_of("m f", "r f m master_wins"), turns.inserted("m", "a", 1), turn,
            compact({"do": "migrate", "in": "m", "schema": schema, "steps": STEPS}),
            compact({"do": "get", "in": "f", "key": "a"}), turn]


def swept():
    """A fork of a fork, whose document a sweep brings to both masters."""
    import turns
    return [*turns.CHAIN, turns.inserted("g", "a", 1), compact({"do": "sweep", "name": "m"})]


@case("copies of a migration and of a sweep")
def migrated_and_swept(folder):
    for name, lines, due, digest in (("migrated", migrated(), (701, 830, 7), MIGRATED_HASH),
                                     ("swept", swept(), (965, 1_145, 11), None)):
        journal, out = (os.path.join(folder, f"{it} {name}") for it in ("journal", "out"))
        same(run(journal, lines)[0], 0, f"{name}: the run")
        same(copied(journal, out), (0, made(*due)), f"{name}: the copy")
        insist(digest in (None, hashlib.sha256(content(out)).hexdigest()), f"{name}: other bytes")
        same(world_of(checked(out)), world_of(checked(journal)), f"{name}: a report")
    part = bytes.fromhex(MIGRATED_PART)
    insist(number(len(part)) + part in content(os.path.join(folder, "out migrated")), "the first part")
    return "701 and 965 bytes, as they are due"


# ---- causes, and their order

ILLEGAL = EMPTY.replace(b"\5", b"\4")
LATE = journal_of(b"\x09" + number(MOST_EPOCH, 8), b"\5" + number(MOST_EPOCH + 1, 8), header=SECOND)
# What the journal is, what is in the copy's place, the words behind them, and how it ends.
CAUSES = [
    ("no journal", b"a letter to a friend\n", None, [], (7, NOT_JOURNAL)),
    ("no legal record", ILLEGAL, None, [], (7, NOT_JOURNAL)),
    ("a copy without an end", SECOND + EMPTY[8:], None, [], (7, NOT_JOURNAL)),
    ("no journal, before a file that exists", ILLEGAL, b"a", [], (7, NOT_JOURNAL)),
    ("no journal, before the limit", ILLEGAL, None, ["--max-journal", "9"], (7, NOT_JOURNAL)),
    ("an epoch above 2^52", LATE, None, [], (12, EPOCH)),
    ("an epoch above 2^52, before a file that exists", LATE, b"a", [], (12, EPOCH)),
    ("an epoch above 2^52, before the limit", LATE, None, ["--max-journal", "9"], (12, EPOCH)),
    ("a file with a byte", EMPTY, b"\0", [], (11, EXISTS)),
    ("a file with a byte, of an absent journal", None, b"a", [], (11, EXISTS)),
    ("a journal", EMPTY, EMPTY, [], (11, EXISTS)),
    ("a journal without records", EMPTY, b"RXJOURN1\0", [], (11, EXISTS)),
    ("a file with a byte, before the limit", EMPTY, b"a", ["--max-journal", "9"], (11, EXISTS)),
    ("usage, before no journal", ILLEGAL, b"a", ["--max-journal", "8"], (2, USAGE)),
    ("a limit of too much", EMPTY, None, ["--max-journal", "4294967296"], (2, USAGE)),
    ("a limit twice", EMPTY, None, ["--max-journal", "99", "--max-journal", "99"], (2, USAGE)),
    ("a word more", EMPTY, None, ["more"], (2, USAGE)),
]
# An empty file is as good as none, and a limit may be as long as the copy.
MADE = [
    ("an empty file", EMPTY, b"", [], 1),
    ("an epoch of 2^52", copy_of_nothing(MOST_EPOCH), None, [], MOST_EPOCH),
    ("the least limit that does", EMPTY, None, ["--max-journal", "23"], 1),
    ("a limit as one word", EMPTY, None, ["--max-journal=23"], 1),
    ("the greatest limit", EMPTY, None, ["--max-journal", "4294967295"], 1),
]


@case("why there is no copy")
def causes(folder):
    for at, (what, journal_before, out_before, more, due) in enumerate(CAUSES):
        journal, out = (os.path.join(folder, f"{name}{at}") for name in ("journal", "out"))
        put(journal, journal_before)
        put(out, out_before)
        same(copied(journal, out, *more), due, what)
        same((found(journal), found(out)), (journal_before, out_before), f"{what}: both files")
    for at, (what, journal_before, out_before, more, epoch) in enumerate(MADE):
        journal, out = (os.path.join(folder, f"made {name}{at}") for name in ("journal", "out"))
        put(journal, journal_before)
        put(out, out_before)
        same(copied(journal, out, *more), (0, made(23, 23, 1)), what)
        same((found(journal), found(out)), (journal_before, copy_of_nothing(epoch)), f"{what}: both files")
    for words in ((), (journal,), (journal, ""), (journal, "-a"), ("", os.path.join(folder, "a"))):
        before = {*os.listdir(folder)}
        same(command("compact", *words), (2, USAGE), f"{words}")
        same({*os.listdir(folder)}, before, f"{words}: the files")
    for limit in (9, 22):
        out = os.path.join(folder, f"limit{limit}")
        same(copied(journal, out, "--max-journal", str(limit)), (8, full(limit, 23)), f"at most {limit} bytes")
        same(stand_of(out, world_of(checked(journal))), "bare", f"at most {limit} bytes: what is left")
    return f"{len(CAUSES)} causes, and {len(MADE)} copies that are made beside them"


# ---- what may stand in the copy's place

def small_journal(folder):
    """A journal of a master and its fork with some documents, and what it has."""
    journal = os.path.join(folder, "journal")
    return journal, written(journal, *SMALL)


@case("a copy by another name of its journal")
def names_of_the_journal(folder):
    journal, before = small_journal(folder)
    names = {name: os.path.join(folder, name) for name in ("hard", "soft", "soft to soft")}
    os.link(journal, names["hard"])
    os.symlink(journal, names["soft"])
    os.symlink("soft", names["soft to soft"])
    os.mkdir(os.path.join(folder, "inner"))
    names |= {"its own": journal, "around": os.path.join(folder, "inner", "..", "journal")}
    for what, name in names.items():
        for pair in ((journal, name), (name, journal)):
            same(copied(*pair), (11, EXISTS), what)
            insist(content(journal) == before, f"{what}: the journal was changed")
    return f"{', '.join(names)}: 11, and it stays as it was"


@case("a copy over its own journal that isn't there")
def absent_itself(folder):
    journal = os.path.join(folder, "journal")
    same(copied(journal, journal), (0, made(23, 9, 1)), "an absent one")
    same(content(journal), copy_of_nothing(0), "what it is then")
    return "it is one of the second version then"


@case("a copy over its own journal that is empty")
def empty_itself(folder):
    """It meets the lock of its journal, which is its own."""
    journal = os.path.join(folder, "journal")
    put(journal, b"")
    same((copied(journal, journal), content(journal)), ((3, DISK), b""), "an empty one")
    return "3, as of a file in use, and it stays empty"


@case("something else in a copy's place")
def other_things_in_its_place(folder):
    """A device that reads as zeros without an end holds a byte."""
    journal, before = small_journal(folder)
    pipe, dangling = os.path.join(folder, "pipe"), os.path.join(folder, "dangling")
    os.mkfifo(pipe)
    os.symlink(os.path.join(folder, "nothing"), dangling)
    places = {place: (3, DISK) for place in (
        folder, os.path.join(folder, "missing", "out"), pipe, dangling, "/dev/null",
        os.path.join(folder, "name" * 100), os.path.join(journal, "out"))}
    places |= {place: (11, EXISTS) for place in ("/dev/full", "/dev/zero")}
    there = {*os.listdir(folder)}
    for where, due in places.items():
        same(copied(journal, where), due, where)
        insist(content(journal) == before, f"{where}: the journal was changed")
    same({*os.listdir(folder)}, there, "the files")
    link, out = os.path.join(folder, "link"), os.path.join(folder, "out")
    put(out, b"")
    os.symlink(out, link)
    whole_copy(journal, link)
    insist(os.path.islink(link), "the link was replaced")
    same(stand_of(out, world_of(checked(journal))), "whole", "by a link to an empty file")
    return f"{len(places)} places where none can be, and one by a link"


@case("something else in the place of the journal that is copied")
def other_things_to_copy(folder):
    pipe, out = os.path.join(folder, "pipe"), os.path.join(folder, "out")
    os.mkfifo(pipe)
    places = [folder, pipe, "/dev/null", "/dev/full", "/dev/zero", os.path.join(folder, "name" * 100)]
    for where in places:
        same((copied(where, out), found(out)), ((3, DISK), None), where)
    return f"{len(places)} places: 3, and no copy is made"


@case("a copy's folder that may not be written, or not synced")
def folders_without_leave(folder):
    """Played as nobody where this is root, since root may all."""
    journal, before = small_journal(folder)
    os.chmod(journal, 0o666)
    above = folder
    while os.stat(above).st_uid == os.geteuid() and above not in ("/", "/tmp", "/dev/shm"):
        os.chmod(above, os.stat(above).st_mode | 0o055)
        above = os.path.dirname(above)
    another = {"user": NOBODY, "group": NOBODY, "extra_groups": []} if os.geteuid() == 0 else {}
    seen = []
    for mode, due in ((0o555, ["absent"]), (0o333, ["absent", "bare", "refused"])):
        inner = os.path.join(folder, f"inner{mode:o}")
        os.mkdir(inner)
        os.chmod(inner, mode)
        try:
            same(copied(journal, os.path.join(inner, "out"), **another), (3, DISK), f"{mode:03o}")
        except PermissionError:
            raise Skipped(f"nobody may not start {RX}") from None
        os.chmod(inner, 0o755)
        if os.path.exists(out := os.path.join(inner, "out")):
            os.chmod(out, 0o666)
        seen.append(stand_of(out, world_of(checked(journal))))
        insist(seen[-1] in due, f"{mode:03o}: the copy is {seen[-1]}")
        insist(content(journal) == before, f"{mode:03o}: the journal was changed")
    os.chmod(journal, 0o444)
    same(copied(journal, os.path.join(folder, "out"), **another), (3, DISK), "a journal that may not be written")
    return f"3, and the copy is {' and '.join(seen)}"


@case("a copy on a full disk")
def full_disk(folder):
    """The file may grow to each length in turn, so that each write of a copy fails once."""
    journal, before = small_journal(folder)
    world, seen = world_of(checked(journal)), Counter()
    whole = os.path.join(folder, "whole")
    told = made(len(SMALL_BYTES), len(before), len(SMALL_COPY))
    same(copied(journal, whole), (0, told), "a whole copy")
    most = len(SMALL_BYTES)
    for size in sorted({*range(0, most, 7), most - 1, most}):
        out = os.path.join(folder, f"out{size}")
        status, said = copied(journal, out, prepare=room(size))
        stand = stand_of(out, world)
        insist((status, said) == ((3, DISK) if size < most else (0, told)),
               f"{size} bytes: {status} {said}")
        insist((stand == "whole") == (status == 0), f"{size} bytes: {status}, and the copy is {stand}")
        insist(content(journal) == before, f"{size} bytes: the journal was changed")
        seen[stand] += 1
    return f"each seventh length up to {most:,} bytes: {dict(seen)}"


# ---- what else has the files

@case("a journal in use")
def journal_in_use(folder):
    """By a run, and by a served collection."""
    journal, out, kept = os.path.join(folder, "journal"), os.path.join(folder, "out"), set()
    talk = Talk(journal)
    insist(talk.ask(collection()).get("ok") == "collection", "no collection")
    for turn in range(20):
        insist(talk.ask(insert(f"k{turn}")).get("ok") == "insert", f"turn {turn}: no insert")
        kept.add(f"k{turn}")
        before, beside = content(journal), None if turn % 2 else b""
        put(out, beside)
        same(copied(journal, out), (3, DISK), f"turn {turn}")
        same((content(journal), found(out)), (before, beside), f"turn {turn}: both files")
        if beside is not None:
            os.remove(out)
    same(talk.end(), 0, "the run")
    server = Server(folder, 1).wait()
    same((copied(journal, out), found(out)), ((3, DISK), None), "a served one")
    server.dial().close()
    same(server.end()[0], 0, "the server")
    same(held(journal), kept, "the documents")
    whole_copy(journal, out)
    same(held(out), kept, "the documents of a copy")
    return f"20 times beside a run and once beside a server: 3, and all {len(kept)} inserts are there"


@case("a copy's file in use")
def copy_in_use(folder):
    """By a run it holds a byte. Where it is empty and locked it can't be written."""
    journal, before = small_journal(folder)
    out, empty = os.path.join(folder, "out"), os.path.join(folder, "empty")
    talk, kept = Talk(out), set()
    insist(talk.ask(collection()).get("ok") == "collection", "no collection")
    for turn in range(10):
        there = content(out)
        same((copied(journal, out), content(out)), ((11, EXISTS), there), f"turn {turn}")
        insist(talk.ask(insert(f"k{turn}")).get("ok") == "insert", f"turn {turn}: no insert")
        kept.add(f"k{turn}")
    same(talk.end(), 0, "the run")
    same(held(out), kept, "its documents")
    put(empty, b"")
    with open(empty, "rb") as file:
        fcntl.flock(file, fcntl.LOCK_EX)
        same((copied(journal, empty), content(empty)), ((3, DISK), b""), "a locked one")
    whole_copy(journal, empty)
    insist(content(journal) == before, "the journal was changed")
    return "11 where it holds a byte, 3 where it is locked, and nothing of another's is lost"


def calls_on(calls, path):
    """The names of the calls of a file, which is opened once, up to the line that is told."""
    told = next(at for at, (name, words, _) in enumerate(calls) if name == "write" and words.startswith("1,"))
    opened = [at for at, (name, words, answer) in enumerate(calls[:told])
              if name == "openat" and f'"{path}"' in words and answer >= 0]
    same(len(opened), 1, f"how often {path} is opened")
    file = str(calls[opened[0]][2])
    return [name for name, words, _ in calls[opened[0] + 1:told] if words.split(",")[0] == file]


@case("the locks and syncs of a copy", needs=["strace"])
def order_of_calls(folder):
    """The journal is locked before it is read, and never written. The copy is locked before it is written, and told
    once its bytes and its name are synced."""
    needs_trace()
    journal, _ = small_journal(folder)
    inner, seen = os.path.join(folder, "inner"), os.path.join(folder, "trace")
    os.mkdir(inner)
    out = os.path.join(inner, "out")
    same(copied(journal, out, words=[*tracing(seen), RX])[0], 0, "the status")
    calls = calls_in(seen)
    locks = [words.split(", ")[1] for name, words, _ in calls if name == "flock"]
    same(locks, ["LOCK_EX|LOCK_NB"] * 2, "the locks")
    reads, writes, name = (calls_on(calls, path) for path in (journal, out, inner))
    insist("pread64" not in reads[:reads.index("flock")], f"it is read before it is locked: {reads}")
    insist("pwrite64" not in reads, f"the journal is written: {reads}")
    insist("pwrite64" not in writes[:writes.index("flock")], f"it is written before it is locked: {writes}")
    same(writes[-2:], ["pwrite64", "fdatasync"], "the last calls before it is told")
    insist("fsync" in name, f"it is told before its name is synced: {name}")
    insist("close" not in reads + writes, "a lock is given up before the end")
    return "both files are locked to the end, and the copy and its name are synced before it is told"


@case("a copy's file that a run writes once it was looked at", needs=["strace"])
def written_behind_the_look(folder):
    """The copy is held up behind its look at the file, which was empty until then. What the run was answered isn't
    written over."""
    needs_trace()
    journal, _ = small_journal(folder)
    out = os.path.join(folder, "out")
    put(out, b"")
    seen = os.path.join(folder, "trace")
    held_up = ["strace", "-qq", "-o", seen, "-P", out, "-e", "trace=pread64",
               "-e", "inject=pread64:signal=SIGSTOP:when=1", RX, "compact", journal, out]
    with subprocess.Popen(held_up, stdout=subprocess.PIPE, stderr=subprocess.DEVNULL) as child:
        wait_for(lambda: b"stopped by SIGSTOP" in (found(seen) or b""), "it wasn't held up")
        status, replies = run(out, inserts(["a"]))
        os.kill(child_of(child.pid), signal.SIGCONT)
        said = child.communicate(timeout=SECONDS)[0]
    insist(status == 0 and replies[-1].get("ok") == "insert", f"the run between: {status} {replies}")
    all_there(out, {"a"})
    insist((child.returncode, said) in ((3, DISK), (11, EXISTS)), f"the copy: {child.returncode} {said}")
    return f"{child.returncode}, and what was answered is there"


def wait_for(holds, what):
    end = time.monotonic() + SECONDS
    while not holds():
        insist(time.monotonic() < end, what)
        time.sleep(0.005)


def child_of(program):
    with open(f"/proc/{program}/task/{program}/children", encoding="ascii") as file:
        (child,) = map(int, file.read().split())
    return child


@case("copies that are made at once")
def copies_at_once(folder):
    """Of one journal into several files, or of several journals into one file, which is absent or empty."""
    journal, before = small_journal(folder)
    world, ended = world_of(checked(journal)), Counter()
    journals = [os.path.join(folder, f"journal{at}") for at in range(3)]
    for it in journals:
        shutil.copy(journal, it)
    for race in range(40):
        out, is_one = os.path.join(folder, f"out{race}"), race % 2
        put(out, b"" if race % 4 == 3 else None)
        outs = [out] * 3 if is_one else [f"{out}-{at}" for at in range(3)]
        pairs = zip(journals if is_one else [journal] * 3, outs)
        children = [subprocess.Popen([RX, "compact", *pair], stdout=subprocess.PIPE) for pair in pairs]
        statuses = [(child.communicate(timeout=SECONDS), child.returncode)[1] for child in children]
        insist({*statuses} <= ({0, 3, 11} if is_one else {0, 3}), f"race {race}: {statuses}")
        insist(statuses.count(0) == 1 or not is_one and 0 in statuses, f"race {race}: {statuses}")
        stands = [stand_of(it, world) for it in outs]
        due = ["whole"] * 3 if is_one else ["whole" if status == 0 else "absent" for status in statuses]
        same(stands, due, f"race {race}, which ended {statuses}")
        ended.update(statuses)
    insist(all(content(it) == before for it in [journal, *journals]), "a journal was changed")
    return f"40 races of 3: statuses {dict(ended)}, and what was made is whole"


# ---- what is told

def closed(*streams):
    redirects = " ".join(f"{stream}{'<' if stream == 0 else '>'}&-" for stream in streams)
    return ["sh", "-c", f'exec "$0" "$@" {redirects}', RX]


@case("an output that is closed, full or goes away")
def output_that_takes_nothing(folder):
    """Nothing is wrong with the copy then. A copy reads no input, and says nothing elsewhere."""
    journal, before = small_journal(folder)
    world, told, seen = world_of(checked(journal)), made(len(SMALL_BYTES), len(before), len(SMALL_COPY)), []

    def tried(due, **how):
        out = os.path.join(folder, f"out{len(seen)}")
        status, said = copied(journal, out, **how)
        same((status, stand_of(out, world)), (due, "whole"), f"a copy, {how}")
        insist(content(journal) == before, f"a copy, {how}: the journal was changed")
        same(said or b"", told if due == 0 else b"", f"a copy, {how}: what is told")
        seen.append(status)

    for bits in range(1, 8):
        shut = [stream for stream in range(3) if bits >> stream & 1]
        tried(5 if 1 in shut else 0, words=closed(*shut))
    with open("/dev/full", "wb") as sink:
        tried(5, stdout=sink)
    reader, writer = os.pipe()
    os.close(reader)
    with open(writer, "wb") as sink:
        tried(5, stdout=sink)
    return f"{len(seen)} times: 5 where nothing is told, and the copy is whole"


@case("a copy that waits for its output")
def waits_for_output(folder):
    """Both files are locked until its end, so that no run takes them for its own."""
    journal, before = small_journal(folder)
    out, (reader, writer) = os.path.join(folder, "out"), os.pipe()
    os.set_blocking(writer, False)
    filled = 0
    try:
        while True:
            filled += os.write(writer, b"x")
    except BlockingIOError:
        os.set_blocking(writer, True)
    with subprocess.Popen([RX, "compact", journal, out], stdout=writer) as child:
        os.close(writer)
        wait_for(lambda: found(out) == SMALL_BYTES, "no copy")
        for path in (journal, out):
            same(run(path, inserts(["a"])), (3, answers(DISK)), f"a run over {path}")
        insist(child.poll() is None, "it has ended")
        with open(reader, "rb") as file:
            said = file.read()[filled:]
        told = made(len(SMALL_BYTES), len(before), len(SMALL_COPY))
        same((child.wait(SECONDS), said), (0, told), "its end")
    same((content(journal), content(out)), (before, SMALL_BYTES), "both files")
    return "3 for a run over either, and then the copy is told"


# ---- kills

TEXT = {**SCHEMA, "properties": {**SCHEMA["properties"], "t": {"type": "string", "maxLength": 1_000}}}


def large_journal(folder, count=2_000, letters=600):
    """A master whose fork has all of its documents, and edits of its own."""
    journal = os.path.join(folder, "journal")
    lines = [collection(name, TEXT) for name in "mf"]
    lines.append(compact({"do": "replicate", "name": "r", "fork": "f", "master": "m", "handler": "join"}))
    docs = [{"id": f"k{key}", "n": key, "t": chr(ord("a") + key % 26) * letters} for key in range(count)]
    lines += (compact({"do": "bulk", "in": "m", "docs": docs[at:at + 200]}) for at in range(0, count, 200))
    lines.append(compact({"do": "turn", "name": "r"}))
    lines += (compact({"do": "patch", "in": "f", "key": f"k{key}", "set": {"n": -1}}) for key in range(0, count, 9))
    status, replies = run(journal, lines)
    insist(status == 0, f"the first run ended with {status}: {replies[-1:]}")
    return journal


@case("kill -9 while a copy is made", seconds=7_200)
def killed_in_a_copy(folder):
    """SIGKILL at any moment, every second time at one behind that at which the copy's file came to be there."""
    journal, out = large_journal(folder), os.path.join(folder, "out")
    before, world = content(journal), world_of(checked(journal))
    moments, seen, rounds = random.Random(SEED), Counter(), int(os.environ.get("KILLS", "300"))
    # How long one takes that isn't killed.
    begun = time.monotonic()
    with subprocess.Popen([RX, "compact", journal, out], stdout=subprocess.PIPE) as child:
        wait_for(lambda: os.path.exists(out), "no copy")
        waited = time.monotonic() - begun
        insist(child.stdout.readline().startswith(b'{"bytes":'), "the first copy")
        longest = time.monotonic() - begun
        same(child.wait(SECONDS), 0, "the first copy")
    same(stand_of(out, world), "whole", "the first copy")
    whole = content(out)
    for round_ in range(rounds):
        os.path.exists(out) and os.remove(out)
        with subprocess.Popen([RX, "compact", journal, out], stdout=subprocess.PIPE) as child:
            if round_ % 2:
                wait_for(lambda: os.path.exists(out), f"round {round_}: no copy")
                time.sleep(moments.uniform(0, 1.1 * (longest - waited)))
            else:
                time.sleep(moments.uniform(0, 1.1 * longest))
            said = killed(child)
        stand = stand_of(out, world)
        insist(stand == "whole" or not said, f"round {round_}: it was told, and is {stand}")
        insist(content(journal) == before, f"round {round_}: the journal was changed")
        seen[stand] += 1
    # Few kills may all come before the first records or behind the last one.
    insist(seen["refused"] or rounds < 100, f"none was cut: {dict(seen)}")
    os.path.exists(out) and os.remove(out)
    whole_copy(journal, out)
    insist(content(out) == whole, "another copy in the end")
    told = ", ".join(f"{stand} {count} times" for stand, count in sorted(seen.items()))
    return f"{rounds} times: the copy of {len(whole):,} bytes is {told}, and the journal as it was"


# ---- played on

def played_on(journal, parts):
    """Plays the first of some scripts over a journal, and each further one over it and over a copy, which is
    the journal then. How many lines were answered over both."""
    answered = 0
    for at, lines in enumerate(parts):
        script, other = text(map(compact, lines)), f"{journal}-{at}"
        if at:
            told = whole_copy(journal, other)
            same(told["bytes"], os.path.getsize(other), f"part {at}: the bytes of the copy")
            same(world_of(checked(other)), world_of(checked(journal)), f"part {at}: a report")
            first = content(other)
            whole_copy(other, f"{other}-again")
            insist(content(f"{other}-again") == first, f"part {at}: the copy of a copy differs")
            both = [command("run", path, script=script) for path in (journal, other)]
            insist(both[0][0] in (0, 1), f"part {at}: the status {both[0][0]}")
            alike(*both, f"part {at}")
            same(world_of(checked(other)), world_of(checked(journal)), f"part {at}: a report behind it")
            for path in (journal, other):
                whole_copy(path, f"{path}-behind{at}")
            insist(content(f"{journal}-behind{at}") == content(f"{other}-behind{at}"), f"part {at}: the copies differ")
            insist(content(other).startswith(first[:-1]), f"part {at}: the copy was written over")
            answered += len(both[0][1].splitlines())
            journal = other
        else:
            status, replies = command("run", journal, script=script)
            insist(status in (0, 1) and replies, f"the first part: {status} {replies[-200:]}")
    return answered


def alike(first, second, what):
    """What two runs were answered."""
    for line, (one, other) in enumerate(zip(first[1].splitlines(), second[1].splitlines()), 1):
        same(other, one, f"{what}: the line {line} that is written")
    same((second[0], len(second[1])), (first[0], len(first[1])), f"{what}: the status, and all that is written")


def lines_of(model, script, most=None):
    """A run's lines, each of which the model plays before the next is made."""
    # Not above, where its cases would be listed as those of this file.
    import turns
    return [it.line for it in islice(turns.played(model, script), most)]


def cut(numbers, lines):
    """A script in three parts."""
    first, second = sorted(numbers.sample(range(1, len(lines)), 2))
    return [lines[:first], lines[first:second], lines[second:]]


def seeds(folder, seed, how, most=600):
    """Forks of forks with conflicts, migrations, tombstones, streams and hooks, and the end of time."""
    import turns
    numbers, model, parts = random.Random(seed), turns.Noting(), []
    for _ in range(4):
        model.open()
        script = turns.script(numbers, how, model, min(len(parts), 1), most)
        parts.append(lines_of(model, script, most))
    parts.append([*turns.at_the_end_of_time(*numbers.choice(["mf", "fm"])), *turns.all_sides(),
                  {"do": "sweep", "name": "m"}, *turns.all_sides(), *turns.events_at_the_end_of_time()])
    return played_on(os.path.join(folder, "journal"), parts)


def trees(folder):
    """Sweeps over random trees of up to twenty collections."""
    import turns
    answered = 0
    for seed in range(1, 11):
        numbers, model, parts = random.Random(seed), turns.Noting(), []
        masters, _ = turns.tree_at_random(numbers)
        for at in range(turns.TREE_RUNS):
            model.open()
            parts.append(lines_of(model, turns.tree_lines(numbers, model, masters, at)))
        answered += played_on(os.path.join(folder, f"journal{seed}"), parts)
    return answered


def groups(folder):
    """Bulks of many documents with deliveries, and a group that migrates with edits pending, cut anywhere."""
    import turns
    answered = 0
    for seed in range(1, 7):
        for make in (turns.many_lines, turns.group_lines):
            numbers = random.Random(seed)
            parts = cut(numbers, [*make(numbers)])
            answered += played_on(os.path.join(folder, f"{make.__name__}{seed}"), parts)
    return answered


def try_on(call, *how):
    return lambda folder: f"{call(folder, *how):,} lines are written alike over a journal and over its copies"


for at, handler in enumerate(HANDLERS, 1):
    add(f"played on, seed {at}, {handler['handler']}", try_on(seeds, at, handler), in_memory=True)
add("played on, trees", try_on(trees), in_memory=True)
add("played on, groups", try_on(groups), in_memory=True)

if __name__ == "__main__":
    main()
