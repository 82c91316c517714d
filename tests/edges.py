#!/usr/bin/env python3
"""The built program at the edges of a real machine: a disk that refuses a sync, descriptors that don't block,
who reaches a served collection and who reads a journal, and connections that can't be had.

Where the program ends here, docs/COMMANDS.md says so; what is shown is that nothing acknowledged is lost then.
"""
import fcntl
import json
import os
import resource
import select
import socket
import subprocess
import sys
import tempfile
import time

from shared import (HERE, ROOT, RX, SECONDS, Server, Skipped, Talk, all_there, answers, ask, case, collection,
                    compact, content, held, insert, inserts, insist, is_served, main, pull, push, room, run,
                    said_line, same, text, told)

NOBODY = 65_534
DISK = {"stop": "disk"}
RESTART = compact({"do": "restart"})


# ---- a disk behind a cache

def cache(folder):
    """The library that puts a cache between a run and its disk."""
    library, source = os.path.join(folder, "cache.so"), os.path.join(HERE, "cache.c")
    subprocess.run(["cc", "-shared", "-fPIC", "-O2", "-o", library, source, "-ldl"], check=True)
    return library


def cached(library, journal, disk, fail=0, **more):
    """The environment of a run whose journal is the cache of that disk. Its sync of that number fails."""
    told_to = {"LD_PRELOAD": library, "RX_JOURNAL": journal, "RX_DISK": disk, "RX_FAIL": str(fail)}
    return {**os.environ, **told_to, **more}


@case("a sync that fails, and a cache that is lost with it", needs=["cc"])
def failing_sync(folder):
    """What the disk has then is what the last good sync left: the run ends there, and tries no sync again."""
    library = cache(folder)
    keys = [f"k{n}" for n in range(30)]
    ends, number = [], 0
    while not ends or ends[-1] != 0:
        number += 1
        journal, disk = (os.path.join(folder, f"{name}{number}") for name in ("journal", "disk"))
        status, replies = run(journal, inserts(keys), env=cached(library, journal, disk, number))
        insist(status in (0, 3), f"sync {number}: status {status}")
        insist(status == 0 or replies[-1] == DISK, f"sync {number}: {replies[-1:]}")
        kept = {keys[it["line"] - 2] for it in replies if it.get("ok") == "insert"}
        insist(status == 3 or len(kept) == len(keys), f"sync {number}: {len(kept)} inserts")
        all_there(disk, kept)
        ends.append(status)
    insist(len(ends) > 2, f"{len(ends)} syncs")
    return f"each of {len(ends) - 1} syncs: 3, and all that was acknowledged is on the disk"


# The record of a group takes more than a page, so what comes behind it doesn't stand in the page of the
# gate before it.
GROUPS = [[f"{group}{n:019}" for n in range(60)] for group in "ab"]
LATER = [f"later{n}" for n in range(3)]


def bulk(keys):
    return compact({"do": "bulk", "in": "c", "docs": [{"id": key, "n": 1} for key in keys]})


def first_run(journal, env):
    """Its status, and what it acknowledged."""
    lines, due = [collection()], {}
    for keys in GROUPS:
        lines += [bulk(keys), RESTART]
        due[len(lines) - 1] = keys
    status, replies = run(journal, lines, env=env)
    return status, {key for it in replies if it.get("ok") == "bulk" for key in due[it["line"]]}


def next_run(journal, env, seen):
    """It plays line after line, and ends well."""
    talk = Talk(journal, env=env)
    for line in inserts(LATER):
        reply = talk.ask(line)
        insist(reply and "ok" in reply, f"{seen}: the next run says {reply}")
    same(talk.end(), 0, f"{seen}: the next run's status")


@case("a sync that fails, a run that goes on, and a cache that is lost then", needs=["cc"])
def failing_sync_and_next_run(folder):
    """The next run goes on from what the first one acknowledged, whatever the failing sync took to the
    disk, and the disk has what both acknowledged and nothing else."""
    library, numbers = cache(folder), []
    for taken in ({}, {"RX_TAKEN": "1"}):
        status, number = 3, 0
        while status == 3:
            number += 1
            seen = f"sync {number}{', taken' if taken else ''}"
            journal, disk = (os.path.join(folder, f"{name}{number}{len(taken)}") for name in ("journal", "disk"))
            status, kept = first_run(journal, cached(library, journal, disk, number, **taken))
            insist(status in (0, 3), f"{seen}: status {status}")
            next_run(journal, cached(library, journal, disk), seen)
            found, due = held(disk), kept.union(LATER)
            insist(due <= found, f"{seen}: {len(due - found)} of {len(due)} acknowledged writes are lost")
            insist(found <= due, f"{seen}: {len(found - due)} writes are there that nobody acknowledged")
        same(len(kept), sum(map(len, GROUPS)), f"{seen}: the writes of a run without a failing sync")
        numbers.append(number - 1)
    insist(numbers[0] == numbers[1] > 2 * len(GROUPS), f"{numbers} syncs")
    return f"each of {numbers[0]} syncs, taken or not: the disk has what was acknowledged before and behind it"


# ---- an input that comes in pieces

@case("an input that halts within a line")
def input_that_halts(folder):
    """Each whole line is answered while the rest of the next one is still to come."""
    script = text(inserts([f"k{n}" for n in range(20)]))
    for piece in (1, 7, len(script) - 3):
        talk, replies = Talk(os.path.join(folder, f"journal{piece}")), 0
        for at in range(0, len(script), piece):
            talk.child.stdin.write(script[at:at + piece])
            talk.child.stdin.flush()
            while replies < script[:at + piece].count(b"\n"):
                waits = not select.select([talk.child.stdout], [], [], SECONDS)[0]
                written = b"" if waits else os.read(talk.child.stdout.fileno(), 1 << 16)
                insist(written, f"pieces of {piece}: {replies} replies behind {at + piece} bytes")
                replies += written.count(b"\n")
        insist(talk.end() == 0, f"pieces of {piece}: the run failed")
    return "pieces of 1, of 7 and of nearly all bytes: each whole line is answered at once"


# ---- an output that ends

MOST = 1 << 16


def cut_short(journal, script, out, count):
    """The status of a run whose output, a file, has room for so many bytes."""
    with open(out, "wb") as sink:
        sink.seek(MOST - count)
        status = run(journal, script, prepare=room(MOST), stdout=sink)[0]
    return status, content(out)[MOST - count:]


@case("an output that ends at each byte")
def output_that_ends(folder):
    """Lines that were read together are written together, and the lines behind a restart after its reply:
    what was answered is in the journal, and no record of lines that come after those answered last."""
    groups = [[f"{group}{n}" for n in range(3)] for group in "abc"]
    lines = [collection()]
    for keys in groups:
        lines += [*map(insert, keys), RESTART]
    journal, out = os.path.join(folder, "journal"), os.path.join(folder, "out")
    _, whole = cut_short(journal, lines, out, MOST)
    ends = [at + 1 for at, byte in enumerate(whole) if byte == ord("\n")]
    insist(len(ends) == len(lines), f"{len(ends)} replies")
    before = [0, ends[4], ends[8]]
    for count in range(len(whole)):
        os.remove(journal)
        status, taken = cut_short(journal, lines, out, count)
        insist((status, taken) == (5, whole[:count]), f"{count} bytes: status {status}, {taken[-80:]}")
        due = {key for at, keys in zip(before, groups) if at <= count for key in keys}
        same(held(journal), due, f"{count} bytes")
    return f"each of {len(whole)} bytes: 5, and the journal holds the lines up to those of the last reply"


# ---- descriptors that don't block

def unblocked(descriptor):
    fcntl.fcntl(descriptor, fcntl.F_SETFL, fcntl.fcntl(descriptor, fcntl.F_GETFL) | os.O_NONBLOCK)


def input_that_does_not_block(journal, lines):
    """The status and the answers of a run whose input has its lines at once, and ends later."""
    reader, writer = os.pipe()
    unblocked(reader)
    with subprocess.Popen([RX, "run", journal], stdin=reader, stdout=subprocess.PIPE) as child:
        os.close(reader)
        os.write(writer, text(lines))
        time.sleep(0.5)
        os.close(writer)
        return answers(child.stdout.read()), child.wait(SECONDS)


def output_that_does_not_block(journal, lines):
    """The same of one whose output is read later, and is full before."""
    reader, writer = os.pipe()
    unblocked(writer)
    with tempfile.TemporaryFile() as script:
        script.write(text(lines))
        script.seek(0)
        with subprocess.Popen([RX, "run", journal], stdin=script, stdout=writer) as child:
            os.close(writer)
            time.sleep(0.5)
            with open(reader, "rb") as out:
                return answers(out.read()), child.wait(SECONDS)


@case("an input or an output that doesn't block")
def descriptors_that_do_not_block(folder):
    """A run may end by them, as it would have to wait. What was acknowledged is kept."""
    keys, seen = [f"k{n}" for n in range(4_000)], []
    for call, count, due in ((input_that_does_not_block, 200, {0, 4}), (output_that_does_not_block, 4_000, {0, 5})):
        journal = os.path.join(folder, call.__name__)
        replies, status = call(journal, inserts(keys[:count]))
        insist(status in due, f"{call.__name__}: status {status}")
        kept = {keys[it["line"] - 2] for it in replies if it.get("ok") == "insert"}
        insist(status or len(kept) == count, f"{call.__name__}: {len(kept)} inserts")
        all_there(journal, kept)
        seen.append(status)
    return f"statuses {seen}, and nothing acknowledged is lost"


PYTHON = """
import rx, sys
with rx.open(sys.argv[1]):
    print(flush=True)
    sys.stdin.read()
"""
ASYNCIO = """
import asyncio, rx, sys
async def main():
    async with rx.open_async(sys.argv[1]):
        print(flush=True)
        sys.stdin.read()
asyncio.run(main())
"""
NODE = """
const { child, open } = await import(process.argv[1]);
const db = await open(child(process.argv[2]));
console.log();
process.stdin.on('data', () => {}).on('end', () => db.close());
"""
JAVASCRIPT = os.path.join(ROOT, "clients", "js", "rx.mjs")
CLIENTS = {
    "python": [sys.executable, "-c", PYTHON],
    "asyncio": [sys.executable, "-c", ASYNCIO],
    "node": ["node", "--input-type=module", "-e", NODE, JAVASCRIPT],
}


def flags_of(program, descriptor):
    with open(f"/proc/{program}/fdinfo/{descriptor}", encoding="ascii") as info:
        return int(next(line for line in info if line.startswith("flags")).split()[1], 8)


def program_of(client):
    """The program that a client has started."""
    with open(f"/proc/{client}/task/{client}/children", encoding="ascii") as file:
        (program,) = file.read().split()
    return program


@case("clients give the program descriptors that block", needs=["node"])
def clients_block(folder):
    """Also where their own don't."""
    env = {**os.environ, "RX": RX, "PYTHONPATH": os.path.join(ROOT, "clients", "python")}
    for name, words in CLIENTS.items():
        journal = os.path.join(folder, name)
        reader, writer = os.pipe()
        unblocked(writer)
        with subprocess.Popen([*words, journal], env=env, stdin=subprocess.PIPE, stdout=writer) as child:
            os.close(writer)
            with open(reader, "rb") as out:
                insist(out.readline() == b"\n", f"{name} doesn't open")
            for descriptor in (0, 1):
                flags = flags_of(program_of(child.pid), descriptor)
                insist(not flags & os.O_NONBLOCK, f"{name}: descriptor {descriptor} has {flags:o}")
            child.stdin.close()
            same(child.wait(SECONDS), 0, f"{name}: the status")
    return f"{', '.join(CLIENTS)}: the program's input and output block"


# ---- who reaches what

# Other addresses of this machine, which nothing beyond it reaches either.
OTHERS = ("127.0.0.2", "::1")


@case("a served collection is reached at 127.0.0.1 alone")
def served_at_one_address(folder):
    server, tried = Server(folder, 1, ["a"]).wait(), []
    for address in OTHERS:
        try:
            with socket.create_connection((address, server.port), 5):
                insist(False, f"it is reached at {address}")
        except OSError:
            tried.append(address)
    with server.dial() as wire:
        insist(len(ask(wire, pull(1))["docs"]) == 1, "a pull")
    same(server.end(), (0, [told(1, "peer", 1)]), "the end")
    return f"nobody answers at {', '.join(tried)}"


@case("who may read a journal")
def modes(folder):
    """A journal has no more leave than the umask gives."""
    for mask in (0o077, 0o027, 0o022):
        for words in (["run"], ["trial"]):
            journal = os.path.join(folder, f"{words[0]}{mask:o}")
            more = ["7", "10"] if words == ["trial"] else []
            done = subprocess.run([RX, *words, journal, *more], input=b"", umask=mask, capture_output=True,
                                  check=False, timeout=SECONDS)
            same(done.returncode, 0, f"{words}")
            mode = os.stat(journal).st_mode & 0o777
            insist(not mode & mask and mode & 0o600 == 0o600, f"umask {mask:03o}: {mode:03o}")
    return "under umask 077 its owner alone may"


@case("a journal that isn't the user's")
def not_the_users(folder):
    """Played as nobody where this is root, else over a folder that may not be written."""
    journal, inner = os.path.join(folder, "journal"), os.path.join(folder, "inner")
    same(run(journal, inserts(["a"]))[0], 0, "a journal")
    os.mkdir(inner)
    for path, mode in ((inner, 0o555), (journal, 0o444)):
        os.chmod(path, mode)
    above = folder
    while os.stat(above).st_uid == os.geteuid() and above not in ("/", "/tmp", "/dev/shm"):
        os.chmod(above, os.stat(above).st_mode | 0o011)
        above = os.path.dirname(above)
    another = {"user": NOBODY, "group": NOBODY, "extra_groups": []} if os.geteuid() == 0 else {}
    with open(journal, "rb") as file:
        before = file.read()
    for path in (journal, os.path.join(inner, "journal")):
        try:
            done = subprocess.run([RX, "run", path], input=text(inserts(["b"])), capture_output=True, check=False,
                                  **another)
        except PermissionError:
            raise Skipped(f"nobody may not start {RX}") from None
        same((done.returncode, answers(done.stdout)), (3, [DISK]), path)
    with open(journal, "rb") as file:
        same(file.read(), before, "the journal")
    insist(not os.listdir(inner), "a file was made")
    os.chmod(inner, 0o755)
    return "3 where it may not be written or made, and it stays as it was"


# ---- connections

@case("connections that say nothing")
def idle_connections(folder):
    """They count, and a served collection ends by itself after as many as it was told."""
    server, count = Server(folder, 10, ["a"]), 10
    for _ in range(count):
        server.dial().close()
    same(server.end(), (0, [told(number, "peer", 0) for number in range(1, count + 1)]), "the end")
    insist(not is_served(server.port), "somebody still listens")
    return f"{count} of them end one that was to have {count}"


@case("connections that can be had once there are files")
def files_that_come(folder):
    """A connection that can't be accepted waits at the door, and is served as soon as it can."""
    few, enough = 5, 64

    def limit():
        resource.setrlimit(resource.RLIMIT_NOFILE, (few, enough))

    server = Server(folder, 2, ["a"], prepare=limit)
    with server.dial() as first, server.dial() as second:
        first.sendall(text([pull(1)]))
        first.settimeout(2)
        try:
            insist(False, f"with {few} files it is answered {first.recv(1)}")
        except TimeoutError:
            pass
        insist(server.child.poll() is None, "serving has ended")
        resource.prlimit(server.child.pid, resource.RLIMIT_NOFILE, (enough, enough))
        first.settimeout(SECONDS)
        insist(len(json.loads(said_line(first))["docs"]) == 1, "the first connection")
        first.close()
        insist(len(ask(second, pull(1))["docs"]) == 1, "the second")
    same(server.end(), (0, [told(1, "peer", 1), told(2, "peer", 1)]), "the end")
    return "two that came while there were none are served"


@case("connections that can't be had for want of files")
def too_few_files(folder):
    """Serving may end after some tries. What was answered is there, and it may be started again."""
    kept, seen, journal = set(), [], os.path.join(folder, "journal")
    same(run(journal, inserts([]))[0], 0, "a journal")
    for most in range(4, 12):
        def limit(most=most):
            resource.setrlimit(resource.RLIMIT_NOFILE, (most, most))

        server = Server(folder, 2, prepare=limit)
        server.wait()
        for n in range(1, 3):
            try:
                with socket.create_connection(("127.0.0.1", server.port), 30) as wire:
                    if ask(wire, push(n, [f"k{most}-{n}"])):
                        kept.add(f"k{most}-{n}")
            except OSError:
                pass
        status, ends = server.end()
        insist(status in (0, 3, 4), f"{most} files: {status} {ends}")
        seen.append(status)
        all_there(journal, kept)
    same(seen[-1], 0, "with eleven files")
    server = Server(folder, 1)
    with server.dial() as wire:
        insist(len(ask(wire, pull(1))["docs"]) == len(kept), "served again")
    server.end()
    return f"statuses {seen}: all {len(kept)} answered pushes are there, and are served again"


if __name__ == "__main__":
    main()
