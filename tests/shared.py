"""What the tests share: cases that are tried one by one, the built program run, talked to and served,
and the lines that it gets.

A file of tests prints its cases, or tries the one that is its word:

    tests/files.py ["a full disk"]
"""
import json
import os
import re
import resource
import signal
import socket
import struct
import subprocess
import sys
import tempfile
import time

HERE = os.path.dirname(os.path.abspath(__file__))
ROOT = os.path.dirname(HERE)
EXAMPLES = os.path.join(ROOT, "examples")
sys.path.insert(0, EXAMPLES)
from client import hash_of  # noqa: E402

RX = os.path.abspath(os.environ.get("RX") or os.path.join(ROOT, "crates", "rx", "out", "rx"))
# What Debian's packages for Python are for, where another one runs the tests.
DEBIANS_PYTHON = "/usr/bin/python3"
# A run that is read to its end may take so long.
SECONDS = 240
# A message has a minute, and a second for each 64 KiB that moved, of which the system takes some for a
# peer that takes none.
HANG_SECONDS = 180
LONGEST = 268_435_456
SEED = 7_919
SCHEMA = {
    "version": 0,
    "primaryKey": "id",
    "type": "object",
    "properties": {"id": {"type": "string", "maxLength": 20}, "n": {"type": "integer"}},
    "required": ["id"],
}
HASH = hash_of(SCHEMA)
HANDLERS = [{"handler": "master_wins"}, {"handler": "fork_wins"},
            {"handler": "greater", "field": "n"}, {"handler": "join"}]
SKIPPED = 77


# ---- cases

class Wrong(Exception):
    """What was seen instead."""


class Skipped(Exception):
    """Why it was not tried."""


def insist(holds, seen):
    if not holds:
        raise Wrong(seen)


def same(found, wanted, what=""):
    insist(found == wanted, f"{what}: {found!r}\nand not\n{wanted!r}")


CASES = {}


def add(name, call, **how):
    """Adds a case: a call with a folder of its own, which answers what was seen. `seconds` are its
    limit, `needs` the tools without which it can't be tried, and `in_memory` asks for a folder there."""
    CASES[name] = call, how


def case(name=None, **how):
    """Adds a function by a name, or else by its own."""
    def added(call):
        add(name or call.__name__.replace("_", " "), call, **how)
        return call

    return added


def main():
    """Prints the cases of a file, a line of JSON each, or tries the one that is its word."""
    if len(sys.argv) < 2:
        for name, (_, how) in CASES.items():
            print(json.dumps({"name": name, **how}))
        return
    with tempfile.TemporaryDirectory() as folder:
        try:
            print(CASES[sys.argv[1]][0](os.path.realpath(folder)) or "")
        except Skipped as why:
            print(why)
            sys.exit(SKIPPED)
        except (Wrong, subprocess.TimeoutExpired) as seen:
            print(seen)
            sys.exit(1)


# ---- lines

def compact(value):
    return json.dumps(value, separators=(",", ":"))


def collection(name="c", schema=None):
    return compact({"do": "collection", "name": name, "schema": schema or SCHEMA})


def insert(key):
    return compact({"do": "insert", "in": "c", "doc": {"id": key, "n": 1}})


def inserts(keys):
    return [collection(), *(insert(key) for key in keys)]


def digest(name):
    return compact({"do": "digest", "in": name})


def pull(n, place=None):
    at = {"place": place} if place else {}
    return compact({"ask": "pull", "batch": 100, "epoch": 1, "n": n, **at, "schema": HASH})


def push(n, keys, number=1):
    rows = [{"new": {"_deleted": False, "id": key, "n": number}} for key in keys]
    return compact({"ask": "push", "epoch": 1, "n": n, "rows": rows, "schema": HASH})


def text(lines):
    return "".join(line + "\n" for line in lines).encode()


def answers(written):
    """The lines that a program wrote, the last one only where it is whole."""
    return [json.loads(line) for line in written.split(b"\n")[:-1]]


def content(path):
    with open(path, "rb") as file:
        return file.read()


def records(path):
    """The bodies of a journal's records, by docs/JOURNAL.md."""
    bodies, at = [], 8
    if os.path.exists(path):
        written = content(path)
        while len(written) > 9 and written[at] == 1:
            end = at + 5 + int.from_bytes(written[at + 1:at + 5], "big")
            bodies.append(written[at + 5:end])
            at = end
    return bodies


# ---- the parts of a record, byte by byte as docs/JOURNAL.md has them

def number(value, size=4):
    return value.to_bytes(size, "big", signed=value < 0)


def packed(it):
    return number(len(it.encode())) + it.encode()


def packed_value(it):
    if isinstance(it, bool):
        return b"\0" + bytes([it])
    return b"\2" + packed(it) if isinstance(it, str) else b"\1" + number(it, 8)


def packed_state(state, is_deleted=False):
    names = sorted(state)
    return packed(state["id"]) + bytes([is_deleted]) + number(len(names)) + b"".join(
        packed(name) + packed_value(state[name]) for name in names)


def journal_of(*bodies, header=b"RXJOURN1"):
    return header + b"".join(b"\1" + number(len(it)) + it for it in bodies) + b"\0"


def written(path, *bodies):
    """Writes a journal of these records, and answers its bytes."""
    content = journal_of(*bodies)
    with open(path, "wb") as file:
        file.write(content)
    return content


# ---- the scripts of examples/

def examples():
    """The scripts of examples/: each one's name, its lines, those of the run before, and what comes."""
    names = sorted(it[:-6] for it in os.listdir(EXAMPLES) if it.endswith(".jsonl"))
    scripts = {it: content(os.path.join(EXAMPLES, f"{it}.jsonl")) for it in names}
    for name, script in scripts.items():
        before = scripts["documents"] if name == "again" else b""
        yield name, script, before, content(os.path.join(EXAMPLES, f"{name}.out"))


# ---- runs

def command(*words, script=b"", env=None):
    """The status of a command of the program and what it wrote."""
    done = subprocess.run([RX, *words], input=script, capture_output=True, env=env, timeout=SECONDS,
                          check=False)
    return done.returncode, done.stdout


def run(journal, lines, prepare=None, command=(RX,), **streams):
    """The status and the answers of a run to its end."""
    streams = {"stdout": subprocess.PIPE, **streams}
    if "stdin" not in streams:
        streams["input"] = text(lines)
    done = subprocess.run([*command, "run", journal], stderr=subprocess.DEVNULL, timeout=SECONDS,
                          preexec_fn=prepare, check=False, **streams)
    return done.returncode, answers(done.stdout or b"")


def held(journal):
    """The keys that a further run finds."""
    status, replies = run(journal, [collection(), compact({"do": "find", "in": "c", "query": {}})])
    insist(status == 0, f"the next run ended with {status}: {replies[-1:]}")
    return {row["id"] for row in replies[1]["rows"]}


def all_there(journal, keys):
    lost = keys - held(journal)
    insist(not lost, f"{len(lost)} of {len(keys)} acknowledged writes are lost: {sorted(lost)[:3]}")


def checked(journal):
    """What a report tells of a journal."""
    status, written = command("check", journal)
    insist(status == 0, f"a report: {status} {written}")
    return answers(written)


def world_of(told):
    """What such a report tells of the world, and not of the file."""
    return [*told[:-1], {"epoch": told[-1]["epoch"]}]


def stand_of(copy, world):
    """How far a journal came that was to make a world by `compact`: `absent`, `bare` without a record, `refused`,
    or `whole`. Nothing else may be left."""
    if not os.path.exists(copy):
        return "absent"
    before = content(copy)
    if len(before) <= 9:
        return "bare"
    if command("check", copy)[0] == 7:
        same(run(copy, []), (7, [{"stop": "not_journal"}]), "a run over what was left")
        insist(content(copy) == before, "a refused copy was changed")
        return "refused"
    same(world_of(checked(copy)), world, "the world of a copy")
    return "whole"


class Talk:
    """A run that gets one line at a time, and whose replies are read."""

    def __init__(self, journal, *more, env=None):
        self.child = subprocess.Popen([RX, "run", journal, *more], stdin=subprocess.PIPE,
                                      stdout=subprocess.PIPE, stderr=subprocess.DEVNULL, env=env)

    def send(self, lines):
        self.child.stdin.write(text(lines))
        self.child.stdin.flush()

    def ask(self, line):
        """The reply, or None where the run has ended."""
        try:
            self.send([line])
        except BrokenPipeError:
            return None
        reply = self.child.stdout.readline()
        return json.loads(reply) if reply.endswith(b"\n") else None

    def kill(self):
        """What it had still written."""
        return killed(self.child)

    def end(self):
        try:
            self.child.stdin.close()
        except BrokenPipeError:
            pass
        self.child.stdout.close()
        return self.child.wait(SECONDS)


def killed(child):
    """Kills a program, and answers what it had written."""
    child.kill()
    return child.communicate(timeout=SECONDS)[0]


def room(most):
    """What prepares a program whose files may grow to so many bytes."""
    def limit():
        signal.signal(signal.SIGXFSZ, signal.SIG_IGN)
        resource.setrlimit(resource.RLIMIT_FSIZE, (most, most))

    return limit


def peak_of(child):
    """The most memory in bytes that a running program had."""
    with open(f"/proc/{child.pid}/status", encoding="ascii") as status:
        return int(next(line for line in status if line.startswith("VmHWM")).split()[1]) << 10


# ---- system calls

def needs_trace():
    if subprocess.run(["strace", "-qq", "-o", os.devnull, "true"], check=False,
                      stderr=subprocess.DEVNULL).returncode:
        raise Skipped("strace may not trace here")


def tracing(out):
    """What stands before a command so that its system calls of files go to a file."""
    return ["strace", "-qq", "-o", out, "-e", "trace=openat,fsync,fdatasync,flock,pread64,pwrite64,write,close"]


def calls_in(out):
    """The system calls there, in order, each as its name, its words and its answer."""
    with open(out, encoding="utf-8", errors="replace") as file:
        calls = (re.match(r"(\w+)\((.*)\)\s+= (-?\d+)", line) for line in file)
        return [(call[1], call[2], int(call[3])) for call in calls if call]


# ---- sockets

def free_port():
    with socket.socket() as it:
        it.bind(("127.0.0.1", 0))
        return it.getsockname()[1]


def is_served(port):
    """Whether somebody listens at a port, who isn't dialled for that."""
    listening = "0A"
    with open("/proc/net/tcp", encoding="ascii") as file:
        entries = [line.split() for line in file]
    return any(it[1].endswith(f":{port:04X}") and it[3] == listening for it in entries)


class Server:
    """A master with so many connections, over a journal that is made with these documents."""

    def __init__(self, folder, connections, keys=(), prepare=None, name="c", journal="journal", port=None,
                 more=(), env=None):
        self.journal, self.port = os.path.join(folder, journal), port or free_port()
        if not os.path.exists(self.journal):
            insist(run(self.journal, inserts(keys))[0] == 0, "no journal")
        words = [RX, "serve", self.journal, name, str(self.port), str(connections), *more]
        self.child = subprocess.Popen(words, stdout=subprocess.PIPE, stderr=subprocess.DEVNULL,
                                      preexec_fn=prepare, env=env)

    def wait(self):
        """Waits until it listens or has ended."""
        end = time.monotonic() + SECONDS
        while not is_served(self.port) and self.child.poll() is None:
            insist(time.monotonic() < end, "nothing listens")
            time.sleep(0.005)
        return self

    def dial(self):
        self.wait()
        return socket.create_connection(("127.0.0.1", self.port), HANG_SECONDS + SECONDS)

    def kill(self):
        killed(self.child)

    def ended(self):
        """The status and what it wrote."""
        written, _ = self.child.communicate(timeout=HANG_SECONDS + SECONDS)
        return self.child.returncode, written

    def end(self):
        """The status and what was told of each connection."""
        status, written = self.ended()
        return status, answers(written)


def told(number, end, requests):
    """What a server says of a connection."""
    return {"connection": number, "end": end, "requests": requests}


def said(wire):
    """All that the peer says until it ends."""
    parts = []
    while part := wire.recv(1 << 16):
        parts.append(part)
    return b"".join(parts)


def said_line(wire):
    line = b""
    while not line.endswith(b"\n"):
        line += wire.recv(1)
    return line


def ask(wire, line):
    """One reply, or nothing where the peer ended."""
    wire.sendall(text([line]))
    reply = b""
    while not reply.endswith(b"\n"):
        part = wire.recv(1 << 16)
        if not part:
            return None
        reply += part
    return json.loads(reply)


def reset(wire):
    """Ends a connection so that the other side's next call fails."""
    wire.setsockopt(socket.SOL_SOCKET, socket.SO_LINGER, struct.pack("ii", 1, 0))
    wire.close()
