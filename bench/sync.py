#!/usr/bin/env python3
"""A fork and its master as two processes: documents and bytes a second, beside turns in one process.

    bench/sync.py [PROGRAM] [FOLDER] [FEWER] [--json FILE]

`rx serve` has the master's journal and `rx run` the fork's, and a socket on 127.0.0.1 goes between
them: a first pull of 100,000 documents, and then 10,000 of them edited by the fork and pushed, with
batches of 100; with so many times fewer documents where FEWER is given. Beside them the same rows go
by a turn of one process, whose journal has both collections. The files lie in FOLDER, or where it is
left out first in memory-backed storage and then on this folder's disk.

A turn is timed from its line to its reply. The two take turns, three runs each, and the best counts.
The bytes of the socket are counted by a relay, in a run of its own that isn't timed. Where a turn
doesn't end quiet, or the digests of both sides differ after it, the benchmark stops.
"""
import json
import os
import selectors
import shutil
import socket
import subprocess
import sys
import tempfile
import threading
import time

from measuring import HERE, SCHEMA, Server, Talk, compact, figure, measure, program

RUNS = 3
FOLDERS = [sys.argv[2]] if len(sys.argv) > 2 else ["/dev/shm", HERE]
FEWER = int(sys.argv[3]) if len(sys.argv) > 3 else 1
PULLED, PUSHED = 100_000 // FEWER, 10_000 // FEWER
BULK = 1_000
TURN = {"do": "turn", "name": "r", "budget": 100_000}


def collection(name):
    return {"do": "collection", "name": name, "schema": SCHEMA}


def replicate(**master):
    return {"do": "replicate", "name": "r", "fork": "f", "handler": "master_wins", **master}


def make(path):
    """A journal with the master's documents."""
    docs = [{"id": f"k{n}", "n": 0} for n in range(PULLED)]
    bulks = [{"do": "bulk", "in": "m", "docs": docs[at:at + BULK]} for at in range(0, PULLED, BULK)]
    measure([program(), "run", path], map(compact, [collection("m"), *bulks]))


def digests(journal):
    """Of each collection of a journal."""
    written = subprocess.run([program(), "check", journal], stdout=subprocess.PIPE, check=True).stdout
    lines = map(json.loads, written.splitlines())
    return {line["collection"]: line["digest"] for line in lines if "collection" in line}


# ---- one run

def ask(run, line):
    """The last line of the reply."""
    reply = run.ask(compact(line))
    while reply and "exchange" in reply:
        reply = json.loads(run.child.stdout.readline())
    if not reply or "ok" not in reply:
        sys.exit(f"{compact(line)[:80]} is answered {reply}")
    return reply


def timed_turn(run):
    """The seconds from its line to its reply."""
    start = time.perf_counter()
    reply = ask(run, TURN)
    seconds = time.perf_counter() - start
    if reply["end"] != "quiet":
        sys.exit(f"a turn ended {reply}")
    return seconds


def pull_and_push(journal, begin, between=lambda: None):
    """The seconds of the first pull and of the pushes, by a run over the journal."""
    run = Talk(journal)
    for line in begin:
        ask(run, line)
    pull = timed_turn(run)
    between()
    for n in range(PUSHED):
        ask(run, {"do": "upsert", "in": "f", "doc": {"id": f"k{n}", "n": 1}})
    push = timed_turn(run)
    if run.end() != 0:
        sys.exit("the run of the fork failed")
    return pull, push


def local_run(made, folder):
    journal = shutil.copy(made, os.path.join(folder, "both"))
    seconds = pull_and_push(journal, [collection("f"), replicate(master="m")])
    found = digests(journal)
    if found["m"] != found["f"]:
        sys.exit("the digests of one journal differ")
    return seconds


def remote_run(made, folder, relay=None):
    journals = shutil.copy(made, os.path.join(folder, "master")), os.path.join(folder, "fork")
    served = Server(folder, 2, name="m", journal="master").wait()
    dialled, between = (relay.start(served.port), relay.cut) if relay else (served.port, lambda: None)
    seconds = pull_and_push(journals[1], [collection("f"), replicate(port=dialled)], between)
    if served.end()[0] != 0:
        sys.exit("the server failed")
    if digests(journals[0])["m"] != digests(journals[1])["f"]:
        sys.exit("the digests of the two journals differ")
    return seconds


class Relay:
    """Stands between the fork and its master, and counts what goes each way."""

    def start(self, port):
        """The port to be dialled in the master's place."""
        self.door = socket.create_server(("127.0.0.1", 0))
        self.port, self.bytes, self.parts = port, 0, []
        threading.Thread(target=self.serve, daemon=True).start()
        return self.door.getsockname()[1]

    def serve(self):
        while True:
            fork, _ = self.door.accept()
            with fork, socket.create_connection(("127.0.0.1", self.port), 60) as master:
                self.carry(fork, master)

    def carry(self, fork, master):
        others = {fork: master, master: fork}
        with selectors.DefaultSelector() as ready:
            for wire in others:
                wire.setsockopt(socket.IPPROTO_TCP, socket.TCP_NODELAY, 1)
                ready.register(wire, selectors.EVENT_READ)
            while True:
                for key, _ in ready.select():
                    piece = key.fileobj.recv(1 << 20)
                    if not piece:
                        return
                    self.bytes += len(piece)
                    others[key.fileobj].sendall(piece)

    def cut(self):
        """Ends one count and begins the next."""
        self.parts.append(self.bytes)
        self.bytes = 0


# ---- both

def in_folder(storage, run, *more):
    with tempfile.TemporaryDirectory(dir=storage) as folder:
        return run(*more[:1], folder, *more[1:])


def compare(storage, made):
    relay = Relay()
    in_folder(storage, remote_run, made, relay)
    relay.cut()
    ours, theirs = [], []
    for _ in range(RUNS):
        theirs.append(in_folder(storage, local_run, made))
        ours.append(in_folder(storage, remote_run, made))
    loads = ("a first pull", PULLED), ("pushes of edits", PUSHED)
    for (load, count), far, near, size in zip(loads, zip(*ours), zip(*theirs), relay.parts):
        far, near = min(far), min(near)
        print(f"{load} of {count:,} in {storage}: two processes {count / far:,.0f} documents and "
              f"{size / far / 1e6:,.1f} MB a second ({size:,} bytes), one process {count / near:,.0f} "
              f"documents; the rate of two is {near / far:.2f} times that of one", flush=True)
        figure(load, storage=storage, ratio=near / far, two=count / far, one=count / near)


def main():
    for storage in FOLDERS:
        with tempfile.TemporaryDirectory(dir=storage) as folder:
            made = os.path.join(folder, "made")
            make(made)
            compare(storage, made)


main()
