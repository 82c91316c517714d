#!/usr/bin/env python3
"""The built program over real sockets, as a master with peers that no clause speaks of, and killed in turns.

All sockets are on 127.0.0.1. A peer that says nothing is waited for as long as the program waits, a
minute.
"""
import itertools
import json
import os
import random
import resource
import socket
import string
import time
from concurrent.futures import ThreadPoolExecutor

from shared import (HANG_SECONDS, HASH, LONGEST, SCHEMA, SECONDS, SEED, Server, Talk, all_there, answers, ask,
                    case, checked, collection, command, compact, digest, free_port, held, insist, main, peak_of,
                    pull, push, reset, room, run, said, said_line, same, text, told)


# A byte comes so often, and a message has a minute; what the test waits besides is the machine's.
TRICKLE_SECONDS, WITHIN = 3, (55, 90)
# What a server of long lines may have, in bytes.
LITTLE = 1_536_000_000


@case("connections one after another")
def one_after_another(folder):
    keys = [f"k{n}" for n in range(250)]
    server, found = Server(folder, 3, keys), []
    with server.dial() as wire:
        place = None
        for n in range(1, 4):
            reply = ask(wire, pull(n, place))
            found += [state["id"] for state in reply["docs"]]
            place = reply["place"]
    insist(found == keys, f"{len(found)} documents in pages")
    with server.dial() as first, server.dial() as second:
        second.sendall(text([push(1, ["b"])]))
        insist(ask(first, push(1, ["a"])) == {"conflicts": [], "epoch": 1, "n": 1}, "the first push")
        first.close()
        insist(json.loads(said_line(second)) == {"conflicts": [], "epoch": 1, "n": 1}, "the second")
    insist(server.end() == (0, [told(1, "peer", 3), told(2, "peer", 1), told(3, "peer", 1)]), "the end")
    insist(held(server.journal) == {*keys, "a", "b"}, "the journal holds other documents")
    return "three connections in turn, pages and pushes, and the journal has both pushes"


@case("lines that are no request")
def lines_that_are_no_request(folder):
    tried = [(b"hello\n", "not_json"), (b"[]\n", "not_object"), (b"\n", "not_json"),
             (b"\xff\xfe\n", "not_json"), (b'{"ask":"pull"}\n', "missing"),
             (text([pull(1).replace('"n"', ' "n"')]), "spelling"),
             (text([pull(1).replace(HASH, "0" * 64)]), "schema")]
    bytes_ = random.Random(SEED)
    tried += [(bytes_.randbytes(1000).replace(b"\n", b"") + b"\n", "not_json") for _ in range(20)]
    server = Server(folder, len(tried) + 1, ["a"])
    for line, fault in tried:
        with server.dial() as wire:
            wire.sendall(line)
            reply = said(wire)
            insist(reply == text([compact({"fault": fault})]), f"{line[:40]}: {reply[:80]}")
    with server.dial() as wire:
        insist(len(ask(wire, pull(1))["docs"]) == 1, "the document is gone")
    status, ends = server.end()
    insist(status == 0 and ends[-1] == told(len(tried) + 1, "peer", 1), f"{status} {ends[-1:]}")
    insist({end["end"] for end in ends[:-1]} == {"request"}, "an end that isn't `request`")
    return f"{len(tried)} of them: the fault's name once, then the connection ends, and the next is served"


@case("a line in pieces")
def a_line_in_pieces(folder):
    server = Server(folder, 1, ["a"])
    with server.dial() as wire:
        wire.setsockopt(socket.IPPROTO_TCP, socket.TCP_NODELAY, 1)
        for byte in text([pull(1)]):
            wire.sendall(bytes([byte]))
        insist(len(json.loads(said_line(wire))["docs"]) == 1, "the reply")
        wire.sendall(text([pull(2), pull(3), pull(4)]))
        insist([json.loads(said_line(wire))["n"] for _ in range(3)] == [2, 3, 4], "three at once")
    insist(server.end() == (0, [told(1, "peer", 4)]), "the end")
    return "a byte at a time, and three lines in one piece"


@case("a line that is too long", seconds=1_800)
def a_line_too_long(folder):
    server = Server(folder, 2)
    with server.dial() as wire:
        piece, left = b"a" * (1 << 20), LONGEST + 1
        while left:
            left -= wire.send(piece[:left])
        insist(said(wire) == b'{"fault":"too_long"}\n', "another fault")
    peak = peak_of(server.child)
    insist(peak < 2.5 * LONGEST, f"a peak of {peak:,} bytes")
    with server.dial() as wire:
        insist(ask(wire, pull(1)) == {"docs": [], "epoch": 1, "n": 1}, "the next connection")
    insist(server.end() == (0, [told(1, "request", 0), told(2, "peer", 1)]), "the end")
    return f"`too_long`, with a peak of {peak >> 20} MiB, and the next connection is served"


@case("long lines that are no request", seconds=1_800)
def long_lines(folder):
    """As trees of values they would take many times what the server may have."""
    rows, rest = push(1, []).split("]")
    tried = [("[", "0,", "0]", "not_object"),
             (pull(1)[:-1] + ',"x":[', "0,", "0]}", "unexpected"),
             (rows, "0,", "0]" + rest, "wrong_type"),
             (rows, "[[]],", "0]" + rest, "wrong_type"),
             ('{"ask":', '{"a":', "0", "not_json"),
             (pull(1)[:-1] + ",", None, '"x":0}', "unexpected"),
             (rows + '{"new":{', None, '"_deleted":false}}]' + rest, "invalid")]
    server = Server(folder, len(tried) + 1, prepare=little_memory)
    for before, piece, after, fault in tried:
        most = LONGEST - len(before) - len(after)
        line = before + (piece * (most // len(piece)) if piece else members(most)) + after
        with server.dial() as wire:
            wire.sendall(text([line]))
            reply = said(wire)
        insist(reply == text([compact({"fault": fault})]), f"{before[:40]}..: {reply[:80]}")
    peak = peak_of(server.child)
    with server.dial() as wire:
        insist(ask(wire, pull(1)) == {"docs": [], "epoch": 1, "n": 1}, "the next connection")
    status, ends = server.end()
    insist(status == 0 and ends[-1] == told(len(tried) + 1, "peer", 1), f"{status} {ends[-1:]}")
    insist({end["end"] for end in ends[:-1]} == {"request"}, "an end that isn't `request`")
    return f"{len(tried)} of 256 MiB: the fault's name, with a peak of {peak >> 20} MiB, and the next is served"


def little_memory():
    resource.setrlimit(resource.RLIMIT_AS, (LITTLE, LITTLE))


def members(most):
    """So many bytes of members, each with a name of its own and a comma behind it."""
    pairs = ["".join(it) for it in itertools.product(string.ascii_lowercase, repeat=2)]
    piece = "".join(f'"....{pair}":0,' for pair in pairs)
    fronts = itertools.islice(itertools.product(pairs, repeat=2), most // len(piece))
    return "".join(piece.replace("....", "".join(front)) for front in fronts)


@case("peers that go away")
def peers_that_go_away(folder):
    keys = [f"k{n}" for n in range(100)]
    server = Server(folder, 61, keys)
    moments, kept = random.Random(SEED), set(keys)
    for number in range(60):
        wire, fresh = server.dial(), f"new{number}"
        kind = number % 4
        if kind == 0:
            wire.sendall(text([pull(1)])[:moments.randrange(1, 60)])
            wire.close()
        elif kind == 1:
            wire.sendall(text([pull(1)] * 50))
            wire.recv(moments.randrange(1, 400))
            reset(wire)
        elif kind == 2:
            insist(ask(wire, push(1, [fresh]))["conflicts"] == [], "a push")
            kept.add(fresh)
            reset(wire)
        else:
            wire.sendall(text([push(1, [fresh])]))
            reset(wire)
    with server.dial() as wire:
        insist(len(ask(wire, pull(1))["docs"]) == 100, "the last connection")
    status, ends = server.end()
    insist(status == 0 and len(ends) == 61, f"{status} {ends[-1:]}")
    insist({end["end"] for end in ends} <= {"peer", "wire"}, "another end")
    all_there(server.journal, kept)
    return "60 of them in mid-line, in mid-reply, after a reply and before it: what was answered is there"


@case("peers that hang", seconds=1_800)
def peers_that_hang(folder):
    """All at once, each with a server of its own: one says nothing, one stops within a line, one asks
    and never reads."""
    keys = [f"{n}{'x' * 12}" for n in range(100)]
    servers = [Server(folder, 2, keys, journal=f"journal{n}") for n in range(3)]
    wires = [server.dial() for server in servers]
    wires[1].sendall(text([pull(1)])[:20])
    wires[2].settimeout(1)
    try:
        while True:
            wires[2].sendall(text([pull(1)] * 100))
    except (TimeoutError, OSError):
        pass
    begun = time.monotonic()
    for number, server in enumerate(servers):
        with server.dial() as wire:
            insist(len(ask(wire, pull(1))["docs"]) == 100, f"peer {number}: the next connection")
    waited = time.monotonic() - begun
    insist(waited < WITHIN[1], f"{waited:.0f} seconds")
    for number, server in enumerate(servers):
        status, ends = server.end()
        insist(status == 0 and [end["end"] for end in ends] == ["wire", "peer"],
               f"peer {number}: {status} {ends}")
    for wire in wires:
        wire.close()
    return f"`wire` within {waited:.0f} seconds, and the next connection is served"


def trickle(wire, line):
    """Sends a line a byte every few seconds, until the other side ends. The seconds that it took."""
    begun = time.monotonic()
    wire.settimeout(TRICKLE_SECONDS)
    for byte in line:
        try:
            wire.sendall(bytes([byte]))
            if not wire.recv(1):
                break
        except TimeoutError:
            pass
        except OSError:
            break
    return time.monotonic() - begun


def trickled_reply(folder):
    """How a turn ends whose master's reply comes so, and the seconds that the reply took."""
    with socket.create_server(("127.0.0.1", 0)) as door:
        fork = Follower(folder, door.getsockname()[1], None)
        fork.begin()
        master, _ = door.accept()
    with master:
        said_line(master)
        seconds = trickle(master, text([compact({"docs": [], "epoch": 1, "n": 1})]))
    last, end = fork.turned()
    insist(fork.end() in (0, 1), "the run of the fork failed")
    return last.get("lost"), end, seconds


@case("peers that send a byte every few seconds", seconds=300)
def peers_that_trickle(folder):
    """Both at once: a request and a reply that come so. The other dials meanwhile, and is served then."""
    server = Server(folder, 2, ["a"])
    with server.dial() as first, server.dial() as second, ThreadPoolExecutor(2) as pool:
        asked = pool.submit(trickle, first, text([pull(1)]))
        turned = pool.submit(trickled_reply, folder)
        begun = time.monotonic()
        insist(len(ask(second, pull(1))["docs"]) == 1, "the next connection")
        waited = time.monotonic() - begun
        lost, end, seconds = turned.result()
    for name, it in (("the request", asked.result()), ("the next one", waited), ("the reply", seconds)):
        insist(WITHIN[0] < it < WITHIN[1], f"{name}: {it:.0f} seconds")
    insist((lost, end) == ("wire", "lost"), f"the turn: {lost} {end}")
    insist(server.end() == (0, [told(1, "wire", 0), told(2, "peer", 1)]), "the end")
    return f"a minute for each: `wire` after {waited:.0f} and {seconds:.0f} seconds"


@case("what else has the journal or the port")
def statuses(folder):
    server = Server(folder, 1, ["a"])
    with server.dial() as wire:
        second = Server(folder, 1)
        insist(second.end() == (3, [{"stop": "disk"}]), "a second server of one journal")
        insist(run(server.journal, [])[0] == 3, "a run beside a server")
        status, _ = command("serve", os.path.join(folder, "other"), "c", str(server.port), "1")
        insist(status == 10, f"no collection: {status}")
        insist(ask(wire, pull(1))["n"] == 1, "the first server")
    server.end()
    fork = [collection("f"),
            compact({"do": "replicate", "name": "r", "fork": "f", "master": "c", "handler": "join"})]
    insist(run(server.journal, fork)[0] == 0, "no fork")
    insist(Server(folder, 1, name="f").end() == (10, [{"stop": "no_collection"}]), "a fork is served")
    with socket.create_server(("127.0.0.1", 0)) as door:
        status, written = command("serve", server.journal, "c", str(door.getsockname()[1]), "1")
    insist((status, answers(written)) == (4, [{"stop": "read"}]), "a port that is taken")
    return "3 where the journal is locked, 4 where the port is taken, 10 for no collection and for a fork"


@case("a full disk")
def full_disk(folder):
    seen = Server(folder, 1, journal="seen")
    seen.kill()
    most = os.path.getsize(seen.journal)
    tried = 0
    for size in range(most + 1, most + 400, 20):
        server = Server(folder, 1, prepare=room(size), journal=f"journal{size}")
        kept = set()
        try:
            with server.dial() as wire:
                for n in range(1, 20):
                    if ask(wire, push(n, [f"k{n}"])) is None:
                        break
                    kept.add(f"k{n}")
        except ConnectionError:
            pass
        status, ends = server.end()
        insist((status, ends[-1]) == (3, {"stop": "disk"}), f"{size} bytes: {status} {ends}")
        insist(kept <= held(server.journal), f"{size} bytes: an answered push is lost")
        tried += 1
    return f"at {tried} lengths: 3, and each answered push is there"


@case("kill -9 in a loop")
def killed_in_a_loop(folder):
    moments, kept, rounds = random.Random(SEED), set(), 40
    for number in range(rounds):
        server = Server(folder, 1)
        with server.dial() as wire:
            for n in range(1, moments.randrange(2, 20)):
                insist(ask(wire, push(n, [f"k{number}-{n}"]))["conflicts"] == [], "a push")
                kept.add(f"k{number}-{n}")
            wire.sendall(text([push(n, [f"more{number}-{n}"]) for n in range(1, 51)]))
            time.sleep(moments.uniform(0, 0.01))
            server.kill()
            wire.settimeout(1)
            try:
                kept |= {f"more{number}-{json.loads(line)['n']}" for line in said(wire).split(b"\n")[:-1]}
            except OSError:
                pass
        all_there(server.journal, kept)
    return f"{rounds} times: the next run has all answered pushes, {len(kept):,} in the end"


def bulk(into, number):
    """As many documents as take a turn some time."""
    docs = [{"id": f"{into}{number}-{n}", "n": n} for n in range(100)]
    return compact({"do": "bulk", "in": into, "docs": docs})


class Follower(Talk):
    """A run over a journal with a fork f of the master at a port."""

    def __init__(self, folder, port, number):
        super().__init__(os.path.join(folder, "fork"))
        replicate = {"do": "replicate", "name": "r", "fork": "f", "port": port, "handler": "join"}
        self.ask(collection("f"))
        insist(self.ask(compact(replicate)).get("code", 9) == 9, "a replication")
        if number is not None:
            insist(self.ask(bulk("f", number)).get("ok") == "bulk", "documents of the fork")

    def begin(self):
        self.send([compact({"do": "turn", "name": "r", "batch": 4})])

    def turned(self):
        """The last exchange of the turn that was begun, and its end."""
        last, reply = {}, json.loads(self.child.stdout.readline())
        while "exchange" in reply:
            last, reply = reply, json.loads(self.child.stdout.readline())
        return last, reply["end"]


def serve_more(folder, port, number):
    """A server to whose documents some came."""
    insist(run(os.path.join(folder, "journal"), [bulk("c", number)])[0] == 0, "documents of the master")
    return Server(folder, 1_000_000, port=port).wait()


def kill_in_a_turn(folder, port, number, wait):
    """Kills the fork, the master or both, and whether the turn was cut off. The next one is quiet."""
    who = number % 3
    server, fork = serve_more(folder, port, number), Follower(folder, port, number)
    fork.begin()
    time.sleep(wait)
    if who:
        server.kill()
    was_cut = fork.kill() == b"" if who != 1 else None
    if who == 1:
        last, end = fork.turned()
        insist(end == "quiet" or last.get("lost") in ("dial", "reply", "wire"), f"{last} {end}")
        was_cut = end == "lost"
    else:
        fork = Follower(folder, port, None)
    if who:
        server = Server(folder, 1_000_000, port=port).wait()
    finish_turn(fork, 200 * (number + 1))
    server.kill()
    return was_cut


def finish_turn(fork, count):
    """The fork has so many documents once a turn is quiet. Its seconds, and the digest."""
    begun = time.monotonic()
    fork.begin()
    insist(fork.turned()[1] == "quiet", "the next turn")
    seconds = time.monotonic() - begun
    found = fork.ask(digest("f"))
    insist(fork.end() in (0, 1), "the run of the fork failed")
    insist(found["count"] == count, f"{found['count']} documents of {count}")
    return seconds, found["digest"]


@case("kill -9 of a fork or its master in a turn", seconds=1_800)
def killed_in_a_remote_turn(folder):
    insist(run(os.path.join(folder, "journal"), [collection()])[0] == 0, "no journal")
    moments, port, rounds, cut = random.Random(SEED), free_port(), 60, 0
    server, fork = serve_more(folder, port, 0), Follower(folder, port, 0)
    seconds, _ = finish_turn(fork, 200)
    server.kill()
    for number in range(1, rounds + 1):
        cut += kill_in_a_turn(folder, port, number, moments.uniform(0, seconds / 2))
    master = run(os.path.join(folder, "journal"), [digest("c")])[1][0]
    fork = run(os.path.join(folder, "fork"), [digest("f")])[1][0]
    insist(master["digest"] == fork["digest"], "the sides differ")
    insist(cut > rounds // 6, f"{cut} of {rounds} turns were cut off")
    return f"{cut} of {rounds} turns cut off: the next one is quiet, and all {fork['count']:,} documents are on both sides"


@case("a full journal of a fork or its master in a turn")
def full_in_a_remote_turn(folder):
    """The fork's journal, or the master's, is full in the middle of a turn."""
    seen, port = [], free_port()
    for number, more in enumerate(range(200, 12_000, 600)):
        inner = os.path.join(folder, str(number))
        os.mkdir(inner)
        insist(run(os.path.join(inner, "journal"), [collection(), bulk("c", number)])[0] == 0, "no journal")
        begun = Follower(inner, port, number)
        insist(begun.end() == 0, "no fork")
        sides = [["--max-journal", str(os.path.getsize(os.path.join(inner, name)) + more)]
                 for name in ("journal", "fork")]
        sides[number % 2] = []
        seen.append(turn_with_limits(inner, port, *sides))
        server = Server(inner, 1_000_000, port=port).wait()
        after = Follower(inner, port, None)
        _, there = finish_turn(after, 200)
        server.kill()
        done = run(os.path.join(inner, "journal"), [digest("c")])
        insist(done[1][0]["digest"] == there, f"{more} bytes more: the sides differ")
    insist({(0, 8), (8, None)} <= set(seen), f"{seen}")
    return f"{len(seen)} times, of which {sum(it != (0, None) for it in seen)} are full: the next turn is quiet"


def turn_with_limits(folder, port, master, fork):
    """The statuses of the fork and, where it has ended by itself, of the master."""
    server = Server(folder, 1_000_000, port=port, more=master).wait()
    line = text([compact({"do": "turn", "name": "r", "batch": 4})])
    status, written = command("run", os.path.join(folder, "fork"), *fork, script=line)
    last = answers(written)[-1]
    if status == 8:
        insist(last.get("stop") == "full", f"{last}")
    else:
        insist(status == 0 and last["end"] in ("quiet", "lost"), f"{status} {last}")
    if last.get("end") == "lost":
        insist(server.child.wait(SECONDS) == 8, "the master has ended otherwise")
        return 0, 8
    server.kill()
    return status, None


NEXT = {**SCHEMA, "version": 1, "properties": {"id": SCHEMA["properties"]["id"], "v": {"type": "integer"}}}
STEPS = [{"rename": "n", "to": "v"}]


def migrate(into):
    return compact({"do": "migrate", "in": into, "schema": NEXT, "steps": STEPS})


def fork_of(name, port, schema=None):
    """The lines that make a fork of the master at a port, and the replication of its name."""
    replicate = {"do": "replicate", "name": name, "fork": name, "port": port, "handler": "fork_wins"}
    return [collection(name, schema), compact(replicate)]


def turn_of(name):
    return compact({"do": "turn", "name": name})


@case("a served collection that migrates")
def served_and_migrated(folder):
    """Each turn of a fork of before is lost by `reply`, and what it wrote stays in it. A new collection of the next
    version goes on: it is of no use before."""
    fork, master, port = os.path.join(folder, "fork"), os.path.join(folder, "journal"), free_port()
    server = Server(folder, 3, ["a", "b"], port=port)
    server.wait()
    status, replies = run(fork, [*fork_of("f", port), turn_of("f")])
    same((status, replies[-1]["end"]), (0, "quiet"), "the first turn")
    edit = compact({"do": "patch", "in": "f", "key": "a", "set": {"n": 5}})
    status, replies = run(fork, [edit, turn_of("f"), *fork_of("g", port, NEXT), turn_of("g"), migrate("f")])
    same([status, replies[3]["end"]], [1, "quiet"], "the second turn")
    lost = {"exchange": 1, "lost": "reply", "sent": "pull"}
    same(replies[6], lost, "a fork ahead of its master")
    same(replies[8], {"code": 30, "line": 6, "refused": "remote"}, "a fork of a master at a port")
    ends = [told(1, "peer", 1), told(2, "peer", 2), told(3, "request", 0)]
    same(server.end(), (0, ends), "what was served")

    same(run(master, [migrate("c")]), (0, [{"collections": ["c"], "line": 1, "ok": "migrate"}]), "the master")
    server = Server(folder, 3, port=port).wait()
    edit = compact({"do": "patch", "in": "f", "key": "b", "set": {"n": 7}})
    status, replies = run(fork, [edit, turn_of("f"), turn_of("f"), turn_of("g")])
    same(replies[1::2][:2], [{**lost, "rows": ["b"], "sent": "push"}] * 2, "turns of the fork of before")
    same([it["end"] for it in replies if "end" in it], ["lost", "lost", "quiet"], "how the turns end")
    same(server.end(), (0, [told(1, "request", 0), told(2, "request", 0), told(3, "peer", 1)]), "what was served")
    find = [compact({"do": "find", "in": side, "query": {}}) for side in "fg"]
    rows = [it["rows"] for it in run(fork, find)[1]]
    same(rows, [[{"id": "a", "n": 5}, {"id": "b", "n": 7}], [{"id": "a", "v": 5}, {"id": "b", "v": 1}]], "both forks")
    return "the fork of before loses its turns by `reply`, and keeps its edit; one of the next version goes on"


@case("a sweep below a fork of a served master")
def sweep_below_a_served_master(folder):
    """It makes what is below the fork equal to it, and dials nobody: the two connections that are served are those of
    the fork's own turns. The second of them brings the server all that the sweep brought to the fork."""
    fork, port = os.path.join(folder, "fork"), free_port()
    server = Server(folder, 2, ["a", "b"], port=port).wait()
    below = [{"do": "replicate", "name": f"{name}-{master}", "fork": name, "master": master, "handler": "join"}
             for name, master in ("gf", "hg")]
    begin = [*fork_of("f", port), collection("g"), collection("h"), *map(compact, below)]
    sweep = [compact({"do": "sweep", "name": "f"}), *map(digest, "fgh")]
    status, replies = run(fork, [*begin, turn_of("f"), *sweep])
    swept, *sides = (it for it in replies if it.get("ok") in ("sweep", "digest"))
    same((status, swept), (0, {"end": "quiet", "line": 8, "ok": "sweep", "turns": 4}), "the first sweep")
    same(({it["digest"] for it in sides}, sides[0]["count"]), ({sides[2]["digest"]}, 2), "its collections")

    edits = [{"do": "insert", "in": "h", "doc": {"id": "c", "n": 3}}, {"do": "insert", "in": "f", "doc": {"id": "d"}},
             {"do": "patch", "in": "g", "key": "a", "set": {"n": 5}}, {"do": "remove", "in": "h", "key": "b"}]
    status, replies = run(fork, [*map(compact, edits), *sweep, turn_of("f")])
    swept, *sides, turned = (it for it in replies if it.get("ok") in ("sweep", "digest", "turn"))
    same((status, swept), (0, {"end": "quiet", "line": 5, "ok": "sweep", "turns": 4}), "the second sweep")
    same(turned, {"end": "quiet", "exchanges": 2, "line": 9, "ok": "turn"}, "the turn behind it")
    same(server.end(), (0, [told(1, "peer", 1), told(2, "peer", 2)]), "what was served")
    of_all = {it["digest"] for it in (*sides, checked(server.journal)[0])}
    same((of_all, sides[0]["count"]), ({sides[2]["digest"]}, 4), "all that there is")
    return "what is below the fork is level with it without a dial, and the fork's turn brings it to the server"


@case("an output that goes away")
def output_that_goes_away(folder):
    server = Server(folder, 2, ["a"])
    server.child.stdout.close()
    with server.dial() as wire:
        insist(ask(wire, push(1, ["b"]))["conflicts"] == [], "a push")
    insist(server.child.wait(SECONDS) == 5, f"status {server.child.returncode}")
    insist(held(server.journal) == {"a", "b"}, "the push is lost")
    return "5 after the first connection, and its push is there"


if __name__ == "__main__":
    main()
