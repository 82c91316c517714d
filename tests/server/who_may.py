"""Who may use the server, its limits, what it tells of itself, and TLS."""
import asyncio
import hashlib
import json
import os
import resource
import socket
import ssl
import subprocess
import time

from place import SCHEMA, Place, certificate, doc, pull_line, push_line, waited
from shared import ROOT, ask, case, compact, free_port, insist, is_served, said, same


# ---- who may

async def talked(wire, lines):
    """The replies to lines over a WebSocket, as far as there are any, and the code of its end."""
    from websockets.exceptions import ConnectionClosed
    replies_seen, reply = [], b""
    try:
        for line in lines:
            await wire.send(line.encode() + b"\n")
            reply = b""
            while not reply.endswith(b"\n"):
                reply += await wire.recv()
            replies_seen.append(json.loads(reply))
        if replies_seen and "fault" in replies_seen[-1]:
            await wire.recv()
    except ConnectionClosed:
        return replies_seen, wire.close_code
    return replies_seen, None


async def opened(place, name, secret="", lines=(), **more):
    """The status of a handshake that was refused, or what was talked."""
    from websockets.exceptions import InvalidStatusCode
    try:
        async with place.socket(name, secret, **more) as wire:
            return await talked(wire, lines)
    except InvalidStatusCode as refused:
        return refused.status_code


@case("tokens")
def who_may(folder):
    place = Place(folder, {"c": SCHEMA, "d": SCHEMA}).start()
    reader = place.command("token", "reader", "c:read").strip()
    writer = place.command("token", "writer", "c:write").strip()
    lines = [push_line(1, [doc("k1")]), pull_line(2)]
    told = {"conflicts": [], "epoch": 1, "n": 1}
    found, _ = waited(opened(place, "c", writer, lines))
    same(found[0], told, "a push")
    same([it["id"] for it in found[1]["docs"]], ["k1"], "a pull")
    tried = [("c", "", 401), ("c", "0" * 64, 401), ("d", writer, 403), ("e", writer, 403), ("", writer, 403),
             ("c/d", writer, 403), ("c?x", writer, 403), ("d", reader, 403)]
    for name, secret, status in tried:
        same(waited(opened(place, name, secret, lines)), status, f"{name}: {secret[:4]}")
    same(waited(opened(place, "c", writer, lines, origin="https://elsewhere.example")), 403, "another origin")
    same(waited(opened(place, "c", writer, [pull_line(1)], origin=None))[1], None, "no origin")
    same(len(waited(opened(place, "c", reader, [pull_line(1)]))[0][0]["docs"]), 1, "a reader's pull")
    same(waited(opened(place, "c", reader, [push_line(1, [doc("k2")])])), ([], 1008), "a reader's push")
    same(waited(opened(place, "c", reader, ["hello"])), ([{"fault": "not_json"}], 1000), "no request")
    waited(revoke_while_open(place, writer))
    same(waited(opened(place, "c", writer, lines)), 401, "a revoked token")
    with place.dial("c") as wire:
        insist(ask(wire, pull_line(1))["docs"], "a port of this machine")
    place.command("revoke", "all")
    with place.dial("c") as wire:
        try:
            same(ask(wire, pull_line(1)), None, "a port whose token is revoked")
        except OSError:
            pass
    same(place.command("tokens").split("\n")[:3],
         ["all revoked c:write d:write", "reader c:read", "writer revoked c:write"], "the list")
    secrets = [place.secret, reader, writer]
    rows = str(place.sql("SELECT * FROM rx.tokens"))
    insist(not any(it in rows or it in place.said() for it in secrets), "a token stands in a table or a log")
    digest = hashlib.sha256(reader.encode()).digest()
    same(place.sql("SELECT name FROM rx.tokens WHERE hash = %s", digest), [("reader",)], "its hash")
    place.end()
    return f"{len(tried) + 8} dials; nothing is answered without a token, and a revoked one's connection ends"


async def revoke_while_open(place, secret):
    async with place.socket("c", secret) as wire:
        same((await talked(wire, [pull_line(1)]))[1], None, "before")
        place.command("revoke", "writer")
        end = time.monotonic() + 15
        while (await talked(wire, [pull_line(2)]))[1] is None:
            insist(time.monotonic() < end, "a revoked token is still answered")
            time.sleep(0.3)
        same(wire.close_code, 1008, "the end")


LONGER_KEY = {**SCHEMA["properties"], "id": {"type": "string", "maxLength": 651}}


@case("words of the command")
def commands(folder):
    place = Place(folder, {"c": SCHEMA})
    other = os.path.join(folder, "other.json")
    longer = os.path.join(folder, "longer.json")
    for path, words in ((other, {"version": 1}), (longer, {"properties": LONGER_KEY})):
        with open(path, "w", encoding="utf-8") as file:
            file.write(compact({**SCHEMA, **words}))
    tried = {
        ("collection", "c", other): "another schema", ("collection", "C", other): "a collection's name",
        ("collection", "d", os.path.join(folder, "none")): "No such file",
        ("collection", "d", longer): "maxLength is above 650",
        ("token", "all", "c:read"): "a token of that name", ("token", "x", "c"): "COLLECTION:read",
        ("token", "x", "c:read", "c:write"): "stands twice", ("token", "x", "e:read"): "no such collection",
        ("revoke", "x"): "no such token", ("digest", "e"): "no such collection",
        ("digest",): "rx_server serve",
    }
    for words, told in tried.items():
        seen = place.command(*words, fails=True)
        insist(told in seen and "Traceback" not in seen, f"{words}: {seen}")
    with open(place.config, "a", encoding="utf-8") as file:
        file.write("rows = 3\n")
    insist("rows is no word" in place.command("tokens", fails=True), "an unknown word of the configuration")
    place.end()
    return f"{len(tried)} that can't be done are refused by what is wrong"


# ---- limits, and what is watched

@case("limits of a connection")
def limits(folder):
    place = Place(folder, {"c": SCHEMA}, limits="requests_a_second = 20\nrows_a_second = 100\n"
                                                "idle_seconds = 2\nconnections = 3").start()
    with place.dial("c") as wire:
        begun = time.monotonic()
        for n in range(1, 61):
            ask(wire, pull_line(n))
        insist((seconds := time.monotonic() - begun) > 1.8, f"60 requests in {seconds:.1f} s")
        begun = time.monotonic()
        for n in range(4):
            ask(wire, push_line(n + 1, [doc(f"{n}-{at}") for at in range(100)]))
        insist((seconds := time.monotonic() - begun) > 1.8, f"400 rows in {seconds:.1f} s")
    with place.dial("c") as wire:
        begun = time.monotonic()
        try:
            insist(said(wire) == b"", "an idle connection is answered")
        except ConnectionError:
            pass
        insist(1.5 < time.monotonic() - begun < 20, "an idle connection isn't given up")
    waited(too_many(place))
    same(waited(opened(place, "c", place.secret, ["a" * (2 << 20)]))[1], 1009, "a long message")
    same(waited(text_message(place)), 1003, "a text message")
    same(waited(in_pieces(place))["n"], 1, "a line over several messages")
    place.end()
    return "requests and rows a second, silence, connections, long and text messages, and lines over several"


@case("more connections than files at first")
def many_connections(folder):
    place, count = Place(folder, {"c": SCHEMA}, limits="connections = 300"), 300
    before = resource.getrlimit(resource.RLIMIT_NOFILE)
    resource.setrlimit(resource.RLIMIT_NOFILE, (100, before[1]))
    try:
        place.start()
    finally:
        resource.setrlimit(resource.RLIMIT_NOFILE, before)
    wires = [place.dial("c") for _ in range(count)]
    for n, wire in enumerate(wires, 1):
        same(ask(wire, pull_line(n))["n"], n, "a pull")
    for it in wires:
        it.close()
    place.end()
    return f"{count} connections at once, by a server that began with 100 files"


async def too_many(place):
    wires = [await place.socket("c", place.secret) for _ in range(3)]
    same(await opened(place, "c", place.secret), 503, "one connection more")
    for it in wires:
        await it.close()
    end = time.monotonic() + 10
    while (found := await opened(place, "c", place.secret, [pull_line(1)])) == 503:
        insist(time.monotonic() < end, "no connection is taken again")
    same(found[1], None, "the next one")


async def text_message(place):
    async with place.socket("c", place.secret) as wire:
        await wire.send(pull_line(1) + "\n")
        await wire.wait_closed()
        return wire.close_code


async def in_pieces(place):
    async with place.socket("c", place.secret) as wire:
        line = pull_line(1).encode() + b"\n"
        for at in range(0, len(line), 7):
            await wire.send(line[at:at + 7])
        return json.loads(await wire.recv())


@case("health, counts and the log")
def watched(folder):
    place = Place(folder, {"c": SCHEMA}).start()
    same(place.watched("/health"), (200, "ok\n"), "health")
    same(place.watched("/c")[0], 404, "another path")
    with place.dial("c") as wire:
        ask(wire, push_line(1, [doc("secret"), doc("b")]))
        ask(wire, push_line(2, [doc("secret", 2)]))
        ask(wire, pull_line(3))
        insist("\nrx_connections 1\n" in place.watched("/metrics")[1], "no open connection is counted")
        wire.sendall(b'{"ask":"pull","id":"secret"}\n')
        same(said(wire), b'{"fault":"missing"}\n', "a fault")
    counts = place.watched("/metrics")[1]
    for line in ('rx_dials_total{answer="admitted"} 1', 'rx_ends_total{end="request"} 1',
                 'rx_faults_total{fault="missing"} 1', 'rx_states_total{kind="conflict"} 1',
                 'rx_states_total{kind="pulled"} 2', 'rx_states_total{kind="taken"} 2',
                 'rx_request_seconds_count{ask="push"} 2', 'rx_request_seconds_count{ask="pull"} 1'):
        insist(line in counts.split("\n"), f"no {line} in\n{counts}")
    place.cluster.stop()
    same(place.watched("/health"), (503, "no database\n"), "without a database")
    with place.dial("c") as wire:
        try:
            insist(ask(wire, push_line(1, [doc("secret")])) is None, "an answer without a database")
        except OSError:
            pass
    place.cluster.start()
    end = time.monotonic() + 60
    while place.watched("/health")[0] != 200:
        insist(time.monotonic() < end, "the database isn't found again")
    insist("secret" not in place.said(), "a document stands in the log")
    place.end()
    return "Prometheus' text, 503 without a database, and nothing of a document in the log"


@case("work that fails")
def work_that_fails(folder):
    """As where a table was spoilt: the connection is broken off, and nobody waits."""
    place = Place(folder, {"c": SCHEMA}).start()
    place.sql("UPDATE rx.collections SET definition = '[]'")
    same(waited(opened(place, "c", place.secret, [pull_line(1)])), 500, "a WebSocket")
    begun = time.monotonic()
    with place.dial("c") as wire:
        try:
            same(ask(wire, pull_line(1)), None, "a port")
        except ConnectionError:
            pass
    insist(time.monotonic() - begun < 20, "a port isn't broken off")
    same(place.watched("/health"), (200, "ok\n"), "health")
    place.end()
    return "500 for a WebSocket, and a port is broken off"


# ---- TLS

@case("a WebSocket over TLS", needs=["openssl"])
def over_tls(folder):
    place = Place(folder, {"c": SCHEMA}, tls=certificate(folder)).start()
    authority = os.path.join(folder, "certificate.pem")
    trusted = ssl.create_default_context(cafile=authority)
    found = waited(opened(place, "c", place.secret, [push_line(1, [doc("k1")]), pull_line(2)], scheme="wss",
                          ssl=trusted))
    same([it["id"] for it in found[0][1]["docs"]], ["k1"], "a pull")
    same(waited(opened(place, "c", "", [pull_line(2)], scheme="wss", ssl=trusted)), 401, "no token")
    try:
        waited(opened(place, "c", place.secret, [pull_line(1)]))
        insist(False, "it answers without TLS")
    except Exception as seen:  # pylint: disable=broad-except
        insist("HTTP" in str(seen) or isinstance(seen, (OSError, EOFError)), f"{seen!r}")
    seen = by_dial(place, authority)
    place.end()
    return f"pushes and pulls by wss, and nothing without it; {seen} by rx_dial"


def by_dial(place, authority):
    """What a port that leads to the server tells, with a token and without one."""
    port, seen = free_port(), []
    for secret in (place.secret, "0" * 64):
        words = [os.path.join(ROOT, "server", "rx_dial"), str(port),
                 f"wss://127.0.0.1:{place.websocket}/c", authority]
        child = subprocess.Popen(words, env={**os.environ, "RX_TOKEN": secret}, stderr=subprocess.DEVNULL)
        try:
            while not is_served(port):
                insist(child.poll() is None, "rx_dial has ended")
                time.sleep(0.05)
            with socket.create_connection(("127.0.0.1", port), 60) as wire:
                for n in range(1, 4):
                    seen.append((ask(wire, pull_line(n)) or {"n": "broken off"})["n"])
                wire.sendall(b"hello\n")
                seen.append(said(wire).decode())
        except ConnectionError:
            pass
        finally:
            child.kill()
            child.wait()
    same(seen[:4], [1, 2, 3, '{"fault":"not_json"}\n'], "rx_dial")
    insist(set(seen[4:]) <= {"broken off", ""}, f"rx_dial without a token: {seen}")
    return "so it is"
