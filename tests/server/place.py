"""What the tests of the server share: a PostgreSQL of their own, the server over it, and how it is asked."""
import asyncio
import copy
import json
import os
import socket
import subprocess
import sys
import time

HERE = os.path.dirname(os.path.abspath(__file__))
sys.path += [os.path.dirname(HERE), os.path.join(HERE, "..", "..", "server")]

import replies  # noqa: E402
from model import printed  # noqa: E402
from shared import ROOT, Skipped, compact, free_port, hash_of, insist, is_served  # noqa: E402

try:
    import psycopg
    import psycopg_pool  # noqa: F401
    from websockets.legacy.client import connect

    from cluster import Cluster, programs
    programs()
except (ImportError, FileNotFoundError) as fault:
    MISSING = f"{fault}; to get it: server/start"
else:
    MISSING = None

SCHEMA, HASH = replies.SCHEMA, hash_of(replies.SCHEMA)
KEYS = [f"k{n}" for n in range(10)] + ["é", "\U0001f600", "a\u0000b", '"\\', "\x7f", "z"]

RX_SERVER = os.path.join(ROOT, "server", "rx_server")
ORIGIN = "https://todos.example"
START_SECONDS = 120


def check_packages():
    """Skips a case that can't be tried here."""
    if MISSING:
        raise Skipped(MISSING)


def certificate(folder):
    """Makes a certificate of 127.0.0.1 that is its own authority, and answers what the configuration says of it."""
    words = ["-x509", "-newkey", "ec", "-pkeyopt", "ec_paramgen_curve:prime256v1", "-nodes", "-days", "2",
             "-subj", "/CN=127.0.0.1", "-addext", "subjectAltName=IP:127.0.0.1",
             "-keyout", "key.pem", "-out", "certificate.pem"]
    subprocess.run(["openssl", "req", *words], cwd=folder, check=True, capture_output=True)
    return 'certificate = "certificate.pem"\nkey = "key.pem"'


class Place:
    """A cluster in a folder, with a server over it that has these collections, each at a port of its own."""

    def __init__(self, folder, collections, limits="", tls="", origin=ORIGIN):
        check_packages()
        self.origin = origin
        self.folder, self.ports = folder, {name: free_port() for name in collections}
        self.websocket, self.watch = free_port(), free_port()
        # The cluster's user goes through the folders above its own.
        for it in (folder, os.path.dirname(folder), os.environ.get("TMPDIR", folder)):
            if os.stat(it).st_uid == os.geteuid() and it not in ("/tmp", "/dev/shm"):
                os.chmod(it, 0o711)
        self.cluster = Cluster(os.path.join(folder, "pg")).make().start()
        self.config, self.log = os.path.join(folder, "rx_server.toml"), os.path.join(folder, "log")
        self.child = None
        self.configure(limits, tls)
        for name, schema in collections.items():
            path = os.path.join(folder, f"{name}.json")
            with open(path, "w", encoding="utf-8") as file:
                file.write(compact(schema))
            self.command("collection", name, path)
        self.secret = self.command("token", "all", *(f"{name}:write" for name in collections)).strip()

    def another(self):
        """One more server over the same database."""
        it = copy.copy(self)
        it.config, it.log, it.child = f"{self.config}.more", f"{self.log}.more", None
        it.ports = {name: free_port() for name in self.ports}
        it.websocket, it.watch = free_port(), free_port()
        it.configure("", "")
        return it

    def configure(self, limits, tls):
        doors = "".join(f'[[tcp]]\nport = {port}\ncollection = "{name}"\ntoken = "all"\n'
                        for name, port in self.ports.items())
        with open(self.config, "w", encoding="utf-8") as file:
            file.write(f'database = "{self.cluster.conninfo}"\n'
                       f'[websocket]\nport = {self.websocket}\norigins = ["{self.origin}"]\n{tls}\n'
                       f"{doors}[watch]\nport = {self.watch}\n[limits]\n{limits}\n")

    def command(self, *words, fails=False):
        """What a command of the server prints."""
        done = subprocess.run([RX_SERVER, "--config", self.config, *words], capture_output=True, text=True,
                              timeout=START_SECONDS, check=False)
        insist((done.returncode != 0) == fails, f"{words}: {done.returncode} {done.stdout}{done.stderr}")
        return done.stderr if fails else done.stdout

    def start(self):
        with open(self.log, "ab") as log:
            words = [RX_SERVER, "--config", self.config, "serve"]
            self.child = subprocess.Popen(words, stdout=log, stderr=log)
        end = time.monotonic() + START_SECONDS
        while not is_served(self.watch):
            is_in_time = self.child.poll() is None and time.monotonic() < end
            insist(is_in_time, f"the server doesn't start: {self.said()}")
            time.sleep(0.02)
        return self

    def said(self):
        with open(self.log, encoding="utf-8") as log:
            return log.read()

    def kill(self):
        self.child.kill()
        self.child.wait()

    def end(self):
        if self.child:
            self.child.terminate()
            status = self.child.wait(START_SECONDS)
            insist(status == 0, f"the server ended with {status}: {self.said()}")
        self.cluster.stop()

    def dial(self, name=None, port=None):
        wire = socket.create_connection(("127.0.0.1", port or self.ports[name]), START_SECONDS)
        wire.setsockopt(socket.IPPROTO_TCP, socket.TCP_NODELAY, 1)
        return wire

    def sql(self, text, *values):
        with psycopg.connect(self.cluster.conninfo) as connection:
            found = connection.execute(text, values)
            return found.fetchall() if found.description else None

    def digest(self, name):
        return json.loads(self.command("digest", name))

    def watched(self, path):
        """The status and the body of an answer to whoever watches."""
        with socket.create_connection(("127.0.0.1", self.watch), START_SECONDS) as wire:
            wire.sendall(f"GET {path} HTTP/1.1\r\nHost: here\r\n\r\n".encode())
            said = b""
            while piece := wire.recv(1 << 16):
                said += piece
        head, _, body = said.decode().partition("\r\n\r\n")
        return int(head.split()[1]), body

    def socket(self, name, secret="", origin=ORIGIN, scheme="ws", **more):
        """A WebSocket to a collection, to be waited for."""
        words = ["rx", *([f"token.{secret}"] if secret else [])]
        return connect(f"{scheme}://127.0.0.1:{self.websocket}/{name}", origin=origin, subprotocols=words,
                       compression=None, max_size=None, **more)


def waited(call):
    return asyncio.run(asyncio.wait_for(call, START_SECONDS))


# ---- documents and requests

def state_at_random(numbers, key):
    fields = {"id": key, "n": numbers.randint(-2, 12), "b": numbers.choice([None, True, False]),
              "t": numbers.choice([None, "", "x", "\u00e9\n\u0001", '"\\/', "\ud7ff\ue000\U0001f600"])}
    there = {name: value for name, value in fields.items() if value is not None}
    return {"_deleted": numbers.random() < 0.2, **there}


def doc(key, n=1):
    return {"_deleted": False, "id": key, "n": n}


def pull_line(n, **more):
    return printed({"ask": "pull", "batch": 100, "epoch": 1, "n": n, "schema": HASH, **more})


def rows_line(n, rows):
    return printed({"ask": "push", "epoch": 1, "n": n, "rows": rows, "schema": HASH})


def push_line(n, states):
    return rows_line(n, [{"new": it} for it in states])
