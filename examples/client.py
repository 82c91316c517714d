#!/usr/bin/env python3
"""A client of a served collection: it pulls what is there, pushes documents, and prints what came.

    rx serve JOURNAL todos 4001 1 &
    examples/client.py 4001 SCHEMA '{"id":"milk","rank":2}' ..

SCHEMA is a file with the collection's schema. docs/WIRE.md has the messages.
"""
import hashlib
import json
import socket
import sys

BOUNDS = ("maxLength", "minimum", "maximum", "multipleOf")


def compact(value):
    return json.dumps(value, ensure_ascii=False, sort_keys=True, separators=(",", ":"))


def hash_of(schema):
    """Of the schema's text with each default written out, by which both sides know it."""
    properties = {}
    for name, it in schema["properties"].items():
        kind = "integer" if it["type"] == "number" else it["type"]
        bounds = {word: it[word] for word in BOUNDS if word in it}
        default = {"maxLength": 8192} if kind == "string" else {}
        properties[name] = {**default, **bounds, "type": kind}
    indexes = [[it] if isinstance(it, str) else it for it in schema.get("indexes", [])]
    required = sorted({schema["primaryKey"], *schema.get("required", [])})
    same = {it: schema[it] for it in ("primaryKey", "type", "version")}
    text = compact({**same, "indexes": indexes, "properties": properties, "required": required})
    return hashlib.sha256(text.encode()).hexdigest()


class Master:
    def __init__(self, port, schema):
        wire = socket.create_connection(("127.0.0.1", port), 60)
        self.wire = wire.makefile("rw", encoding="utf-8", newline="\n")
        self.each, self.key = {"epoch": 1, "n": 0, "schema": hash_of(schema)}, schema["primaryKey"]
        self.assumed, self.place = {}, {}

    def ask(self, **members):
        self.each["n"] += 1
        self.wire.write(compact({**self.each, **members}) + "\n")
        self.wire.flush()
        return json.loads(self.wire.readline())

    def pull(self):
        """Learns what was written since the last pull."""
        docs = range(100)
        while len(docs) == 100:
            reply = self.ask(ask="pull", batch=100, **self.place)
            docs, self.place = reply["docs"], {it: reply[it] for it in reply if it == "place"}
            self.assumed.update((state[self.key], {"assumed": state}) for state in docs)

    def push(self, docs):
        """Offers 1 to 100 documents, and answers the states of those that weren't taken."""
        states = [{**doc, "_deleted": False} for doc in docs]
        rows = [{**self.assumed.get(it[self.key], {}), "new": it} for it in states]
        return self.ask(ask="push", rows=rows)["conflicts"]


if __name__ == "__main__":
    with open(sys.argv[2], encoding="utf-8") as file:
        master = Master(int(sys.argv[1]), json.load(file))
    master.pull()
    conflicts = master.push(map(json.loads, sys.argv[3:])) if sys.argv[3:] else []
    master.pull()
    lines = [f"not taken, there is {compact(it)}" for it in conflicts]
    print(*lines, *(compact(it["assumed"]) for it in master.assumed.values()), sep="\n")
