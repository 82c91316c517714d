#!/usr/bin/python3
"""A place for tests of pages: a server with a collection `todos` in a folder, for pages of an origin, by TLS
where that is asked for.

    standing.py FOLDER ORIGIN [tls]

It tells of itself by a line of JSON, and then answers each line of its input by one: start, kill, digest or
metrics; `link PORT SEED` by a port behind which a link to that port fails, as the seed says, until `calm`. With
the end of its input it ends.
"""
import json
import os
import random
import sys

from link import Link
from place import ROOT, Place, certificate
from shared import Skipped


def link(links, port, seed):
    links.append(Link(int(port), random.Random(int(seed))))
    return links[-1].port_in_front()


def calm(links):
    for it in links:
        it.numbers = None
    return True


def main(folder, origin, tls=None):
    with open(os.path.join(ROOT, "server", "todos.json"), encoding="utf-8") as file:
        schema = json.load(file)
    try:
        place = Place(folder, {"todos": schema}, tls=certificate(folder) if tls else "", origin=origin).start()
    except Skipped as why:
        print(json.dumps({"missing": str(why)}), flush=True)
        return
    doors = {"websocket": place.websocket, "port": place.ports["todos"]}
    print(json.dumps({**doors, "secret": place.secret, "schema": schema}), flush=True)
    links = []
    answers = {
        "start": lambda: place.start() and True,
        "kill": lambda: place.kill() is None,
        "digest": lambda: place.digest("todos"),
        "metrics": lambda: place.watched("/metrics")[1],
        "link": lambda port, seed: link(links, port, seed),
        "calm": lambda: calm(links),
    }
    for line in sys.stdin:
        word, *words = line.split()
        print(json.dumps(answers[word](*words)), flush=True)
    place.end()


if __name__ == "__main__":
    main(*sys.argv[1:])
