#!/usr/bin/env python3
"""Calls a second of each client, beside the bare program fed with the same lines.

    bench/clients.py [PROGRAM] [FOLDER]

The files lie in FOLDER, or in memory-backed storage where it is left out. Each load has its own
collection of one database: inserts with an answer awaited each, inserts that are awaited together,
bulks of 500, gets, and patches of which each changes an observed, sorted and limited query, whose
emission is awaited. The bare program gets the same lines as a file, without waiting, and the gets
tenfold; what it takes to make the documents is taken off.
Python is here; Node and Chromium are in bench/clients.mjs, where there are the tools, and Chromium's
files lie in FOLDER too. All take turns, three runs each, and the best time counts. Of the page of
todos it tells how long after its loading began the first emission came.
"""
import asyncio
import json
import os
import shutil
import subprocess
import sys
import tempfile
import time

from measuring import HERE, SCHEMA, SEED, compact, measure, program

sys.path.insert(0, os.path.join(HERE, "..", "clients", "python"))
import rx  # noqa: E402

RUNS = 3
COUNT = 5_000
GETS = 10
FOLDER = sys.argv[2] if len(sys.argv) > 2 else "/dev/shm"
LOADS = ["insert", "together", "bulk", "get", "observed"]
QUERY = {"sort": [{"n": "desc"}], "limit": 10}


def key(n):
    return f"k{n * SEED % COUNT}"


def rows(start, end):
    return [{"id": key(n), "n": n} for n in range(start, end)]


def batches():
    return [[{"id": key(at + i), "n": i} for i in range(500)] for at in range(0, COUNT, 500)]


def in_folder(run):
    with tempfile.TemporaryDirectory(dir=FOLDER) as folder:
        return run(os.path.join(folder, "journal"))


def bare():
    """The seconds of each load's lines, with and without those that go before."""
    made = [compact({"do": "collection", "name": "c", "schema": SCHEMA})]
    full = made + [compact({"do": "bulk", "in": "c", "docs": rows(0, COUNT)})]
    observed = full + [compact({"do": "observe", "name": "q", "in": "c", "query": QUERY})]
    scripts = {
        "insert": (made, [{"do": "insert", "in": "c", "doc": row} for row in rows(0, COUNT)]),
        "bulk": (made, [{"do": "bulk", "in": "c", "docs": docs} for docs in batches()]),
        "get": (full, [{"do": "get", "in": "c", "key": key(n)} for n in range(COUNT)] * GETS),
        "observed": (observed, [{"do": "patch", "in": "c", "key": key(n), "set": {"n": COUNT + n}} for n in range(COUNT)]),
    }
    scripts["together"] = scripts["insert"]
    seconds = {}
    for load, (before, lines) in scripts.items():
        whole = before + [compact(it) for it in lines]
        for name, script in ((load, whole), (f"before {load}", before)):
            seconds[name] = in_folder(lambda path, it=script: measure([program(), "run", path], it)[0])
    return seconds


def timed(work):
    start = time.perf_counter()
    work()
    return time.perf_counter() - start


def python(path):
    with rx.open(path, program=program()) as db:
        c = {load: db.collection(load, SCHEMA) for load in LOADS}
        for load in ("get", "observed"):
            c[load].bulk(rows(0, COUNT))
        query = c["observed"].observe(QUERY)
        query.next()

        def observed():
            for n in range(COUNT):
                c["observed"].patch(key(n), {"n": COUNT + n})
                query.next()

        return {
            "insert": timed(lambda: [c["insert"].insert(row) for row in rows(0, COUNT)]),
            "bulk": timed(lambda: [c["bulk"].bulk(docs) for docs in batches()]),
            "get": timed(lambda: [c["get"].get(key(n)) for n in range(COUNT)]),
            "observed": timed(observed),
        }


async def with_asyncio(path):
    async with rx.open_async(path, program=program()) as db:
        c = {load: await db.collection(load, SCHEMA) for load in LOADS}
        for load in ("get", "observed"):
            await c[load].bulk(rows(0, COUNT))
        seconds = {}
        for load, call, each in (
            ("insert", c["insert"].insert, rows(0, COUNT)),
            ("bulk", c["bulk"].bulk, batches()),
            ("get", c["get"].get, [key(n) for n in range(COUNT)]),
        ):
            start = time.perf_counter()
            for it in each:
                await call(it)
            seconds[load] = time.perf_counter() - start
        start = time.perf_counter()
        await asyncio.gather(*map(c["together"].insert, rows(0, COUNT)))
        seconds["together"] = time.perf_counter() - start
        async with c["observed"].observe(QUERY) as query:
            await query.__anext__()
            start = time.perf_counter()
            for n in range(COUNT):
                await c["observed"].patch(key(n), {"n": COUNT + n})
                await query.__anext__()
            seconds["observed"] = time.perf_counter() - start
        return seconds


def javascript(where):
    words = ["node", os.path.join(HERE, "clients.mjs"), where, os.path.abspath(program()), FOLDER, str(COUNT)]
    return json.loads(subprocess.run(words, stdout=subprocess.PIPE, check=True).stdout)


def main():
    peers = {
        "the bare program": bare,
        "Python": lambda: in_folder(python),
        "Python, asyncio": lambda: in_folder(lambda path: asyncio.run(with_asyncio(path))),
    }
    if shutil.which("node"):
        peers["Node"] = lambda: javascript("node")
    if shutil.which("node") and shutil.which("chromium") and os.path.exists(os.path.join(HERE, "..", "wasm", "out", "rx.wasm")):
        peers["Chromium"] = lambda: javascript("chromium")
    runs = {who: [] for who in peers}
    for _ in range(RUNS):
        for who, run in peers.items():
            runs[who].append(run())
    for load in LOADS:
        for who in peers:
            # each call of that client waits for its answer
            if (load, who) == ("together", "Python"):
                continue
            seconds = min(run[load] for run in runs[who])
            if who == "the bare program":
                seconds -= min(run[f"before {load}"] for run in runs[who])
                seconds /= GETS if load == "get" else 1
            print(f"{load}: {who} {COUNT / seconds:,.0f} a second")
    for load in ("first load", "next load"):
        if "Chromium" in peers:
            print(f"the page of todos, {load}: first emission after {min(run[load] for run in runs['Chromium']) * 1000:,.0f} ms")


main()
