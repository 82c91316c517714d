"""The client for Python over a child process, plain and with asyncio."""
import asyncio
import itertools
import json
import os
import re
import shutil
import signal
import subprocess
import sys
import threading
import time
import tracemalloc

HERE = os.path.dirname(os.path.abspath(__file__))
sys.path.insert(0, os.path.dirname(HERE))
from shared import (  # noqa: E402
    DEBIANS_PYTHON, ROOT, RX, SCHEMA, Server, case, checked, content, examples, main, same, told,
)

CLIENT = os.path.join(ROOT, "clients", "python")
sys.path.insert(0, CLIENT)
import rx  # noqa: E402
from rx import calls  # noqa: E402
from rx.following import Account  # noqa: E402
from rx.journal import Names  # noqa: E402
from rx.lines import Lines  # noqa: E402

os.environ["RX"] = RX
NUMBERS = itertools.count(1)
# What comes behind the schema, and how.
NEXT = {
    **SCHEMA,
    "version": 1,
    "properties": {"id": SCHEMA["properties"]["id"], "v": {"type": "integer"}, "on": {"type": "boolean"}},
    "required": ["id", "on"],
}
STEPS = [{"rename": "n", "to": "v"}, {"scale": "v", "by": 10}, {"set": "on", "value": True}]


def new_journal(folder):
    return os.path.join(folder, f"journal-{next(NUMBERS)}")


def fault(call, *args, **more):
    try:
        call(*args, **more)
    except (rx.Refused, rx.Stopped) as it:
        return it
    raise AssertionError("it was not refused")


async def async_fault(call):
    try:
        await call
    except (rx.Refused, rx.Stopped) as it:
        return it
    raise AssertionError("it was not refused")


class Recorder:
    """Keeps what goes both ways of a database, but for the line that opened it."""

    def __init__(self, lines):
        self.written, self._output = b"", b""
        self._write, self._take = lines.write, lines.take
        lines.write, lines.take = self.write, self.take

    def write(self, call, answer):
        data = self._write(call, answer)
        self.written += data
        return data

    def take(self, data):
        self._output += data
        self._take(data)

    def output(self):
        """What came, its lines numbered from 1."""
        return re.sub(rb'(?<="line":)\d+', lambda it: b"%d" % (int(it[0]) - 1), self._output)


DATABASE = "collection explain tick restart replicate turn stream deliver unstream".split()


def play(db, text, observed):
    """One line of a script by the call for it; with asyncio it answers a coroutine."""
    if not text.strip():
        return db.line(text)
    line = json.loads(text)
    do, into = line.pop("do"), line.pop("in", None)
    if do == "migrate":
        return db.migrate(into, **line)
    if into is None:
        if do == "unobserve":
            return observed.pop(line["name"]).close()
        if do == "sweep":
            return db.sweep(line.pop("name"), **line)
        if do in DATABASE:
            return getattr(db, do)(**line)
        return db.call({"do": do, **line})
    collection = (rx.AsyncCollection if isinstance(db, rx.AsyncDatabase) else rx.Collection)(db, into, None)
    if do == "observe":
        observed[line["name"]] = query = collection.observe(line["query"], line["name"])
        return query.__aenter__() if isinstance(db, rx.AsyncDatabase) else None
    return getattr(collection, do)(**line)


def prepared(folder, before):
    """A new journal, or for the second run of a pair the first one's."""
    path = new_journal(folder)
    if before:
        subprocess.run([RX, "run", path], input=before, stdout=subprocess.DEVNULL, check=False)
    return path


@case()
def every_example_by_the_calls(folder):
    for name, script, before, out in examples():
        with rx.open(prepared(folder, before), clock=None) as db:
            recorder, observed = Recorder(db._lines), {}
            for text in script.decode().split("\n")[:-1]:
                try:
                    play(db, text, observed)
                except rx.Refused:
                    pass
        same(recorder.written, script, f"{name}, written")
        same(recorder.output(), out, f"{name}, output")


@case()
def every_example_with_asyncio(folder):
    async def run(name, script, before, out):
        async with rx.open_async(prepared(folder, before), clock=None) as db:
            recorder, observed = Recorder(db._lines), {}
            for text in script.decode().split("\n")[:-1]:
                try:
                    await play(db, text, observed)
                except rx.Refused:
                    pass
        same(recorder.written, script, f"{name}, written")
        same(recorder.output(), out, f"{name}, output")

    for it in examples():
        asyncio.run(run(*it))


def members(it):
    return it.code, it.word, it.cause, it.subject, it.rev, it.row


@case()
def refusals_by_code(folder):
    with rx.open(new_journal(folder)) as db:
        c = db.collection("c", SCHEMA)
        same((c.new, db.collection("c", SCHEMA).new), (True, False))
        c.insert({"id": "a", "n": 1})
        same(members(fault(c.insert, {"id": "a"})), (14, "conflict", None, None, "1-c", None))
        same(members(fault(c.bulk, [{"id": "b"}, {"id": "a"}])), (14, "conflict", None, None, "1-c", 1))
        same(members(fault(c.insert, {"id": "b", "n": "x"})), (13, "invalid", "kind", "n", None, None))
        same(members(fault(c.find, {"selector": {"m": 1}})), (16, "query", "field", "m", None, None))
        same(members(fault(c.get, "z")), (15, "no_document", None, None, None, None))
        same(members(fault(db.collection("d").count)), (10, "no_collection", None, "d", None, None))
        same(members(fault(c.observe, {"limit": -1})), (16, "query", "limit", None, None, None))
        same(members(fault(db.explain, "q")), (17, "no_query", None, None, None, None))
        same(members(fault(db.line, "{")), (2, "not_json", None, None, None, None))
        same(fault(db.line, "\x0c").word, "not_json", "it isn't blank")
        same((db.line(""), c.count(), c.get("a")._replace(lwt=0)), ({}, 1, ({"id": "a", "n": 1}, 0, "1-c")))


@case()
def what_is_no_json_is_refused_by_the_members_name_before_it_counts_as_a_line(folder):
    with rx.open(new_journal(folder)) as db:
        c = db.collection("c", SCHEMA)
        deep = []
        for _ in range(5000):
            deep = [deep]
        for name, value, cause in (
            ("t", "half a pair: \ud83d", "surrogate"),
            ("n", float("nan"), "number"),
            ("n", {1}, "type"),
            ("n", b"x", "type"),
            ("d", deep, "depth"),
        ):
            refused = fault(c.insert, {"id": "b", name: value})
            same(members(refused), (2, "not_json", cause, name, None, None))
            same(
                name in str(refused) and not (cause == "surrogate" and "\ud83d" in str(refused)),
                True,
                str(refused),
            )
        same(
            members(fault(c.bulk, [{"id": "b"}, {"id": "\udc00"}])),
            (2, "not_json", "surrogate", "id", None, 1),
        )
        same(
            members(fault(c.insert, {"id": "b", "\ud800": 1})),
            (2, "not_json", "surrogate", r"'\ud800'", None, None),
        )
        same(fault(c.find, {"selector": {"id": "\ud800"}}).subject, "id")
        same(fault(db.line, '{"do":"\ud800"}').cause, "surrogate")
        same((db.call({"do": "tick", "at": 1})["line"], c.count()), (3, 0), "two lines before it")


@case()
def a_refusal_says_the_value_and_the_limit_that_were_wrong(folder):
    schema = {
        **SCHEMA,
        "properties": {
            "id": {"type": "string", "maxLength": 20},
            "t": {"type": "string", "maxLength": 3},
            "n": {"type": "integer", "minimum": 1, "maximum": 9, "multipleOf": 2},
        },
    }
    with rx.open(new_journal(folder)) as db:
        c = db.collection("c", schema)
        c.insert({"id": "a"})

        def told(value, limit, words, call, *args, **more):
            refused = fault(call, *args, **more)
            same((refused.value, refused.limit), (value, limit), str(refused))
            same(words in str(refused), True, str(refused))

        told("myTodos", None, 'name "myTodos" is no name', db.collection, "myTodos", schema)
        told("d" * 65, 64, "is no name: a lower-case letter", db.collection, "d" * 65, schema)
        told("D", None, 'in "D" is no name', db.collection("D").count)
        told("long", 3, "t has 4 characters, more than 3", c.insert, {"id": "b", "t": "long"})
        told(11, 9, "n 11 isn't within its bounds, maximum 9", c.insert, {"id": "b", "n": 11})
        told(0, 1, "n 0 isn't within its bounds, minimum 1", c.insert, {"id": "b", "n": 0})
        told(3, 2, "n 3 isn't within its bounds, multipleOf 2", c.insert, {"id": "b", "n": 3})
        told("x", None, "of the wrong kind: the schema says integer", c.insert, {"id": "b", "n": "x"})
        told(2**53, 2**53 - 1, "beyond 9,007,199,254,740,991", c.insert, {"id": "b", "n": 2**53})
        told("xxxx", 3, "row 1: t has 4 characters", c.bulk, [{"id": "b"}, {"id": "d", "t": "xxxx"}])
        told("", 1, "id is empty", c.insert, {"id": ""})
        told("a", None, '"a" is there already, at revision 1-c', c.insert, {"id": "a"})
        told("0-c", None, '"a" has the revision 1-c, and not 0-c', c.patch, "a", {"n": 2}, rev="0-c")
        told(None, None, "n would be no value that its property takes", c.update, "a", {"$inc": {"n": 11}})
        told(None, None, "$push is no operator", c.update, "a", {"$push": {"n": 1}})
        told("x", None, "n has no operand such as it takes", c.update, "a", {"$inc": {"n": "x"}})
        told(None, None, "n stands under two operators", c.update, "a", {"$set": {"n": 2}, "$unset": {"n": 0}})
        told(None, None, "id is the primary key", c.update, "a", {"$set": {"id": "b"}})
        told("z", None, 'there is no document "z"', c.get, "z")
        told(101, 100, "batch 101 isn't from 1 to 100", c.changes, batch=101)
        told(-1, 10**9, "limit -1 is no whole number", c.find, {"limit": -1})
        told("m", None, "m is no property of the schema", c.find, {"selector": {"m": 1}})
        told(70_000, 65_535, "version 70000 is no", db.collection, "d", {**schema, "version": 70_000})
        told(5, None, "key 5 is no text", c.get, 5)
        told(None, None, "id is missing or no text", c.insert, {"n": 2})
        told("c", None, "c is held with another schema", db.collection, "c", SCHEMA)
        told("newest", None, 'handler "newest" is none of', db.replicate, "r", "c", "c", handler="newest")
        told(None, None, "the fork is the master, or is a fork already", db.replicate, "r", "c", "c", handler="join")
        told(1_048_577, 1_048_576, "1,048,577 bytes, more than", db.line, " " * 1_048_575 + "{}")
        for n in range(63):
            db.collection(f"c{n}", schema)
        told("more", 64, "there are 64 collections", db.collection, "more", schema)


@case()
def emissions_of_what_is_answered_and_then_no_more(folder):
    with rx.open(new_journal(folder)) as db:
        c = db.collection("c", SCHEMA)
        with c.observe({"selector": {"n": {"$gte": 2}}}) as query:
            heard = [len(query.changed())]
            for n in range(1, 4):
                c.insert({"id": f"k{n}", "n": n})
                heard.append(query.changed())
            same([heard[0], heard[1], *map(len, heard[2:])], [0, None, 1, 2])
            same((query.changed(), len(query.rows()), query.explain()["changes"]), (None, 2, 3))
            try:
                query.next(timeout=0.01)
                raise AssertionError("an emission from nowhere")
            except TimeoutError:
                pass
            same(fault(c.observe, {}, query.name).word, "exists")
        same((list(query), query.next(), fault(query.explain).code), ([], None, 17))
        last = c.observe()
    same([len(rows) for rows in last], [3], "closed")


@case()
def an_idle_reader_keeps_the_newest_emission_alone(folder):
    """A hundred emissions of a thousand rows take some 30 MB where all are kept, and one takes 0.3."""
    with rx.open(new_journal(folder)) as db:
        c = db.collection("c", SCHEMA)
        c.bulk([{"id": f"k{n}", "n": n} for n in range(1000)])
        with c.observe() as query:
            tracemalloc.start()
            for n in range(100):
                c.patch("k1", {"n": -n})
            query.explain()
            held, _ = tracemalloc.get_traced_memory()
            tracemalloc.stop()
            same(
                (held < 3_000_000, len(query.next()), query.changed()), (True, 1000, None), f"{held:,} bytes"
            )
            same(query.rows()[1], {"id": "k1", "n": -99})
    return f"{held:,} bytes"


@case()
def an_update_is_made_by_operators(folder):
    with rx.open(new_journal(folder)) as db:
        c = db.collection("c", SCHEMA)
        c.insert({"id": "a", "n": 1})
        same(c.update("a", {"$inc": {"n": 2}}), "2-c")
        same(c.update("a", {"$max": {"n": 9}}, "2-c"), "3-c")
        same(c.get("a").doc, {"id": "a", "n": 9})
        same(fault(c.update, "a", {"$unset": {"n": 0}}, "2-c").rev, "3-c")
        same(c.update("a", {"$unset": {"n": 0}}), "4-c")
        same(c.get("a").doc, {"id": "a"})


@case()
def hooks_are_attached_at_each_opening_and_once_in_it(folder):
    path = new_journal(folder)
    hooks = [("insert", "zero", "n"), ("save", "count", "n")]
    for n in (1, 2):
        with rx.open(path) as db:
            c = db.collection("c", SCHEMA, hooks)
            db.collection("c", SCHEMA, hooks)
            if n == 1:
                c.insert({"id": "a"})
            c.patch("a", {})
            same(c.get("a").doc, {"id": "a", "n": n})
            same(fault(c.hook, "save", "count", "id").word, "no_hook")


@case()
def a_master_and_its_fork_migrate_with_what_is_pending(folder):
    with rx.open(new_journal(folder), clock=None) as db:
        master, fork = db.collection("m", SCHEMA), db.collection("f", SCHEMA)
        db.replicate("r", "f", "m", handler="fork_wins")
        master.bulk([{"id": "a", "n": 1}, {"id": "b"}])
        db.turn("r")
        fork.patch("a", {"n": 2})

        def refused(*of):
            it = fault(db.migrate, *of)
            return it.code, it.word, it.cause, it.subject, it.value

        with fork.observe(name="q"):
            same(refused("m", NEXT, STEPS), (29, "observed", None, "q", "q"))
        same(refused("z", NEXT, STEPS), (10, "no_collection", None, "z", "z"))
        same(refused("m", {**NEXT, "version": 2}, STEPS), (28, "migration", "version", "m", 2))
        same(refused("f", NEXT, [{"drop": "id"}]), (28, "migration", "primary", "f", "id"))
        same(refused("f", NEXT, STEPS[:2]), (28, "migration", "invalid", "m", None))
        by = [{"scale": "n", "by": 1001}]
        same(refused("m", NEXT, by), (7, "wrong_type", None, "steps", by))
        same(fork.get("a").doc, {"id": "a", "n": 2}, "nothing changed")

        same(db.migrate("f", NEXT, iter(STEPS)), ["m", "f"])
        same(fork.get("a"), ({"id": "a", "on": True, "v": 20}, 2, "2-f"))
        same([(it["sent"], it["rows"]) for it in db.turn("r").each], [("push", ["a"]), ("pull", ["a"])])
        same(master.get("a").doc, {"id": "a", "on": True, "v": 20})
        # Of the schema that was given by the migration a refusal tells the limits.
        same("integer" in str(fault(fork.patch, "a", {"v": "x"})), True)
        same(fault(fork.insert, {"id": "c", "n": 1, "on": True}).cause, "unknown")

        db.collection("p", SCHEMA)
        db.replicate("s", "p", port=1, handler="join")
        same(refused("p", NEXT, STEPS), (30, "remote", None, None, None))


@case()
def a_collection_with_steps_migrates_from_the_version_before(folder):
    path = new_journal(folder)
    with rx.open(path) as db:
        c = db.collection("c", SCHEMA, [("save", "count", "n")], steps=STEPS)
        same(c.new, True)
        c.insert({"id": "a", "n": 1})
        same(fault(db.collection, "c", NEXT).word, "schema_differs", "without steps")
        for _ in range(2):
            same(db.collection("c", NEXT, [("save", "count", "v")], steps=STEPS).new, False)
        c.patch("a", {"on": False})
        same(c.get("a").doc, {"id": "a", "on": False, "v": 11}, "a hook of before is gone")
        for version in (0, 3):
            refused = fault(db.collection, "c", {**NEXT, "version": version}, steps=[])
            same((refused.word, refused.cause), ("migration", "version"))
            same(f"version {version}" in str(refused), True, str(refused))
    later = {**NEXT, "version": 2, "properties": {**NEXT["properties"], "t": {"type": "string"}}}
    with rx.open(path) as db:
        same(db.collection("c", later, steps=[{"set": "t", "value": "x"}]).find()[0]["t"], "x")


@case()
def a_collection_with_steps_with_asyncio(folder):
    """Of a fork and its master both ask at once, and one of them finds that it has gone."""

    async def run():
        path = new_journal(folder)
        async with rx.open_async(path) as db:
            sides = [await db.collection(name, SCHEMA) for name in "mf"]
            await db.replicate("r", "f", "m", handler="join")
            await sides[0].insert({"id": "a", "n": 1})
            await db.turn("r")
            both = await asyncio.gather(*(db.collection(name, NEXT, steps=STEPS) for name in "mf"))
            same([it.new for it in both], [False, False])
            same([(await it.get("a")).doc for it in both], [{"id": "a", "on": True, "v": 10}] * 2)
            same((await async_fault(db.migrate("f", NEXT, STEPS))).cause, "version")
            same((await async_fault(db.collection("m", SCHEMA, steps=[]))).cause, "version")

    asyncio.run(run())


@case()
def rows_are_each_subscribers_own(folder):
    with rx.open(new_journal(folder)) as db:
        c = db.collection("c", SCHEMA)
        c.insert({"id": "a", "n": 1})
        first, second = c.observe(), c.observe()
        for query in (first, second):
            for rows in (query.next(), query.rows()):
                same(rows, [{"id": "a", "n": 1}])
                rows[0]["n"] = 2
                rows.clear()
        same(c.find(), [{"id": "a", "n": 1}])


@case()
def writes_have_the_moment_of_the_clock_unless_told_not_to(folder):
    path = new_journal(folder)
    begun = rx.now()
    with rx.open(path) as db:
        c = db.collection("c", SCHEMA)
        c.insert({"id": "a"})
        time.sleep(0.02)
        c.patch("a", {"n": 1})
        second = c.get("a").lwt
        same(
            (begun + 20 <= second <= rx.now(), rx.now() - second < 60_000), (True, True), f"{begun} {second}"
        )
        db.tick(second + 5_000_000)
        c.patch("a", {"n": 2})
        same(c.get("a").lwt, second + 5_000_000, "the caller's moment")
    with rx.open(new_journal(folder), clock=None) as db:
        c = db.collection("c", SCHEMA)
        c.bulk([{"id": "a"}])
        c.insert({"id": "b"})
        same((c.get("a").lwt, c.get("b").lwt), (1, 2))
    moments = iter([7, 7, 7, 9, 9])
    with rx.open(new_journal(folder), clock=lambda: next(moments)) as db:
        c = db.collection("c", SCHEMA)
        times = []
        for key in "abcd":
            c.insert({"id": key})
            times.append(c.get(key).lwt)
        same(times, [7, 8, 9, 10])
        same(db.call({"do": "restart"})["line"], 12, "one line for the one moment that was another")


@case()
def threads_share_a_database(folder):
    with rx.open(new_journal(folder)) as db:
        c = db.collection("c", SCHEMA)
        query, heard = c.observe(), []
        listener = threading.Thread(target=lambda: heard.extend(len(rows) for rows in query))
        listener.start()

        def write(who):
            for n in range(100):
                same(c.insert({"id": f"{who}-{n}", "n": n}), "1-c")

        writers = [threading.Thread(target=write, args=(who,)) for who in range(4)]
        for it in writers:
            it.start()
        for it in writers:
            it.join()
        same(c.count(), 400)
    listener.join()
    same((heard == sorted(set(heard)), heard[-1]), (True, 400), f"results in turn: {heard}")


@case()
def a_result_of_megabytes_while_a_long_line_is_written(folder):
    schema = {**SCHEMA, "properties": {**SCHEMA["properties"], "t": {"type": "string", "maxLength": 100000}}}
    with rx.open(new_journal(folder)) as db:
        c = db.collection("c", schema)
        query = c.observe()
        for n in range(5):
            c.bulk([{"id": f"{n}-{i}", "n": i, "t": "é" * 20000} for i in range(20)])
        same(len(query.rows()), 100)


@case()
def a_child_that_is_killed_in_mid_call(folder):
    path = new_journal(folder)
    db = rx.open(path)
    c = db.collection("c", SCHEMA)
    query, answered, stopped = c.observe({"limit": 1}), [], []

    def write(who):
        try:
            for n in range(100000):
                c.insert({"id": f"{who}-{n}", "n": n})
                answered.append(f"{who}-{n}")
                if len(answered) == 50:
                    os.kill(db._child.pid, signal.SIGKILL)
        except rx.Stopped as it:
            stopped.append(it.stop)

    writers = [threading.Thread(target=write, args=(who,)) for who in range(4)]
    for it in writers:
        it.start()
    for it in writers:
        it.join()
    same(stopped, ["killed"] * 4)
    try:
        for _ in query:
            pass
        raise AssertionError("the observer was not told")
    except rx.Stopped as it:
        same(it.stop, "killed")
    same(fault(c.count).stop, "killed")
    db.close()
    with rx.open(path) as again:
        there = {row["id"] for row in again.collection("c").find()}
    same((len(answered) >= 50, set(answered) - there), (True, set()))


@case()
def a_full_journal_by_its_name_and_both_numbers(folder):
    with rx.open(new_journal(folder), max_journal=600) as db:
        c = db.collection("c", SCHEMA)
        while True:
            try:
                c.insert({"id": f"k{c.count()}"})
            except rx.Stopped as it:
                same((it.stop, it.status, it.limit, it.would > 600), ("full", 8, 600, True))
                break


def no_journals(folder):
    """Paths that can't be opened, by the word that says why, with the status of the program."""
    text, folder_of = os.path.join(folder, "text"), os.path.join(folder, "none", "journal")
    with open(text, "w", encoding="ascii") as file:
        file.write("something else than a journal")
    yield text, "not_journal", 7
    yield folder_of, "disk", 3
    yield folder, "disk", 3
    yield "", "usage", 2


@case()
def what_is_no_journal_can_not_be_opened(folder):
    async def opened(path):
        async with rx.open_async(path):
            pass

    for path, stop, status in no_journals(folder):
        for call in (rx.open, lambda path: asyncio.run(opened(path))):
            stopped = fault(call, path)
            same((stopped.stop, stopped.status, path in str(stopped)), (stop, status, True), str(stopped))
    same(os.path.exists(os.path.join(folder, "none")), False)


@case()
def a_journal_that_another_process_has_is_in_use(folder):
    async def opened(path):
        return await rx.open_async(path)

    path = new_journal(folder)
    with rx.open(path) as db:
        db.collection("c", SCHEMA)
        same((fault(rx.open, path).stop, fault(rx.open, path).status), ("in_use", 3))
        same(fault(lambda: asyncio.run(opened(path))).stop, "in_use")
        db.collection("c").insert({"id": "a"})
    with rx.open(path) as db:
        same(db.collection("c").count(), 1)


@case()
def the_program_is_found_by_argument_or_rx_or_the_path(folder):
    path, tools = new_journal(folder), os.path.join(folder, "bin")
    os.mkdir(tools)
    os.symlink(RX, os.path.join(tools, "rx"))
    before = dict(os.environ)
    try:
        os.environ.update(RX=os.path.join(folder, "none"), PATH=tools)
        rx.open(path, program=RX).close()
        stopped = fault(rx.open, path)
        same((stopped.stop, os.environ["RX"] in str(stopped)), ("start", True), str(stopped))
        del os.environ["RX"]
        rx.open(path).close()
        os.environ["PATH"] = folder
        same(("tools/install" in str(fault(rx.open, path))), True, "how to get it")
        same(fault(rx.open, path, program="none").stop, "start")
    finally:
        os.environ.clear()
        os.environ.update(before)


@case()
def a_call_after_close_is_refused(folder):
    async def after_close():
        db = await rx.open_async(new_journal(folder))
        c = await db.collection("c", SCHEMA)
        await db.close()
        return [
            (await async_fault(call)).stop
            for call in (db.line(""), db.line("{}"), c.count(), c.insert({"id": "a"}))
        ]

    db = rx.open(new_journal(folder))
    c = db.collection("c", SCHEMA)
    db.close()
    same([fault(db.line, "").stop, fault(db.line, "{}").stop, fault(c.count).stop], ["closed"] * 3)
    db.close()
    same(asyncio.run(after_close()), ["closed"] * 4)


@case()
def a_database_of_asyncio_that_is_not_open_says_what_to_do(folder):
    async def run():
        db = rx.open_async(new_journal(folder))
        for call in (lambda: db.collection("c"), lambda: db.line(""), lambda: db.tick(1)):
            try:
                await call()
                raise AssertionError("it was written")
            except RuntimeError as it:
                same("async with rx.open_async(..)" in str(it), True, str(it))
        await db.close()
        opened = await db
        same((opened is db, (await db.collection("c", SCHEMA)).new), (True, True))
        await db.close()

    asyncio.run(run())


@case(in_memory=True)
def tasks_wait_until_the_program_takes_their_lines(folder):
    """Of 5,000 writes at once the lines in flight stay below what the pipes and the program hold."""

    async def run():
        async with rx.open_async(new_journal(folder)) as db:
            c = await db.collection(
                "c", {**SCHEMA, "properties": {**SCHEMA["properties"], "t": {"type": "string"}}}
            )
            most = 0

            async def write(n):
                nonlocal most
                await c.upsert({"id": f"k{n % 100}", "n": n, "t": "x" * 2000})
                most = max(
                    most,
                    db._stdin.transport.get_write_buffer_size(),
                    sum(len(line) for line, _ in db._lines._waiting.values()),
                )

            await asyncio.gather(*(write(n) for n in range(5_000)))
            same((most < 1_000_000, await c.count()), (True, 100), f"{most:,} bytes in flight")
            return f"at most {most:,} bytes in flight of {5_000 * 2050:,}"

    return asyncio.run(run())


@case()
def ctrl_c_at_the_terminal_is_not_the_programs(folder):
    """The signal goes to all of a terminal's processes, and the program goes on to its end."""
    path = new_journal(folder)
    code = (
        "import os, signal, rx\n"
        f"with rx.open({path!r}) as db:\n"
        f"    c = db.collection('c', {SCHEMA!r})\n"
        "    try:\n"
        "        os.killpg(0, signal.SIGINT)\n"
        "        signal.pause()\n"
        "    except KeyboardInterrupt:\n"
        "        print(c.insert({'id': 'a'}))\n"
    )
    where = {**os.environ, "PYTHONPATH": CLIENT}
    ran = subprocess.run(
        [sys.executable, "-c", code], env=where, capture_output=True, text=True, start_new_session=True
    )
    same((ran.returncode, ran.stdout), (0, "1-c\n"), ran.stderr)


@case()
def asyncio_calls_at_once_iterators_and_a_killed_child(folder):
    async def run():
        path = new_journal(folder)
        async with rx.open_async(path) as db:
            c = await db.collection("c", SCHEMA)
            revs = await asyncio.gather(*(c.insert({"id": f"k{n}", "n": n}) for n in range(200)))
            same((revs, await c.count()), (["1-c"] * 200, 200))
            heard = []
            async with c.observe({"selector": {"n": {"$gte": 200}}}) as query:
                await c.insert({"id": "k200", "n": 200})
                async for rows in query:
                    heard.append(len(rows))
                    if len(rows) == 1:
                        break
            same((heard, (await async_fault(db.explain(query.name))).code), ([1], 17))
            same((await async_fault(c.insert({"id": "k1"}))).rev, "1-c")
            async with c.observe({"selector": {"n": 200}}) as query:
                same(
                    [len(await query.changed()), await query.changed(), len(await query.rows())], [1, None, 1]
                )
                await c.patch("k200", {"n": 0})
                same([await query.changed(), await query.changed()], [[], None])
            same((await query.changed(), await query.rows()), (None, []))
            refused = c.observe({"skip": "x"})
            same((await async_fault(anext_of(refused))).cause, "skip")
            same([rows async for rows in refused], [], "it is over")
            calls = [asyncio.ensure_future(c.insert({"id": f"x{n}"})) for n in range(1000)]
            await calls[10]
            db._child.kill()
            results = await asyncio.gather(*calls, return_exceptions=True)
            kept = [it for it in results if it == "1-c"]
            same((len(kept) > 10, {it.stop for it in results[len(kept) :]} <= {"killed"}), (True, True))
        async with rx.open_async(path) as db:
            there = await (await db.collection("c")).count()
            same(there >= 201 + len(kept), True, "what was answered is there")

    async def anext_of(query):
        return await query.__anext__()

    asyncio.run(run())


@case()
def a_fork_and_its_master(folder):
    with rx.open(new_journal(folder), clock=None) as db:
        master, fork = db.collection("m", SCHEMA), db.collection("f", SCHEMA)
        db.replicate("r", "f", "m", handler="greater", field="n")
        query = fork.observe({"sort": [{"n": "desc"}], "limit": 1})
        heard = [query.next()]
        master.insert({"id": "ä", "n": 1})
        pull = {"exchange": 1, "place": {"id": "ä", "lwt": 1}, "rows": ["ä"], "sent": "pull"}
        same(db.turn("r"), ("quiet", 1, [pull]), "a pull")
        heard.append(query.next())
        fork.patch("ä", {"n": 3})
        master.patch("ä", {"n": 2})
        lost = {"exchange": 1, "lost": "lose_reply", "rows": ["ä"], "sent": "push"}
        same(db.turn("r", link=["lose_reply"]), ("lost", 1, [lost]), "a lost push")
        end, exchanges, each = db.turn("r", batch=1, budget=10)
        same((end, exchanges), ("quiet", 4))
        same(
            [(it["sent"], it["rows"], it.get("conflicts")) for it in each[:2]],
            [("push", ["ä"], ["ä"]), ("push", ["ä"], [])],
        )
        same(master.get("ä"), ({"id": "ä", "n": 3}, 3, "3-m"))
        same((master.digest().count, master.digest()), (1, fork.digest()), "both sides")
        same(master.changes(since={"id": "ä", "lwt": 3}, batch=1), ([], {"id": "ä", "lwt": 3}))
        heard.append(query.rows())
        same([[row["n"] for row in rows] for rows in heard], [[], [1], [3]])
        same(fault(lambda: db.replicate("r", "f", "m", handler="join")).code, 9)
        same(fault(lambda: db.replicate("s", "m", "f", handler="join")).code, 21)
        same(fault(db.turn, "s").code, 18)


@case()
def a_fork_and_its_master_with_asyncio(folder):
    async def run():
        async with rx.open_async(new_journal(folder)) as db:
            master = await db.collection("m", SCHEMA)
            fork = await db.collection("f", SCHEMA)
            await db.replicate("r", "f", "m", handler="fork_wins")
            await asyncio.gather(master.insert({"id": "a", "n": 1}), fork.insert({"id": "a", "n": 2}))
            turns = await asyncio.gather(db.turn("r", budget=1), db.turn("r"))
            same([(it.end, it.exchanges, len(it.each)) for it in turns], [("more", 1, 1), ("quiet", 2, 2)])
            same((await master.get("a")).doc, {"id": "a", "n": 2})

    asyncio.run(run())


TREE = [("to_server", "phone", "server"), ("to_phone", "laptop", "phone")]


def swept(turns):
    """What the turns of a sweep did."""
    return [(it.pass_, it.replication, [(one["sent"], ",".join(one["rows"])) for one in it.each]) for it in turns]


@case()
def a_sweep_of_a_tree_of_three(folder):
    with rx.open(new_journal(folder), clock=None) as db:
        server, phone, laptop = sides = [db.collection(name, SCHEMA) for name in ("server", "phone", "laptop")]
        for name, fork, master in TREE:
            db.replicate(name, fork, master, handler="greater", field="n")
        server.bulk([{"id": "a", "n": 1}, {"id": "d"}])
        laptop.bulk([{"id": "a", "n": 2}, {"id": "b"}])
        queries = [it.observe(name=it.name) for it in sides]
        recorder = Recorder(db._lines)
        end, turns = db.sweep("server")
        due = [
            ("up", "to_phone", [("push", "a,b"), ("pull", "a,b")]),
            ("up", "to_server", [("push", "a,b"), ("push", "a"), ("pull", "d,b,a")]),
            ("down", "to_server", [("pull", "")]),
            ("down", "to_phone", [("pull", "a,d")]),
        ]
        same((end, swept(turns)), ("quiet", due))
        same([(it.end, it.exchanges) for it in turns], [("quiet", len(it)) for _, _, it in due])
        push = {"conflicts": ["a"], "exchange": 1, "rows": ["a", "b"], "sent": "push"}
        pull = {"exchange": 1, "place": {"id": "d", "lwt": 3}, "rows": ["a", "d"], "sent": "pull"}
        same((turns[1].each[0], turns[3]), (push, ("to_phone", "down", "quiet", 1, [pull])))
        rows = [{"id": "a", "n": 2}, {"id": "b"}, {"id": "d"}]
        same([it.rows() for it in queries], [rows] * 3)
        before, _, behind = recorder.output().partition(b'"ok":"sweep"')
        same(sorted(re.findall(rb'"emit":"(\w+)"', behind)), [b"laptop", b"phone", b"server"])
        same(b'"emit"' in before, False, "emissions come behind the reply")
        same(len({it.digest() for it in sides}), 1)

        server.bulk([{"id": "e"}, {"id": "f"}])
        end, turns = db.sweep("server", batch=1, budget=1)
        same((end, swept(turns)[1:]), ("more", [("up", "to_server", [("pull", "e")])]))
        same((db.sweep("laptop"), db.sweep("phone").end, phone.count()), (("quiet", []), "quiet", 4))
        none, batch = fault(db.sweep, "none"), fault(db.sweep, "server", batch=101)
        same(str(none), "no_collection (10): there is no collection none")
        same((members(none)[:4], none.value), ((10, "no_collection", None, "none"), "none"))
        same((batch.code, batch.value, batch.limit), (20, 101, 100))


@case()
def a_sweep_with_asyncio(folder):
    async def run():
        async with rx.open_async(new_journal(folder)) as db:
            sides = [await db.collection(name, SCHEMA) for name in ("server", "phone", "laptop")]
            for name, fork, master in TREE:
                await db.replicate(name, fork, master, handler="join")
            insert = sides[2].insert({"id": "a"})
            _, turn, sweep = await asyncio.gather(insert, db.turn("to_phone", budget=1), db.sweep("server"))
            same(shown(turn), ("more", [("push", ["a"])]))
            up = [("up", "to_phone", [("pull", "a")]), ("up", "to_server", [("push", "a"), ("pull", "a")])]
            down = [("down", "to_server", [("pull", "")]), ("down", "to_phone", [("pull", "")])]
            same((sweep.end, swept(sweep.turns)), ("quiet", up + down))
            same([await it.count() for it in sides], [1, 1, 1])
            same((await async_fault(db.sweep("none"))).word, "no_collection")

    asyncio.run(run())


@case()
def a_stream_and_what_becomes_of_its_events(folder):
    def told(link=None):
        level, resync, each = db.deliver("r", link=link)
        return level, resync, [f"{it['event']} {','.join(it['rows'])} {it['took']}" for it in each]

    with rx.open(new_journal(folder)) as db:
        master, fork = db.collection("m", SCHEMA), db.collection("f", SCHEMA)
        db.replicate("r", "f", "m", handler="fork_wins")
        db.stream("r")
        same(db.deliver("r"), (True, False, []), "nothing")
        master.insert({"id": "a"})
        master.bulk([{"id": "ä"}, {"id": "b"}])
        master.insert({"id": "d"})
        due = ["1 a taken", "1 a old", "2 b,ä later", "3 d gap"]
        same(told(["twice", "later"]), (False, True, due))
        same(told(), (False, False, ["1 b,ä taken"]))
        same([(it["sent"], it["rows"]) for it in db.turn("r").each], [("pull", ["d"])])
        fork.insert({"id": "e"})
        master.remove("a")
        same(told(), (False, True, ["1 a pending"]))
        same(db.turn("r").end, "quiet")
        same(told(), (True, False, ["1 e old"]))
        same(fork.digest(), master.digest())
        opened = fault(db.stream, "r")
        same((opened.code, str(opened)), (9, "exists (9): the stream of r is open"))
        same(fault(db.deliver, "r", link=["late"]).subject, "link")
        db.unstream("r")
        none = fault(db.deliver, "r")
        same((none.code, str(none)), (31, "no_stream (31): no stream of r is open"))
        same(fault(db.unstream, "r").code, 31)
        same(fault(db.stream, "z").code, 18)
        db.replicate("s", "m", port=1, handler="join")
        away = fault(db.stream, "s")
        same((away.code, str(away)), (30, "remote (30): the master of s is elsewhere"))


def level_soon(sides):
    """Waits until all have the same."""
    end = time.monotonic() + 20
    while len({it.digest() for it in sides}) > 1:
        same(time.monotonic() < end, True, "they are the same")
        time.sleep(0.005)


FORKS = [("r", "f", "m"), ("s", "g", "m"), ("t", "h", "f")]


@case()
def followed_forks_of_one_journal_over_a_restart_and_a_migration(folder):
    with rx.open(new_journal(folder)) as db:
        m, f, g, h = sides = [db.collection(name, SCHEMA) for name in "mfgh"]
        for name, fork, master in FORKS:
            db.replicate(name, fork, master, handler="fork_wins")
        m.insert({"id": "a"})
        followed = [db.follow(name) for name, _, _ in FORKS]
        level_soon(sides)
        m.insert({"id": "b"})
        level_soon(sides)
        h.insert({"id": "d"})  # goes up to f and m, and down to g
        level_soon(sides)
        for number in range(200):  # more than may wait
            m.upsert({"id": f"k{number % 50}", "n": number})
        level_soon(sides)
        for it in followed:
            until(it, ("in sync", 0))
        db.restart()
        m.remove("a")
        f.insert({"id": "e"})
        level_soon(sides)
        same(db.migrate("h", NEXT, STEPS), ["m", "f", "g", "h"])
        m.insert({"id": "x", "on": True})
        h.patch("k1", {"v": 7})
        level_soon(sides)
        same(m.get("k1").doc, {"id": "k1", "on": True, "v": 7})
        followed[0].close()
        same(fault(db.deliver, "r").word, "no_stream")
        m.insert({"id": "y", "on": False})
        level_soon([m, g])
        same(fault(f.get, "y").code, 15)
        # one that is open by hand stays open
        db.stream("r")
        with db.follow("r") as following:
            until(following, ("in sync", 0))
        same(db.deliver("r").level, True)


@case()
def followed_forks_of_one_journal_with_asyncio(folder):
    async def level_soon(sides):
        for _ in range(4_000):
            if len({await it.digest() for it in sides}) == 1:
                return
            await asyncio.sleep(0.005)
        raise AssertionError("they aren't the same")

    async def run():
        async with rx.open_async(new_journal(folder)) as db:
            m, f, g, h = sides = [await db.collection(name, SCHEMA) for name in "mfgh"]
            for name, fork, master in FORKS:
                await db.replicate(name, fork, master, handler="fork_wins")
            followed = [db.follow(name) for name, _, _ in FORKS]
            await asyncio.gather(m.insert({"id": "a"}), h.insert({"id": "b"}), g.insert({"id": "d"}))
            await level_soon(sides)
            await db.restart()
            await asyncio.gather(*(m.upsert({"id": f"k{n % 50}", "n": n}) for n in range(200)), h.remove("b"))
            await level_soon(sides)
            await followed[0].close()
            same((await async_fault(db.deliver("r"))).word, "no_stream")
            await db.stream("r")
            same((await db.deliver("r", link=["ok"])).level, True)
            await m.insert({"id": "x"})
            await level_soon([m, g])
            same((await async_fault(f.get("x"))).code, 15)
            same((await db.deliver("r")).each, [{"event": 1, "rows": ["x"], "took": "taken"}])
            await level_soon(sides)
            await db.unstream("r")

    asyncio.run(run())


def stand_in(folder, *lines):
    """A program in the place of rx, by lines of a shell: $1 is `compact`, $2 the journal and $3 its copy."""
    path = os.path.join(folder, f"program-{next(NUMBERS)}")
    with open(path, "w", encoding="utf-8") as file:
        file.write("\n".join(["#!/bin/sh", *lines, ""]))
    os.chmod(path, 0o755)
    return path


def a_long_journal(path):
    """A master and a fork with an edit to be pushed, in more bytes than that takes."""
    with rx.open(path) as db:
        master, fork = db.collection("m", SCHEMA), db.collection("f", SCHEMA)
        db.replicate("r", "f", "m", handler="fork_wins")
        for n in range(40):
            master.upsert({"id": f"k{n % 3}", "n": n})
        master.remove("k0")
        db.turn("r")
        fork.patch("k1", {"n": 1000})
    return content(path)


def is_as_before(path, folder, before, names):
    same((content(path), os.listdir(folder)), (before, names), "as it was")


@case()
def a_compacted_journal_holds_the_same_in_fewer_bytes_and_is_played_on(folder):
    inner = os.path.join(folder, "inner")
    os.mkdir(inner)
    path = os.path.join(inner, "journal")
    before = a_long_journal(path)
    os.chmod(path, 0o640)
    told_before = checked(path)
    made = rx.compact(path)
    same((made.bytes, made.from_), (os.path.getsize(path), len(before)))
    same(made.bytes < len(before) // 2, True, str(made))
    same((os.listdir(inner), os.stat(path).st_mode & 0o777), (["journal"], 0o640))
    *there, end = checked(path)
    same(there, told_before[:-1])
    same(end, {"end": made.bytes, "epoch": told_before[-1]["epoch"], "records": made.records})
    same(rx.compact(path), made._replace(from_=made.bytes), "a copy of the copy")
    same(sorted(Names(path).read().schemas), ["f", "m"], "what a shell reads")
    with rx.open(path) as db:
        master, fork = db.collection("m", SCHEMA), db.collection("f", SCHEMA)
        same((master.new, master.count(), fork.get("k1").doc["n"]), (False, 2, 1000))
        same([(it["sent"], it["rows"]) for it in db.turn("r").each], [("push", ["k1"]), ("pull", ["k1"])])
        same((master.digest(), master.get("k1").doc["n"]), (fork.digest(), 1000))
    same(rx.compact(path).from_ > made.bytes, True, "what was written since")


@case()
def a_journal_that_can_not_be_compacted_is_left_as_it_is(folder):
    path = os.path.join(folder, "journal")
    a_long_journal(path)
    with rx.open(path):
        before = content(path)
        same(fault(rx.compact, path).stop, "in_use")
        is_as_before(path, folder, before, ["journal"])
    stopped = fault(rx.compact, path, max_journal=100)
    same((stopped.stop, stopped.status, stopped.limit, stopped.would > 100), ("full", 8, 100, True))
    same(fault(rx.compact, path, program=os.path.join(folder, "none")).stop, "start")
    is_as_before(path, folder, before, ["journal"])
    for bad, stop, status in no_journals(folder):
        stopped = fault(rx.compact, bad)
        same((stopped.stop, stopped.status), (stop, 7) if stop == "not_journal" else ("disk", None))
        same(bad in str(stopped), True, str(stopped))
    same(fault(rx.compact, os.path.join(folder, "absent")).stop, "disk")
    is_as_before(path, folder, before, ["journal", "text"])


@case()
def what_a_killed_compaction_left_is_removed_by_the_next(folder):
    path = os.path.join(folder, "journal")
    before = a_long_journal(path)
    killed = stand_in(folder, 'printf x > "$3"; kill -9 $$')
    stopped = fault(rx.compact, path, program=killed)
    same((stopped.stop, stopped.status, content(path)), ("killed", None, before))
    others = ["journal-2", "journal.compact-notes", "journal.compact", os.path.basename(killed)]
    for name in (*others[:3], "journal.compact-0123456789abcdef"):
        with open(os.path.join(folder, name), "wb") as file:
            file.write(before[:50])
    same(rx.compact(path).from_, len(before))
    same(sorted(os.listdir(folder)), sorted([*others, "journal"]))


@case()
def a_link_to_a_journal_stays_one_when_that_is_compacted(folder):
    for name in ("links", "real"):
        os.mkdir(os.path.join(folder, name))
    path, link = os.path.join(folder, "real", "journal"), os.path.join(folder, "links", "link")
    os.symlink(os.path.join("..", "real", "journal"), link)
    before = a_long_journal(path)
    made = rx.compact(link)
    same((made.from_, os.path.getsize(path)), (len(before), made.bytes))
    same((os.readlink(link), os.listdir(os.path.dirname(link))), ("../real/journal", ["link"]))
    same(os.listdir(os.path.dirname(path)), ["journal"])


@case()
def a_journal_that_another_process_had_meanwhile_keeps_what_that_wrote(folder):
    path = os.path.join(folder, "journal")
    a_long_journal(path)
    lock = f"{sys.executable} -c 'import fcntl; fcntl.flock(9, fcntl.LOCK_EX)'"
    for meanwhile, stop in (
        (f'{RX} run "$2" < /dev/null', "in_use"),
        ('cp "$2" "$2.new"; mv "$2.new" "$2"', "in_use"),
        ('rm "$3"', "in_use"),
        ('mv "$2" "$2.old"', "disk"),
        (f'exec 9< "$2"; {lock}; sleep 9 > /dev/null &', "in_use"),
    ):
        before = content(path)
        program = stand_in(folder, f'{RX} "$@"', meanwhile)
        same(fault(rx.compact, path, program=program).stop, stop, meanwhile)
        if os.path.exists(f"{path}.old"):
            os.rename(f"{path}.old", path)
        same(content(path)[: len(before) - 1], before[:-1], meanwhile)
        same(len(content(path)) - len(before), 14 if " run " in meanwhile else 0, "an epoch")
        same([it for it in os.listdir(folder) if "compact" in it], [], meanwhile)


@case()
def of_many_compactions_at_once_none_loses_anything(folder):
    path = os.path.join(folder, "journal")
    a_long_journal(path)
    before, ends = checked(path)[:-1], []

    def compacted():
        for _ in range(3):
            try:
                ends.append("made" if rx.compact(path).bytes else "")
            except rx.Stopped as stopped:
                ends.append(stopped.stop)

    threads = [threading.Thread(target=compacted) for _ in range(4)]
    for it in threads:
        it.start()
    for it in threads:
        it.join()
    same((len(ends), set(ends) <= {"made", "in_use", "disk"}), (12, True), str(ends))
    rx.compact(path)
    same((checked(path)[:-1], os.listdir(folder)), (before, ["journal"]))
    return ", ".join(f"{ends.count(it)} {it}" for it in sorted(set(ends)))


def served(folder, docs):
    """A server of a collection m with these documents, for two turns."""
    with rx.open(os.path.join(folder, "master")) as db:
        db.collection("m", SCHEMA).bulk(docs)
    return Server(folder, 2, name="m", journal="master").wait()


def shown(turn):
    return turn.end, [(it["sent"], it["rows"]) for it in turn.each]


def same_as_served(server, requests, digest):
    """The server has ended by itself, after so many requests of each connection, with the same documents."""
    same(server.end(), (0, [told(number, "peer", n) for number, n in enumerate(requests, 1)]))
    with rx.open(server.journal) as db:
        same(db.collection("m").digest(), digest, "both sides")


@case()
def a_fork_of_a_master_that_another_process_serves(folder):
    server = served(folder, [{"id": "a", "n": 1}, {"id": "b", "n": 1}])
    with rx.open(new_journal(folder)) as db:
        fork = db.collection("f", SCHEMA)
        db.replicate("r", "f", port=server.port, handler="fork_wins")
        query = fork.observe({"sort": [{"n": "desc"}], "limit": 1})
        same(shown(db.turn("r")), ("quiet", [("pull", ["a", "b"])]))
        fork.patch("a", {"n": 5})
        fork.insert({"id": "ä", "n": 7})
        edits = [("push", ["a"]), ("push", ["ä"]), ("pull", ["a"]), ("pull", ["ä"]), ("pull", [])]
        same(shown(db.turn("r", batch=1)), ("quiet", edits))
        same([row["n"] for row in query.rows()], [7])
        digest = fork.digest()
        # The server ends by itself, and then there is nobody.
        server.child.wait()
        lost = {"exchange": 1, "lost": "dial", "sent": "pull"}
        same(db.turn("r"), ("lost", 1, [lost]))
        same(fault(lambda: db.turn("r", link=["ok"])).subject, "link")
        same(fault(lambda: db.replicate("s", "f", "m", port=server.port, handler="join")).subject, "port")
    same_as_served(server, [1, 5], digest)


def exchange(sent, rows, **more):
    return {"sent": sent, "rows": rows, **more}


@case(needs=[])
def how_a_followed_fork_stands_by_what_its_turns_come_to(_folder):
    account = Account(1.0, 3.0, None)
    hundred = [f"k{n}" for n in range(100)]

    def turned(end, *each):
        account.turned({"end": end, "each": list(each)})
        return tuple(account.now)

    same(turned("lost", exchange("push", ["a", "b"], lost="dial")), ("offline", 2, "dial"))
    account.wrote(["b", "c"])
    same(tuple(account.now), ("offline", 3, "dial"))
    same(turned("more", exchange("push", ["a", "b", "c"], conflicts=["b"])), ("syncing", 1, None))
    same(turned("quiet", exchange("push", ["b"], conflicts=[]), exchange("pull", [])), ("in sync", 0, None))
    same(account.wait(), 1.0)
    account.wrote([])
    same(tuple(account.now), ("syncing", 0, None))
    same(turned("lost", exchange("push", hundred, lost="wire")), ("offline", 100, "wire"))
    account.wrote(["x"])
    same(turned("more", exchange("push", hundred, conflicts=[])), ("syncing", 1, None))
    same(turned("lost", {"sent": "pull", "lost": "reply"}), ("offline", 0, "reply"))
    waits = [account.wait()]
    for _ in range(4):
        same(turned("clock"), ("offline", 0, "clock"))
        waits.append(account.wait())
    due = [0.5, 1, 2, 3, 3]
    same([0.75 * it <= wait <= 1.25 * it for wait, it in zip(waits, due)], [True] * 5, f"{waits}")
    account.hurry()
    same(account.wait(), 1.0)


@case(needs=[])
def what_comes_next_for_a_fork_of_the_same_journal(_folder):
    account = Account(1.0, 3.0, None)
    account.is_streamed = True

    def turned(end, *each):
        same(account.takes_turn(), True)
        account.turned({"end": end, "each": list(each)})
        return account.after(rx.Turn(end, len(each), list(each)))

    same(turned("more", exchange("pull", ["a"])), True)
    same(turned("quiet", exchange("pull", [])), False)
    same((tuple(account.now), account.wait()), (("in sync", 0, None), None))
    account.wrote([])
    same((account.takes_turn(), tuple(account.now)), (False, ("syncing", 0, None)))
    account.delivered({"level": True})
    same(tuple(account.now), ("in sync", 0, None))
    account.wrote(["b"])
    same(turned("more", exchange("push", ["b"], conflicts=[])), True)
    same(account.takes_turn(), False, "a delivery tells")
    account.delivered({"level": False})
    same(turned("clock"), False)
    same((account.now.state, account.wait() < 1), ("offline", True))
    same(turned("more", exchange("push", ["b"], conflicts=["b"])), True)
    same(turned("quiet", exchange("pull", ["b"])), False)
    account.lost_stream()
    account.is_streamed = True
    same(account.takes_turn(), True)


@case()
def a_fork_that_is_followed_while_its_master_comes_and_goes(folder):
    server = served(folder, [{"id": "a", "n": 1}])
    server.kill()
    with rx.open(new_journal(folder)) as db:
        fork = db.collection("f", SCHEMA)
        db.replicate("r", "f", port=server.port, handler="fork_wins")
        fork.bulk([{"id": "b"}, {"id": "c"}])
        with db.follow("r", every=0.02, longest=0.1) as following:
            until(following, ("offline", 2))
            same(following.status.lost, "dial")
            server = served_again(folder, server.port)
            until(following, ("in sync", 0))
            same(fork.count(), 3)
            fork.insert({"id": "d"})
            until(following, ("in sync", 0))
            server.kill()
            fork.patch("d", {"n": 2})
            until(following, ("offline", 1))
        # what was told last may still be there
        list(following)
        same(following.next(), None)
        none = db.follow("none")
        same([it.word for it in (fault(lambda: list(none)),)], ["no_replication"])
        left = db.follow("r", every=0.02)
        digest = fork.digest()
    list(left)
    with rx.open(server.journal) as db:
        same(db.collection("m").count(), 4)
        same(digest.count, 4)


@case()
def a_fork_that_is_followed_with_asyncio(folder):
    server = served(folder, [{"id": "a", "n": 1}])
    server.kill()
    server = served_again(folder, server.port)

    async def run():
        async with rx.open_async(new_journal(folder)) as db:
            fork = await db.collection("f", SCHEMA)
            await db.replicate("r", "f", port=server.port, handler="fork_wins")
            async with db.follow("r", every=0.02, longest=0.1) as following:
                await until_async(following, ("in sync", 0))
                same(await fork.count(), 1)
                await fork.insert({"id": "b"})
                await until_async(following, ("in sync", 0))
                server.kill()
                await fork.insert({"id": "c"})
                await until_async(following, ("offline", 1))
            same((await async_fault(collected(db.follow("none")))).word, "no_replication")
            left = db.follow("r")
        await collected(left)

    asyncio.run(run())
    with rx.open(server.journal) as db:
        same(db.collection("m").count(), 2)


def served_again(folder, port):
    return Server(folder, 1_000_000, name="m", journal="master", port=port).wait()


def until(following, due):
    """Waits until it stands so."""
    end = time.monotonic() + 20
    while tuple(following.status)[:2] != due:
        same(time.monotonic() < end, True, f"{following.status} and not {due}")
        try:
            following.next(0.1)
        except TimeoutError:
            pass


async def until_async(following, due):
    async for status in following:
        if tuple(status)[:2] == due:
            return


async def collected(following):
    return [it async for it in following]


@case()
def a_fork_of_a_served_master_with_asyncio(folder):
    server = served(folder, [{"id": "a", "n": 1}])

    async def run():
        async with rx.open_async(new_journal(folder)) as db:
            fork = await db.collection("f", SCHEMA)
            await db.replicate("r", "f", port=server.port, handler="greater", field="n")
            await fork.insert({"id": "a", "n": 2})
            turns = await asyncio.gather(db.turn("r", budget=1), db.turn("r"))
            same(turns[0].each, [{"conflicts": ["a"], "exchange": 1, "rows": ["a"], "sent": "push"}])
            same(
                [shown(it) for it in turns],
                [("more", [("push", ["a"])]), ("quiet", [("push", ["a"]), ("pull", ["a"])])],
            )
            return await fork.digest()

    same_as_served(server, [1, 2], asyncio.run(run()))


@case()
def replicate_and_turn_over_scripted_lines(folder):
    lines, written, replies = Lines(None), b"", []

    def answer(reply, refused):
        replies.append(refused or reply)

    written += lines.write(calls.replicate("r", "f", "m", "greater", None, "n"), answer)
    written += lines.write(calls.turn("r", 2, None, None), answer)
    written += lines.write(calls.stream("r"), answer)
    written += lines.write(calls.deliver("r", ["ok"]), answer)
    written += lines.write(calls.unstream("r"), answer)
    same(
        written,
        b'{"do":"replicate","name":"r","fork":"f","master":"m","handler":"greater","field":"n"}\n'
        b'{"do":"turn","name":"r","batch":2}\n{"do":"stream","name":"r"}\n'
        b'{"do":"deliver","name":"r","link":["ok"]}\n{"do":"unstream","name":"r"}\n',
    )
    push = {"conflicts": ["ä"], "exchange": 1, "rows": ["ä", "b"], "sent": "push"}
    event = {"event": 1, "rows": ["ä"], "took": "taken"}
    output = [
        '{"line":1,"ok":"replicate"}',
        json.dumps(push, ensure_ascii=False),
        '{"end":"quiet","exchanges":1,"line":2,"ok":"turn"}',
        '{"line":3,"ok":"stream"}',
        json.dumps(event, ensure_ascii=False),
        '{"level":true,"line":4,"ok":"deliver","resync":false}',
        '{"line":5,"ok":"unstream"}',
        "",
    ]
    for byte in "\n".join(output).encode():
        lines.take(bytes([byte]))
    same((replies[1]["end"], replies[1]["exchanges"], replies[1]["each"]), ("quiet", 1, [push]))
    same((replies[3]["level"], replies[3]["resync"], replies[3]["each"]), (True, False, [event]))


class Heard:
    """Who follows a fork, and keeps what it hears."""

    def __init__(self):
        self.all = []

    def wrote(self, keys):
        self.all.append(("wrote", *keys))

    def turned(self, turn):
        self.all.append((turn["end"], len(turn["each"])))


@case(needs=[])
def a_sweep_over_scripted_lines_is_told_of_each_fork_and_what_it_writes_is_news_of_others(_folder):
    lines, replies, heard = Lines(None), [], {name: Heard() for name in "rst"}
    lines.followed.by_name.update(heard)
    lines.followed.sides.update((name, (fork, master)) for name, fork, master in FORKS)

    def answer(reply, refused):
        replies.append(refused or reply)

    written = lines.write(calls.sweep("m", 2, 5), answer) + lines.write(calls.turn("s", None, None, None), answer)
    written += lines.write(calls.sweep("g", None, None), answer) + lines.write(calls.sweep("h", None, None), answer)
    same(
        written,
        b'{"do":"sweep","name":"m","batch":2,"budget":5}\n{"do":"turn","name":"s"}\n'
        b'{"do":"sweep","name":"g"}\n{"do":"sweep","name":"h"}\n',
    )
    push = {"conflicts": [], "exchange": 1, "rows": ["ä", "b"], "sent": "push"}
    pull = {"exchange": 2, "place": {"id": "b", "lwt": 3}, "rows": ["b"], "sent": "pull"}
    more = {"conflicts": ["b"], "exchange": 1, "rows": ["ä", "b"], "sent": "push"}
    turns = [
        {"end": "quiet", "exchanges": 2, "pass": "up", "replication": "t"},
        {"end": "more", "exchanges": 1, "pass": "up", "replication": "r"},
    ]
    output = [
        *(push, pull, turns[0], more, turns[1], {"end": "more", "line": 1, "ok": "sweep", "turns": 2}),
        *({**pull, "exchange": 1}, {"end": "quiet", "exchanges": 1, "line": 2, "ok": "turn"}),
        {"end": "quiet", "line": 3, "ok": "sweep", "turns": 0},
        {"code": 19, "line": 4, "refused": "no_handler"},
    ]
    for byte in "".join(json.dumps(it, ensure_ascii=False) + "\n" for it in output).encode():
        lines.take(bytes([byte]))
    first, turn, none, refused = replies
    due = [("t", "up", "quiet", 2, [push, pull]), ("r", "up", "more", 1, [more])]
    same(calls.sweep("m", 2, 5).take(first), ("more", due))
    same((first["turns"], first["each"][0]), (2, {**turns[0], "each": [push, pull]}), "its line")
    same((turn["each"], calls.sweep("g", None, None).take(none)), ([{**pull, "exchange": 1}], ("quiet", [])))
    same(str(refused), "no_handler (19): a turn of h would go by a handler that isn't there")
    same(heard["t"].all, [("quiet", 2), ("wrote",)], "r resolved a conflict in its master")
    same(heard["r"].all, [("wrote", "ä", "b"), ("more", 1)], "t pushed to its fork")
    same(heard["s"].all, [("wrote",), ("quiet", 1)], "r pushed to its master")


def run_in(folder, *command, **env):
    """What a command printed, which must end well. It knows no index of packages."""
    clean = {key: it for key, it in os.environ.items() if not key.startswith(("PYTHON", "PIP_"))}
    quiet = {"PIP_CONFIG_FILE": os.devnull, "PIP_NO_INDEX": "1", "PIP_DISABLE_PIP_VERSION_CHECK": "1"}
    ran = subprocess.run(command, cwd=folder, env={**clean, **quiet, **env}, capture_output=True, text=True)
    same(ran.returncode, 0, f"{command}: {ran.stdout}{ran.stderr}")
    return ran.stdout


@case(needs=["ensurepip"])
def a_fresh_environment_installs_it_without_a_network(folder):
    run_in(folder, DEBIANS_PYTHON, "-m", "venv", "new")
    python = os.path.join(folder, "new", "bin", "python")
    run_in(folder, python, "-m", "pip", "install", CLIENT)
    code = f"import rx; db = rx.open('journal'); print(db.collection('c', {SCHEMA!r}).new, rx.__file__)"
    printed = run_in(folder, python, "-c", code)
    same(printed.startswith(f"True {folder}/new/"), True, printed)
    installed = os.path.dirname(printed.split()[1])
    same(os.path.exists(os.path.join(installed, "py.typed")), True)
    same("todos.journal" in run_in(folder, python, "-m", "rx", "--help"), True, "the shell")
    same(run_in(folder, python, "-m", "pip", "check").strip(), "No broken requirements found.")
    left = subprocess.run(
        ["git", "status", "--short", "--ignored", CLIENT], cwd=ROOT, capture_output=True, text=True
    )
    same("build" in left.stdout or "egg" in left.stdout, False, f"nothing is left behind: {left.stdout}")


@case()
def a_folder_that_is_copied_beside_a_program_works_too(folder):
    shutil.copytree(os.path.join(CLIENT, "rx"), os.path.join(folder, "rx"))
    printed = run_in(
        folder, sys.executable, "-c", "import rx; print(rx.__file__, rx.open('journal').restart())"
    )
    same(printed, f"{folder}/rx/__init__.py 2\n")


@case(needs=["mypy"])
def types_are_checked(folder):
    """The package, the quickstart, and what a user may get wrong."""
    where = {"MYPYPATH": CLIENT, "MYPY_CACHE_DIR": folder}
    strict = ("mypy", "--strict", "--config-file", os.path.join(CLIENT, "pyproject.toml"))
    with open(os.path.join(folder, "quickstart.py"), "w", encoding="utf-8") as file:
        file.write(
            quickstart()
            + 'title: rx.Value = todos.find()[0]["title"]\nplain = {"id": "x"}\ntodos.upsert(plain)\n'
        )
    with open(os.path.join(folder, "wrong.py"), "w", encoding="utf-8") as file:
        file.write(
            'import rx\ndb = rx.open("j", path=1)\nrx.open("j").collection("c").insert({"id": [1]})\n'
            'n: int = rx.open("j").collection("c").get("a").rev\n'
        )
    same("Success" in run_in(folder, *strict, "-p", "rx", **where), True)
    same("Success" in run_in(folder, *strict, "quickstart.py", **where), True)
    ran = subprocess.run(
        [*strict, "wrong.py"], cwd=folder, env={**os.environ, **where}, capture_output=True, text=True
    )
    same(
        sorted({line.split(":")[1] for line in ran.stdout.splitlines() if "error:" in line}),
        ["2", "3", "4"],
        ran.stdout,
    )


def quickstart():
    with open(os.path.join(ROOT, "clients", "README.md"), encoding="utf-8") as file:
        return re.search(r"`quickstart\.py`.*?\n```\w*\n(.*?)\n```", file.read(), re.S).group(1) + "\n"


@case()
def the_quickstart_of_the_readme(folder):
    with open(os.path.join(folder, "quickstart.py"), "w", encoding="utf-8") as file:
        file.write(quickstart())
    where = {**os.environ, "PYTHONPATH": CLIENT}
    for _ in range(2):
        ran = subprocess.run(
            [sys.executable, "quickstart.py"], cwd=folder, env=where, capture_output=True, text=True
        )
        same(ran.returncode, 0, ran.stderr)
    same("Bake bread" in ran.stdout, True, ran.stdout)


if __name__ == "__main__":
    main()
