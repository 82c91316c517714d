"""The server's tables: what other programs write, and which schemas there are."""
import collections
import json
import os
import random
import subprocess
from concurrent.futures import ThreadPoolExecutor

import replies
from model import MAX_TIME, printed
from place import SCHEMA, Place, check_packages, doc, pull_line, push_line
from requests import objects_of
from shared import RX, SEED, ask, case, compact, hash_of, insist, run, same


# ---- the tables

@case("what other programs write")
def written_by_sql(folder):
    place = Place(folder, {"c": SCHEMA}).start()
    write = "SELECT rx.write('c', %s::jsonb, %s)"
    with place.dial("c") as wire:
        ask(wire, push_line(1, [doc("k1")]))
        odd = {"id": "k2\u007f", "n": 3, "b": True, "t": 'é"\\'}
        (first,), = place.sql(write, json.dumps(odd), False)
        reply = ask(wire, pull_line(2))
        same(reply["docs"], [doc("k1"), {"_deleted": False, **odd}], "the next pull")
        same(reply["place"], replies.place(first, odd["id"]), "its place")
        (second,), = place.sql(write, '{"n":  4, "id": "k1"}', True)
        insist(second > first, "the times don't rise")
        conflicts = ask(wire, push_line(3, [doc("k1", 7)]))["conflicts"]
        same(conflicts, [{"_deleted": True, "id": "k1", "n": 4}], "a conflict")
    tried = {
        '{"id":"a"}': "missing: n", '{"id":"a","n":1,"x":1}': "unknown: x", '{"id":"a","n":1.5}': "kind: n",
        '{"id":"a","n":1.0}': "kind: n", '{"id":"a","n":13}': "bounds: n", '{"id":"","n":1}': "length: id",
        '{"id":"abcdefg","n":1}': "length: id", '{"id":"a","n":null}': "kind: n",
        '{"id":1,"n":1}': "kind: id", '[]': "not_object", '{"id":"a","n":1e30}': "range: n",
        '{"id":"a","n":1,"_deleted":true}': "unknown: _deleted",
    }
    for told, fault in tried.items():
        try:
            place.sql(write, told, False)
            insist(False, f"{told} is written")
        except Exception as seen:  # pylint: disable=broad-except
            insist(fault in str(seen), f"{told}: {seen}")
    place.sql("UPDATE rx.collections SET last = %s", MAX_TIME)
    with place.dial("c") as wire:
        same(ask(wire, push_line(4, [doc("k1", 7)]))["n"], 4, "a push of conflicts alone")
        same(ask(wire, push_line(4, [doc("k9", 7)])), None, "a push with no write time left")
    try:
        place.sql(write, '{"id":"a","n":1}', False)
        insist(False, "a write behind the last time")
    except Exception as seen:  # pylint: disable=broad-except
        insist("clock" in str(seen), f"{seen}")
    place.end()
    return f"one write of a master, and {len(tried)} documents refused by the schema"


@case("tables without the function")
def without_the_function(folder):
    """An engine that can't have it serves as well."""
    place = Place(folder, {"c": SCHEMA})
    place.sql("DROP FUNCTION rx.write, rx.fault, rx.field_fault, rx.spelling")
    place.start()
    with place.dial("c") as wire:
        same(ask(wire, push_line(1, [doc("k1")])), {"conflicts": [], "epoch": 1, "n": 1}, "a push")
        same(ask(wire, pull_line(2))["docs"], [doc("k1")], "a pull")
    same(place.sql("SELECT to_regproc('rx.write')"), [(None,)], "the function")
    place.end()
    return "pushes and pulls, and nothing made it"


@case("the longest keys")
def longest_keys(folder):
    """Each code point has four bytes, and nothing is left to compress."""
    schema = {**SCHEMA, "properties": {**SCHEMA["properties"], "id": {"type": "string", "maxLength": 650}}}
    place, numbers = Place(folder, {"c": schema}).start(), random.Random(SEED)
    states = [doc("".join(chr(numbers.randrange(0x10000, 0x110000)) for _ in range(650))) for _ in range(3)]
    asked = {"epoch": 1, "n": 1, "schema": hash_of(schema)}
    with place.dial("c") as wire:
        reply = ask(wire, printed({"ask": "push", "rows": [{"new": it} for it in states], **asked}))
        same(reply, {"conflicts": [], "epoch": 1, "n": 1}, "a push")
        found = ask(wire, printed({"ask": "pull", "batch": 100, **asked}))["docs"]
        same(found, sorted(states, key=lambda it: it["id"].encode()), "a pull")
    place.end()
    return "keys of 2,600 bytes"


# ---- several who write

COUNTED = {**SCHEMA, "properties": {**SCHEMA["properties"], "n": {"type": "integer"}}}


def counted(n):
    return {"_deleted": False, "id": "k", "n": n}


def count_by_pushes(place, times):
    """Adds so often one to the document that is held."""
    asked, known, left = {"ask": "push", "epoch": 1, "n": 1, "schema": hash_of(COUNTED)}, counted(0), times
    with place.dial("c") as wire:
        while left:
            new = counted(known["n"] + 1)
            conflicts = ask(wire, printed({**asked, "rows": [{"assumed": known, "new": new}]}))["conflicts"]
            known, left = (conflicts[0], left) if conflicts else (new, left - 1)


def count_by_sql(place, times):
    """As server/README.md has it, and anew where the database says so."""
    import psycopg
    left = times
    with psycopg.connect(place.cluster.conninfo) as connection:
        while left:
            try:
                with connection.transaction():
                    connection.execute("SELECT last FROM rx.collections WHERE name = 'c' FOR UPDATE")
                    (n,) = connection.execute("SELECT state::jsonb ->> 'n' FROM documents.c").fetchone()
                    connection.execute("SELECT rx.write('c', %s)", (f'{{"id":"k","n":{int(n) + 1}}}',))
                left -= 1
            except psycopg.errors.SerializationFailure:
                pass


@case("two servers over one database, and a program that writes")
def several_writers(folder):
    """No write is lost, under the isolation that PostgreSQL has and under the strictest one."""
    times = 60
    for isolation in ("read committed", "serializable"):
        inner = os.path.join(folder, isolation.split()[0])
        os.mkdir(inner)
        place = Place(inner, {"c": COUNTED})
        place.sql(f"ALTER DATABASE postgres SET default_transaction_isolation = '{isolation}'")
        servers = [place.start(), place.another().start()]
        place.sql("SELECT rx.write('c', '{\"id\":\"k\",\"n\":0}')")
        with ThreadPoolExecutor() as threads:
            work = [threads.submit(count_by_pushes, it, times) for it in servers * 2]
            work.append(threads.submit(count_by_sql, place, times))
        for it in work:
            it.result()
        same(place.sql("SELECT state FROM documents.c"), [(printed(counted(5 * times)),)], isolation)
        servers[1].kill()
        place.end()
    return f"{5 * times} times one more, by four clients and by SQL"


# ---- schemas

WORDS = ["type", "maxLength", "minimum", "multipleOf", "title", "required", "indexes", "x"]
VALUES = [*replies.VALUES, {}, "string", "number", "integer", ["n", "n"], ["x"], "b", "t", ["t"], 131_072,
          131_073, 65_535, 65_536, -1, [["b", "n"]], [[]], False, 1e300]


def edited_schema(numbers):
    """A schema of which a member, or one within, is another."""
    schema = json.loads(json.dumps({**SCHEMA, "indexes": ["b", ["n", "id"]], "title": "t"}))
    schema["properties"]["n"]["multipleOf"] = 1
    for _ in range(numbers.randint(0, 2)):
        parts = [it for it in objects_of(schema) if it]
        part, draw = numbers.choice(parts), numbers.random()
        name = numbers.choice([*part, *WORDS])
        if draw < 0.2:
            part.pop(name, None)
        elif draw < 0.3:
            part[numbers.choice(["9", "a" * 65, "é", "required", "_deleted"])] = {"type": "boolean"}
        else:
            part[name] = numbers.choice(VALUES)
    return schema


@case("schemas beside the program", needs=["program"])
def schemas(folder):
    check_packages()
    from schema import Schema, SchemaFault
    numbers, count, seen = random.Random(SEED), 4_000, collections.Counter()
    tried = [edited_schema(numbers) for _ in range(count)]
    journal = os.path.join(folder, "journal")
    for value in tried:
        line = compact({"do": "collection", "name": "c", "schema": value})
        if os.path.exists(journal):
            os.remove(journal)
        try:
            found = ("ok", Schema(value).hash)
        except SchemaFault as fault:
            found = (fault.cause, fault.name)
        reply = run(journal, [line])[1][0]
        if "ok" in reply:
            done = subprocess.run([RX, "check", journal], capture_output=True, check=True)
            due = ("ok", json.loads(done.stdout.split(b"\n")[0])["schema"])
        else:
            due = (reply.get("cause"), reply.get("name"))
        same(found, due, line)
        seen[found[0]] += 1
    return ", ".join(f"{count} {name}" for name, count in sorted(seen.items()))
