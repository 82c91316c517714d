"""What a statement does."""
from __future__ import annotations

import difflib
import inspect
import json
import os
import subprocess
from collections.abc import Callable
from typing import TextIO

from .. import calls
from ..calls import Json, SweptTurn
from ..database import Collection, Database, Observed
from ..faults import Refused
from ..journal import Names
from ..program import find
from . import statements, transfer
from .progress import Interrupt, Progress, interruptible, progress
from .statements import QUERY, Wrong, last, value, word
from .tables import Plain

Do = Callable[["Shell", str], None]
# By its word: what follows it, what it does, and the function.
COMMANDS: dict[str, tuple[str, str, Do]] = {}


def command(name: str, words: str = "") -> Callable[[Do], Do]:
    def added(do: Do) -> Do:
        COMMANDS[name] = words, inspect.getdoc(do) or "", do
        return do

    return added


class Ended(Exception):
    """The shell was told to end."""


class Shell:
    """A database, what its file holds, what is watched, and where results are shown."""

    def __init__(self, db: Database, show: Plain, errors: TextIO, program: str | None) -> None:
        self.db, self.show, self.errors = db, show, errors
        self.program = find(program)
        self.names = Names(db.journal)
        self.watched: dict[int, tuple[str, str, Observed]] = {}
        self.refused = False
        self._known: dict[str, Json] = {}
        self.read_names()

    def read_names(self) -> None:
        """What was made or migrated since. With a schema its refusals say the limit that was wrong."""
        for name, schema in self.names.read().schemas.items():
            if self._known.get(name) != schema:
                self._known[name] = schema
                self.db.collection(name, schema)

    def do(self, text: str, where: str = "") -> None:
        """Does a statement. What is wrong in it is shown, with where it stands, and changes nothing."""
        try:
            self._do(text)
            self.show_watched()
        except (Wrong, Refused) as fault:
            self.refused = True
            self.show.fault(f"{where}{fault}")
        except BrokenPipeError:
            raise  # what reads the output has ended
        except OSError as fault:
            self.refused = True
            self.show.fault(f"{where}{fault.filename}: {fault.strerror}")
        self.show.flush()

    def _do(self, text: str) -> None:
        if not text or text.startswith("#"):
            return
        if text.startswith("{"):
            self.line(text)
            return
        name, rest = word(text, "a command")
        if name in COMMANDS:
            COMMANDS[name][2](self, rest)
        elif name in self.names.schemas:
            self.find(name, rest)
        else:
            near = difflib.get_close_matches(name, [*COMMANDS, *self.names.schemas], 2)
            hint = f": is it {' or '.join(near)}?" if near else "; .help lists what there is"
            raise Wrong(f"{name} is no command and no collection{hint}")

    def line(self, text: str) -> None:
        """A line of docs/SCRIPT.md, typed as it is."""
        request = value(text, "the line")
        reply = self.db.call(request)
        self.read_names()
        rows = reply.get("rows", reply.get("docs", reply.get("each")))
        if isinstance(rows, list):
            self.show.rows(rows, columns_of(rows))
        else:
            shown = {key: it for key, it in reply.items() if key not in ("line", "ok")}
            self.show.words(json.dumps(shown, ensure_ascii=False) if shown else "ok")

    def find(self, name: str, rest: str) -> None:
        rows = self.db.collection(name).find(statements.query(rest, self.schema(name)))
        self.show.rows(rows, self.columns(name))

    def schema(self, name: str) -> Json:
        """A collection's, which must be there."""
        if name not in self.names.schemas:
            near = difflib.get_close_matches(name, self.names.schemas, 2)
            raise Wrong(
                f"there is no collection {name}{f': is it ' + ' or '.join(near) + '?' if near else ''}"
            )
        return self.names.schemas[name]

    def columns(self, name: str) -> list[str]:
        return transfer.columns_of(self.schema(name))

    def collection(self, text: str) -> tuple[Collection, str]:
        """The collection that a statement names, and what follows."""
        name, rest = word(text, "a collection")
        self.schema(name)
        return self.db.collection(name), rest

    def query(self, text: str) -> tuple[Collection, Json]:
        collection, rest = self.collection(text)
        return collection, statements.query(rest, self.schema(collection.name))

    def show_watched(self) -> None:
        """The watched queries whose result the statement changed."""
        for number, (name, text, observed) in self.watched.items():
            rows = observed.changed()
            if rows is not None:
                self.show.words(f"watched {number}: {text}")
                self.show.rows(rows, self.columns(name))


def columns_of(rows: list[Json]) -> list[str]:
    return sorted({name for row in rows for name in row})


@command("collection", "NAME {SCHEMA}")
def make(shell: Shell, text: str) -> None:
    """makes a collection"""
    name, rest = word(text, "a name")
    made = shell.db.collection(name, value(rest, "the schema"))
    shell.read_names()
    shell.show.words("made" if made.new else "it is there already")


@command("insert", "COLLECTION {DOCUMENT}")
def insert(shell: Shell, text: str) -> None:
    """adds a document whose key isn't there"""
    collection, rest = shell.collection(text)
    shell.show.words(collection.insert(value(rest, "the document")))


@command("upsert", "COLLECTION {DOCUMENT}")
def upsert(shell: Shell, text: str) -> None:
    """adds a document, or replaces the one with its key"""
    collection, rest = shell.collection(text)
    shell.show.words(collection.upsert(value(rest, "the document")))


@command("patch", "COLLECTION KEY {FIELDS}")
def patch(shell: Shell, text: str) -> None:
    """sets fields of a document"""
    collection, rest = shell.collection(text)
    key, rest = word(rest, "the key")
    shell.show.words(collection.patch(key, value(rest, "the fields")))


@command("update", "COLLECTION KEY {OPERATORS}")
def update(shell: Shell, text: str) -> None:
    """changes a document by operators, {"$inc": {"n": 1}}"""
    collection, rest = shell.collection(text)
    key, rest = word(rest, "the key")
    shell.show.words(collection.update(key, value(rest, "the operators")))


@command("remove", "COLLECTION KEY")
def remove(shell: Shell, text: str) -> None:
    """removes a document"""
    collection, rest = shell.collection(text)
    key, rest = word(rest, "the key")
    last(rest)
    shell.show.words(collection.remove(key))


@command("get", "COLLECTION KEY")
def get(shell: Shell, text: str) -> None:
    """shows a document with its revision and write time"""
    collection, rest = shell.collection(text)
    key, rest = word(rest, "the key")
    last(rest)
    stored = collection.get(key)
    shell.show.words(json.dumps(stored.doc, ensure_ascii=False))
    shell.show.words(f"revision {stored.rev}, written at {stored.lwt}")


@command("count", "QUERY")
def count(shell: Shell, text: str) -> None:
    """counts a query's rows"""
    collection, query = shell.query(text)
    shell.show.words(f"{collection.count(query):,}")


@command(".collections")
def collections(shell: Shell, text: str) -> None:
    """lists the collections, with their documents and primary keys"""
    last(text)
    rows = [
        {
            "collection": name,
            "documents": shell.db.collection(name).count(),
            "primary key": schema["primaryKey"],
        }
        for name, schema in shell.names.schemas.items()
    ]
    shell.show.rows(rows, ["collection", "documents", "primary key"], "collections")


@command(".schema", "[COLLECTION]")
def show_schema(shell: Shell, text: str) -> None:
    """shows a collection's fields, or those of all"""
    names = [text] if text else list(shell.names.schemas)
    for name in names:
        schema = shell.schema(name)
        indexes = "".join(f", index {' '.join(it)}" for it in schema.get("indexes", []))
        shell.show.words(f"{name}: version {schema['version']}, primary key {schema['primaryKey']}{indexes}")
        rows = [field_of(field, schema) for field in transfer.columns_of(schema)]
        shell.show.rows(rows, [it for it in FIELD if any(it in row for row in rows)], "fields")


FIELD = ["field", "type", "required", "maxLength", "minimum", "maximum", "multipleOf"]


def field_of(field: str, schema: Json) -> Json:
    required = {"required": True} if field in schema.get("required", []) else {}
    return {"field": field, **schema["properties"][field], **required}


@command(".import", "FILE.jsonl|.csv COLLECTION")
def import_file(shell: Shell, text: str) -> None:
    """inserts a file's documents; Ctrl-C leaves those that were acknowledged"""
    path, rest = word(text, "a file")
    collection, rest = shell.collection(rest)
    last(rest)
    moved(
        shell,
        "imported",
        path,
        lambda drawn, interrupt: transfer.import_file(
            shell.db,
            os.path.expanduser(path),
            collection.name,
            shell.schema(collection.name),
            drawn,
            interrupt,
        ),
    )


@command(".export", "FILE.jsonl|.csv QUERY")
def export_file(shell: Shell, text: str) -> None:
    """writes a query's rows to a file that isn't there yet"""
    path, rest = word(text, "a file")
    collection, query = shell.query(rest)
    moved(
        shell,
        "exported",
        path,
        lambda drawn, interrupt: transfer.export_file(
            collection, os.path.expanduser(path), query, shell.schema(collection.name), drawn, interrupt
        ),
    )


def moved(shell: Shell, done: str, path: str, move: Callable[[Progress, Interrupt], None]) -> None:
    """Moves a file's documents, and says how many and how fast, also where it ends early."""
    drawn = progress(shell.errors)
    try:
        with interruptible() as interrupt:
            move(drawn, interrupt)
    except Wrong as wrong:
        raise Wrong(f"{path}: {wrong}") from None
    finally:
        drawn.close()
        count, seconds = drawn.lines, drawn.seconds()
        rate = f" in {seconds:.2f} s, {count / seconds:,.0f} a second" if count else ""
        shell.show.words(f"{done} {count:,} document{'' if count == 1 else 's'}{rate}")


@command(".watch", "QUERY")
def watch(shell: Shell, text: str) -> None:
    """shows a query's result now, and whenever a statement changes it"""
    collection, query = shell.query(text)
    number = max(shell.watched, default=0) + 1
    shell.watched[number] = collection.name, text, collection.observe(query)


@command(".unwatch", "[NUMBER]")
def unwatch(shell: Shell, text: str) -> None:
    """ends one watched query, or all"""
    number = statements.scalar(text, None) if text else None
    if number is not None and number not in shell.watched:
        raise Wrong(f"no query {text} is watched")
    for it in [number] if number is not None else list(shell.watched):
        shell.watched.pop(it)[2].close()


@command(".turn", "REPLICATION [BATCH]")
def turn(shell: Shell, text: str) -> None:
    """brings a fork and its master together"""
    name, rest = word(text, "a replication")
    batch = value(rest, "the batch") if rest else None
    end, exchanges, each = shell.db.turn(name, batch=batch)
    rows = [
        {**it, "rows": len(it.get("rows", [])), "conflicts": " ".join(it.get("conflicts", []))} for it in each
    ]
    shell.show.rows(rows, ["exchange", "sent", "rows", "conflicts", "lost"], "exchanges")
    shell.show.words(f"the turn ended {end}")


@command(".sweep", "COLLECTION [BATCH]")
def sweep(shell: Shell, text: str) -> None:
    """brings a collection, its forks and theirs together"""
    root, rest = shell.collection(text)
    batch = value(rest, "the batch") if rest else None
    end, turns = shell.db.sweep(root.name, batch=batch)
    shell.show.rows([turned(it) for it in turns], TURNED, "turns")
    shell.show.words(f"the sweep ended {end}")


TURNED = ["replication", "pass", "exchanges", "rows", "conflicts", "end"]


def turned(it: SweptTurn) -> Json:
    """A turn, with how many rows went over it."""
    rows = sum(len(one["rows"]) for one in it.each)
    conflicts = " ".join(key for one in it.each for key in one.get("conflicts", []))
    return dict(zip(TURNED, (it.replication, it.pass_, it.exchanges, rows, conflicts, it.end)))


@command(".stream", "REPLICATION")
def stream(shell: Shell, text: str) -> None:
    """has what is written to a fork's master wait for the fork from now on"""
    name, rest = word(text, "a replication")
    last(rest)
    shell.db.stream(name)
    shell.show.words("opened")


@command(".deliver", "REPLICATION")
def deliver(shell: Shell, text: str) -> None:
    """gives a fork what waits for it"""
    name, rest = word(text, "a replication")
    last(rest)
    level, resync, each = shell.db.deliver(name)
    rows = [{**it, "rows": len(it["rows"])} for it in each]
    shell.show.rows(rows, ["event", "rows", "took"], "events")
    shell.show.words("a turn is due" if resync else "level" if level else "not level")


@command(".check")
def check(shell: Shell, text: str) -> None:
    """tells what the journal's file holds"""
    last(text)
    words = [shell.program, "check", shell.db.journal]
    ran = subprocess.run(words, capture_output=True, text=True, check=False, start_new_session=True)
    lines = [json.loads(line) for line in ran.stdout.splitlines()]
    for kind in ("collection", "replication"):
        rows = [it for it in lines if kind in it]
        if rows:
            shell.show.rows(rows, [kind, *(it for it in columns_of(rows) if it != kind)], f"{kind}s")
    end: Json = lines[-1] if lines else {}
    if "end" not in end:
        raise Wrong(f"the report ended with status {ran.returncode}: {end.get('stop', ran.stderr.strip())}")
    shell.show.words(f"{end['end']:,} bytes, {end['records']:,} records, epoch {end['epoch']:,}")


@command(".mode", "table|json")
def mode(shell: Shell, text: str) -> None:
    """shows rows as tables, or as lines of JSON"""
    if text not in ("table", "json"):
        raise Wrong(f"mode {text} is neither table nor json")
    shell.show.json = text == "json"


@command(".help")
def help(shell: Shell, text: str) -> None:
    """shows this"""
    lines = [("QUERY", "shows a query's rows"), ('{"do":..}', "a line of docs/SCRIPT.md")]
    lines += [(f"{name} {words}".strip(), does) for name, (words, does, _) in COMMANDS.items()]
    most = max(len(it) for it, _ in lines)
    for typed, does in lines:
        shell.show.words(f"{typed:{most}}  {does}")
    shell.show.words(
        f"\nQUERY is {QUERY}.\nA VALUE is a word, or a text in quotes; = may be != < <= > >= too."
    )


@command(".quit")
def quit(shell: Shell, text: str) -> None:
    """ends the shell, as Ctrl-D does"""
    raise Ended
