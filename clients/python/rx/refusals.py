"""A refusal in words: which member of the line was wrong, what it held, and what it may hold.

The program tells the first fault by code, cause and name. What the member held is in the line that it was
told of, and the bounds of a document's fields are in the schema, where this client gave it.
"""
from __future__ import annotations

import json
from typing import Any, Callable, NamedTuple

NAME = "a lower-case letter and then up to 63 lower-case letters, digits, _ or -"
FIELD_NAME = "a letter and then up to 63 letters, digits or _"
KEYWORD = "isn't known there, or holds what it may not"
LINE_BYTES = 1_048_576
NUMBER = 2**53 - 1
TEXT = 131_072
DEFAULT_TEXT = 8_192
BATCH = {"batch": 100, "budget": 100_000}
HELD = {
    "collection": ("collections", 64),
    "hook": ("hooks of the collection", 16),
    "observe": ("observed queries", 256),
    "replicate": ("replications", 64),
}
ROWS = 1_000_000_000
KINDS = {
    "text": ("do", "name", "in", "fork", "master", "key", "rev", "handler", "hook", "field"),
    "word of insert, save and remove": ("when",),
    "object": ("doc", "set", "update"),
    "list of objects": ("docs",),
    f"whole number from 0 to {NUMBER:,}": ("at",),
    "whole number from 1 to 65,535": ("port",),
    "whole number": ("batch", "budget"),
    "place, an object of `id` and `lwt`": ("since",),
    "list of happenings": ("link",),
    "list of at most 64 steps": ("steps",),
}


class Refusal(NamedTuple):
    words: str
    value: Any = None
    limit: int | None = None


class Told(NamedTuple):
    """What was refused: the reply, its line's members and bytes, and the schema, where they are known."""

    reply: dict[str, Any]
    line: dict[str, Any]
    length: int
    schema: dict[str, Any]

    @property
    def name(self) -> str:
        return str(self.reply.get("name", ""))

    @property
    def cause(self) -> str:
        return str(self.reply.get("cause", ""))

    def document(self) -> dict[str, Any]:
        """The fields that were written, of a bulk those of the row."""
        held = self.line.get("doc", self.line.get("set", self.under("$set")))
        if "docs" in self.line and "row" in self.reply:
            held = self.line["docs"][self.reply["row"]]
        return held if isinstance(held, dict) else {}

    def under(self, operator: str) -> Any:
        """What stands under an operator of an update."""
        update = self.line.get("update")
        return update.get(operator) if isinstance(update, dict) else None

    def key(self) -> Any:
        primary = self.schema.get("primaryKey")
        return self.line.get("key", self.document().get(primary) if primary else None)

    def property(self) -> dict[str, Any]:
        it = self.schema.get("properties", {}).get(self.name)
        return it if isinstance(it, dict) else {}


def refusal(reply: dict[str, Any], line: bytes, schema: dict[str, Any] | None) -> Refusal:
    try:
        members = json.loads(line)
    except ValueError:
        members = None
    told = Told(reply, members if isinstance(members, dict) else {}, len(line), schema or {})
    say = BY_WORD.get(reply["refused"])
    said = say(told) if say else Refusal(" ".join(str(reply[it]) for it in ("cause", "name") if it in reply))
    return said._replace(words=f"row {reply['row']}: {said.words}") if "row" in reply else said


def shown(value: Any) -> str:
    """A value as it is written, cut where it is long."""
    text = json.dumps(value, ensure_ascii=True, default=repr)
    return text if len(text) <= 60 else f"{text[:57]}..."


def too_long(it: Told) -> Refusal:
    return Refusal(f"the line has {it.length:,} bytes, more than {LINE_BYTES:,}", it.length, LINE_BYTES)


def not_json(it: Told) -> Refusal:
    """The client knows more of what it didn't write; of a line that it did write the program says no more."""
    causes = {
        "surrogate": "holds half of a surrogate pair, which is no text in UTF-8",
        "number": "is a number that JSON can't hold",
        "type": "is nothing that JSON can hold",
        "depth": "nests too deep",
    }
    words = (
        f"{it.name or 'the line'} {causes[it.cause]}"
        if it.cause in causes
        else "the line is no JSON text in UTF-8"
    )
    return Refusal(words, it.reply.get("value"))


def unknown_do(it: Told) -> Refusal:
    return Refusal(f"do {shown(it.line.get('do'))} is no word that is known", it.line.get("do"))


def wrong_type(it: Told) -> Refusal:
    kind = next((kind for kind, members in KINDS.items() if it.name in members), "value of its kind")
    value = it.line.get(it.name)
    return Refusal(f"{it.name} {shown(value)} is no {kind}", value)


def bad_name(it: Told) -> Refusal:
    value = it.line.get(it.name)
    limit = 64 if isinstance(value, str) and len(value) > 64 else None
    return Refusal(f"{it.name} {shown(value)} is no name: {NAME}", value, limit)


def exists(it: Told) -> Refusal:
    if it.line.get("do") == "stream":
        return Refusal(f"the stream of {it.line.get('name')} is open", it.line.get("name"))
    kind = "replication" if it.line.get("do") == "replicate" else "observed query"
    return Refusal(
        f"there is an {kind} of the name {it.line.get('name')}".replace("an repl", "a repl"),
        it.line.get("name"),
    )


def schema(it: Told) -> Refusal:
    held = it.line.get("schema")
    properties = held.get("properties") if isinstance(held, dict) else None
    field = properties.get(it.name) if isinstance(properties, dict) else None
    causes: dict[str, Refusal] = {
        "not_object": Refusal("the schema is no object", held),
        "keyword": Refusal(f"{it.name} {KEYWORD}"),
        "version": Refusal("version is no whole number from 0 to 65,535", None, 65_535),
        "field_name": Refusal(f"the property {shown(it.name)} has no name of a field: {FIELD_NAME}", it.name),
        "kind": Refusal(
            f"the property {it.name} has no type of string, integer, number with multipleOf, " "or boolean",
            field,
        ),
        "bounds": Refusal(
            f"the property {it.name} has bounds that aren't whole, in order, and within "
            f"1 to {TEXT:,} for maxLength",
            field,
            TEXT,
        ),
        "primary": Refusal("primaryKey is no name of a string property with maxLength"),
        "required": Refusal(
            f"required: {it.name} is no property" if it.name != "required" else "required is no list of names"
        ),
        "index": Refusal(
            f"indexes: {it.name} is no property that may be in an index"
            if it.name != "indexes"
            else "indexes is no list of properties' names, or of lists of them"
        ),
        "too_many": Refusal(f"at most 64 properties, 16 indexes and {TEXT:,} characters over all strings"),
    }
    said = causes.get(it.cause, Refusal(f"{it.cause} {it.name}"))
    if it.cause == "version" and isinstance(held, dict):
        said = Refusal(
            f"version {shown(held.get('version'))} is no whole number from 0 to 65,535",
            held.get("version"),
            65_535,
        )
    return said


def schema_differs(it: Told) -> Refusal:
    name = it.line.get("name")
    if it.line.get("do") == "replicate":
        return Refusal("the fork has another schema than its master", name)
    return Refusal(f"{name} is held with another schema: another one is its next version, with steps", name)


def invalid(it: Told) -> Refusal:
    value, bounds = it.document().get(it.name), it.property()
    what = f"{it.name} {shown(value)}"
    if it.cause == "missing":
        return Refusal(f"{it.name} is missing")
    if "update" in it.line and it.name not in it.document():
        return Refusal(f"{it.name} would be no value that its property takes")
    if it.cause == "unknown":
        return Refusal(f"{it.name} is no property of the schema", value)
    if it.cause == "kind":
        kind = f": the schema says {bounds['type']}" if "type" in bounds else ""
        return Refusal(f"{what} is of the wrong kind{kind}", value)
    if it.cause == "range":
        return Refusal(f"{what} is beyond {NUMBER:,}", value, NUMBER)
    if it.cause == "length":
        return too_short_or_long(it.name, value, bounds)
    bound = passed(value, bounds)
    limit = f", {bound} {bounds[bound]:,}" if bound else ""
    return Refusal(f"{what} isn't within its bounds{limit}", value, bounds.get(bound))


def too_short_or_long(name: str, value: Any, bounds: dict[str, Any]) -> Refusal:
    if value == "":
        return Refusal(f"{name} is empty, and is the primary key", value, 1)
    most = bounds.get("maxLength", DEFAULT_TEXT if bounds else None)
    length = f"has {len(value):,} characters" if isinstance(value, str) else "is too long"
    return Refusal(f"{name} {length}{f', more than {most:,}' if most else ''}", value, most)


def passed(value: Any, bounds: dict[str, Any]) -> str:
    """The bound that a number isn't within."""
    number = value if isinstance(value, int) else 0
    fails = {
        "minimum": number < bounds.get("minimum", number),
        "maximum": number > bounds.get("maximum", number),
        "multipleOf": number % bounds.get("multipleOf", 1) != 0,
    }
    return next((word for word, it in fails.items() if it), "")


def conflict(it: Told) -> Refusal:
    rev = it.reply.get("rev")
    if "rev" in it.line:
        return Refusal(f"{shown(it.key())} has the revision {rev}, and not {it.line['rev']}", it.line["rev"])
    key = it.key()
    return Refusal(f"{shown(key) if key is not None else 'the key'} is there already, at revision {rev}", key)


def no_document(it: Told) -> Refusal:
    return Refusal(f"there is no document {shown(it.line.get('key'))}", it.line.get("key"))


def query(it: Told) -> Refusal:
    held = it.line.get("query")
    value = held.get(it.cause) if isinstance(held, dict) else None
    if it.cause in ("skip", "limit"):
        return Refusal(f"{it.cause} {shown(value)} is no whole number from 0 to {ROWS:,}", value, ROWS)
    causes = {
        "not_object": "the query, or a selector in it, is no object",
        "member": f"{it.name} is no member of a query: those are selector, sort, skip and limit",
        "sort": f"{it.name} can't be sorted by: sort is a list of objects {{FIELD: 'asc'}} or 'desc', "
        "each field a property, none twice",
        "field": f"{it.name} is no property of the schema",
        "operand": f"{it.name} has no operand such as it takes",
        "operator": f"{it.name} is no operator",
        "depth": "the selector is deeper than 32",
    }
    return Refusal(causes.get(it.cause, it.cause), it.name or None, 32 if it.cause == "depth" else None)


def migration(it: Told) -> Refusal:
    held = it.line.get("schema")
    given = held if isinstance(held, dict) else {}
    if it.cause == "version":
        words = f"version {shown(given.get('version'))} isn't the one behind that which {it.name} has"
        return Refusal(words, given.get("version"))
    if it.cause == "primary":
        words = f"{it.name} would have another primary key, or a step names it"
        return Refusal(words, given.get("primaryKey"))
    words = f"a state of {it.name}, a collection or what a replication knows, isn't valid after the steps"
    return Refusal(words)


def update(it: Told) -> Refusal:
    added = it.under("$inc")
    value = added.get(it.name) if isinstance(added, dict) else None
    causes = {
        "operator": "is no operator: those are $inc, $max, $min, $set and $unset",
        "operand": "has no operand such as it takes, or an operator no object",
        "twice": "stands under two operators",
        "key": "is the primary key, which stays",
        "kind": "is no number that $inc could add to",
        "range": f"would be beyond {NUMBER:,}",
    }
    words = causes.get(it.cause, it.cause)
    return Refusal(f"{it.name} {words}", value, NUMBER if it.cause == "range" else None)


def no_handler(it: Told) -> Refusal:
    if it.line.get("do") != "replicate":
        return Refusal(f"a turn of {it.line.get('name')} would go by a handler that isn't there")
    handler, field = it.line.get("handler"), it.line.get("field")
    if handler == "greater":
        return Refusal(
            f"field {shown(field)} is no property of whole numbers, which the handler greater compares", field
        )
    if field is not None:
        return Refusal(f"field {shown(field)} is none that the handler {handler} has", field)
    return Refusal(f"handler {shown(handler)} is none of master_wins, fork_wins, greater and join", handler)


def batch(it: Told) -> Refusal:
    value, most = it.line.get(it.name), BATCH.get(it.name)
    return Refusal(f"{it.name} {shown(value)} isn't from 1 to {most:,}", value, most)


def remote(it: Told) -> Refusal:
    if it.line.get("do") == "stream":
        return Refusal(f"the master of {it.line.get('name')} is elsewhere", it.line.get("name"))
    return Refusal("a fork of a master elsewhere would go with it")


def too_many(it: Told) -> Refusal:
    what, most = HELD.get(str(it.line.get("do")), ("of them", None))
    return Refusal(f"there are {most} {what}, and no more may be", it.line.get("name"), most)


def name_of(member: str, words: str) -> Callable[[Told], Refusal]:
    """A refusal that is about one member of the line."""
    return lambda it: Refusal(words.format(it.line.get(member)), it.line.get(member))


BY_WORD: dict[str, Callable[[Told], Refusal]] = {
    "too_long": too_long,
    "not_json": not_json,
    "not_object": lambda it: Refusal("the line is no object"),
    "unknown_do": unknown_do,
    "missing": lambda it: Refusal(f"{it.name} is missing"),
    "unexpected": lambda it: Refusal(f"{it.name} isn't expected", it.line.get(it.name)),
    "wrong_type": wrong_type,
    "name": bad_name,
    "exists": exists,
    "no_collection": lambda it: Refusal(f"there is no collection {it.name}", it.name),
    "schema": schema,
    "schema_differs": schema_differs,
    "invalid": invalid,
    "conflict": conflict,
    "no_document": no_document,
    "query": query,
    "no_query": name_of("name", "no query of the name {} is observed"),
    "no_replication": name_of("name", "there is no replication {}"),
    "no_handler": no_handler,
    "batch": batch,
    "chain": lambda it: Refusal("the fork is the master, or is a fork already, or has the master below it"),
    "clock": lambda it: Refusal(f"the collection's last write time is {NUMBER:,}", None, NUMBER),
    "too_many": too_many,
    "key": lambda it: Refusal(
        f"{it.schema.get('primaryKey', 'the primary key')} is missing or no text, or would be another", it.key()
    ),
    "twice": lambda it: Refusal(f"the key {shown(it.key())} stands twice", it.key()),
    "migration": migration,
    "observed": lambda it: Refusal(f"the query {it.name} is observed, and is to be closed before", it.name),
    "remote": remote,
    "no_stream": name_of("name", "no stream of {} is open"),
    "update": update,
    "vetoed": lambda it: Refusal(f"the hook {it.name} vetoes it", it.key()),
    "no_hook": lambda it: Refusal(
        f"hook {shown(it.line.get('hook'))} is none of count, zero and lock, or doesn't go by "
        f"{shown(it.line.get('field'))}",
        it.line.get("hook"),
    ),
}
