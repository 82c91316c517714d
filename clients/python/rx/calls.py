"""Each line that a client writes, with what it takes from the reply. docs/SCRIPT.md says what they mean."""
from __future__ import annotations

import json
import math
from collections.abc import Iterable, Mapping, Sequence
from typing import Any, Callable, Generic, NamedTuple, TypeVar, Union

from .faults import Refused

Value = Union[bool, int, str]
Document = dict[str, Value]
Json = dict[str, Any]
# What is given may be any mapping; what is answered is the caller's own.
Fields = Mapping[str, Value]
Object = Mapping[str, Any]
Hook = tuple[str, str, str]  # before which writes it stands, its name, and its field

DEEPEST = 128

T = TypeVar("T")


class Stored(NamedTuple):
    doc: Document
    lwt: int
    rev: str


class Changes(NamedTuple):
    docs: list[Document]
    place: Json | None


class Digest(NamedTuple):
    count: int  # type: ignore[assignment]  # a tuple has a method of that name
    digest: str


class Turn(NamedTuple):
    end: str
    exchanges: int
    each: list[Json]


class SweptTurn(NamedTuple):
    """A turn of a sweep. `pass_` is `up` or `down`: its way to the root, or back."""

    replication: str
    pass_: str
    end: str
    exchanges: int
    each: list[Json]


class Sweep(NamedTuple):
    """How the last of these turns ended, `quiet` where each was: then the whole tree has the same documents."""

    end: str
    turns: list[SweptTurn]


class Delivery(NamedTuple):
    """Whether the fork has all of its master and nothing to push, whether a turn is due, and each event."""

    level: bool
    resync: bool
    each: list[Json]


class Call(Generic[T]):
    """A line, the word of what it does, and what is taken from its reply."""

    def __init__(self, do: str, line: bytes, take: Callable[[Json], T]) -> None:
        self.do, self.line, self.take = do, line, take


def encode(do: str, members: Object) -> bytes:
    """The line of a request. What isn't JSON is refused here as the program would, by the member's name."""
    try:
        text = json.dumps(
            {"do": do, **members},
            ensure_ascii=False,
            allow_nan=False,
            separators=(",", ":"),
            default=_mapping,
        )
        return text.encode()
    except (TypeError, ValueError, RecursionError):
        raise not_json(members) from None


def not_json(members: Any) -> Refused:
    """Refuses the first member that isn't JSON."""
    fault = _wrong(members, None, None, 0) or {}
    return Refused({"code": 2, "refused": "not_json", **fault})


def _mapping(it: Any) -> Any:
    if isinstance(it, Mapping):
        return dict(it)
    raise TypeError


def _wrong(it: Any, name: str | None, row: int | None, depth: int) -> Json | None:
    """The first member that isn't JSON, as a refusal tells it."""
    if isinstance(it, (Mapping, list, tuple)) and depth < DEEPEST:
        return _first_wrong(it, name, row, depth + 1)
    if isinstance(it, str):
        return None if _is_utf8(it) else _said("surrogate", it, name, row)
    if isinstance(it, float):
        return None if math.isfinite(it) else _said("number", it, name, row)
    if it is None or isinstance(it, int):
        return None
    return _said("depth" if isinstance(it, (Mapping, list, tuple)) else "type", it, name, row)


def _first_wrong(it: Any, name: str | None, row: int | None, depth: int) -> Json | None:
    if not isinstance(it, Mapping):
        each = ((value, name, at if name == "docs" else row) for at, value in enumerate(it))
        return next((fault for one in each if (fault := _wrong(*one, depth))), None)
    for key, value in it.items():
        if not isinstance(key, str) or not _is_utf8(key):
            return _said("surrogate" if isinstance(key, str) else "type", key, ascii(key), row)
        if fault := _wrong(value, key, row, depth):
            return fault
    return None


def _said(cause: str, value: Any, name: str | None, row: int | None) -> Json:
    about = {"name": name, "row": row}
    return {"cause": cause, "value": value, **{key: it for key, it in about.items() if it is not None}}


def _is_utf8(text: str) -> bool:
    try:
        text.encode()
        return True
    except UnicodeEncodeError:
        return False


def _call(take: Callable[[Json], T], do: str, **members: Any) -> Call[T]:
    """Members that are None are left out, and `into` is written `in`."""
    given = {("in" if key == "into" else key): it for key, it in members.items() if it is not None}
    return Call(do, encode(do, given), take)


def _nothing(_reply: Json) -> None:
    return None


def _rev(reply: Json) -> str:
    return str(reply["rev"])


def whole(reply: Json) -> Json:
    return reply


def any_line(text: str) -> Call[Json]:
    """A line as it stands."""
    if "\n" in text:
        raise ValueError("a line has no line break")
    if not _is_utf8(text):
        raise not_json(text)
    return Call("", text.encode(), whole)


def any_call(request: Object) -> Call[Json]:
    members = dict(request)
    do = members.pop("do", None)
    return Call(str(do), encode(do, members), whole)


def collection(name: str, schema: Object) -> Call[bool]:
    return _call(lambda reply: bool(reply["new"]), "collection", name=name, schema=schema)


def insert(into: str, doc: Fields) -> Call[str]:
    return _call(_rev, "insert", into=into, doc=doc)


def bulk(into: str, docs: Iterable[Fields]) -> Call[list[str]]:
    return _call(lambda reply: list(reply["revs"]), "bulk", into=into, docs=list(docs))


def upsert(into: str, doc: Fields) -> Call[str]:
    return _call(_rev, "upsert", into=into, doc=doc)


def patch(into: str, key: str, set: Fields, rev: str | None) -> Call[str]:
    return _call(_rev, "patch", into=into, key=key, set=set, rev=rev)


def update(into: str, key: str, update: Object, rev: str | None) -> Call[str]:
    return _call(_rev, "update", into=into, key=key, update=update, rev=rev)


def remove(into: str, key: str, rev: str | None) -> Call[str]:
    return _call(_rev, "remove", into=into, key=key, rev=rev)


def hook(into: str, when: str, hook: str, field: str) -> Call[None]:
    return _call(lambda reply: None, "hook", into=into, when=when, hook=hook, field=field)


def migrate(into: str, schema: Object, steps: Iterable[Object]) -> Call[list[str]]:
    return _call(
        lambda reply: list(reply["collections"]), "migrate", into=into, schema=schema, steps=list(steps)
    )


def get(into: str, key: str) -> Call[Stored]:
    return _call(lambda reply: Stored(reply["doc"], reply["lwt"], reply["rev"]), "get", into=into, key=key)


def find(into: str, query: Object | None) -> Call[list[Document]]:
    return _call(lambda reply: list(reply["rows"]), "find", into=into, query=query or {})


def count(into: str, query: Object | None) -> Call[int]:
    return _call(lambda reply: int(reply["count"]), "count", into=into, query=query or {})


def changes(into: str, since: Object | None, batch: int | None) -> Call[Changes]:
    return _call(
        lambda reply: Changes(reply["docs"], reply.get("place")),
        "changes",
        into=into,
        since=since,
        batch=batch,
    )


def digest(into: str) -> Call[Digest]:
    return _call(lambda reply: Digest(reply["count"], reply["digest"]), "digest", into=into)


def observe(name: str, into: str, query: Object | None) -> Call[None]:
    return _call(_nothing, "observe", name=name, into=into, query=query or {})


def unobserve(name: str) -> Call[None]:
    return _call(_nothing, "unobserve", name=name)


def explain(name: str) -> Call[Json]:
    return _call(
        lambda reply: {key: it for key, it in reply.items() if key not in ("line", "ok")},
        "explain",
        name=name,
    )


def replicate(
    name: str, fork: str, master: str | None, handler: str, port: int | None, field: str | None
) -> Call[None]:
    return _call(
        _nothing, "replicate", name=name, fork=fork, master=master, port=port, handler=handler, field=field
    )


def turn(name: str, batch: int | None, budget: int | None, link: Sequence[Any] | None) -> Call[Turn]:
    return _call(
        lambda reply: Turn(reply["end"], reply["exchanges"], reply["each"]),
        "turn",
        name=name,
        batch=batch,
        budget=budget,
        link=link,
    )


def sweep(root: str, batch: int | None, budget: int | None) -> Call[Sweep]:
    return _call(
        lambda reply: Sweep(reply["end"], [_swept(it) for it in reply["each"]]),
        "sweep",
        name=root,
        batch=batch,
        budget=budget,
    )


def _swept(it: Json) -> SweptTurn:
    return SweptTurn(it["replication"], it["pass"], it["end"], it["exchanges"], it["each"])


def stream(name: str) -> Call[None]:
    return _call(_nothing, "stream", name=name)


def deliver(name: str, link: Sequence[str] | None) -> Call[Delivery]:
    return _call(
        lambda reply: Delivery(reply["level"], reply["resync"], reply["each"]),
        "deliver",
        name=name,
        link=link,
    )


def unstream(name: str) -> Call[None]:
    return _call(_nothing, "unstream", name=name)


def tick(at: int) -> Call[None]:
    return _call(_nothing, "tick", at=at)


def restart() -> Call[int]:
    return _call(lambda reply: int(reply["epoch"]), "restart")
