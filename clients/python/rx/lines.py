"""Numbers lines, matches answers, and keeps what an observed query heard last. It knows no pipe."""
from __future__ import annotations

import json
import threading
import time
from collections.abc import Iterable
from typing import Any, Callable, Protocol

from .calls import Call, Document, Hook, Json, tick
from .faults import Refused, Stopped
from .following import Followed

Answer = Callable[[Json, Exception | None], None]
# What tells the present moment, in milliseconds.
Clock = Callable[[], int]
WRITES = {"insert", "bulk", "upsert", "patch", "update", "remove", "turn", "sweep", "deliver"}


def now() -> int:
    """Milliseconds since 1970."""
    return time.time_ns() // 1_000_000


class Observer(Protocol):
    """Who hears an observed query: its results, and once its end with the fault that ended it, if one did."""

    def hear(self, rows: list[Document]) -> None:
        ...

    def end(self, fault: Exception | None) -> None:
        ...


class Newest:
    """The newest result of an observed query, and whether it is over. However many came, one is kept."""

    def __init__(self) -> None:
        self.is_new = False
        self.over = False
        self._rows: list[Document] = []
        self._fault: Exception | None = None

    def hear(self, rows: list[Document]) -> None:
        self._rows, self.is_new = rows, True

    def end(self, fault: Exception | None) -> None:
        if not self.over:
            self.over, self._fault = True, fault

    def is_due(self) -> bool:
        return self.is_new or self.over

    def take(self) -> list[Document] | None:
        """The rows that weren't taken yet, or None where no more come. What ended it is raised once."""
        if self.is_new:
            return self.rows()
        fault, self._fault = self._fault, None
        if fault is not None:
            raise fault
        return None

    def rows(self) -> list[Document]:
        """The newest rows, as the caller's own: fields hold no lists or objects."""
        self.is_new = False
        return [dict(row) for row in self._rows]


class Lines:
    """The lines of one run."""

    def __init__(self, clock: Clock | None) -> None:
        self.stopped: Callable[[], Stopped] | None = None
        self._clock = clock
        self._moment: int | None = None
        self._lock = threading.Lock()
        self._count = 0
        self._names = 0
        self._waiting: dict[int, tuple[bytes, Answer]] = {}
        self._observed: dict[str, Observer] = {}
        self.followed = Followed()
        self._schemas: dict[str, Json] = {}
        self._hooked: set[str] = set()
        self._rest = b""
        self._each: list[Json] = []
        self._turns: list[Json] = []
        self._stop: Json | None = None

    def first(self) -> Call[None]:
        """The line that a run begins with: a moment, whose answer tells that the journal is open."""
        self._moment = self._clock() if self._clock else None
        return Call("open", tick(self._moment or 0).line, lambda _reply: None)

    def write(self, call: Call[Any], answer: Answer) -> bytes:
        """The bytes to be written, in the order of these calls. A blank line is counted and not answered."""
        with self._lock:
            if self.stopped is not None:
                raise self.stopped()
            if call.do == "tick":
                self._clock = self._moment = None
            data = self._tick() if call.do in WRITES else b""
            self._count += 1
            if call.line.strip(b" \t\r"):
                self._waiting[self._count] = call.line, answer
            else:
                answer({}, None)
        return data + call.line + b"\n"

    def _tick(self) -> bytes:
        """The clock's moment, where it isn't the one that was set last."""
        moment = self._clock() if self._clock else self._moment
        if moment is None or moment == self._moment:
            return b""
        self._moment = moment
        self._count += 1
        line = tick(moment).line
        self._waiting[self._count] = line, lambda _reply, _fault: None
        return line + b"\n"

    def new_name(self) -> str:
        with self._lock:
            self._names += 1
            return f"observed-{self._names}"

    def watch(self, name: str, observer: Observer) -> None:
        self._observed[name] = observer

    def unwatch(self, name: str) -> None:
        self._observed.pop(name, None)

    def take(self, data: bytes) -> None:
        """What the program wrote. One that writes no answers raises ValueError, KeyError or TypeError."""
        if b"\n" not in data:
            self._rest += data
            return
        *lines, self._rest = (self._rest + data).split(b"\n")
        for line in lines:
            self._take_line(json.loads(line))

    def _take_line(self, it: Json) -> None:
        if "emit" in it:
            if observer := self._observed.get(it["emit"]):
                observer.hear(it["rows"])
        elif "stop" in it:
            self._stop = it
        elif "exchange" in it or "event" in it:
            self._each.append(it)
        elif "pass" in it:
            it["each"], self._each = self._each, []
            self._turns.append(it)
        else:
            line, answer = self._waiting.pop(it["line"])
            if "refused" in it:
                answer({}, Refused(it, line, self._schema_of(line, it)))
                return
            if it["ok"] in ("turn", "deliver"):
                it["each"], self._each = self._each, []
            elif it["ok"] == "sweep":
                it["each"], self._turns = self._turns, []
            elif it["ok"] == "collection":
                made = json.loads(line)
                self._schemas[made["name"]] = made["schema"]
            elif it["ok"] == "migrate":
                schema = json.loads(line)["schema"]
                self._schemas.update((name, schema) for name in it["collections"])
                self._hooked.difference_update(it["collections"])
            if self.followed.by_name and it["ok"] in WRITES:
                self.followed.hear(line, it, self._schemas)
            answer(it, None)

    def hooks_of(self, name: str, hooks: Iterable[Hook]) -> list[Hook]:
        """The hooks of a collection that are to be attached: all, where none were before."""
        given = list(hooks) if name not in self._hooked else []
        if given:
            self._hooked.add(name)
        return given

    def _schema_of(self, line: bytes, refused: Json) -> Json | None:
        """The schema of the line's collection, where a line of this client gave it."""
        of_document = refused["refused"] in ("invalid", "conflict", "key", "twice", "vetoed")
        return self._schemas.get(json.loads(line)["in"]) if of_document else None

    def finish(self, status: int | None, stop: str = "ended", said: str = "", in_use: bool = False) -> None:
        """The program's own word comes first. It gives none where it was asked to end."""
        with self._lock:
            asked = self.stopped is not None and self._stop is None and status in (0, 1)
            if not asked:
                self.stopped = why(self._stop, status, stop, said, in_use)
            waiting, self._waiting = self._waiting, {}
            observed, self._observed = self._observed, {}
            followed = list(self.followed.by_name.values())
        assert self.stopped is not None
        for _, answer in waiting.values():
            answer({}, self.stopped())
        for observer in observed.values():
            observer.end(None if asked else self.stopped())
        for follower in followed:
            follower.end(None if asked else self.stopped())


def closed() -> Stopped:
    return Stopped("closed")


def why(told: Json | None, status: int | None, stop: str, said: str, in_use: bool) -> Callable[[], Stopped]:
    """What makes the fault that a call meets: one for each, since a fault that is raised keeps its way."""
    limit, would = None, None
    if told is not None:
        stop = "in_use" if in_use and told["stop"] == "disk" else told["stop"]
        limit, would = told.get("limit"), told.get("would")
    elif status is not None and status < 0:
        said = f"signal {-status}"
        stop, status = "killed", None
    return lambda: Stopped(stop, status, said, limit, would)
