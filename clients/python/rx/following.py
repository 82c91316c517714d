"""How a fork stands that is kept in sync, by what is written to it and what its turns and deliveries come to,
and what is to be done for it next."""
from __future__ import annotations

import json
import random
from collections.abc import Iterable
from typing import NamedTuple, Protocol

from .calls import Json, Turn

BATCH = 100
# Seconds after the first turn that was lost; each further one doubles them.
FIRST_WAIT = 0.5


class SyncStatus(NamedTuple):
    """How a fork and its master stand: `offline` once a turn was lost, until one goes well, `syncing`, or
    `in sync`. `pending` documents are to be sent, as far as the client knows: of those that it didn't write
    itself it learns from a turn, and then of as many as a batch. `lost` is why it is offline."""

    state: str
    pending: int
    lost: str | None = None


class Follower(Protocol):
    """Who keeps a fork in sync."""

    def wrote(self, keys: Iterable[object]) -> None:
        ...

    def turned(self, turn: Json) -> None:
        ...

    def delivered(self, delivery: Json) -> None:
        ...

    def end(self, fault: Exception | None) -> None:
        ...


class Account:
    """What there is to say of one fork, what comes next, and how long that waits."""

    def __init__(self, every: float, longest: float, batch: int | None) -> None:
        self.now = SyncStatus("syncing", 0)
        # whether its stream is open, or None where that is to be found out
        self.is_streamed: bool | None = None
        self._is_turn_due = True  # a delivery wouldn't be enough
        self._every, self._longest, self._batch = every, longest, batch or BATCH
        self._pending: set[object] = set()
        self._losses = 0

    def wrote(self, keys: Iterable[object]) -> None:
        """The keys are the fork's, and none where its master was written."""
        keys = list(keys)
        self._pending.update(keys)
        self._is_turn_due = self._is_turn_due or bool(keys)
        state = "offline" if self.now.state == "offline" else "syncing"
        self.now = SyncStatus(state, len(self._pending), self.now.lost)

    def turned(self, turn: Json) -> None:
        """A push has all that is pending, up to its batch, and before a pull nothing is. What was in conflict
        may have to be sent once more."""
        for it in turn["each"]:
            rows = it.get("rows", ())
            if it["sent"] == "pull" or len(rows) < self._batch:
                self._pending.clear()
            if it["sent"] == "push":
                (self._pending.update if "lost" in it else self._pending.difference_update)(rows)
                self._pending.update(it.get("conflicts", ()))
        end, lost = turn["end"], None
        if end in ("lost", "clock"):
            lost = turn["each"][-1]["lost"] if end == "lost" else end
        self._losses = self._losses + 1 if lost else 0
        state = "offline" if lost else "in sync" if end == "quiet" else "syncing"
        self.now = SyncStatus(state, len(self._pending), lost)

    def delivered(self, delivery: Json) -> None:
        """A turn makes up for what no event has, where the two aren't level."""
        if not delivery["level"]:
            self._is_turn_due = True
            return
        self._pending.clear()
        self._losses = 0
        self.now = SyncStatus("in sync", 0)

    def takes_turn(self) -> bool:
        """Whether a turn comes next, or a delivery. A write may ask for another turn meanwhile."""
        is_due = self._is_turn_due or not self.is_streamed
        self._is_turn_due = False
        return is_due

    def after(self, turn: Turn) -> bool:
        """Whether something comes at once behind a turn. Behind the last push a delivery tells whether the two
        are level."""
        is_pulling = turn.end == "more" and turn.each[-1]["sent"] == "pull"
        self._is_turn_due = bool(self._is_turn_due or is_pulling or self._losses or self._pending)
        return turn.end == "more"

    def lost_stream(self) -> None:
        """A restart or a migration ended it."""
        self.is_streamed, self._is_turn_due = None, True

    def wait(self) -> float | None:
        """Seconds, or None where it waits for a write. Waits after losses differ, so that not all who lost a
        master are back at once."""
        if not self._losses:
            return None if self.is_streamed else self._every
        return min(FIRST_WAIT * 2.0 ** min(self._losses - 1, 32), self._longest) * random.uniform(0.75, 1.25)

    def hurry(self) -> None:
        self._losses, self._is_turn_due = 0, True


class Followed:
    """The forks that are kept in sync, by the name of their replication, and who hears of a write: those whose
    fork or master it is to, and those of which that isn't known here."""

    def __init__(self) -> None:
        self.by_name: dict[str, Follower] = {}
        self.sides: dict[str, tuple[str, str | None]] = {}

    def is_elsewhere(self, name: str) -> bool:
        """Whether the master is known to be elsewhere."""
        return name in self.sides and self.sides[name][1] is None

    def hear(self, line: bytes, reply: Json, schemas: dict[str, Json]) -> None:
        """Hears of a write, a turn, a sweep or a delivery that was answered."""
        request = json.loads(line)
        if "each" not in reply:
            into = request["in"]
            self._tell(into, keys_of(request, schemas.get(into)))
        elif reply["ok"] == "sweep":
            for turn in reply["each"]:
                self._made(turn["replication"], turn)
        else:
            self._made(request["name"], reply)

    def _made(self, name: str, made: Json) -> None:
        """A turn or a delivery wrote to the master what was pushed, and to the fork what came."""
        if it := self.by_name.get(name):
            (it.turned if "end" in made else it.delivered)(made)
        fork, master = self.sides.get(name, (None, None))
        up, down = ([key for one in made["each"] for key in of(one)] for of in (pushed, brought))
        if up and not self.is_elsewhere(name):
            self._tell(master, up, name)
        if down:
            self._tell(fork, down, name)

    def _tell(self, into: str | None, keys: list[object], by: str | None = None) -> None:
        """Tells of a write to a collection, or to one that isn't known."""
        for name, it in list(self.by_name.items()):
            fork, master = self.sides.get(name, (None, into))
            if name == by:
                continue
            if into is not None and into == fork:
                it.wrote(keys)
            elif not self.is_elsewhere(name) and into in (None, master):
                it.wrote(())


def pushed(it: Json) -> list[object]:
    """The keys that an exchange may have written to the master."""
    return list(it.get("rows", ())) if it.get("sent") == "push" else []


def brought(it: Json) -> list[object]:
    """The keys that an exchange or an event wrote to the fork."""
    if it.get("sent") == "push":
        return list(it.get("conflicts", ()))
    return list(it.get("rows", ())) if it.get("took", "taken") == "taken" else []


def keys_of(request: Json, schema: Json | None) -> list[object]:
    """The keys of a write. A document whose schema wasn't given is one that no other write is about."""
    if "key" in request:
        return [request["key"]]
    docs = request.get("docs") or [request.get("doc", {})]
    return [it.get(schema["primaryKey"]) if schema else object() for it in docs]
