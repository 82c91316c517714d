"""A client of rx, the document database: it writes lines to the program and reads its answers.

    with rx.open("todos.journal") as db:
        todos = db.collection("todos", schema)

    async with rx.open_async("todos.journal") as db:
        todos = await db.collection("todos", schema)

The two have the same calls. A database of `open` may be shared by threads, one of `open_async` by tasks.
`rx.compact("todos.journal")` makes a journal smaller that nobody has open.
`python3 -m rx todos.journal` is a shell.
"""
from typing import TYPE_CHECKING, Any

from .calls import Changes, Delivery, Digest, Document, Fields, Json, Object, Stored, Sweep, SweptTurn, Turn, Value
from .compaction import Compacted, compact
from .database import Collection, Database, Following, Observed, open
from .faults import Refused, Stopped
from .following import SyncStatus
from .lines import Clock, now

if TYPE_CHECKING:
    from .tasks import AsyncCollection, AsyncDatabase, AsyncFollowing, AsyncObserved, open_async

__all__ = [
    "AsyncCollection",
    "AsyncDatabase",
    "AsyncFollowing",
    "AsyncObserved",
    "Changes",
    "Clock",
    "Collection",
    "Compacted",
    "Database",
    "Delivery",
    "Digest",
    "Document",
    "Fields",
    "Following",
    "Json",
    "Object",
    "Observed",
    "Refused",
    "Stopped",
    "Stored",
    "Sweep",
    "SweptTurn",
    "SyncStatus",
    "Turn",
    "Value",
    "compact",
    "now",
    "open",
    "open_async",
]


def __getattr__(name: str) -> Any:
    """What is for asyncio is loaded by its first use: asyncio takes as long to load as all the rest."""
    if name in ("AsyncCollection", "AsyncDatabase", "AsyncFollowing", "AsyncObserved", "open_async"):
        from . import tasks

        return getattr(tasks, name)
    raise AttributeError(f"module {__name__} has no attribute {name}")
