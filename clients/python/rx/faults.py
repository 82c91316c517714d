"""What goes wrong: a line that is refused, and a program that has ended."""
from __future__ import annotations

from typing import Any

from .refusals import Refusal, refusal

# By the program's own word, and by the client's.
STOPS = {
    "usage": "the journal's name or its limit is none that the program takes",
    "disk": "the journal can't be opened, read or written",
    "in_use": "another process has the journal",
    "read": "the program's input failed",
    "memory": "memory ran out",
    "not_journal": "the file is no journal",
    "full": "the next record would make the journal {would:,} bytes long, and its limit is {limit:,}",
    "too_long": "more lines were written than a script may have",
    "epoch": "the journal's epoch is too great for a copy",
    "closed": "the database was closed",
    "killed": "the program was killed",
    "start": "the program doesn't start",
    "output": "what came is no answer",
    "ended": "the program has ended",
}


class Refused(Exception):
    """A line was refused, and changed nothing.

    `code`, `word`, `cause`, `subject` (the reply's `name`), `rev` and `row` are the program's;
    `value` is what was wrong in the line, and `limit` what it was beyond, where there is such a thing.
    """

    def __init__(
        self, reply: dict[str, Any], line: bytes = b"", schema: dict[str, Any] | None = None
    ) -> None:
        said: Refusal = refusal(reply, line, schema)
        super().__init__(f"{reply['refused']} ({reply['code']}): {said.words}")
        self.words = said.words
        self.value: Any = said.value
        self.limit: int | None = said.limit
        self.code: int = reply["code"]
        self.word: str = reply["refused"]
        self.cause: str | None = reply.get("cause")
        self.subject: str | None = reply.get("name")
        self.rev: str | None = reply.get("rev")
        self.row: int | None = reply.get("row")


class Stopped(Exception):
    """The program has ended, so there is no answer. `stop` is its own word for why, or the client's."""

    def __init__(
        self,
        stop: str,
        status: int | None = None,
        said: str = "",
        limit: int | None = None,
        would: int | None = None,
    ) -> None:
        words = STOPS.get(stop, stop).format(limit=limit or 0, would=would or 0)
        super().__init__(f"{stop}: {words}{': ' if said else ''}{said}")
        self.words = f"{words}{': ' if said else ''}{said}"
        self.stop = stop
        self.status = status
        self.limit = limit
        self.would = would
