"""The names and schemas that a journal holds, read from its file, since no line of a script tells them."""
from __future__ import annotations

import json
import mmap
import os
from dataclasses import dataclass, field

from .calls import Json

HEADER = b"RXJOURN1"
OPEN_GATE = 1
COLLECTION, REPLICATION, MIGRATION = 1, 3, 6
NAMING = (COLLECTION, REPLICATION, MIGRATION)
LOCAL = 0


@dataclass
class Names:
    """What a file holds as far as it was read. Reading goes on where it ended, and sees whole records."""

    path: str
    schemas: dict[str, Json] = field(default_factory=dict)
    replications: list[str] = field(default_factory=list)
    _joined: list[set[str]] = field(default_factory=list)
    _at: int = len(HEADER)

    def read(self) -> Names:
        with open(self.path, "rb") as file:
            if os.fstat(file.fileno()).st_size > len(HEADER) + 1:
                with mmap.mmap(file.fileno(), 0, access=mmap.ACCESS_READ) as records:
                    self._read_on(records)
        return self

    def _read_on(self, records: mmap.mmap) -> None:
        """A record is a gate, four bytes of length, and a body that begins with its kind."""
        at, end = self._at, len(records)
        while at + 6 <= end and records[at] == OPEN_GATE:
            body = at + 5
            at = body + int.from_bytes(records[at + 1 : body], "big")
            if records[body] in NAMING:
                self._take(records[body], records[body + 1 : at])
        self._at = at

    def _take(self, kind: int, part: bytes) -> None:
        """These bodies begin with a name and a schema, or with a name, a fork and its master."""
        name, at = _text(part, 0)
        text, at = _text(part, at)
        if kind == COLLECTION:
            self.schemas[name] = json.loads(text)
        elif kind == MIGRATION:
            self.schemas.update({it: json.loads(text) for it in self._group(name)})
        else:
            self.replications.append(name)
            if part[at] == LOCAL:
                self._joined.append({text, _text(part, at + 1)[0]})

    def _group(self, name: str) -> set[str]:
        """A collection and all that local replications join to it, over any number of them."""
        group, more = {name}, {name}
        while more:
            more = set[str]().union(*(pair for pair in self._joined if pair & group)) - group
            group |= more
        return group


def _text(part: bytes, at: int) -> tuple[str, int]:
    """The text at a place, behind its length, and where it ends."""
    start = at + 4
    end = start + int.from_bytes(part[at:start], "big")
    return part[start:end].decode(), end
