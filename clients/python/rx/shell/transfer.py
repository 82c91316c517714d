"""Files of documents: into a collection by bulks, and out of one by pages."""
from __future__ import annotations

import csv
import json
import os
from collections.abc import Callable, Iterator
from itertools import islice
from typing import Any, NamedTuple, TextIO

from ..calls import Call, Document, Json, encode
from ..database import Collection, Database, Slot
from ..faults import Refused
from .progress import Interrupt, Progress
from .statements import Wrong

DOCUMENTS, BYTES = 2_000, 400_000  # of a bulk, whichever comes first
PAGE = 5_000
OPENED, CLOSED = b"{}"
FORMATS = (".jsonl", ".csv")
STOPPED = "stopped by Ctrl-C"


class Part(NamedTuple):
    """A bulk: its documents' texts, the lines of the file that they stand in, and the bytes read so far."""

    texts: list[bytes]
    lines: list[int]
    read: int

    def call(self, into: str) -> Call[None]:
        line = b'{"do":"bulk","in":"%s","docs":[%s]}' % (into.encode(), b",".join(self.texts))
        return Call("bulk", line, lambda _reply: None)


def format_of(path: str) -> str:
    ending = os.path.splitext(path)[1]
    if ending not in FORMATS:
        raise Wrong("it is neither .jsonl nor .csv")
    return ending


def import_file(
    db: Database, path: str, into: str, schema: Json, progress: Progress, interrupt: Interrupt
) -> None:
    """Inserts a file's documents. `progress` counts those that are acknowledged, which are its first ones."""
    read = jsonl_parts if format_of(path) == ".jsonl" else csv_parts
    flight = Flight(db, into, progress, max(os.path.getsize(path), 1))
    try:
        for part in read(path, schema):
            flight.send(part)
            if interrupt.pressed:
                raise Wrong(STOPPED)
    finally:
        flight.land()


class Flight:
    """The one bulk that is written while the next is made. That one is sent once this is acknowledged."""

    def __init__(self, db: Database, into: str, progress: Progress, size: int) -> None:
        self._db, self._into, self._progress, self._size = db, into, progress, size
        self._sent: tuple[Slot, Part] | None = None

    def send(self, part: Part) -> None:
        self.land()
        self._sent = self._db.begin(part.call(self._into)), part

    def land(self) -> None:
        """Waits for the answer of what was sent."""
        if self._sent is None:
            return
        (slot, part), self._sent = self._sent, None
        try:
            slot.wait()
        except Refused as refused:
            raise Wrong(told(refused, part)) from None
        self._progress.at(self._progress.lines + len(part.texts), part.read / self._size)


def told(refused: Refused, part: Part) -> str:
    """The refusal by the line of the file, and not by the row of the bulk. One that is about the bulk's own
    line has no row, and then the document at fault is the one that can't be written, or the only one."""
    if refused.row is not None:
        words = refused.words.partition(": ")[2]
        return f"line {part.lines[refused.row]:,}: {refused.word} ({refused.code}): {words}"
    for line, text in zip(part.lines, part.texts):
        try:
            encode("insert", {"doc": json.loads(text)})
        except Refused as found:
            return f"line {line:,}: {found}"
    return f"line {part.lines[0]:,}: {refused}" if len(part.lines) == 1 else str(refused)


def parts(texts: list[bytes], lines: list[int], read: int) -> Iterator[Part]:
    """One part, or more where its line would be too long."""
    if sum(map(len, texts)) <= BYTES:
        yield from [Part(texts, lines, read)] if texts else []
        return
    start, length = 0, 0
    for at, text in enumerate(texts):
        if length and length + len(text) > BYTES:
            yield Part(texts[start:at], lines[start:at], read)
            start, length = at, 0
        length += len(text)
    if start < len(texts):
        yield Part(texts[start:], lines[start:], read)


def jsonl_parts(path: str, _schema: Json) -> Iterator[Part]:
    """The lines as they stand, once each is known to be one object."""
    first, read = 1, 0
    with open(path, "rb") as file:
        while given := list(islice(file, DOCUMENTS)):
            numbered = [
                (number, text) for number, line in enumerate(given, first) if (text := line.strip(b" \t\r\n"))
            ]
            first, read = first + len(given), read + sum(map(len, given))
            lines, texts = [number for number, _ in numbered], [text for _, text in numbered]
            wrong = None if are_objects(texts) else first_wrong(texts)
            end = wrong[0] if wrong else len(texts)
            yield from parts(texts[:end], lines[:end], read)
            if wrong:
                raise Wrong(f"line {lines[wrong[0]]:,} is {wrong[1]}")


def no_number(name: str) -> Any:
    raise ValueError(f"{name} is no number")


decode = json.JSONDecoder(parse_constant=no_number).decode


def are_objects(texts: list[bytes]) -> bool:
    """Whether each is one object, read together since that takes a fraction of the time. What one leaves open
    the next may close only within a list, and then the program refuses it: no document holds a list."""
    if not all(text[0] == OPENED and text[-1] == CLOSED for text in texts):
        return False
    try:
        together = b",\n".join(texts).decode()  # no text goes on behind a line's end
        return len(decode(f"[{together}]")) == len(texts)
    except (ValueError, RecursionError):
        return False


def first_wrong(texts: list[bytes]) -> tuple[int, str] | None:
    """Which is no object, and what it is."""
    for at, text in enumerate(texts):
        try:
            if not isinstance(decode(text.decode()), dict):
                return at, "no object"
        except (ValueError, RecursionError) as fault:
            return at, f"no JSON: {fault}"
    return None


def csv_parts(path: str, schema: Json) -> Iterator[Part]:
    """The first line names fields. A cell is read by its field's type, and an empty one is no field, unless
    the schema asks for a text there."""
    with open(path, encoding="utf-8-sig", newline="") as file:
        counted = Counted(file)
        rows = csv.reader(counted, strict=True)
        texts: list[bytes] = []
        lines: list[int] = []
        try:
            readers = [cell_reader(name, schema) for name in next(rows, [])]
            line = rows.line_num + 1
            for row in rows:
                if row:
                    document = document_of(row, readers, f"line {line:,}")
                    texts.append(json.dumps(document, ensure_ascii=False).encode())
                    lines.append(line)
                line = rows.line_num + 1
                if len(texts) == DOCUMENTS:
                    yield from parts(texts, lines, counted.read)
                    texts, lines = [], []
        except (csv.Error, UnicodeDecodeError) as fault:
            yield from parts(texts, lines, counted.read)
            raise Wrong(f"line {rows.line_num:,}: {fault}") from None
        except Wrong:
            yield from parts(texts, lines, counted.read)
            raise
        yield from parts(texts, lines, counted.read)


class Counted:
    """A file's lines, and about how many bytes they were."""

    def __init__(self, file: TextIO) -> None:
        self._file, self.read = file, 0

    def __iter__(self) -> Iterator[str]:
        for line in self._file:
            self.read += len(line)
            yield line


Reader = tuple[str, Callable[[str], Any], bool]


def cell_reader(name: str, schema: Json) -> Reader:
    """A field, what reads its cells, and whether an empty one is a text."""
    kind = schema.get("properties", {}).get(name, {}).get("type")
    if kind is None:
        raise Wrong(f"{name} is no property of the schema")
    readers: dict[str, Callable[[str], Any]] = {"string": str, "boolean": boolean}
    return name, readers.get(kind, int), kind == "string" and name in schema.get("required", [])


def boolean(text: str) -> bool:
    return {"true": True, "false": False}[text]


def document_of(row: list[str], readers: list[Reader], where: str) -> Document:
    if len(row) != len(readers):
        raise Wrong(f"{where} has {len(row)} cells, and the first line {len(readers)}")
    document: Document = {}
    for text, (name, read, has_empty) in zip(row, readers):
        if text or has_empty:
            try:
                document[name] = read(text)
            except (ValueError, KeyError):
                kind = "true or false" if read is boolean else "whole number"
                raise Wrong(f"{where}: {name} {json.dumps(text)} is no {kind}") from None
    return document


def export_file(
    collection: Collection, path: str, query: Json, schema: Json, progress: Progress, interrupt: Interrupt
) -> None:
    """Writes a result to a file that isn't there yet."""
    ending = format_of(path)
    total = max(collection.count(query), 1)
    try:
        with open(path, "x", encoding="utf-8", newline="") as file:
            write = csv_writer(file, columns_of(schema)) if ending == ".csv" else jsonl_writer(file)
            for rows in pages(collection, query, schema["primaryKey"]):
                write(rows)
                count = progress.lines + len(rows)
                progress.at(count, count / total)
                if interrupt.pressed and count < total:
                    raise Wrong(STOPPED)
    except FileExistsError:
        raise Wrong("it is there already") from None


def pages(collection: Collection, query: Json, key: str) -> Iterator[list[Document]]:
    """A result by pages, each from the key where the last one ended, or at once where it is sorted or cut."""
    if query.keys() - {"selector"}:
        yield collection.find(query)
        return
    all_of: list[Json] = [query["selector"]] if query.get("selector") else []
    above: list[Json] = []
    while True:
        conditions = all_of + above
        selector = {"selector": {"$and": conditions}} if conditions else {}
        rows = collection.find({**selector, "limit": PAGE})
        yield rows
        if len(rows) < PAGE:
            return
        above = [{key: {"$gt": rows[-1][key]}}]


def columns_of(schema: Json) -> list[str]:
    """The primary key, and then the other fields by name."""
    key = schema.get("primaryKey")
    return sorted(schema.get("properties", {}), key=lambda name: (name != key, name))


def jsonl_writer(file: TextIO) -> Callable[[list[Document]], Any]:
    encode_row = json.JSONEncoder(ensure_ascii=False, separators=(",", ":")).encode
    return lambda rows: file.write("".join(encode_row(row) + "\n" for row in rows))


def csv_writer(file: TextIO, columns: list[str]) -> Callable[[list[Document]], Any]:
    writer = csv.writer(file, lineterminator="\n")
    writer.writerow(columns)

    def cell(value: Any) -> Any:
        return json.dumps(value) if isinstance(value, bool) else value

    return lambda rows: writer.writerows([cell(row.get(name)) for name in columns] for row in rows)
