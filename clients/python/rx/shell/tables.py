"""Results as tables, as lines of JSON, or as words: with rich where it is there and a terminal takes it."""
from __future__ import annotations

import json
import os
import unicodedata
from collections.abc import Mapping, Sequence
from typing import Any, TextIO

Rows = Sequence[Mapping[str, Any]]
MOST_FITTED = 1_000


class Plain:
    """Columns with two spaces between them."""

    def __init__(self, out: TextIO, errors: TextIO) -> None:
        self.out, self.errors = out, errors
        self.json = False

    def rows(self, rows: Rows, columns: Sequence[str], what: str = "rows") -> None:
        """A table and a line that counts its rows."""
        if self.json:
            for row in rows:
                self.words(json.dumps(row, ensure_ascii=False, separators=(",", ":")))
            return
        if rows:
            self.table(rows, columns)
        self.words(f"{len(rows):,} {what}" if len(rows) != 1 else f"1 {what.rstrip('s')}")

    def table(self, rows: Rows, columns: Sequence[str]) -> None:
        cells = [[cell(row.get(name)) for name in columns] for row in rows]
        right = [is_number(rows, name) for name in columns]
        widths = [max(map(width, column)) for column in zip(columns, *cells)]
        for line in [list(columns), *cells]:
            padded = [pad(text, most, at_right) for text, most, at_right in zip(line, widths, right)]
            self.words("  ".join(padded).rstrip())

    def words(self, text: str) -> None:
        self.out.write(text + "\n")

    def fault(self, text: str) -> None:
        """Behind what was written before it."""
        self.out.flush()
        self.errors.write(text + "\n")
        self.errors.flush()

    def flush(self) -> None:
        self.out.flush()


class Rich(Plain):
    """Tables that fit the terminal's width, unless it would take long to fit them."""

    def __init__(self, out: TextIO, errors: TextIO) -> None:
        super().__init__(out, errors)
        from rich.console import Console

        self._console = Console(file=out, highlight=False, markup=False)

    def table(self, rows: Rows, columns: Sequence[str]) -> None:
        from rich.table import Table

        if len(rows) > MOST_FITTED:
            super().table(rows, columns)
            return
        made = Table(box=None, header_style="bold", pad_edge=False, padding=(0, 2, 0, 0))
        for name in columns:
            made.add_column(name, justify="right" if is_number(rows, name) else "left", overflow="fold")
        for row in rows:
            made.add_row(*(cell(row.get(name)) for name in columns))
        self._console.print(made)

    def fault(self, text: str) -> None:
        self.out.flush()
        self._console.print(text, style="red")


def tables(out: TextIO, errors: TextIO) -> Plain:
    """The way for this output."""
    if is_lively(out):
        try:
            return Rich(out, errors)
        except ImportError:
            pass
    return Plain(out, errors)


def is_lively(out: TextIO) -> bool:
    """Whether it is a terminal that may be drawn on."""
    return out.isatty() and os.environ.get("TERM", "dumb") != "dumb"


def cell(value: Any) -> str:
    """A value on one line. What can't be printed is escaped, so that no document writes to the terminal."""
    if value is None:
        return ""
    if isinstance(value, str):
        return value if value.isprintable() else "".join(map(printable, value))
    return json.dumps(value, ensure_ascii=False)


def printable(it: str) -> str:
    return it if it.isprintable() else it.encode("unicode_escape").decode()


def is_number(rows: Rows, name: str) -> bool:
    values = [row[name] for row in rows if row.get(name) is not None]
    return bool(values) and all(isinstance(it, int) and not isinstance(it, bool) for it in values)


def width(text: str) -> int:
    if text.isascii():
        return len(text)
    return sum(
        0 if unicodedata.combining(it) else 1 + (unicodedata.east_asian_width(it) in "WF") for it in text
    )


def pad(text: str, most: int, at_right: bool) -> str:
    space = " " * (most - width(text))
    return space + text if at_right else text + space
