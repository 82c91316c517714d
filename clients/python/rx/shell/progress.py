"""How far a file is: a bar, lines a second and the time left, where a terminal shows them."""
from __future__ import annotations

import signal
import time
from collections.abc import Iterator
from contextlib import contextmanager
from types import FrameType
from typing import Any, TextIO

from .tables import is_lively

EACH = 0.1  # seconds between two drawings
BAR = 24


class Progress:
    """Counts lines, and knows which part of all they are."""

    def __init__(self) -> None:
        self._begun = time.monotonic()
        self.lines = 0
        self.part = 0.0

    def at(self, lines: int, part: float) -> None:
        self.lines, self.part = lines, part

    def seconds(self) -> float:
        return max(time.monotonic() - self._begun, 1e-6)

    def rate(self) -> str:
        return f"{self.lines / self.seconds():,.0f} lines a second"

    def left(self) -> str:
        if not 0 < self.part < 1:
            return ""
        return f", {self.seconds() * (1 / self.part - 1):,.0f} s left"

    def close(self) -> None:
        """Takes away what was drawn."""


class Bar(Progress):
    """A line that is written again and again."""

    def __init__(self, out: TextIO) -> None:
        super().__init__()
        self._out, self._drawn = out, 0.0

    def at(self, lines: int, part: float) -> None:
        super().at(lines, part)
        if self.seconds() - self._drawn >= EACH:
            self._drawn = self.seconds()
            done = "#" * round(BAR * part)
            self._write(f"{part:4.0%} [{done:{BAR}}] {lines:,} lines, {self.rate()}{self.left()}")

    def close(self) -> None:
        if self._drawn:
            self._write("")

    def _write(self, text: str) -> None:
        self._out.write(f"\r{text}\x1b[K")
        self._out.flush()


class RichBar(Progress):
    """The same by rich."""

    def __init__(self, out: TextIO) -> None:
        super().__init__()
        from rich.console import Console
        from rich.progress import BarColumn, Progress as Drawn, TextColumn

        columns = TextColumn("{task.percentage:3.0f}%"), BarColumn(), TextColumn("{task.description}")
        self._drawn = Drawn(*columns, console=Console(file=out), transient=True)
        self._task = self._drawn.add_task("", total=1.0)
        self._drawn.start()

    def at(self, lines: int, part: float) -> None:
        super().at(lines, part)
        self._drawn.update(
            self._task, completed=part, description=f"{lines:,} lines, {self.rate()}{self.left()}"
        )

    def close(self) -> None:
        self._drawn.stop()


def progress(out: TextIO) -> Progress:
    """The way for this output."""
    if not is_lively(out):
        return Progress()
    try:
        return RichBar(out)
    except ImportError:
        return Bar(out)


class Interrupt:
    """Whether Ctrl-C was pressed."""

    def __init__(self) -> None:
        self.pressed = False


@contextmanager
def interruptible() -> Iterator[Interrupt]:
    """Ctrl-C is noted, so that no line is cut in the middle. A second one ends the shell."""
    interrupt = Interrupt()

    def note(_signal: int, _frame: FrameType | None) -> Any:
        if interrupt.pressed:
            raise KeyboardInterrupt
        interrupt.pressed = True

    before = signal.signal(signal.SIGINT, note)
    try:
        yield interrupt
    finally:
        signal.signal(signal.SIGINT, before)
