"""The words of the command, and the statements of a terminal, a pipe, or those words."""
from __future__ import annotations

import argparse
import io
import os
import sys
from collections.abc import Iterable

from .. import database
from ..faults import Stopped
from .commands import Ended, Shell
from .prompt import typed_lines
from .statements import statements
from .tables import tables

REFUSED, STOPPED, INTERRUPTED = 1, 3, 130


def main(words: list[str]) -> int:
    """0 where all was done, 1 where a statement was refused, and else the status of the stopped program."""
    given = parser().parse_args(words)
    take_any_bytes()
    show = tables(sys.stdout, sys.stderr)
    try:
        with database.open(given.journal, program=given.program, max_journal=given.max_journal) as db:
            shell = Shell(db, show, sys.stderr, given.program)
            typed = sys.stdin.isatty() and not given.statement
            try:
                play(shell, given.statement, typed)
            except Ended:
                pass
            return REFUSED if shell.refused and not typed else 0
    except Stopped as stopped:
        show.fault(stopped.words)
        return stopped.status or STOPPED
    except KeyboardInterrupt:
        return INTERRUPTED
    except BrokenPipeError:
        os.dup2(os.open(os.devnull, os.O_WRONLY), sys.stdout.fileno())  # nobody reads what is left
        return 0


def take_any_bytes() -> None:
    """What is no text is refused by the member's name, and what can't be printed is escaped."""
    for stream, errors in ((sys.stdin, "surrogateescape"), (sys.stdout, "backslashreplace")):
        if isinstance(stream, io.TextIOWrapper):
            stream.reconfigure(errors=errors)


def play(shell: Shell, given: list[str], typed: bool) -> None:
    """Statements one after another. In a pipe a fault is told with the line where its statement begins."""
    if given:
        for text in given:
            shell.do(text)
        return
    if typed:
        count = len(shell.names.schemas)
        shell.show.words(
            f"{shell.db.journal}: {count} collection{'' if count == 1 else 's'}; .help lists what there is"
        )
        shell.show.flush()
        lines: Iterable[str] = typed_lines(shell)
    else:
        lines = sys.stdin
    for number, text in statements(lines):
        try:
            shell.do(text, "" if typed else f"line {number}: ")
        except KeyboardInterrupt:
            if not typed:
                raise
            shell.show.words("interrupted; what was sent is done all the same")


def parser() -> argparse.ArgumentParser:
    made = argparse.ArgumentParser(
        prog="python3 -m rx",
        description="A shell over a journal, as in: python3 -m rx todos.journal",
        epilog="Statements come from the words, or else from standard input; .help lists them.",
    )
    made.add_argument("journal", metavar="JOURNAL", help="the file, made where there is none")
    made.add_argument(
        "statement", metavar="STATEMENT", nargs="*", default=[], help="what is to be done, and then it ends"
    )
    made.add_argument("--program", help="the program, where it isn't RX in the environment or rx on the path")
    made.add_argument("--max-journal", type=int, metavar="BYTES", help="how long the journal may become")
    return made
