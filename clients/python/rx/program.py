"""The program: where it is, and who has a journal."""
from __future__ import annotations

import fcntl
import os
import shutil

from .faults import Stopped

HOW = (
    "`tools/install ~/.local` in a clone of rx makes ~/.local/bin/rx; "
    "name it by `program`, by RX in the environment, or have it on the path"
)


def find(program: str | None = None) -> str:
    """What is given, else what RX names, else `rx` on the path."""
    asked = program or os.environ.get("RX") or "rx"
    found = shutil.which(asked)
    if found is None:
        raise Stopped("start", None, f"there is no program {asked}. {HOW}")
    return found


def is_in_use(journal: str) -> bool:
    """Whether another process has the journal's lock, which the program reports as a fault of the disk."""
    try:
        file = os.open(journal, os.O_RDONLY)
    except OSError:
        return False
    try:
        fcntl.flock(file, fcntl.LOCK_SH | fcntl.LOCK_NB)
        return False
    except BlockingIOError:
        return True
    except OSError:
        return False
    finally:
        os.close(file)


def words(journal: str, program: str | None, max_journal: int | None) -> list[str]:
    """The command of a run."""
    return [find(program), "run", os.fspath(journal), *limit(max_journal)]


def limit(max_journal: int | None) -> list[str]:
    """The words for the most bytes of a journal."""
    return [] if max_journal is None else ["--max-journal", str(max_journal)]
