"""Compaction: a copy that holds the same in fewer bytes takes a journal's place."""
from __future__ import annotations

import contextlib
import fcntl
import json
import os
import re
import stat
import subprocess
from typing import NamedTuple

from . import program as programs
from .calls import Json
from .faults import Stopped
from .lines import why

# What a copy's name has behind the journal's. No two copies have the same name, so none is renamed half done.
MARK = re.compile(r"\.compact-[0-9a-f]{16}")
OPEN_GATE = b"\1"


class Compacted(NamedTuple):
    """The journal's bytes now, those that it had, and its records now."""

    bytes: int
    from_: int
    records: int


def compact(
    journal: str | os.PathLike[str], *, program: str | None = None, max_journal: int | None = None
) -> Compacted:
    """Puts a copy that holds the same in fewer bytes in the place of a journal, which nobody may have open.

    Where that can't be it raises `Stopped`, and the journal is as it was: by `in_use` where another process
    has it, or had it since the copy was begun.
    """
    name = os.fspath(journal)
    found = programs.find(program)
    try:
        file = os.open(name, os.O_RDWR)
        try:
            return _compact(file, os.path.realpath(name), found, max_journal)
        finally:
            os.close(file)
    except OSError as fault:
        raise Stopped("disk", None, str(fault)) from fault


def _compact(file: int, path: str, program: str, max_journal: int | None) -> Compacted:
    # The program takes the lock itself, so it is taken here before and behind it.
    _lock(file, path)
    _remove_leftovers(path)
    fcntl.flock(file, fcntl.LOCK_UN)
    copy = f"{path}.compact-{os.urandom(8).hex()}"
    os.close(os.open(copy, os.O_WRONLY | os.O_CREAT | os.O_EXCL, 0o600))
    try:
        made = _copy(path, copy, program, max_journal)
        _lock(file, path)
        if not (os.path.exists(copy) and _is_as_copied(file, path, made.from_)):
            raise Stopped("in_use", None, path)
        os.chmod(copy, stat.S_IMODE(os.fstat(file).st_mode))
        _sync(copy)
        os.replace(copy, path)
        _sync(os.path.dirname(path))
        return made
    finally:
        with contextlib.suppress(FileNotFoundError):
            os.remove(copy)


def _lock(file: int, path: str) -> None:
    """Takes the lock that a run takes, until the file is closed."""
    try:
        fcntl.flock(file, fcntl.LOCK_EX | fcntl.LOCK_NB)
    except BlockingIOError:
        raise Stopped("in_use", None, path) from None


def _remove_leftovers(path: str) -> None:
    """Removes copies whose makers were killed."""
    folder, name = os.path.split(path)
    for it in os.listdir(folder):
        if it.startswith(name) and MARK.fullmatch(it, len(name)):
            os.remove(os.path.join(folder, it))


def _copy(path: str, copy: str, program: str, max_journal: int | None) -> Compacted:
    words = [program, "compact", path, copy, *programs.limit(max_journal)]
    try:
        ran = subprocess.run(words, stdin=subprocess.DEVNULL, stdout=subprocess.PIPE, check=False)
    except OSError as fault:
        raise Stopped("start", None, str(fault)) from fault
    try:
        told: Json | None = json.loads(ran.stdout) if ran.stdout else None
        if ran.returncode == 0 and told is not None:
            return Compacted(told["bytes"], told["from"], told["records"])
    except (ValueError, KeyError, TypeError):
        raise Stopped("output", None, repr(ran.stdout[:200])) from None
    raise why(told, ran.returncode, "ended", path, programs.is_in_use(path))()


def _is_as_copied(file: int, path: str, end: int) -> bool:
    """Whether the path leads to this file still, and no record was added, which opens the gate at its end."""
    return os.path.samestat(os.stat(path), os.fstat(file)) and os.pread(file, 1, end - 1) != OPEN_GATE


def _sync(path: str) -> None:
    file = os.open(path, os.O_RDONLY)
    try:
        os.fsync(file)
    finally:
        os.close(file)
