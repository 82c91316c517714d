"""Typing at a terminal: history and completion by prompt_toolkit, else by readline, else plain."""
from __future__ import annotations

import glob
import os
import re
import sys
from collections.abc import Callable, Iterator

from .commands import COMMANDS, Shell
from .statements import is_open
from .transfer import FORMATS

FIRST, MORE = "rx> ", "..> "
FILES = (".import", ".export")
WRITING = ("insert", "upsert", "patch", "update", "remove", "get", ".schema", ".import", ".sweep")
NAMED = (*WRITING, "count", ".watch")
WORD = re.compile(r"[^\s,]*$")
HISTORY = 1_000


def typed_lines(shell: Shell) -> Iterator[str]:
    """Lines until Ctrl-D. Ctrl-C gives up what is typed so far."""
    ask = asking(shell)
    text = ""
    while True:
        try:
            line = ask(MORE if is_open(text) else FIRST) + "\n"
        except KeyboardInterrupt:
            text, line = "", "\n"  # a blank line ends an open statement
            sys.stdout.write("\n")
        except EOFError:
            sys.stdout.write("\n")
            return
        text = text + line if is_open(text) and line.strip() else line
        yield line


def asking(shell: Shell) -> Callable[[str], str]:
    if os.environ.get("TERM", "dumb") == "dumb":
        return input
    try:
        return by_prompt_toolkit(shell)
    except ImportError:
        return by_readline(shell)


def by_prompt_toolkit(shell: Shell) -> Callable[[str], str]:
    from prompt_toolkit import PromptSession
    from prompt_toolkit.completion import CompleteEvent, Completer, Completion
    from prompt_toolkit.document import Document
    from prompt_toolkit.history import FileHistory

    class Words(Completer):
        def get_completions(self, document: Document, complete_event: CompleteEvent) -> Iterator[Completion]:
            text = document.text_before_cursor
            for it in completions(shell, text):
                yield Completion(it, start_position=-len(last_word(text)))

    history = FileHistory(history_file("prompt"))
    session: PromptSession[str] = PromptSession(
        history=history, completer=Words(), complete_while_typing=False
    )
    return lambda prompt: session.prompt(prompt)


def by_readline(shell: Shell) -> Callable[[str], str]:
    try:
        import readline
    except ImportError:
        return input
    path = history_file("readline")

    def complete(_text: str, state: int) -> str | None:
        found = completions(shell, readline.get_line_buffer()[: readline.get_endidx()])
        return found[state] if state < len(found) else None

    readline.set_completer(complete)
    readline.set_completer_delims(" \t,")
    readline.parse_and_bind("tab: complete")
    readline.set_history_length(HISTORY)
    if os.path.exists(path):
        readline.read_history_file(path)

    def ask(prompt: str) -> str:
        line = input(prompt)
        readline.write_history_file(path)
        return line

    return ask


def history_file(name: str) -> str:
    """Where what was typed is kept, below the user's folder of such things."""
    folder = os.environ.get("XDG_STATE_HOME") or os.path.expanduser("~/.local/state")
    os.makedirs(os.path.join(folder, "rx"), exist_ok=True)
    return os.path.join(folder, "rx", f"{name}-history")


def completions(shell: Shell, text: str) -> list[str]:
    """What may stand at the end of a text in place of its last word."""
    word = last_word(text)
    before = text[: len(text) - len(word)].split()
    return sorted(it for it in candidates(shell, before, word) if it.startswith(word))


def last_word(text: str) -> str:
    found = WORD.search(text)
    return found[0] if found else ""


def candidates(shell: Shell, before: list[str], word: str) -> list[str]:
    """What may come behind these words."""
    if not before:
        return [*COMMANDS, *shell.names.schemas]
    head, *rest = before
    if head == ".turn":
        return [] if rest else shell.names.replications
    if head == ".mode":
        return [] if rest else ["table", "json"]
    if head in FILES:
        if not rest:
            return files(word)
        rest = rest[1:]
    elif head not in NAMED:
        rest = before
    if not rest:
        return list(shell.names.schemas)
    schema = shell.names.schemas.get(rest[0])
    return query_words(list(schema["properties"]), rest[-1]) if schema and head not in WRITING else []


def query_words(fields: list[str], before: str) -> list[str]:
    if before == "sort" or before.endswith(","):
        return fields
    return [*fields, *(["asc", "desc"] if before in fields else []), "sort", "skip", "limit"]


def files(word: str) -> list[str]:
    """Files to be read or written, and the folders on the way to them."""
    found = glob.glob(glob.escape(os.path.expanduser(word)) + "*")
    return [
        it + "/" if os.path.isdir(it) else it for it in found if os.path.isdir(it) or it.endswith(FORMATS)
    ]
