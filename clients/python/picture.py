#!/usr/bin/python3
"""Draws the shell as a terminal shows it: the session of clients/README.md, played in tmux, as an SVG.

    RX=~/.local/bin/rx clients/python/picture.py clients/shell.svg

It needs Debian's tmux, python3-rich and python3-prompt-toolkit.
"""
import io
import os
import re
import subprocess
import sys
import tempfile
import time

from rich.console import Console
from rich.text import Text

HERE = os.path.dirname(os.path.abspath(__file__))
COLUMNS, LINES = 100, 60
PROMPTS = ("rx> ", "..> ")


def session():
    """The journal's name and what is typed, without the end."""
    with open(os.path.join(HERE, "..", "README.md"), encoding="utf-8") as file:
        found = re.search(r"```text\n\$ python3 -m rx (\S+)\n(.*?)```", file.read(), re.S)
    lines = [line for line in found[2].splitlines() if line.startswith(PROMPTS)]
    return found[1], [line[4:] for line in lines if line != "rx> .quit"]


def tmux(*words):
    return subprocess.run(["tmux", "-L", "rx-picture", *words], check=True, capture_output=True, text=True).stdout


def screen(journal, typed):
    """What the terminal shows once all is typed, with its colours."""
    shell = f"{sys.executable} -m rx {journal}"
    env = [f"PYTHONPATH={HERE}", f"XDG_STATE_HOME={os.getcwd()}", f"RX={os.environ.get('RX', 'rx')}"]
    more = [word for it in env for word in ("-e", it)]
    tmux("new-session", "-d", "-x", str(COLUMNS), "-y", str(LINES), *more, shell)
    try:
        time.sleep(2)
        for line in typed:
            tmux("send-keys", "-l", line)
            tmux("send-keys", "Enter")
            time.sleep(0.7)
        return tmux("capture-pane", "-p", "-e")
    finally:
        tmux("kill-server")


def main():
    target = os.path.abspath(sys.argv[1])
    journal, typed = session()
    with tempfile.TemporaryDirectory() as folder:
        os.chdir(folder)
        seen = screen(journal, typed).rstrip()
    console = Console(record=True, width=COLUMNS, file=io.StringIO())
    console.print(Text.from_ansi(seen.removesuffix("rx>").rstrip()))
    svg = console.export_svg(title=f"python3 -m rx {journal}")
    with open(target, "w", encoding="utf-8") as file:
        file.write(re.sub(r"@font-face \{.*?\}\s*", "", svg, flags=re.S))  # a picture loads nothing


if __name__ == "__main__":
    main()
