"""What the benchmarks share: one program run on lines, timed, and the lines that both peers get."""
import os
import resource
import shutil
import subprocess
import sys
import tempfile
import time

HERE = os.path.dirname(os.path.abspath(__file__))


def option(name):
    """The word behind an option of the command line, both taken off it, or None where it isn't there."""
    if name not in sys.argv:
        return None
    at = sys.argv.index(name)
    word = sys.argv[at + 1]
    del sys.argv[at:at + 2]
    return word


# each benchmark takes `--json FILE`, and writes its figures there too, a line each behind those that are there
FIGURES = option("--json")


def program():
    """The built rx: the first argument, or where the toolchain puts it."""
    return sys.argv[1] if len(sys.argv) > 1 else os.path.join(HERE, "..", "crates", "rx", "out", "rx")


# What is shared with the tests runs the same program.
os.environ["RX"] = program()
sys.path.insert(0, os.path.join(HERE, "..", "tests"))
from shared import (SCHEMA, SEED, Server, Talk, collection, compact, free_port, hash_of,  # noqa: E402, F401
                    peak_of)


def sqlite():
    return shutil.which("sqlite3") or sys.exit("sqlite3 is not installed")


def documents(count):
    """Each key below the count once, in an order that the seed mixes, with a number."""
    for place in range(count):
        yield f"k{place * SEED % count}", place % 2


def processor():
    """The processor time of all programs that were run and have ended."""
    used = resource.getrusage(resource.RUSAGE_CHILDREN)
    return used.ru_utime + used.ru_stime


def processor_of(child):
    """The processor time of a program that runs."""
    with open(f"/proc/{child.pid}/schedstat", encoding="ascii") as file:
        return int(file.read().split()[0]) / 1e9


def measure(command, lines):
    """The seconds and the peak memory in KiB of one run."""
    with tempfile.TemporaryFile("w+") as source, tempfile.TemporaryFile() as sink:
        for line in lines:
            source.write(line + "\n")
        source.flush()
        source.seek(0)
        start = time.perf_counter()
        child = subprocess.Popen(command, stdin=source, stdout=sink)
        _, status, usage = os.wait4(child.pid, 0)
        seconds = time.perf_counter() - start
        if os.waitstatus_to_exitcode(status) != 0:
            sys.exit(f"{command[0]} ended with status {os.waitstatus_to_exitcode(status)}")
        return seconds, usage.ru_maxrss


def figure(load, **numbers):
    """Keeps a figure for bench/plots.py, in the file of `--json`."""
    if FIGURES:
        bench = os.path.splitext(os.path.basename(sys.argv[0]))[0]
        rounded = {name: float(f"{it:.4g}") if isinstance(it, float) else it for name, it in numbers.items()}
        with open(FIGURES, "a", encoding="utf-8") as file:
            file.write(compact({"bench": bench, "load": load, **rounded}) + "\n")


def report(load, who, count, runs):
    """Prints the best run, and answers its seconds."""
    seconds = min(run[0] for run in runs)
    memory = max(run[1] for run in runs)
    print(f"{load}: {who} {count / seconds:,.0f} a second, {seconds:.3f} s, peak {memory:,} KiB")
    return seconds
