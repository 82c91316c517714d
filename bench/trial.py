#!/usr/bin/env python3
"""A trial of 4,000 lines, of which every sixteenth opens the journal again: its seconds.

    bench/trial.py [PROGRAM] [SEED] [LINES] [FOLDER]

Five runs, each on a journal of its own in FOLDER, or else in memory-backed storage.
"""
import os
import subprocess
import sys
import tempfile
import time

from measuring import processor, program

SEED = sys.argv[2] if len(sys.argv) > 2 else "7"
LINES = sys.argv[3] if len(sys.argv) > 3 else "4000"
STORAGE = sys.argv[4] if len(sys.argv) > 4 else "/dev/shm"
RUNS = 5


def trial():
    """The seconds by the clock and of a processor, and the journal's bytes."""
    with tempfile.TemporaryDirectory(dir=STORAGE) as folder:
        journal, used = os.path.join(folder, "journal"), processor()
        start = time.perf_counter()
        subprocess.run([program(), "trial", journal, SEED, LINES], stdout=subprocess.DEVNULL, check=True)
        return time.perf_counter() - start, processor() - used, os.path.getsize(journal)


def main():
    clock, used, sizes = zip(*(trial() for _ in range(RUNS)))
    print(f"seed {SEED}, {LINES} lines: {min(clock):.2f} to {max(clock):.2f} s by the clock, {min(used):.2f} to "
          f"{max(used):.2f} s of a processor, a journal of {sizes[0]:,} bytes")


main()
