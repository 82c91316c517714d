#!/usr/bin/env python3
"""The examples: each script is answered with what its .out file holds, and those of two processes are
played as examples/README.md says. A port that is free takes the place of theirs.
"""
import os

from shared import EXAMPLES, Server, add, case, command, content, examples, free_port, insist, main

APART = os.path.join(EXAMPLES, "apart")


def compare(step, found, due):
    """Compares a status and what was written with what a file .out of examples/apart holds."""
    insist(found == (due, content(os.path.join(APART, f"{step}.out"))), f"{step}: {found}")


def try_example(folder, script, before, out):
    journal = os.path.join(folder, "journal")
    if before:
        command("run", journal, script=before)
    status, written = command("run", journal, script=script)
    pairs = enumerate(zip(written.splitlines(), out.splitlines()), 1)
    other = next((f"line {at}: found {mine}, due {due}" for at, (mine, due) in pairs if mine != due), "its length")
    insist(written == out, other)
    insist(status == 1, f"status {status}")


def run_step(step, journal, port):
    script = content(os.path.join(APART, f"{step}.jsonl")).replace(b'"port":4001', b'"port":%d' % port)
    compare(step, command("run", journal, script=script), 0)


@case("two processes")
def two_processes(folder):
    server, phone, port = os.path.join(folder, "server.rx"), os.path.join(folder, "phone.rx"), free_port()

    def serve():
        return Server(folder, 1, name="todos", journal="server.rx", port=port).wait()

    run_step("1-server", server, port)
    served = serve()
    run_step("3-phone", phone, port)
    compare("2-serve", served.ended(), 0)
    run_step("4-phone", phone, port)
    run_step("5-server", server, port)
    served = serve()
    run_step("7-phone", phone, port)
    compare("6-serve", served.ended(), 0)
    run_step("8-server", server, port)
    return "each of eight steps is answered as its file says"


for name, *each in examples():
    add(name, lambda folder, files=each: try_example(folder, *files))

if __name__ == "__main__":
    main()
