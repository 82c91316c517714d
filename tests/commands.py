#!/usr/bin/env python3
"""The other commands of the built program: a trial, and a report of a large journal."""
import json
import os

from shared import SEED, case, checked, collection, command, compact, content, insist, main, text

RECORDS = 1_000_000


@case("a trial is the same each time", seconds=600)
def a_trial(folder):
    """4,000 lines drawn from a seed, of which every sixteenth opens the journal again, twice."""
    journals = [os.path.join(folder, name) for name in ("first", "second")]
    first, second = ((*command("trial", journal, "7", "4000"), content(journal)) for journal in journals)
    insist(first == second, "two trials of a seed differ")
    told = json.loads(first[1])
    insist(first[0] == 0 and told["end"] == "quiet", f"{first[:2]}")
    insist(told["digest_f"] == told["digest_m"], f"the sides differ: {told}")
    return f"both sides have one digest, and both runs a journal of {len(first[2]):,} bytes"


@case("a report of a million records", seconds=600, in_memory=True)
def a_large_report(folder):
    journal, count = os.path.join(folder, "journal"), RECORDS - 1
    docs = ({"id": f"k{n * SEED % count}", "n": n % 2} for n in range(count))
    lines = (compact({"do": "insert", "in": "c", "doc": doc}) for doc in docs)
    status, _ = command("run", journal, "--max-journal", "4294967295", script=text([collection(), *lines]))
    insist(status == 0, f"the run ended with {status}")
    told = checked(journal)
    insist(told[0]["count"] == count and told[1]["records"] >= RECORDS, f"other documents or records: {told}")
    return compact(told[1])


if __name__ == "__main__":
    main()
