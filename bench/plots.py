#!/usr/bin/env python3
"""The pictures and the table at the head of docs/PERFORMANCE.md, from figures that the benchmarks keep.

    bench/plots.py take FILE [PROGRAM]   runs the benchmarks that they need, in memory-backed storage: some ten minutes
    bench/plots.py draw FILE FOLDER      draws the pictures into FOLDER, and prints the table

FILE has a line of JSON for each figure; where one was taken twice, the later counts. The memory of long runs is from
`SOAK_FIGURES=FILE tests/run soak`. docs/plots has both the figures and the pictures that stand in the repository.
"""
import json
import math
import os
import subprocess
import sys
from html import escape

from measuring import HERE

RUNS = [
    ["documents.py"],
    ["indexed.py", "--only", "loads"],
    ["observed.py"],
    ["replication.py"],
    ["serve.py"],
]
BATCHES = (1, 10, 100)
# The loads of the first picture: what they are called there, and the figures that their marks stand for.
LOADS = [
    ("Documents", "documents", [
        ("inserts, one by one", ["inserts"]),
        ("upserts over 100,000 documents", ["upserts"]),
        ("bulks of 100 inserts", ["bulks of 100"]),
        ("gets by key", ["gets"]),
        ("inserts with a query observed", ["observed inserts"]),
    ]),
    ("Queries over 100,000 documents, by an index", "indexed", [
        ("by primary key", ["by key"]),
        ("a range, the first 10", ["range"]),
        ("a group, the first 20", ["first 20"]),
        ("the count of a group", ["count"]),
        ("the count of a part of a group", ["count from"]),
        ("queries and upserts, mixed", ["mixed"]),
    ]),
    ("Turns of a fork and its master", "replication", [
        ("a first pull of 100,000 documents", ["first pull"]),
        ("10,000 documents pushed", ["pushes"]),
        ("1,000 conflicts, the greater wins", ["conflicts by greater"]),
        ("1,000 conflicts, joined", ["conflicts by join"]),
    ]),
    ("A served collection, beside sqlite3 and a bare echo", "serve", [
        ("pulls over 1,000 documents", [f"pulls of {rows} of 1,000 documents in /dev/shm" for rows in BATCHES]),
        ("pulls over 100,000", [f"pulls of {rows} of 100,000 documents in /dev/shm" for rows in BATCHES]),
        ("pushes over 1,000", [f"pushes of {rows} of 1,000 documents in /dev/shm" for rows in BATCHES]),
        ("pushes over 100,000", [f"pushes of {rows} of 100,000 documents in /dev/shm" for rows in BATCHES]),
    ]),
]
WIDTH = 800
# where the upright scale of a picture of curves ends and begins
TOP, BOTTOM = 66, 340
# A card of its own, so that it can be read on any page, and dark where the reader's own pages are.
STYLE = """
.card { fill: #ffffff; stroke: #d0d7de } .name { fill: #24292f } .note { fill: #57606a } .grid { stroke: #d8dee4 }
.one { stroke: #24292f; stroke-dasharray: 3 3 } .rx { stroke: #0550ae } .peer { stroke: #bc4c00; stroke-dasharray: 6 4 }
.rx, .peer { fill: none; stroke-width: 2 } .of-rx { fill: #0550ae } .of-peer { fill: #bc4c00 }
.b1 { fill: #0550ae } .b10 { fill: #6639ba } .b100 { fill: #bf3989 }
text { font: 12px system-ui, -apple-system, "Segoe UI", "DejaVu Sans", sans-serif } .head { font-size: 14px; font-weight: 600 }
.far { text-anchor: end } .mid { text-anchor: middle }
@media (prefers-color-scheme: dark) {
.card { fill: #161b22; stroke: #30363d } .name { fill: #e6edf3 } .note { fill: #9da7b3 } .grid { stroke: #30363d }
.one { stroke: #e6edf3 } .rx { stroke: #58a6ff } .peer { stroke: #ffa657 } .of-rx { fill: #58a6ff } .of-peer { fill: #ffa657 }
.b1 { fill: #58a6ff } .b10 { fill: #bc8cff } .b100 { fill: #f778ba }
}
"""


# ---- figures

def take(path, words):
    """Runs the benchmarks, which write their figures behind those of the file."""
    for bench, *more in RUNS:
        place = [] if words else [os.path.join(HERE, "..", "crates", "rx", "out", "rx")]
        command = [sys.executable, os.path.join(HERE, bench), *words, *place, "/dev/shm", "--json", path, *more]
        if subprocess.run(command).returncode:
            sys.exit(f"{bench} failed")


def read(path):
    """The figures by benchmark, load and what else they are of."""
    found = {}
    with open(path, encoding="utf-8") as file:
        for line in file:
            it = json.loads(line)
            of = (it.get(name) for name in ("batch", "documents", "queries", "seconds"))
            found[it["bench"], it["load"], *of] = it
    return list(found.values())


def ratios(figures, bench, loads):
    """The ratios of a row, each with the rows of its batch where it has them."""
    found = []
    for at, load in enumerate(loads):
        for it in figures:
            if it["bench"] == bench and it["load"] == load:
                found.append((it.get("batch") or (BATCHES[at] if len(loads) > 1 else None), it["ratio"]))
    return found


# ---- drawing

def text(x, y, words, classes="name"):
    return f'<text x="{x:.0f}" y="{y:.0f}" class="{classes}">{escape(words)}</text>'


def line(x, y, to_x, to_y, classes):
    return f'<line x1="{x:.1f}" y1="{y:.1f}" x2="{to_x:.1f}" y2="{to_y:.1f}" class="{classes}"/>'


def dot(x, y, classes):
    return f'<circle cx="{x:.1f}" cy="{y:.1f}" r="4.5" class="{classes}"/>'


def picture(title, height, parts):
    head = f'<svg xmlns="http://www.w3.org/2000/svg" viewBox="0 0 {WIDTH} {height:.0f}" role="img">'
    card = f'<rect class="card" x="0.5" y="0.5" width="{WIDTH - 1}" height="{height - 1:.0f}" rx="6"/>'
    return "\n".join([head, f"<title>{escape(title)}</title>", f"<style>{STYLE}</style>", card,
                      text(16, 26, title, "name head"), *parts, "</svg>", ""])


def log_scale(low, high, start, end):
    return lambda value: start + (math.log(value) - math.log(low)) / (math.log(high) - math.log(low)) * (end - start)


def number(value):
    return f"{value:,.0f}" if value >= 10 else f"{value:g}"


def by_load(figures):
    """rx's time by that of sqlite3, load by load."""
    left, right, ticks = 270, WIDTH - 60, (0.05, 0.1, 0.2, 0.5, 1, 2, 4)
    place, y, parts = log_scale(ticks[0], ticks[-1], left, right), 66, []
    for group, bench, rows in LOADS:
        shown = [(name, ratios(figures, bench, loads)) for name, loads in rows]
        parts.append(text(16, y, group, "note"))
        y += 22
        for name, marks in shown:
            parts += [text(left - 12, y, name, "name far"), line(left, y - 4, right, y - 4, "grid")]
            for batch, ratio in marks:
                parts.append(dot(place(min(max(ratio, ticks[0]), ticks[-1])), y - 4, f"b{batch or 1}"))
            if marks:
                said = " ".join(f"{ratio:.2f}" for _, ratio in marks)
                parts.append(text(WIDTH - 16, y, said if len(marks) == 1 else "", "note far"))
            y += 22
        y += 8
    grid = []
    for tick in ticks:
        grid.append(line(place(tick), 50, place(tick), y - 16, "one" if tick == 1 else "grid"))
        grid.append(text(place(tick), 46, f"{tick:g}", "note mid"))
    foot = [text(left, y + 4, "\u2190 rx is faster", "note"), text(right, y + 4, "sqlite3 is faster \u2192", "note far")]
    legend = [(16, 1), (156, 10), (216, 100)]
    for x, batch in legend:
        foot += [dot(x + 5, y + 24, f"b{batch}"), text(x + 15, y + 28, {1: "one row, or alone", 10: "10", 100: "100 rows an exchange"}[batch], "note")]
    return picture("Time of rx by that of sqlite3 (1 is the same, logarithmic)", y + 44, [*grid, *parts, *foot])


def spread(places, least=15):
    """The same heights, in order, so far apart that labels don't cover each other."""
    order = sorted(range(len(places)), key=lambda at: places[at])
    moved, last = list(places), -math.inf
    for at in order:
        last = moved[at] = max(moved[at], last + least)
    return moved


def curves(title, lines, across, up, across_name, up_name):
    """Lines of points, each with a class and a name, on two scales: a place and the ticks of each."""
    (x, x_ticks), (y, y_ticks) = across, up
    top, bottom, left, right = TOP, BOTTOM, 70, WIDTH - 190
    parts = []
    for tick, name in x_ticks:
        parts += [line(x(tick), top, x(tick), bottom, "grid"), text(x(tick), bottom + 18, name, "note mid")]
    for tick in y_ticks:
        parts += [line(left, y(tick), right, y(tick), "grid"), text(left - 8, y(tick) + 4, number(tick), "note far")]
    lines = [it for it in lines if it[2]]
    ends = spread([y(points[-1][1]) for _, _, points in lines])
    for (kind, name, points), end in zip(lines, ends):
        path = " ".join(f"{x(a):.1f},{y(b):.1f}" for a, b in points)
        parts.append(f'<polyline points="{path}" class="{kind}"/>')
        parts += [dot(x(a), y(b), f"of-{kind}") for a, b in points if len(points) < 30]
        parts.append(text(right + 12, end + 4, name, f"of-{kind}"))
    parts += [text((left + right) / 2, bottom + 38, across_name, "note mid"), text(16, 46, up_name, "note")]
    return picture(title, bottom + 54, parts)


def by_documents(figures):
    """The cost of one line as the collection grows."""
    of = lambda name: sorted((it["documents"], it) for it in figures if (it["bench"], it["load"]) == ("documents", name))
    lines, ticks = [], [1, 2, 5, 10, 20, 50]
    for kind in ("rx", "sqlite3"):
        for name in ("upserts", "gets"):
            points = [(size, max(it[kind], ticks[0])) for size, it in of(f"{name} by documents") if kind in it]
            lines.append(("rx" if kind == "rx" else "peer", f"{kind}, {name[:-1]}", points))
    x, y = log_scale(1e3, 1e6, 70, WIDTH - 190), log_scale(ticks[0], ticks[-1], BOTTOM, TOP)
    sizes = [(size, f"{size:,}") for size in (1_000, 10_000, 100_000, 1_000_000)]
    return curves("What one line costs as the collection grows", lines, (x, sizes), (y, ticks),
                  "documents in the collection", "microseconds of a processor")


def by_queries(figures):
    """Writes a second while queries are observed."""
    of = lambda size: sorted((it["queries"], it) for it in figures if it["bench"] == "observed" and it["documents"] == size)
    lines, places = [], {0: 0, 16: 1, 64: 2, 256: 3}
    for kind in ("rx", "sqlite3"):
        for size in (1_000, 10_000, 100_000):
            points = [(places[queries], it[kind]) for queries, it in of(size)]
            lines.append(("rx" if kind == "rx" else "peer", f"{kind}, {size:,} documents", points))
    ticks = [10, 100, 1_000, 10_000, 100_000]
    y = log_scale(ticks[0], ticks[-1], BOTTOM, TOP)
    x = lambda place: 70 + place / 3 * (WIDTH - 260)
    return curves("Writes a second, each followed by all observed queries", lines,
                  (x, [(place, f"{queries}") for queries, place in places.items()]), (y, ticks),
                  "observed queries, each of 20 rows in order", "writes a second")


def by_seconds(figures):
    """The memory of runs over one large journal, each killed in its turn."""
    points = sorted((it["seconds"], it["mebibytes"]) for it in figures if it["bench"] == "soak")
    minutes = [(60 * it, f"{it}") for it in range(11)]
    most = 1_000 * math.ceil(max([it for _, it in points], default=1) / 1_000)
    x = lambda seconds: 70 + seconds / 660 * (WIDTH - 260)
    y = lambda mebibytes: BOTTOM - mebibytes / most * (BOTTOM - TOP)
    return curves("Memory over ten minutes of mixed lines, killed again and again", [("rx", "rx", points)],
                  (x, minutes), (y, [most * it // 4 for it in range(5)]), "minutes", "MiB")


# ---- the table

def span(values):
    low, high = min(values), max(values)
    return f"{low:.3f}" if f"{low:.3f}" == f"{high:.3f}" else f"{low:.3f} to {high:.3f}"


def table(figures):
    """The headline ratios as a table."""
    yield "| | load | rx's time by that of sqlite3 |"
    yield "|---|---|---|"
    for group, bench, rows in LOADS:
        for name, loads in rows:
            marks = ratios(figures, bench, loads)
            said = ", ".join(f"{ratio:.2f} by {batch}" if batch else f"{ratio:.2f}" for batch, ratio in marks)
            yield f"| {group} | {name} | {said} |"
            group = ""
    group = "Observed queries, over 1,000 to 100,000 documents"
    for queries in (16, 64, 256):
        found = [it["sqlite3"] / it["rx"] for it in figures if it["bench"] == "observed" and it["queries"] == queries]
        if found:
            yield f"| {group} | a write while {queries} are observed | {span(found)} |"
            group = ""


def draw(path, folder):
    figures = read(path)
    os.makedirs(folder, exist_ok=True)
    pictures = (("loads", by_load), ("documents", by_documents), ("queries", by_queries), ("memory", by_seconds))
    for name, drawn in pictures:
        with open(os.path.join(folder, f"{name}.svg"), "w", encoding="utf-8") as file:
            file.write(drawn(figures))
    print("\n".join(table(figures)))


def main():
    verb, *words = sys.argv[1:] or [""]
    if verb == "take" and len(words) in (1, 2):
        take(words[0], words[1:])
    elif verb == "draw" and len(words) == 2:
        draw(*words)
    else:
        sys.exit(__doc__)


main()
