#!/usr/bin/env python3
"""Random queries and observed windows over the built program, beside a model of docs/SCRIPT.md.

A script fills a collection with ties, tombstones, missing fields, several kinds of values and keys that
begin like others, and asks it random queries: selectors that fix fields, bound them or only test them,
up to three sorted fields, rising, falling or mixed, with and without the primary key, a skip and a
limit. It is played over five journals whose collection has other indexes: none, one of several fields,
another one, one for each field, and sixteen. Each answer is the model's, byte for byte, so all five are
the same: of 300 collections what `find` and `count` say, and of others what observed windows emit after
each line, while they are emptied by removals alone, filled and emptied again, or under writes of any
kind.

Of the collections that went wrong the smallest is shown, with the query and what was found and due.
"""
import math
import os
import random
from collections import Counter
from collections.abc import Callable, Iterator
from itertools import product

from model import MAX_TIME, Collection, Model, order, printed
from shared import Wrong, add, collection, command, compact, insist, main, text

EACH = 50
COLLECTIONS = range(1, 301, EACH)
MOST = 400
GREATEST = 1_000_000_000
NUMBER = {"minimum": -MAX_TIME, "maximum": MAX_TIME}
PROPERTIES = {
    "id": {"type": "string", "maxLength": 8},
    "b": {"type": "boolean"},
    "n": {"type": "integer", **NUMBER, "multipleOf": 1},
    "t": {"type": "string", "maxLength": 8},
    "w": {"type": "number", **NUMBER, "multipleOf": 5},
}
FIELDS = [*PROPERTIES]
LETTERS = "k\0\x01\u00e9\U0001f600"
# Short ones first, and each of them begins others.
KEYS = ["".join(it) for length in range(1, 5) for it in product(LETTERS, repeat=length)]
TEXTS = ["", "a", "a\0", "a\0\0", "aa", "b", "\u00e9", "\uffff", "\U0001f600"]
Line = dict
Numbers = random.Random


# ---- what is right

def tested(value, tests) -> bool:
    """Whether all operators hold of a field's value, or of none."""
    return all(TESTS[name](value, it) for name, it in tests.items())


def equal(value, it) -> bool:
    return order(value) == order(it)


def compared(holds: Callable) -> Callable:
    return lambda value, it: type(value) is type(it) and holds(order(value), order(it))


TESTS = {
    "$eq": equal,
    "$ne": lambda value, it: not equal(value, it),
    "$gt": compared(lambda a, b: a > b),
    "$gte": compared(lambda a, b: a >= b),
    "$lt": compared(lambda a, b: a < b),
    "$lte": compared(lambda a, b: a <= b),
    "$in": lambda value, it: any(equal(value, one) for one in it),
    "$nin": lambda value, it: not any(equal(value, one) for one in it),
    "$exists": lambda value, it: (value is not None) == it,
    "$mod": lambda value, it: type(value) is int and math.fmod(value, it[0]) == it[1],
    "$not": lambda value, it: not tested(value, it),
}


def holds(selector, state) -> bool:
    for name, it in selector.items():
        if name[0] != "$":
            held = tested(state.get(name), it if isinstance(it, dict) else {"$eq": it})
        elif name == "$and":
            held = all(holds(one, state) for one in it)
        else:
            held = any(holds(one, state) for one in it) == (name == "$or")
        if not held:
            return False
    return True


def all_rows(side: Collection, query) -> list:
    """The rows of a query without its skip and limit."""
    states = (state for _, _, state in side.docs.values())
    rows = [it for it in states if not it["_deleted"] and holds(query.get("selector", {}), it)]
    rows.sort(key=lambda it: order(it["id"]))
    for sort in reversed(query.get("sort", [])):
        [(field, way)] = sort.items()
        rows.sort(key=lambda it: order(it.get(field)), reverse=way == "desc")
    return [{name: value for name, value in it.items() if name != "_deleted"} for it in rows]


def result(side: Collection, query) -> list:
    rows = all_rows(side, query)[query.get("skip", 0):]
    return rows[:query.get("limit") or len(rows)]


class Asked(Model):
    """The model of a collection that is asked queries, and of its windows."""

    def __init__(self):
        super().__init__()
        self.queries, self.emitted = {}, {}
        self.open()

    @property
    def side(self) -> Collection:
        return self.sides["c"]

    def find(self, line, _out):
        return {"rows": result(self.side, line["query"])}

    def count(self, line, _out):
        return {"count": len(result(self.side, line["query"]))}

    def bulk(self, line, _out):
        self.side.commit([{**it, "_deleted": False} for it in line["docs"]], self.moment)
        return {"revs": [self.side.rev(it["id"]) for it in line["docs"]]}

    def observe(self, line, _out):
        self.queries[line["name"]] = line["query"]
        return {}

    def play(self, line):
        out = super().play(line)
        for name, query in self.queries.items():
            emission = printed({"emit": name, "rows": result(self.side, query)})
            if self.emitted.get(name) != emission:
                out.append(emission)
            self.emitted[name] = emission
        return out


# ---- collections

def schema(indexes) -> dict:
    return {"version": 0, "primaryKey": "id", "type": "object", "properties": PROPERTIES, "indexes": indexes}


def indexes_at_random(numbers: Numbers) -> tuple[list, list]:
    """One index of each field and others of several, sixteen in all."""
    several = [numbers.sample(FIELDS, numbers.randint(2, 4)) for _ in range(16 - len(FIELDS))]
    return [[field] for field in FIELDS], several


def value(numbers: Numbers, field: str):
    """Mostly one of few, so that there are ties."""
    if field == "id":
        return numbers.choice(KEYS[:60])
    if field == "b":
        return numbers.random() < 0.5
    if field == "t":
        return numbers.choice(TEXTS)
    step = PROPERTIES[field]["multipleOf"]
    most = MAX_TIME // step
    if numbers.random() < 0.2:
        return step * numbers.choice([numbers.randint(-most, most), -most, most])
    return step * numbers.randint(-2, 2)


def fields(numbers: Numbers) -> dict:
    there = [field for field in FIELDS[1:] if numbers.random() < 0.8]
    return {field: value(numbers, field) for field in there}


def filled(numbers: Numbers, keys: list) -> Line:
    return {"do": "bulk", "in": "c", "docs": [{"id": key, **fields(numbers)} for key in keys]}


def write(numbers: Numbers, keys: list) -> Line:
    key, draw = numbers.choice(keys), numbers.random()
    if draw < 0.3:
        return {"do": "remove", "in": "c", "key": key}
    if draw < 0.5:
        return {"do": "patch", "in": "c", "key": key, "set": fields(numbers)}
    return {"do": "insert" if draw < 0.6 else "upsert", "in": "c", "doc": {"id": key, **fields(numbers)}}


# ---- queries

def operand(numbers: Numbers, field: str):
    """Now and then one of another kind, or one that no document has."""
    if numbers.random() < 0.08:
        return numbers.choice([False, True, "aaaaaaaaaa", 3, -MAX_TIME])
    return value(numbers, field)


def one_test(numbers: Numbers, field: str, depth: int) -> dict:
    name = numbers.choice([it for it in TESTS if depth or it != "$not"])
    if name == "$not":
        return {name: tests(numbers, field, depth - 1)}
    if name in ("$in", "$nin"):
        return {name: [operand(numbers, field) for _ in range(numbers.randint(0, 3))]}
    if name == "$exists":
        return {name: numbers.random() < 0.7}
    if name == "$mod":
        return {name: [numbers.choice([2, 3, -5, MAX_TIME]), numbers.randint(-2, 2)]}
    return {name: operand(numbers, field)}


def tests(numbers: Numbers, field: str, depth: int = 1) -> dict:
    pairs = [one_test(numbers, field, depth) for _ in range(numbers.randint(1, 2))]
    return {name: it for pair in pairs for name, it in pair.items()}


def clause(numbers: Numbers, depth: int = 2) -> tuple:
    """A member of a selector."""
    if depth and numbers.random() < 0.3:
        parts = [dict([clause(numbers, depth - 1)]) for _ in range(numbers.randint(1, 3))]
        return numbers.choice(["$and", "$or", "$nor"]), parts
    field = numbers.choice(FIELDS)
    return field, tests(numbers, field)


def fixed(numbers: Numbers, field: str) -> tuple:
    it = operand(numbers, field)
    return field, numbers.choice([it, it, {"$eq": it}, {"$in": [it]}])


def bounded(numbers: Numbers, field: str) -> tuple:
    ends = {numbers.choice(pair): operand(numbers, field) for pair in (["$gt", "$gte"], ["$lt", "$lte"])}
    return field, dict(numbers.sample([*ends.items()], numbers.choice([1, 1, 2])))


def sort_along(numbers: Numbers, index: list) -> list:
    """By the first fields of an index, mostly all one way."""
    along, others = index[:numbers.randint(1, 3)], numbers.sample(FIELDS, numbers.randint(0, 3))
    names = along if numbers.random() < 0.8 else others
    if numbers.random() < 0.25 and len(names) < 3 and "id" not in names:
        names = [*names, "id"]
    way, other = numbers.sample(["asc", "desc"], 2)
    return [{name: way if numbers.random() < 0.9 else other} for name in names]


def window(numbers: Numbers, index: list) -> dict:
    """A selector and a sort that an index may serve: leading fields fixed, the next one bounded, and more
    clauses about any field."""
    leading = min(numbers.choice([0, 0, 0, 0, 1, 2]), len(index) - 1)
    clauses = [fixed(numbers, field) for field in index[:leading]]
    if numbers.random() < 0.4:
        clauses.append(bounded(numbers, index[leading]))
    if numbers.random() < 0.3:
        clauses.append(clause(numbers))
    selector = {}
    for name, it in clauses:
        if name in selector:
            selector = {"$and": [selector, {name: it}]}
        else:
            selector[name] = it
    return {"selector": selector, "sort": sort_along(numbers, index[numbers.choice([0, leading, leading]):])}


def query_at_random(numbers: Numbers, index: list, size: int) -> dict:
    query = window(numbers, index)
    if numbers.random() < 0.4:
        query["skip"] = numbers.choice([0, 1, 1, 2, 3, 5, numbers.randint(0, size), GREATEST])
    if numbers.random() < 0.85:
        wide = numbers.randint(1, 20), numbers.randint(1, size), GREATEST
        query["limit"] = numbers.choice([0, 1, 2, 3, 5, *wide])
    return {name: it for name, it in query.items() if it or numbers.random() < 0.5}


# ---- scripts: each gets the model that plays its lines, one by one

def queries(numbers: Numbers, _model: Asked, indexes: list) -> Iterator[Line]:
    """A collection of up to MOST documents, mostly a small one, that is asked before and after it was
    opened again and written to."""
    size = int(MOST ** numbers.random() ** 0.6)
    keys = numbers.sample(KEYS[:2 * size + 1], size)
    yield filled(numbers, keys[:numbers.randint(0, size)])
    for writes, asked in ((size, 28), (size // 4, 12)):
        for _ in range(writes):
            yield write(numbers, keys)
        for _ in range(asked):
            query = query_at_random(numbers, numbers.choice(indexes), size)
            yield from ({"do": do, "in": "c", "query": query} for do in ("find", "count"))
        yield {"do": "restart"}


def observed(numbers: Numbers, indexes: list, count: int) -> Iterator[Line]:
    """Windows, every other one over all documents."""
    for number in range(count):
        query = window(numbers, numbers.choice(indexes))
        query |= {"skip": numbers.choice([0, 0, 1, 7]), "limit": numbers.choice([1, 2, 5, 20, 110])}
        if number % 2:
            query["selector"] = {}
        yield {"do": "observe", "name": f"q{number}", "in": "c", "query": query}


def victim(numbers: Numbers, model: Asked, query: dict, place: str) -> str:
    """The key of a row before a window, in it or behind it, or of any document where there is none."""
    rows, skip = [it["id"] for it in all_rows(model.side, query)], query["skip"]
    ends = {"first": skip, "last": min(skip + query["limit"], len(rows)) - 1, "before": 0,
            "behind": skip + query["limit"], "in": skip + numbers.randrange(query["limit"])}
    at = ends[place]
    live = [it for it in model.side.docs if model.side.live(it)]
    return rows[at] if 0 <= at < len(rows) else numbers.choice(live)


def removals(numbers: Numbers, model: Asked, indexes: list) -> Iterator[Line]:
    """Windows that are filled and emptied by removals alone, three times; now and then the journal is
    opened again."""
    yield from observed(numbers, indexes, 8)
    for size in (260, 40, 60):
        yield filled(numbers, numbers.sample(KEYS[:300], size))
        left = size
        while left:
            query = numbers.choice([*model.queries.values()])
            place = numbers.choice(["first", "first", "last", "before", "behind", "in"])
            for _ in range(min(left, numbers.randint(1, 30))):
                yield {"do": "remove", "in": "c", "key": victim(numbers, model, query, place)}
                left -= 1
            if numbers.random() < 0.1:
                yield {"do": "restart"}


def writes(numbers: Numbers, _model: Asked, indexes: list) -> Iterator[Line]:
    """Windows under writes of any kind."""
    keys = numbers.sample(KEYS[:200], 100)
    yield from observed(numbers, indexes, 8)
    yield filled(numbers, keys[:80])
    for _ in range(400):
        yield write(numbers, keys)


# ---- what is tried

def played(numbers: Numbers, script: Callable, indexes: list) -> tuple[list, list]:
    """The lines of a script, and those that each is answered by."""
    model = Asked()
    lines = [{"do": "collection", "name": "c"}]
    due = [model.play(lines[0])]
    for line in script(numbers, model, indexes):
        lines.append(line)
        due.append(model.play(line))
    return lines, due


def differing(due: list, found: list) -> tuple | None:
    """The first line that is answered otherwise than is due, by its number, with both answers."""
    place = 0
    for number, answer in enumerate(due):
        seen = found[place:place + len(answer)]
        if seen != answer:
            pairs = [(a, b) for a, b in zip(seen, answer) if a != b]
            return number, *(pairs[0] if pairs else (found[place + len(seen):][:1], answer[len(seen):]))
        place += len(answer)
    return (len(due) - 1, found[place:], []) if found[place:] else None


def shown(seed: int, indexes: list, lines: list, number: int, seen, wanted) -> str:
    """The collection, the query and both rows."""
    model = Asked()
    for line in lines[:number + 1]:
        model.play(line)
    names = [name for name in model.queries if f'"emit":"{name}"' in f"{seen}{wanted}"]
    asked = "".join(f"\n{name} is {compact(model.queries[name])}" for name in names)
    docs = "".join(f"\n  {printed(state)}" for _, _, state in model.side.docs.values())
    return (f"seed {seed}, indexes {compact(indexes)}, line {number + 1}: {compact(lines[number])}{asked}"
            f"\nfound {seen}\ndue   {wanted}\nthe documents then:{docs}")


def try_script(seed: int, script: Callable, folder: str) -> tuple[list, list, list]:
    """Its lines, what is due, and of each journal that went wrong the documents and what is shown."""
    numbers, wrong = random.Random(seed), []
    alone, several = indexes_at_random(numbers)
    lines, due = played(numbers, script, [*alone, *several, *several[:2] * 8])
    for indexes in ([], several[:1], several[1:2], alone, alone + several):
        first = collection(schema=schema(indexes))
        journal = os.path.join(folder, "journal")
        status, written = command("run", journal, script=text([first, *map(compact, lines[1:])]))
        os.remove(journal)
        insist(status <= 1, f"seed {seed}, indexes {compact(indexes)}: status {status}, {written[-200:]}")
        if fault := differing(due, written.decode().split("\n")[:-1]):
            size = sum(len(line.get("docs", "1")) for line in lines[:fault[0]])
            wrong.append((size, shown(seed, indexes, lines, *fault)))
    return lines, due, wrong


def try_scripts(seeds: range, script: Callable, folder: str) -> str:
    counts, wrong = Counter(), []
    for seed in seeds:
        lines, due, more = try_script(seed, script, folder)
        wrong += more
        for line, answer in zip(lines, due):
            counts["emissions"] += len(answer) - 1
            if line["do"] == "find":
                found = answer[0].count('"id":')
                counts["queries"] += 1
                counts["with rows"] += found > 0
                counts["with all of their limit"] += found == line["query"].get("limit")
    if wrong:
        _, smallest = min(wrong, key=lambda it: it[0])
        raise Wrong(f"{len(wrong)} of {5 * len(seeds)} journals; the smallest: {smallest}")
    told = ", ".join(f"{count:,} {what}" for what, count in counts.items() if count)
    return f"{len(seeds)} scripts over {5 * len(seeds)} journals; in each five {told}"


for first in COLLECTIONS:
    add(f"collections {first} to {first + EACH - 1}",
        lambda folder, seeds=range(first, first + EACH): try_scripts(seeds, queries, folder), in_memory=True)
for first in range(1, 13, 3):
    for what, script in (("removals", removals), ("writes", writes)):
        add(f"windows under {what}, {first} to {first + 2}",
            lambda folder, seeds=range(first, first + 3), script=script: try_scripts(seeds, script, folder),
            in_memory=True)

if __name__ == "__main__":
    main()
