"""What a master makes of a line, by docs/WIRE.md and apart from the server: the request that it is, or its
first fault; and near misses of right requests, by single edits."""
import itertools
import json
import math

import replies
from model import MAX_TIME, printed
from place import HASH

NEEDED = {"pull": {"ask", "batch", "epoch", "n", "schema"}, "push": {"ask", "epoch", "n", "rows", "schema"}}
MORE = {"pull": {"place"}, "push": set()}
MOST_LEVELS = 127


# ---- reading

def number(text):
    value = float(text)
    if math.isinf(value):
        raise ValueError(text)
    return int(text) if text.lstrip("-").isdecimal() and text != "-0" else value


def no_json(text):
    raise ValueError(text)


def levels(value):
    return 1 + max(map(levels, value), default=0) if isinstance(value, list) else 0


def value_of(line):
    """The JSON that a line is; else it raises ValueError or RecursionError. Of members that stand twice the last
    one counts, and of the others too that they are JSON."""
    def parsed(**more):
        return json.loads(line.decode(), parse_int=number, parse_float=number, parse_constant=no_json, **more)

    whole = parsed(object_pairs_hook=lambda pairs: [*itertools.chain(*pairs)])
    printed(whole).encode()  # a text may have half a character
    if levels(whole) > MOST_LEVELS:
        raise ValueError("depth")
    return parsed()


def is_marked(it):
    return isinstance(it, dict) and type(it.get("_deleted")) is bool


def is_row(it):
    return isinstance(it, dict) and "new" in it and it.keys() <= {"assumed", "new"} and all(map(is_marked, it.values()))


def are_rows(it):
    return isinstance(it, list) and 1 <= len(it) <= replies.MOST_STATES and all(map(is_row, it))


KINDS = {
    "ask": lambda it: True,
    "batch": lambda it: type(it) is int and 1 <= it <= replies.MOST_STATES,
    "epoch": replies.is_time, "n": replies.is_time, "place": replies.is_place, "rows": are_rows,
    "schema": lambda it: type(it) is str,
}


def are_valid(rows):
    """Rows of valid states, each of one key that no other row has."""
    keys = [{state["id"] for state in row.values()} for row in rows if all(map(replies.is_state, row.values()))]
    return len(keys) == len(rows) and all(len(it) == 1 for it in keys) and len(set().union(*keys)) == len(rows)


def fault_of(value):
    """The first fault of a JSON value, but for its spelling, or None."""
    if not isinstance(value, dict):
        return "not_object"
    if "ask" not in value:
        return "missing"
    if value["ask"] not in ("pull", "push"):
        return "wrong_type"
    needed, more = NEEDED[value["ask"]], MORE[value["ask"]]
    holds = {
        "missing": needed <= value.keys(),
        "unexpected": value.keys() <= needed | more,
        "wrong_type": all(name in KINDS and KINDS[name](it) for name, it in value.items()),
        "schema": value.get("schema") == HASH,
    }
    fault = next((it for it, is_so in holds.items() if not is_so), None)
    return fault or (None if are_valid(value.get("rows", [])) else "invalid")


def read(line):
    """The request that a line is, or the name of its first fault."""
    try:
        value = value_of(line)
    except (ValueError, RecursionError):
        return "not_json"
    return fault_of(value) or (value if printed(value).encode() == line else "spelling")


# ---- near misses

def near_miss(numbers, line):
    """A request of which one byte, one member or the spelling is another."""
    draw = numbers.randrange(10)
    if draw < 4:
        return replies.edited_byte(numbers, line + b"\n")[:-1]
    value = json.loads(line)
    if draw < 8:
        parts = [it for it in objects_of(value) if it]
        replies.edited_object(numbers, numbers.choice(parts))
    elif draw == 8 and "rows" in value:
        value["rows"] *= numbers.choice([0, 2, 30, 101])
    else:
        return spelt_otherwise(numbers, line)
    return printed(value).encode()


def objects_of(value):
    """A message's objects, from the outer ones on."""
    if isinstance(value, dict):
        yield value
    for it in value.values() if isinstance(value, dict) else value if isinstance(value, list) else ():
        yield from objects_of(it)


def spelt_otherwise(numbers, line):
    told = line.decode()
    return numbers.choice([
        lambda: told.replace(":", ": ", 1), lambda: told.replace("k", "\\u006b", 1), lambda: " " + told,
        lambda: told + "\r", lambda: "\ufeff" + told, lambda: told.replace('"n":', '"n":0', 1),
        lambda: told.replace('"n":', '"n":-', 1), lambda: told.replace("}", ',"n":1}', 1),
        lambda: json.dumps(dict(sorted(json.loads(told).items(), reverse=True)), separators=(",", ":")),
        lambda: told.replace('"n":1', '"n":1.0'), lambda: told.replace('"n":1', '"n":1e0'),
        lambda: told.replace("é", "\\u00e9"), lambda: told.replace('"id":"', '"id":"\\ud800'),
        lambda: told.replace('"id":"', '"id":"\\ud83d\\ude00', 1), lambda: told.replace('"t":"', '"t":"\t'),
        lambda: told.replace("{", '{"n":"\\ud800",', 1), lambda: told.replace("/", "\\/")])().encode(errors="replace")


def deep(levels_there):
    return b"[" * levels_there + b"]" * levels_there


ODD = [
    b"", b" ", b"null", b"{}", b"[]", b"hello", b"\xff", b'{"ask":1}', b'{"ask":"pull"', b'"\\ud800"', b"NaN",
    b'{"ask":"pull","batch":1e999}', b'{"ask":"pull","x":Infinity}', b"1" * 5_000, b"-" + b"1" * 400, b"-0",
    b'{"ask":"pull","batch":' + b"9" * 310 + b"}", b'{"ask":"pull","batch":' + b"9" * 300 + b"}",
    deep(127), deep(128), deep(5_000), b'{"ask":' + deep(126) + b"}", b'{"ask":' + deep(127) + b"}",
    b'{"a":01}', b'{"a":.5}', b'{"a":1.}', b"\x0b{}", b"{}\x00", b'{"\\u0000":1}', b'{"a":"\\x"}',
    b'{"a":"\\u00G0"}', b"\xed\xa0\x80", b'"\xc0\x80"', b'{"ask":"pull","ask":"push"}',
    b'{"ask":"pull","fault":1}', b'{"ask":"\\ud83d\\ude00"}', b'{"ask":"\\ud83dx"}', b'{"ask":"\\ude00"}',
    b'{"ask":{}}', b'{"a":"\\ud800","a":1}', b'{"a":' + deep(127) + b',"a":1}', b'{"a":' + deep(126) + b',"a":1}',
    b'{"a":"\\\\ud800"}', b'{"a":"\\ud83d\\ude00\\ude00"}', b'{"a":"\\ud83d","b":"\\ude00"}',
    b'{"a":"[{' + b"[" * 200 + b'"}', b'{"a":"\\"' + b"[" * 200 + b'"}', b'{"a":1e999,"a":1}',
]
