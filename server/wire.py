"""Lines as messages, by docs/WIRE.md: the request that a line is or its first fault, and replies."""
import json
import math
import re
from dataclasses import dataclass
from typing import Any

from schema import LARGEST, Schema, compact, is_whole

LONGEST_LINE = 268_435_456
MOST_STATES = 100
MOST_DEPTH = 127
# What an escape of half a character begins with; two of them may make one.
HALF = re.compile(r"\\u[dD][89a-fA-F]")
ESCAPE = re.compile(r"\\(?:u([0-9a-fA-F]{4})|.)")
# A text, or where lists and objects begin and end.
MARK = re.compile(r'"[^"\\]*(?:\\.[^"\\]*)*"|[][{}]')
NESTING = {"[": 1, "{": 1, "]": -1, "}": -1}


class Fault(Exception):
    """Why a line is no request, by the name that the peer is told."""


@dataclass(frozen=True, slots=True)
class Place:
    """Where a document stands in the order of writing. The key is in its bytes, by which they stand."""
    lwt: int
    key: bytes

    def text(self) -> str:
        return f'{{"id":{compact(self.key.decode())},"lwt":{self.lwt}}}'


@dataclass(frozen=True, slots=True)
class Pull:
    epoch: int
    n: int
    batch: int
    place: Place | None


@dataclass(frozen=True, slots=True)
class Row:
    """A new state and the one that it was made from, each as its text, which tells one from another."""
    key: bytes
    new: str
    assumed: str | None
    deleted: bool


@dataclass(frozen=True, slots=True)
class Push:
    epoch: int
    n: int
    rows: list[Row]


Request = Pull | Push


# ---- JSON

def real_number(text: str) -> float:
    number = float(text)
    if math.isinf(number):
        raise Fault("not_json")
    return number


def whole_number(text: str) -> int | float:
    """What has no place among whole numbers is a float: what is long, and `-0`."""
    return real_number(text) if len(text) > 20 or text == "-0" else int(text)


def no_number(_text: str) -> None:
    raise Fault("not_json")


def is_deep(text: str) -> bool:
    """Whether lists and objects nest deeper than a message may, also in a member that stands twice."""
    depth = 0
    if text.count("[") + text.count("{") > MOST_DEPTH:
        for it in MARK.finditer(text):
            depth += NESTING.get(text[it.start()], 0)
            if depth > MOST_DEPTH:
                return True
    return False


def has_half(text: str) -> bool:
    """Whether an escape of half a character stands without the other half."""
    end = None
    for it in ESCAPE.finditer(text):
        unit = int(it[1] or "0", 16)
        if (0xDC00 <= unit < 0xE000) != (end is not None) or end not in (None, it.start()):
            return True
        end = it.end() if 0xD800 <= unit < 0xDC00 else None
    return end is not None


def parse(line: bytes) -> tuple[str, Any]:
    """A line as text, and its value, but that it may nest too deep."""
    try:
        text = line.decode()
        value = json.loads(text, parse_int=whole_number, parse_float=real_number, parse_constant=no_number)
    except (ValueError, RecursionError):
        raise Fault("not_json") from None
    check(not (HALF.search(text) and has_half(text)), "not_json")
    return text, value


def read_json(line: bytes) -> Any:
    text, value = parse(line)
    check(not is_deep(text), "not_json")
    return value


# ---- members

def check(holds: bool, fault: str) -> None:
    if not holds:
        raise Fault(fault)


def check_form(value: dict[str, Any], needed: set[str], optional: frozenset[str] = frozenset()) -> None:
    check(needed <= value.keys(), "missing")
    check(value.keys() <= needed | optional, "unexpected")


def check_counts(value: dict[str, Any], **most: int) -> None:
    for name, limit in most.items():
        check(is_whole(value[name], 1, limit), "wrong_type")


def check_schema(value: dict[str, Any], schema: Schema) -> None:
    check(type(value["schema"]) is str, "wrong_type")
    check(value["schema"] == schema.hash, "schema")


def place_of(value: Any) -> Place:
    check(isinstance(value, dict) and value.keys() == {"id", "lwt"} and type(value["id"]) is str
          and is_whole(value["lwt"], 1), "wrong_type")
    return Place(value["lwt"], value["id"].encode())


# ---- states

def is_state(value: Any) -> bool:
    return isinstance(value, dict) and type(value.get("_deleted")) is bool


def is_row(value: Any) -> bool:
    return isinstance(value, dict) and is_state(value.get("new")) \
        and ("assumed" not in value or is_state(value["assumed"])) and value.keys() <= {"assumed", "new"}


def key_of(state: dict[str, Any], schema: Schema) -> str:
    """The key of a valid state."""
    check(schema.is_valid(state), "invalid")
    return state[schema.key]


def row_of(value: dict[str, Any], schema: Schema) -> Row:
    new, assumed = value["new"], value.get("assumed")
    key = key_of(new, schema)
    check(assumed is None or key_of(assumed, schema) == key, "invalid")
    return Row(key.encode(), compact(new), assumed and compact(assumed), new["_deleted"])


def rows_of(values: list[dict[str, Any]], schema: Schema) -> list[Row]:
    rows = [row_of(it, schema) for it in values]
    check(len({it.key for it in rows}) == len(rows), "invalid")
    return rows


# ---- requests

def read_pull(value: dict[str, Any], schema: Schema) -> Pull:
    check_form(value, {"ask", "batch", "epoch", "n", "schema"}, frozenset({"place"}))
    check_counts(value, batch=MOST_STATES, epoch=LARGEST, n=LARGEST)
    place = place_of(value["place"]) if "place" in value else None
    check_schema(value, schema)
    return Pull(value["epoch"], value["n"], value["batch"], place)


def read_push(value: dict[str, Any], schema: Schema) -> Push:
    check_form(value, {"ask", "epoch", "n", "rows", "schema"})
    check_counts(value, epoch=LARGEST, n=LARGEST)
    rows = value["rows"]
    check(isinstance(rows, list) and 1 <= len(rows) <= MOST_STATES and all(map(is_row, rows)), "wrong_type")
    check_schema(value, schema)
    return Push(value["epoch"], value["n"], rows_of(rows, schema))


READERS = {"pull": read_pull, "push": read_push}


def row_text(row: Row) -> str:
    assumed = f'"assumed":{row.assumed},' if row.assumed else ""
    return f'{{{assumed}"new":{row.new}}}'


def request_text(request: Request, schema: Schema) -> str:
    numbers = f'"epoch":{request.epoch},"n":{request.n}'
    if isinstance(request, Push):
        rows = ",".join(map(row_text, request.rows))
        return f'{{"ask":"push",{numbers},"rows":[{rows}],"schema":"{schema.hash}"}}'
    place = f'"place":{request.place.text()},' if request.place else ""
    return f'{{"ask":"pull","batch":{request.batch},{numbers},{place}"schema":"{schema.hash}"}}'


def request_of(value: Any, schema: Schema) -> Request:
    check(isinstance(value, dict), "not_object")
    check("ask" in value, "missing")
    reader = READERS.get(value["ask"]) if type(value["ask"]) is str else None
    if reader is None:
        raise Fault("wrong_type")
    return reader(value, schema)


def read_request(line: bytes, schema: Schema) -> Request:
    """The request that a line is, or its first fault."""
    check(len(line) <= LONGEST_LINE, "too_long")
    text, value = parse(line)
    try:
        request = request_of(value, schema)
        check(request_text(request, schema) == text, "spelling")
    except Fault:
        # A request doesn't nest too deep, so it is asked only of what is none.
        check(not is_deep(text), "not_json")
        raise
    return request


def longest_request(schema: Schema) -> int:
    """A right request of this schema has no more bytes."""
    return min(LONGEST_LINE, 4_096 + MOST_STATES * 2 * (schema.longest_state + 16))


# ---- replies

def docs_line(request: Pull, states: str, place: Place | None) -> bytes:
    """The reply to a pull. The states come as one text, with commas between."""
    at = f',"place":{place.text()}' if place else ""
    return f'{{"docs":[{states}],"epoch":{request.epoch},"n":{request.n}{at}}}\n'.encode()


def conflicts_line(request: Push, states: list[str]) -> bytes:
    return f'{{"conflicts":[{",".join(states)}],"epoch":{request.epoch},"n":{request.n}}}\n'.encode()


def fault_line(name: str) -> bytes:
    return f'{{"fault":"{name}"}}\n'.encode()
