"""What is typed: statements, the words and JSON in them, and the short form of queries."""
from __future__ import annotations

import json
import re
from collections.abc import Iterable, Iterator
from typing import Any

from ..calls import Json

QUERY = "COLLECTION [FIELD=VALUE ..] [sort FIELD [desc], ..] [skip N] [limit N], or COLLECTION {JSON}"
OPERATORS = {"=": "$eq", "!=": "$ne", ">": "$gt", ">=": "$gte", "<": "$lt", "<=": "$lte"}
TEXT = r'"(?:[^"\\]|\\.)*"'
CONDITION = re.compile(rf"([A-Za-z]\w*)\s*(!=|>=|<=|=|>|<)\s*({TEXT}|[^\s,]+)\s*")
SORT = re.compile(r"sort\s+((?:\w+(?:\s+(?:asc|desc)\b)?\s*,\s*)*\w+(?:\s+(?:asc|desc)\b)?)\s*")
NUMBER = re.compile(r"(skip|limit)\s+(\S+)\s*")
WORD = re.compile(r'"(?:[^"\\]|\\.)*"|\S+')


class Wrong(Exception):
    """What is typed says nothing, and why."""


def statements(lines: Iterable[str]) -> Iterator[tuple[int, str]]:
    """Statements with the number of the line that each begins in. Open brackets go on in the next line,
    until a blank one."""
    text, begun = "", 0
    for number, line in enumerate(lines, 1):
        begun = begun if text else number
        text += line if line.endswith("\n") else line + "\n"
        if not is_open(text) or not line.strip():
            yield begun, text.strip()
            text = ""
    if text.strip():
        yield begun, text.strip()


def is_open(text: str) -> bool:
    """Whether a bracket or a text isn't closed in what is typed so far."""
    depth, in_text, skip = 0, False, False
    for it in text:
        if skip:
            skip = False
        elif in_text:
            skip, in_text = it == "\\", it != '"'
        elif it == '"':
            in_text = True
        else:
            depth += (it in "{[") - (it in "}]")
    return depth > 0


def word(text: str, what: str) -> tuple[str, str]:
    """The first word, which may be a text in quotes, and what follows it."""
    found = WORD.match(text)
    if found is None:
        raise Wrong(f"{what} is missing")
    said = found[0]
    if said.startswith('"') and len(said) > 1:
        said = str(value(said, what))
    return said, text[found.end() :].lstrip()


def value(text: str, what: str) -> Any:
    """One value of JSON."""
    if not text:
        raise Wrong(f"{what} is missing")
    try:
        return json.loads(text)
    except ValueError as fault:
        raise Wrong(f"{what} is no JSON: {fault}") from None


def last(text: str) -> None:
    if text:
        raise Wrong(f"{text} isn't expected")


def query(text: str, schema: Json | None) -> Json:
    """A query, by JSON or in its short form. A word is a text where the schema says so."""
    if text.startswith("{"):
        said = value(text, "the query")
        return dict(said)
    properties = (schema or {}).get("properties", {})
    conditions: list[tuple[str, str, Any]] = []
    made: Json = {}
    while text:
        if found := CONDITION.match(text):
            field, operator, operand = found.groups()
            kind = properties.get(field, {}).get("type")
            conditions.append((field, OPERATORS[operator], scalar(operand, kind)))
        elif found := SORT.match(text):
            made["sort"] = [order(it) for it in found[1].split(",")]
        elif found := NUMBER.match(text):
            made[found[1]] = scalar(found[2], "integer")
        else:
            raise Wrong(f"{text.split()[0]} says nothing: a query is {QUERY}")
        text = text[found.end() :]
    if conditions:
        made["selector"] = selector(conditions)
    return made


def selector(conditions: list[tuple[str, str, Any]]) -> Json:
    """All of the conditions. One that stands twice for a field and an operator needs a list of both."""
    made: Json = {}
    for field, operator, operand in conditions:
        operators = made.setdefault(field, {})
        if operator in operators:
            return {"$and": [{field: {operator: operand}} for field, operator, operand in conditions]}
        operators[operator] = operand
    return made


def order(text: str) -> dict[str, str]:
    field, *way = text.split()
    return {field: way[0] if way else "asc"}


def scalar(text: str, kind: str | None) -> Any:
    """A value in a condition: a text in quotes, or a word, which is a text where nothing else is meant."""
    if text.startswith('"'):
        return value(text, text)
    if kind == "string":
        return text
    try:
        return json.loads(text)
    except ValueError:
        return text
