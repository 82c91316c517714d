"""A collection's schema: read by its rules, its canonical text and hash, and which fields are valid by it.

docs/SCRIPT.md has the rules ("Schemas"); a schema that breaks one is refused by the same cause and name.
"""
import hashlib
import json
import re
from collections.abc import Callable, Iterable
from typing import Any

LARGEST = 2**53 - 1
MOST_CODE_POINTS = 131_072
USUAL_CODE_POINTS = 8_192
MOST_PROPERTIES, MOST_INDEXES, MOST_INDEX_FIELDS, MOST_VERSION = 64, 16, 8, 65_535
FIELD_NAME = re.compile(r"[A-Za-z][A-Za-z0-9_]{0,63}")
WORDS = {"version", "primaryKey", "type", "properties", "required", "indexes", "title", "description",
         "keyCompression"}
PROPERTY_WORDS = {
    "boolean": {"type", "title", "description", "format"},
    "integer": {"type", "title", "description", "format", "minimum", "maximum", "multipleOf"},
    "string": {"type", "title", "description", "format", "maxLength"},
}

type_of = type
Fits = Callable[[Any], bool]


class SchemaFault(Exception):
    """Why it is no schema: a cause, and mostly a name."""

    def __init__(self, cause: str, name: str | None = None):
        super().__init__(f"{cause}: {name}" if name else cause)
        self.cause, self.name = cause, name


# The one spelling of a value: members by rising name, and no white space.
compact = json.JSONEncoder(ensure_ascii=False, sort_keys=True, separators=(",", ":")).encode


def is_whole(value: Any, least: int = -LARGEST, most: int = LARGEST) -> bool:
    return type_of(value) is int and least <= value <= most


def check(holds: bool, cause: str, name: str | None = None) -> None:
    if not holds:
        raise SchemaFault(cause, name)


# ---- properties

def check_words(value: dict[str, Any], words: set[str], told: Iterable[str]) -> None:
    """No other member is there, and those that explain are texts."""
    for name in sorted(value.keys() - words):
        raise SchemaFault("keyword", name)
    for name in told:
        check(type_of(value.get(name, "")) is str, "keyword", name)


def kind_of(name: str, value: Any) -> str:
    kind = value.get("type") if isinstance(value, dict) else None
    if kind == "number" and "multipleOf" in value:
        return "integer"
    if type_of(kind) is not str or kind not in PROPERTY_WORDS:
        raise SchemaFault("kind", name)
    return kind


def canonical_property(name: str, value: Any) -> dict[str, Any]:
    """A property with its kind and each bound that counts."""
    check(FIELD_NAME.fullmatch(name) is not None, "field_name", name)
    kind = kind_of(name, value)
    check_words(value, PROPERTY_WORDS[kind], ("title", "description", "format"))
    if kind == "string":
        most = value.get("maxLength", USUAL_CODE_POINTS)
        check(is_whole(most, 1, MOST_CODE_POINTS), "bounds", name)
        return {"type": kind, "maxLength": most}
    bounds = {it: value[it] for it in ("minimum", "maximum", "multipleOf") if it in value}
    for word, bound in bounds.items():
        check(is_whole(bound, 1 if word == "multipleOf" else -LARGEST), "bounds", name)
    check(bounds.get("minimum", -LARGEST) <= bounds.get("maximum", LARGEST), "bounds", name)
    return {"type": kind, **bounds}


def fits(rule: dict[str, Any], is_key: bool) -> Fits:
    """Whether a value is one that the property takes."""
    if rule["type"] == "boolean":
        return lambda it: type_of(it) is bool
    if rule["type"] == "string":
        least, most = int(is_key), rule["maxLength"]
        return lambda it: type_of(it) is str and least <= len(it) <= most
    low, high = rule.get("minimum", -LARGEST), rule.get("maximum", LARGEST)
    step = rule.get("multipleOf", 1)
    return lambda it: type_of(it) is int and low <= it <= high and it % step == 0


def longest_value(rule: dict[str, Any]) -> int:
    """The most bytes that a value of the property has in a message: an escape has six a code point."""
    return {"boolean": 5, "integer": 17}.get(rule["type"]) or 6 * rule["maxLength"] + 2


# ---- names in lists

def texts_of(value: Any) -> list[str] | None:
    return value if isinstance(value, list) and all(type_of(it) is str for it in value) else None


def required_of(schema: dict[str, Any]) -> list[str]:
    names = texts_of(schema.get("required", []))
    if names is None:
        raise SchemaFault("required", "required")
    for name in names:
        check(name in schema["properties"], "required", name)
    return names


def index_of(value: Any) -> list[str]:
    names = texts_of([value] if isinstance(value, str) else value)
    check(names is not None and 1 <= len(names) <= MOST_INDEX_FIELDS and len(set(names)) == len(names)
          and all(FIELD_NAME.fullmatch(it) for it in names), "index", "indexes")
    return names or []


def is_bounded(value: dict[str, Any] | None) -> bool:
    if value is None:
        return False
    needed = {"boolean": [], "string": ["maxLength"]}.get(value["type"], ["minimum", "maximum", "multipleOf"])
    return all(it in value for it in needed)


def indexes_of(schema: dict[str, Any]) -> list[list[str]]:
    listed = schema.get("indexes", [])
    check(isinstance(listed, list), "index", "indexes")
    indexes = [index_of(it) for it in listed]
    for name in (name for index in indexes for name in index):
        check(is_bounded(schema["properties"].get(name)), "index", name)
    return indexes


# ---- the schema

class Schema:
    """A schema that was read: its canonical text, its hash, and the test of a document's state."""

    def __init__(self, value: Any):
        check(isinstance(value, dict), "not_object")
        check_words(value, WORDS, ())
        check(value.get("type") == "object", "keyword", "type")
        check(isinstance(value.get("properties"), dict), "keyword", "properties")
        check(value.get("keyCompression", False) is False, "keyword", "keyCompression")
        check_words(value, WORDS, ("title", "description"))
        check(is_whole(value.get("version"), 0, MOST_VERSION), "version")
        rules = {name: canonical_property(name, it) for name, it in sorted(value["properties"].items())}
        self.key = self.key_of(value)
        self.required = sorted({self.key, *required_of(value)})
        indexes = indexes_of(value)
        points = sum(rule.get("maxLength", 0) for rule in rules.values())
        check(len(rules) <= MOST_PROPERTIES and len(indexes) <= MOST_INDEXES and points <= MOST_CODE_POINTS,
              "too_many")
        self.text = compact({"indexes": indexes, "primaryKey": self.key, "properties": rules,
                             "required": self.required, "type": "object", "version": value["version"]})
        self.hash = hashlib.sha256(self.text.encode()).hexdigest()
        self.tests = {name: fits(rule, name == self.key) for name, rule in rules.items()}
        self.tests["_deleted"] = fits({"type": "boolean"}, False)
        self.longest_key = rules[self.key]["maxLength"]
        self.longest_state = 20 + sum(len(name) + 4 + longest_value(rule) for name, rule in rules.items())

    @staticmethod
    def key_of(value: dict[str, Any]) -> str:
        key = value.get("primaryKey")
        it = value["properties"].get(key) if isinstance(key, str) else None
        if it is None or it["type"] != "string" or "maxLength" not in it:
            raise SchemaFault("primary")
        return key

    def is_valid(self, state: dict[str, Any]) -> bool:
        """Whether it has fields of a document, and `_deleted` besides."""
        tests = self.tests
        for name in self.required:
            if name not in state:
                return False
        for name, value in state.items():
            if name not in tests or not tests[name](value):
                return False
        return True
