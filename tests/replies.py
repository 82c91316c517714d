"""What a fork makes of a line that comes in reply to its request, by docs/WIRE.md and docs/SCRIPT.md and
apart from the program; and near misses of right replies, by single edits."""
import json

from model import MAX_TIME, START, printed

SCHEMA = {
    "version": 0, "primaryKey": "id", "type": "object", "required": ["id", "n"],
    "properties": {
        "id": {"type": "string", "maxLength": 6},
        "b": {"type": "boolean"}, "n": {"type": "integer", "minimum": -2, "maximum": 12},
        "t": {"type": "string", "maxLength": 3},
    },
}
MOST_STATES = 100


# ---- reading

def is_time(value):
    return type(value) is int and 1 <= value <= MAX_TIME


def is_field(name, value):
    if name == "b":
        return type(value) is bool
    if name == "n":
        return type(value) is int and -2 <= value <= 12
    return name in ("id", "t") and type(value) is str and len(value) <= (6 if name == "id" else 3)


def is_state(value):
    if not isinstance(value, dict) or type(value.get("_deleted")) is not bool:
        return False
    fields = {name: it for name, it in value.items() if name != "_deleted"}
    return {"id", "n"} <= fields.keys() and all(map(is_field, fields, fields.values())) and fields["id"] != ""


def are_states(value):
    if not isinstance(value, list) or len(value) > MOST_STATES or not all(map(is_state, value)):
        return False
    return len({it["id"] for it in value}) == len(value)


def is_place(value):
    return isinstance(value, dict) and value.keys() == {"id", "lwt"} \
        and type(value["id"]) is str and is_time(value["lwt"])


def is_reply(value):
    if not isinstance(value, dict):
        return False
    kind = "conflicts" if "conflicts" in value else "docs"
    due = {kind, "epoch", "n"}
    more = {"place"} if kind == "docs" else set()
    return due <= value.keys() <= due | more and are_states(value[kind]) \
        and is_time(value["epoch"]) and is_time(value["n"]) \
        and ("place" not in value or is_place(value["place"]))


def read(line):
    """The reply that a line is, in its one spelling, or None."""
    try:
        value = json.loads(line.decode())
        return value if is_reply(value) and printed(value).encode() == line else None
    except ValueError:
        return None


# ---- judging

def place(lwt, key):
    return {"id": key, "lwt": lwt}


def place_of(reply):
    return (reply["place"]["lwt"], reply["place"]["id"].encode()) if "place" in reply else START


def is_bad(reply, request):
    """Whether it answers another request than this one, `("push", rows)` or `("pull", place, batch)`."""
    if request[0] == "push":
        keys = {new["id"] for _, new in request[1]}
        return "conflicts" not in reply or not {it["id"] for it in reply["conflicts"]} <= keys
    if "docs" not in reply or len(reply["docs"]) > request[2]:
        return True
    at = place_of(reply)
    if not reply["docs"]:
        return at != request[1]
    return at <= request[1] or at[1] != reply["docs"][-1]["id"].encode()


def judged(line, request, numbers):
    """Why the exchange is lost, or None, and the reply."""
    reply = read(line)
    if reply is None:
        return "reply", None
    if (reply["epoch"], reply["n"]) != numbers:
        return "foreign", None
    return ("bad_reply", None) if is_bad(reply, request) else (None, reply)


# ---- near misses

VALUES = [None, True, False, 0, 1, -1, 13, 1.5, MAX_TIME, MAX_TIME + 1, 2**64, "", "a", "k1", "\u00e9", [], {}, ["a"]]


def edited_byte(numbers, line):
    """One byte is another, or gone, or there twice."""
    at = numbers.randrange(len(line))
    how = numbers.randrange(4)
    if how == 0:
        return line[:at] + bytes([numbers.randrange(256)]) + line[at + 1:]
    if how == 1:
        return line[:at] + bytes([numbers.choice(b'0123456789"{}[],:k \n\\-.etf')]) + line[at + 1:]
    return line[:at] + line[at:at + 1] * (2 * (how - 2)) + line[at + 1:]


def edited_object(numbers, it):
    """A member of an object is another, or gone, or there is one more."""
    how, name = numbers.randrange(4), numbers.choice(sorted(it))
    if how == 0:
        del it[name]
    elif how == 1:
        it[numbers.choice(["a", "b", "t", "z", "_deleted", "place", "conflicts", "fault"])] = numbers.choice(VALUES)
    elif how == 2 and type(it[name]) is int:
        it[name] += numbers.choice([-1, 1])
    else:
        it[name] = numbers.choice(VALUES)


def edited_list(numbers, them):
    """A state is gone, or there twice, or in another place, or there is one more."""
    how = numbers.randrange(4)
    if how == 3 or not them:
        them.insert(numbers.randint(0, len(them)), {"_deleted": False, "id": f"k{numbers.randrange(30)}", "n": 1})
    elif how == 0:
        del them[numbers.randrange(len(them))]
    elif how == 1:
        them.append(them[numbers.randrange(len(them))])
    else:
        numbers.shuffle(them)


def edited_member(numbers, line):
    """The line of a reply of which one member is another."""
    reply = json.loads(line)
    kind = "conflicts" if "conflicts" in reply else "docs"
    draw = numbers.randrange(8)
    if draw < 2:
        edited_object(numbers, reply)
    elif draw < 3 and "place" in reply:
        edited_object(numbers, reply["place"])
    elif draw < 4:
        edited_list(numbers, reply[kind])
    elif draw < 7 and reply[kind]:
        edited_object(numbers, numbers.choice(reply[kind]))
    elif draw < 7:
        reply["n"] += numbers.choice([-1, 1])
    else:
        reply["docs" if kind == "conflicts" else "conflicts"] = reply.pop(kind)
    return printed(reply).encode() + b"\n"


def edited_spelling(numbers, line):
    """The same reply, most of the time, in another spelling."""
    reply = json.loads(line)
    texts = [
        json.dumps(reply, ensure_ascii=False, sort_keys=True),
        json.dumps(dict(sorted(reply.items(), reverse=True)), ensure_ascii=False, separators=(",", ":")),
        printed(reply).replace("k", "\\u006b"),
        printed(reply).replace('"n":', '"n":0', 1),
        printed(reply).replace("}", ',"n":1}', 1),
        printed(reply) + " ",
        "\ufeff" + printed(reply),
        printed(reply) + "\r",
    ]
    return numbers.choice(texts).encode() + b"\n"
