"""A model of docs/SCRIPT.md, written apart from the program, as far as collections go that are written,
migrated, observed by one and the same query, and replicated in one journal, by turns, by sweeps and by
streams: what each line is answered."""
import hashlib
import json
import os
import re
import sys
from typing import NamedTuple

# How a schema is read is told by the server's own reader.
sys.path.append(os.path.join(os.path.dirname(os.path.abspath(__file__)), "..", "server"))
from schema import Schema, SchemaFault  # noqa: E402

MAX_TIME = 2**53 - 1
QUERY = {"selector": {"n": {"$gte": 1}}, "sort": [{"n": "desc"}], "limit": 3}
START = (0, b"")
FIELD_NAME = re.compile(r"[A-Za-z][A-Za-z0-9_]{0,63}")
MOST_STEPS, MOST_BY, MOST_HOOKS = 64, 1_000, 16
MOST_STATES, MOST_QUEUED = 100, 64
DELIVERIES = ("ok", "lose", "twice", "later")


class Clock(Exception):
    """No write time is left."""


def printed(value):
    return json.dumps(value, ensure_ascii=False, sort_keys=True, separators=(",", ":"))


# A state is the fields of a document, with `_deleted` among them.

def order(value):
    """Values of another kind, and a missing one, stand apart: the kind decides first."""
    kinds = (type(None), bool, int, str)
    return kinds.index(type(value)), value.encode() if isinstance(value, str) else value or 0


def resolved(how, real, new):
    """What a handler makes of the master's state and of the fork's."""
    kind, field = how["handler"], how.get("field")
    if kind == "fork_wins":
        return new
    if kind == "greater" and field in real and field in new and real[field] < new[field]:
        return new
    if kind != "join":
        return real
    both = {name: max(real.get(name), new.get(name), key=order) for name in {*real, *new}}
    return {**both, "_deleted": real["_deleted"] and new["_deleted"]}


OPERATORS = ("$inc", "$max", "$min", "$set", "$unset")


def is_value(value):
    return isinstance(value, (bool, str)) or isinstance(value, int) and abs(value) <= MAX_TIME


def is_number(value):
    return is_value(value) and not isinstance(value, (bool, str))


def made(operator, held, operand):
    """What an operator makes of the value that is held, None where there is none."""
    if operator == "$inc":
        return (held or 0) + operand
    if operator == "$max":
        return max(held, operand, key=order)
    if operator == "$min":
        return operand if held is None else min(held, operand, key=order)
    return operand if operator == "$set" else None


def update_fault(update, fields):
    """The cause of refusal 32 and the name in question, or None."""
    objects = {it: of for it, of in update.items() if isinstance(of, dict)}
    takes = {"$inc": is_number, "$unset": lambda _operand: True}
    under = [name for of in objects.values() for name in of]
    added = objects.get("$inc", {})
    causes = {
        "operator": [it for it in update if it not in OPERATORS],
        "operand": [it for it in update if it not in objects] + [
            name for it, of in objects.items() for name, operand in of.items()
            if not takes.get(it, is_value)(operand)],
        "twice": [name for name in under if under.count(name) > 1],
        "key": [name for name in under if name == "id"],
        "kind": [name for name in added if not is_number(fields.get(name, 0))],
    }
    for cause, names in causes.items():
        if names:
            return cause, min(names, key=str.encode)
    past = [name for name, more in added.items() if not is_number(fields.get(name, 0) + more)]
    return ("range", min(past, key=str.encode)) if past else None


def after_hook(hook, field, state):
    """What a hook makes of a state, None where it vetoes the write."""
    if hook == "lock":
        return None if state.get(field) is True else state
    if hook == "zero":
        return {field: 0, **state}
    held = state.get(field, 0)
    return {**state, field: held + 1} if is_number(held) and is_number(held + 1) else state


def updated(update, fields):
    """The fields after an update that has no fault."""
    changed = {name: made(operator, fields.get(name), operand)
               for operator, of in update.items() for name, operand in of.items()}
    return {name: value for name, value in {**fields, **changed}.items() if value is not None}


# ---- schemas, and what takes documents from one to the next

class Rules:
    """A schema that is held, or raises SchemaFault: its text, and which fields are valid by it."""

    def __init__(self, schema):
        self.text = Schema(schema).text
        read = json.loads(self.text)
        self.version, self.key, self.required = read["version"], read["primaryKey"], read["required"]
        self.properties = read["properties"]

    def kind(self, name):
        """The type of a property, None where there is none of that name."""
        return self.properties[name]["type"] if name in self.properties else None

    def fault(self, state):
        """The cause of refusal 13 and the name in question, or None. A state may have `_deleted`."""
        names = sorted((name for name in state if name != "_deleted"), key=str.encode)
        absent = [name for name in self.required if name not in state]
        unknown = [name for name in names if name not in self.properties]
        if absent or unknown:
            return ("missing", absent[0]) if absent else ("unknown", unknown[0])
        causes = ((self.cause(name, state[name]), name) for name in names)
        return next((it for it in causes if it[0]), None)

    def cause(self, name, value):
        """Why a property doesn't take a value, or None."""
        it = self.properties[name]
        if type(value) is not {"boolean": bool, "integer": int, "string": str}[it["type"]]:
            return "kind"
        if it["type"] == "integer":
            least, most = it.get("minimum", value), it.get("maximum", value)
            return None if least <= value <= most and value % it.get("multipleOf", 1) == 0 else "bounds"
        if it["type"] == "string" and not (name == self.key) <= len(value) <= it["maxLength"]:
            return "length"
        return None


def is_name(it):
    return isinstance(it, str) and FIELD_NAME.fullmatch(it) is not None


STEPS = [
    {"rename": is_name, "to": is_name},
    {"set": is_name, "value": is_value},
    {"drop": is_name},
    {"scale": is_name, "by": lambda it: is_number(it) and 1 <= it <= MOST_BY},
]


def is_step(step):
    return isinstance(step, dict) and any(
        form.keys() == step.keys() and all(test(step[name]) for name, test in form.items()) for form in STEPS)


def are_steps(steps):
    return isinstance(steps, list) and len(steps) <= MOST_STEPS and all(map(is_step, steps))


def names_of(step):
    """The fields that a step names."""
    return [step[name] for name in ("rename", "to", "set", "drop", "scale") if name in step]


def migrated(steps, state):
    """A state after the steps, None where a product is out of range."""
    state = dict(state)
    for step in steps:
        if "rename" in step and step["rename"] in state:
            state[step["to"]] = state.pop(step["rename"])
        elif "set" in step:
            state.setdefault(step["set"], step["value"])
        elif "drop" in step:
            state.pop(step["drop"], None)
        elif "scale" in step and is_number(state.get(step["scale"])):
            state[step["scale"]] *= step["by"]
            if not is_number(state[step["scale"]]):
                return None
    return state


class Collection:
    """Documents by key: a height, a write time and a state; and the open streams of those that follow it."""

    def __init__(self, name, rules=None):
        self.name, self.rules, self.docs, self.last, self.streams = name, rules, {}, 0, []

    def state(self, key):
        return self.docs[key][2] if key in self.docs else None

    def live(self, key):
        return key in self.docs and not self.docs[key][2]["_deleted"]

    def commit(self, states, now):
        """Writes states at one time, the next one or the present moment."""
        if not states:
            return
        if self.last == MAX_TIME:
            raise Clock
        before, self.last = self.last_place(), max(self.last + 1, now)
        for state in states:
            height = self.docs[state["id"]][0] if state["id"] in self.docs else 0
            self.docs[state["id"]] = (height + 1, self.last, state)
        for stream in self.streams:
            stream.hear(before, sorted(states, key=lambda state: state["id"].encode()), self.last)

    def rev(self, key):
        return f"{self.docs[key][0]}-{self.name}"

    def place(self, key):
        return self.docs[key][1], key.encode()

    def last_place(self):
        return max(map(self.place, self.docs), default=START)

    def states(self):
        return [state for _, _, state in self.docs.values()]

    def migrate(self, rules, steps):
        """The schema and the states become others; heights and write times stay."""
        self.rules = rules
        self.docs = {key: (*of, migrated(steps, state)) for key, (*of, state) in self.docs.items()}

    def page(self, since, most):
        """The keys of the first documents above a place, by their places."""
        return sorted((key for key in self.docs if self.place(key) > since), key=self.place)[:most]

    def digest(self):
        texts = [printed(self.docs[key][2]) + "\n" for key in sorted(self.docs, key=str.encode)]
        return hashlib.sha256("".join(texts).encode()).hexdigest()


class Event(NamedTuple):
    """A part of what a commit wrote: the place before it, its states and the last one's place."""
    start: tuple
    states: list
    place: tuple


class Stream:
    """The events of a master's commits that wait for a fork, and whether some of them were given up."""

    def __init__(self):
        self.queue, self.is_marked = [], False

    def hear(self, before, states, time):
        """A commit of these states by rising key, behind the place that was its collection's last one."""
        for at in range(0, len(states), MOST_STATES):
            part = states[at:at + MOST_STATES]
            event = Event(before, part, (time, part[-1]["id"].encode()))
            before = event.place
            if len(self.queue) == MOST_QUEUED:
                self.queue, self.is_marked = [], True
            else:
                self.queue.append(event)


class Replication:
    """What a fork knows of its master, the requests since the journal was opened or the fork migrated, and
    where one is open its stream. A master elsewhere is None."""

    def __init__(self, fork, master, how):
        self.fork, self.master, self.how = fork, master, how
        self.known, self.down, self.asked, self.stream = {}, START, [], None

    def migrate(self, steps):
        self.known = {key: migrated(steps, state) for key, state in self.known.items()}
        self.asked = []
        self.close_stream()

    def open_stream(self):
        self.stream = Stream()
        self.master.streams.append(self.stream)

    def close_stream(self):
        if self.stream:
            self.master.streams.remove(self.stream)
        self.stream = None

    def has_handler(self):
        """`greater` may have lost its field by a migration."""
        rules = self.fork.rules
        return self.how["handler"] != "greater" or not rules or rules.kind(self.how["field"]) == "integer"

    def pending(self):
        docs = self.fork.page(START, len(self.fork.docs))
        return [key for key in docs if self.known.get(key) != self.fork.state(key)]

    def ask(self, batch):
        keys = self.pending()[:batch]
        rows = [(self.known.get(key), self.fork.state(key)) for key in keys]
        self.asked.append(("push", rows) if rows else ("pull", self.down, batch))
        return self.asked[-1]

    def handle(self, request, now):
        """The master's answer: the states in conflict, or a page and its place."""
        if request[0] == "pull":
            keys = self.master.page(request[1], request[2])
            place = self.master.place(keys[-1]) if keys else request[1]
            return [self.master.state(key) for key in keys], place
        held = [self.master.state(new["id"]) for _, new in request[1]]
        taken = [real is None or real == row[0] for real, row in zip(held, request[1])]
        self.master.commit([row[1] for row, took in zip(request[1], taken) if took], now)
        return [real for real, took in zip(held, taken) if not took]

    def take(self, request, answer, now):
        """What the fork makes of it."""
        if request[0] == "pull":
            learnt, down = answer
            writes = [state for state in learnt if state != self.fork.state(state["id"])]
        else:
            own = {state["id"]: state for _, state in request[1]}
            learnt, down = [*own.values(), *answer], self.down
            writes = [resolved(self.how, real, own[real["id"]]) for real in answer
                      if real != own[real["id"]]]
        self.fork.commit(writes, now)
        self.known.update((state["id"], state) for state in learnt)
        self.down = down

    def exchange(self, happening, batch, now):
        """The line of one exchange, without its number, and how it ends the turn."""
        request = self.ask(batch)
        rows = [new["id"] for _, new in request[1]] if request[0] == "push" else None
        late = happening["late"] if isinstance(happening, dict) else 0
        if 0 < late < len(self.asked):
            self.handle(self.asked[-1 - late], now)
        answer = None if happening == "lose_request" else self.handle(request, now)
        if happening in ("lose_request", "lose_reply", "stale"):
            lost = {"lost": happening, "sent": request[0]}
            return (lost if rows is None else {**lost, "rows": rows}), "lost"
        if happening == "twice":
            self.handle(request, now)
        self.take(request, answer, now)
        if rows is not None:
            return {"conflicts": [it["id"] for it in answer], "rows": rows, "sent": "push"}, None
        line = {"rows": [state["id"] for state in answer[0]], "sent": "pull"}
        if self.down != START:
            line["place"] = {"id": self.down[1].decode(), "lwt": self.down[0]}
        return line, "quiet" if len(answer[0]) < batch else None

    def turn(self, batch, budget, link, now):
        """The lines of a turn's exchanges, and its end."""
        lines = []
        for number in range(budget):
            happening = link[number] if number < len(link) else "ok"
            try:
                line, end = self.exchange(happening, batch, now)
            except Clock:
                return lines, "clock"
            lines.append({"exchange": number + 1, **line})
            if end:
                return lines, end
        return lines, "more"

    def judge(self, event, now):
        """What becomes of an event that is given: it is taken as a pull's answer, or why it isn't."""
        if event.place <= self.down:
            return "old"
        if self.pending():
            return "pending"
        if event.start != self.down:
            return "gap"
        try:
            self.take(("pull",), (event.states, event.place), now)
        except Clock:
            return "clock"
        return "taken"

    def is_level(self):
        return self.down == self.master.last_place() and not self.pending()

    def deliver(self, link, now):
        """The lines of the events that waited, and whether a turn is to be made."""
        events, is_due, lines = self.stream.queue, self.stream.is_marked, []
        self.stream.queue, self.stream.is_marked = [], False
        for number, event in enumerate(events):
            happening = link[number] if number < len(link) else "ok"
            if happening == "later":
                self.stream.queue.append(event)
            words = {"lose": ["lost"], "later": ["later"]}.get(happening) or [
                self.judge(event, now) for _ in range(1 + (happening == "twice"))]
            is_due = is_due or "pending" in words or "gap" in words
            keys = [state["id"] for state in event.states]
            lines += ({"event": number + 1, "rows": keys, "took": word} for word in words)
        return lines, is_due


class Model:
    """What a run answers, line after line."""

    def __init__(self):
        self.sides, self.replications, self.epoch = {}, {}, 0

    def open(self):
        """A run begins."""
        self.moment, self.watched, self.number, self.hooks = 0, {}, 0, []
        self.reopen()

    def reopen(self):
        self.epoch += 1
        for replication in self.replications.values():
            replication.asked = []
            replication.close_stream()

    def is_known(self, key, name):
        """Whether a fork's state is its master's, as far as the fork knows."""
        replication = self.replications[name]
        return replication.known.get(key) == replication.fork.state(key)

    def group(self, name):
        """The collections that local replications join to one, in the order of making."""
        pairs = [{it.fork.name, it.master.name} for it in self.replications.values() if it.master]
        group = {name}
        while more := set().union(*(pair for pair in pairs if pair & group)) - group:
            group |= more
        return [it for it in self.sides if it in group]

    def result(self, side):
        rows = [state for key in side.docs if side.live(key) for state in [side.state(key)]
                if is_number(state.get("n")) and state["n"] >= 1]
        rows.sort(key=lambda state: (-state["n"], state["id"].encode()))
        return [{k: v for k, v in state.items() if k != "_deleted"} for state in rows[:3]]

    def play(self, line):
        """The lines that a line is answered by."""
        self.number += 1
        before, out = {name: rows for name, (_, rows) in self.watched.items()}, []
        reply = getattr(self, line["do"])(line, out)
        refused = {"line": self.number, **reply} if "refused" in reply else None
        out.append(refused or {"line": self.number, "ok": line["do"], **reply})
        for name, (side, _) in self.watched.items():
            rows = self.result(self.sides[side])
            self.watched[name] = side, rows
            if rows != before.get(name):
                out.append({"emit": name, "rows": rows})
        return [printed(it) for it in out]

    def collection(self, line, _out):
        rules = Rules(line["schema"]) if "schema" in line else None
        held = self.sides.get(line["name"])
        if held and rules and held.rules.text != rules.text:
            return {"code": 12, "refused": "schema_differs"}
        if not held:
            self.sides[line["name"]] = Collection(line["name"], rules)
        return {"new": not held}

    def replicate(self, line, _out):
        how = {it: line[it] for it in ("handler", "field") if it in line}
        fork, master = self.sides[line["fork"]], self.sides[line["master"]] if "master" in line else None
        self.replications[line["name"]] = Replication(fork, master, how)
        return {}

    def observe(self, line, _out):
        """The query is QUERY, which sorts by n."""
        if line["name"] in self.watched:
            return {"code": 9, "refused": "exists"}
        rules = self.sides[line["in"]].rules
        if rules and "n" not in rules.properties:
            return {"cause": "field", "code": 16, "name": "n", "refused": "query"}
        self.watched[line["name"]] = line["in"], None
        return {}

    def unobserve(self, line, _out):
        return {} if self.watched.pop(line["name"], None) else {"code": 17, "refused": "no_query"}

    def hook(self, line, _out):
        kind = self.sides[line["in"]].rules.kind(line["field"])
        if kind != ("boolean" if line["hook"] == "lock" else "integer"):
            return {"code": 34, "refused": "no_hook"}
        if len([it for it in self.hooks if it[0] == line["in"]]) == MOST_HOOKS:
            return {"code": 23, "refused": "too_many"}
        self.hooks.append((line["in"], line["when"], line["hook"], line["field"]))
        return {}

    def migrate(self, line, _out):
        name, steps = line["in"], line["steps"]
        if not are_steps(steps):
            return {"code": 7, "name": "steps", "refused": "wrong_type"}
        if name not in self.sides:
            return {"code": 10, "name": name, "refused": "no_collection"}
        try:
            rules = Rules(line["schema"])
        except SchemaFault as fault:
            said = {"name": fault.name} if fault.name else {}
            return {"cause": fault.cause, "code": 11, "refused": "schema", **said}
        group = self.group(name)
        joined = {it: each for it, each in self.replications.items() if each.fork.name in group}
        if refused := self.migration_fault(name, rules, steps, group, joined):
            return refused
        for it in group:
            self.sides[it].migrate(rules, steps)
        for replication in joined.values():
            replication.migrate(steps)
        self.hooks = [it for it in self.hooks if it[0] not in group]
        return {"collections": group}

    def migration_fault(self, name, rules, steps, group, joined):
        """Why a group can't go to a schema, or None."""
        def faulty(states):
            after = (migrated(steps, state) for state in states)
            return any(state is None or rules.fault(state) for state in after)

        held = self.sides[name].rules
        told = {"code": 28, "name": name, "refused": "migration"}
        if rules.version != held.version + 1:
            return {**told, "cause": "version"}
        if rules.key != held.key or any(held.key in names_of(step) for step in steps):
            return {**told, "cause": "primary"}
        states = [*((it, self.sides[it].states()) for it in group),
                  *((it, each.known.values()) for it, each in joined.items())]
        if (invalid := next((it for it, each in states if faulty(each)), None)) is not None:
            return {**told, "cause": "invalid", "name": invalid}
        if not all(it.master for it in joined.values()):
            return {"code": 30, "refused": "remote"}
        watching = [it for it, (side, _) in self.watched.items() if side in group]
        return {"code": 29, "name": watching[0], "refused": "observed"} if watching else None

    def write(self, side, state, when="save", taken=None):
        """A write after its hooks, refused where the key is taken by a revision."""
        for _, _, hook, field in [it for it in self.hooks if it[:2] == (side, when)]:
            state = after_hook(hook, field, state)
            if state is None:
                return {"code": 33, "name": hook, "refused": "vetoed"}
        if (rules := self.sides[side].rules) and (fault := rules.fault(state)):
            return {"cause": fault[0], "code": 13, "name": fault[1], "refused": "invalid"}
        if taken:
            return {"code": 14, "refused": "conflict", "rev": taken}
        state = {**state, "_deleted": when == "remove"}
        try:
            self.sides[side].commit([state], self.moment)
        except Clock:
            return {"code": 22, "refused": "clock"}
        return {"rev": self.sides[side].rev(state["id"])}

    def upsert(self, line, _out):
        when = "save" if self.sides[line["in"]].live(line["doc"]["id"]) else "insert"
        return self.write(line["in"], line["doc"], when)

    def insert(self, line, _out):
        side, key = self.sides[line["in"]], line["doc"]["id"]
        taken = side.rev(key) if side.live(key) else None
        return self.write(line["in"], line["doc"], "insert", taken)

    def bulk(self, line, _out):
        """Of keys that are new, where no hook stands before them."""
        side, docs = self.sides[line["in"]], line["docs"]
        side.commit([{**doc, "_deleted": False} for doc in docs], self.moment)
        return {"revs": [side.rev(doc["id"]) for doc in docs]}

    def change(self, line, changed, when="save"):
        """A write of what is made of a document that is live."""
        side, key = self.sides[line["in"]], line["key"]
        if not side.live(key):
            return {"code": 15, "refused": "no_document"}
        return self.write(line["in"], changed(side.state(key)), when)

    def patch(self, line, _out):
        return self.change(line, lambda state: {**state, **line["set"]})

    def update(self, line, _out):
        side, key, update = self.sides[line["in"]], line["key"], line["update"]
        if side.live(key) and (fault := update_fault(update, side.state(key))):
            return {"cause": fault[0], "code": 32, "name": fault[1], "refused": "update"}
        return self.change(line, lambda state: updated(update, state))

    def remove(self, line, _out):
        return self.change(line, lambda state: state, "remove")

    def tick(self, line, _out):
        self.moment = line["at"]
        return {}

    def restart(self, _line, _out):
        self.reopen()
        return {"epoch": self.epoch}

    def make_turn(self, name, line, out):
        """The turn of a replication that a line makes, or one of several: how it ends, and its exchanges."""
        asked = line.get("batch", 100), line.get("budget", 1_000), line.get("link", [])
        lines, end = self.replications[name].turn(*asked, self.moment)
        out += lines
        return {"end": end, "exchanges": len(lines)}

    def turn(self, line, out):
        if not self.replications[line["name"]].has_handler():
            return {"code": 19, "refused": "no_handler"}
        return self.make_turn(line["name"], line, out)

    def below(self, name, way):
        """The replications of the forks that reach a collection: each fork's behind those below it on the way up,
        and before them on the way down. The forks of one collection come in the order in which they were made."""
        forks = {it.fork.name: own for own, it in self.replications.items() if it.master is self.sides[name]}
        for fork in (it for it in self.sides if it in forks):
            rest = self.below(fork, way)
            yield from [*rest, forks[fork]] if way == "up" else [forks[fork], *rest]

    def sweep(self, line, out):
        if line["name"] not in self.sides:
            return {"code": 10, "name": line["name"], "refused": "no_collection"}
        steps = [(way, name) for way in ("up", "down") for name in self.below(line["name"], way)]
        for number, (way, name) in enumerate(steps, 1):
            made = self.make_turn(name, line, out)
            out.append({**made, "pass": way, "replication": name})
            if made["end"] != "quiet":
                return {"end": made["end"], "turns": number}
        return {"end": "quiet", "turns": len(steps)}

    def no_replication(self, line):
        return None if line["name"] in self.replications else {"code": 18, "refused": "no_replication"}

    def stream(self, line, _out):
        if refused := self.no_replication(line):
            return refused
        replication = self.replications[line["name"]]
        if not replication.master:
            return {"code": 30, "refused": "remote"}
        if replication.stream:
            return {"code": 9, "refused": "exists"}
        replication.open_stream()
        return {}

    def no_stream(self, line):
        """Why there is no stream of the name that a line has, or None."""
        if refused := self.no_replication(line):
            return refused
        return None if self.replications[line["name"]].stream else {"code": 31, "refused": "no_stream"}

    def unstream(self, line, _out):
        if refused := self.no_stream(line):
            return refused
        self.replications[line["name"]].close_stream()
        return {}

    def deliver(self, line, out):
        link = line.get("link", [])
        if not isinstance(link, list) or not all(it in DELIVERIES for it in link):
            return {"code": 7, "name": "link", "refused": "wrong_type"}
        if refused := self.no_stream(line):
            return refused
        replication = self.replications[line["name"]]
        lines, is_due = replication.deliver(link, self.moment)
        out += lines
        return {"level": replication.is_level(), "resync": is_due}

    def changes(self, line, _out):
        side = self.sides[line["in"]]
        keys = side.page(START, 100)
        docs = [side.state(key) for key in keys]
        place = {"place": {"id": keys[-1], "lwt": side.docs[keys[-1]][1]}} if keys else {}
        return {"docs": docs, **place}

    def digest(self, line, _out):
        side = self.sides[line["in"]]
        return {"count": len(side.docs), "digest": side.digest()}
