#!/usr/bin/env python3
"""Random turns, sweeps and deliveries of forks and their masters over the built program, beside a model of
docs/SCRIPT.md.

For each of eight seeds a script of 4,000 lines, and for each of 300 more one of 1,000, over a master, its
fork and a fork of that: writes on all sides with hooks before some, now and then more at once than a stream
keeps, the moment, restarts, migrations of all, of which some are refused, turns of any batch and budget over
a link that loses, repeats and delays, sweeps over each side, and streams that are opened and closed, whose
events a link loses, repeats and puts off; in four runs, one after another on the same journal. The seeds
take the handlers in turn. Four things are tried of what the program answers:

- it is the model's answer, byte for byte: replies, exchanges, events, emissions, and after each turn, each
  sweep, each delivery and each migration all states of all sides in the order of their places;
- a turn that ends quiet, and a delivery that ends level, leave one digest on both sides, and so does a
  migration behind it;
- a sweep that ends quiet leaves one digest on all collections of its tree, and it ends so where its budget
  is above three exchanges a key, unless no write time is left;
- no acknowledged write of a fork is gone: before a pull goes over its key, before an event is taken, and
  before a turn ends quiet, also one of a sweep, or a delivery level, a push of it was answered, or the fork
  wrote the key again, or it was no edit, since the master had that state as far as the fork knew, or a
  migration, or a push of its own fork, made it one that it knew. What counts behind a migration is what its
  steps made of the write.

The same is tried of random trees of up to twenty collections that sweeps go over, with a handler of its own
for each fork; and some sweeps are worked out by hand.

Then commits of many documents, each of which is several events; and a master and three forks, one of them a
fork of a fork, that migrate with edits pending on each.
"""
import hashlib
import json
import os
import random
from collections import Counter
from itertools import zip_longest
from typing import NamedTuple

from model import DELIVERIES, MAX_TIME, QUERY, Model, migrated
from shared import HANDLERS, Wrong, add, case, collection, command, compact, content, insist, main, same, text

SEEDS = range(1, 9)
LINES = 4_000
RUNS = 4
# Shorter ones, so many in a case.
SHORT_SEEDS = range(101, 401)
SHORT_LINES = 1_000
TOGETHER = 30
KEYS = [f"k{n}" for n in range(20)]
# A field has one kind in all schemas, and another one of its kind that it may become.
KINDS = {"b": "boolean", "d": "boolean", "n": "integer", "v": "integer", "t": "string", "u": "string"}
OTHER = {"b": "d", "d": "b", "n": "v", "v": "n", "t": "u", "u": "t"}
VALUES = {"boolean": [None, False, True], "integer": [None, 0, 1, 2], "string": [None, "", "x"]}
KEY = {"id": {"type": "string", "maxLength": 20}}
HOME = {**KEY, **{name: {"type": KINDS[name]} for name in "bnt"}}
SCHEMA = {"version": 0, "primaryKey": "id", "type": "object", "required": ["id"], "properties": HOME}


# ---- scripts: what comes next goes by the schema that the model holds, which plays each line before

def fields(numbers, rules):
    """Few values, so that documents come back to what they were, and seldom less than is required."""
    there = {}
    for name, it in rules.properties.items():
        if name != "id":
            is_due = name in rules.required and numbers.random() < 0.9
            there[name] = numbers.choice(VALUES[it["type"]][is_due:])
    return {name: value for name, value in there.items() if value is not None}


def bounded(numbers, line):
    """With any batch and budget, or without."""
    if numbers.random() < 0.8:
        line["batch"] = numbers.randint(1, 8)
    if numbers.random() < 0.5:
        line["budget"] = numbers.randint(1, 6)
    return line


def turn(numbers, names="rru"):
    words = ["ok", "ok", "lose_request", "lose_reply", "twice", "stale"]
    line = bounded(numbers, {"do": "turn", "name": numbers.choice(names)})
    if numbers.random() < 0.8:
        line["link"] = [numbers.choice([*words, {"late": numbers.randint(1, 16)}])
                        for _ in range(numbers.randint(0, 5))]
    return line


def sweep(numbers, name, model):
    """Now and then one whose budget is just so that it has to end quiet."""
    line = bounded(numbers, {"do": "sweep", "name": name})
    if name in model.sides and numbers.random() < 0.3:
        line["budget"] = 3 * len(model.keys_below(name)) + 1
    return line


NO_LINKS = ["ok", {}, ["OK"], [1], [["ok"]], [{"late": 1}], ["lose_reply"], ["ok", "stale"], [None]]


def delivery(numbers, names="ru"):
    """Seldom of a replication that has no stream, or with what is no link."""
    line = {"do": "deliver", "name": numbers.choice(names if numbers.random() < 0.98 else "sz")}
    if numbers.random() < 0.6:
        line["link"] = [numbers.choice(["ok", "ok", *DELIVERIES]) for _ in range(numbers.randint(0, 5))]
    return {**line, "link": numbers.choice(NO_LINKS)} if numbers.random() < 0.02 else line


def streams(numbers, often):
    """Both replications of this journal get one, or one of them does."""
    return [{"do": "stream", "name": name} for name in "ru" if numbers.random() < often]


def burst(numbers, rules):
    """Writes of one side, about as many as a stream keeps."""
    side = numbers.choice("mf")
    for _ in range(numbers.randint(55, 75)):
        yield {"do": "upsert", "in": side, "doc": {"id": numbers.choice(KEYS), **fields(numbers, rules)}}


def update(numbers):
    """Operators over few fields, now and then one that doesn't fit or a field under two."""
    there = {
        "$inc": {"n": numbers.choice([1, 1, -1, MAX_TIME, "1"])},
        "$max": {numbers.choice("nb"): numbers.choice([2, True])},
        "$min": {numbers.choice("nt"): numbers.choice([1, "a"])},
        "$set": {numbers.choice("tb"): numbers.choice(["x", False, None])},
        "$unset": {numbers.choice("bnt"): ""},
        "$push": {"n": 1},
    }
    return {it: there[it] for it in numbers.sample(sorted(there), numbers.choice([0, 1, 1, 1, 2, 3]))}


HOOKS = [("insert", "zero", "n"), ("save", "count", "n"), ("remove", "count", "n"), ("remove", "lock", "b"),
         ("insert", "lock", "b")]


def hooks_at_random(numbers):
    """Now and then one, of which a turn runs none."""
    return [{"do": "hook", "in": side, "when": when, "hook": hook, "field": field}
            for side in "mfg" for when, hook, field in HOOKS if numbers.random() < 0.25]


def write(numbers, rules, into, keys=KEYS):
    """A line that writes a collection."""
    key, draw = numbers.choice(keys), numbers.randrange(47)
    if draw < 30:
        return {"do": "upsert", "in": into, "doc": {"id": key, **fields(numbers, rules)}}
    if draw < 33:
        return {"do": "insert", "in": into, "doc": {"id": key, **fields(numbers, rules)}}
    if draw < 41:
        return {"do": "remove", "in": into, "key": key}
    if draw < 44:
        return {"do": "patch", "in": into, "key": key, "set": {"n": numbers.randrange(3)}}
    return {"do": "update", "in": into, "key": key, "update": update(numbers)}


def line_at_random(numbers, model, written):
    """One of the sides that are written is."""
    draw = numbers.randrange(83)
    if draw < 47:
        return write(numbers, model.sides["f"].rules, numbers.choice(written))
    if draw < 50:
        return {"do": "tick", "at": numbers.randrange(3_000)}
    if draw < 51:
        return {"do": "restart"}
    if draw < 53:
        return {"do": "upsert", "in": "p", "doc": {"id": numbers.choice(KEYS), "n": numbers.randrange(3)}}
    if draw < 63:
        return turn(numbers)
    if draw < 77:
        return delivery(numbers)
    if draw < 80:
        return sweep(numbers, numbers.choice("mmmmmffffgpz"), model)
    return {"do": "unstream" if draw == 80 else "stream", "name": numbers.choice("rrruuusz")}


# Each changes the steps of a migration, and the properties and required names that they lead to.

def drop(numbers, steps, properties, required):
    if names := [*properties.keys() - KEY.keys()]:
        name = numbers.choice(sorted(names))
        steps.append({"drop": name})
        del properties[name]
        required.discard(name)


def rename(numbers, steps, properties, required):
    """The other field may be there, and goes then."""
    if names := [*properties.keys() - KEY.keys()]:
        name = numbers.choice(sorted(names))
        steps.append({"rename": name, "to": OTHER[name]})
        properties[OTHER[name]] = properties.pop(name)
        if name in required:
            required.remove(name)
            required.add(OTHER[name])


def scale(numbers, steps, _properties, _required):
    steps.append({"scale": numbers.choice("nnnvt"), "by": numbers.choice([1, 2, 3, 1_000])})


def fill(numbers, steps, properties, required):
    name = numbers.choice([*KINDS])
    steps.append({"set": name, "value": numbers.choice(VALUES[KINDS[name]][1:])})
    properties.setdefault(name, {"type": KINDS[name]})
    if numbers.random() < 0.3:
        required.add(name)


def bound(numbers, _steps, properties, required):
    """Whether the documents fit isn't asked."""
    if names := [*properties.keys() - KEY.keys()]:
        name = numbers.choice(sorted(names))
        bounds = {"boolean": {}, "integer": {"minimum": -5, "maximum": numbers.choice([1, 2, 9_000])},
                  "string": {"maxLength": numbers.choice([1, 5])}}
        properties[name] = {"type": KINDS[name], **bounds[KINDS[name]]}
        if numbers.random() < 0.2:
            required.add(name)


def go_home(_numbers, steps, properties, required):
    steps += [{"drop": name} for name in sorted(properties.keys() - HOME.keys())]
    properties.clear()
    properties.update(HOME)
    required.intersection_update(KEY)


def migration(numbers, rules, side, changes):
    """To the next version of the schema."""
    steps, properties, required = [], dict(rules.properties), {*rules.required}
    for change in changes:
        change(numbers, steps, properties, required)
    schema = {**SCHEMA, "version": rules.version + 1, "properties": properties, "required": sorted(required)}
    return {"do": "migrate", "in": side, "schema": schema, "steps": steps}


NO_STEPS = [
    {}, "drop", [[]], [{}], [{"drop": "9"}], [{"drop": "n", "by": 1}], [{"drop": ["n"]}], [{"rename": "n"}],
    [{"rename": "n", "to": "_v"}], [{"set": "n"}], [{"set": "n", "value": None}], [{"set": "n", "value": 1.0}],
    [{"set": "n", "value": MAX_TIME + 1}], [{"scale": "n", "by": 0}], [{"scale": "n", "by": 1_001}],
    [{"scale": "n", "by": True}], [{"scale": "n"}], [{"add": "n"}], [{"drop": "n"}] * 65,
]
OF_THE_KEY = [{"drop": "id"}, {"rename": "t", "to": "id"}, {"rename": "id", "to": "t"},
              {"set": "id", "value": "x"}, {"scale": "id", "by": 1}]


def spoilt(numbers, line):
    """The same with something in it that may be refused."""
    schema, steps = line["schema"], line["steps"]
    version, properties = schema["version"], schema["properties"]
    edits = [
        {"steps": numbers.choice(NO_STEPS)},
        {"steps": [*steps, *[{"drop": "u"}] * (64 - len(steps))]},
        {"steps": [*steps, numbers.choice(OF_THE_KEY)]},
        {"in": "z"},
        {"in": "p", "schema": {**SCHEMA, "version": numbers.choice([0, 1])}},
        {"schema": {**schema, "version": version + numbers.choice([-1, 1])}},
        {"schema": {**schema, "primaryKey": "t", "properties": {**properties, "t": KEY["id"]}}},
        {"schema": {**schema, "primaryKey": "w"}},
        {"schema": {**schema, "properties": {**properties, "n": {"type": "list"}}}},
        {"schema": {name: it for name, it in schema.items() if name != "type"}},
        {"schema": {**schema, "properties": KEY, "required": ["id"]}},
    ]
    return {**line, **numbers.choice(edits)}


CHANGES = [drop, rename, scale, scale, fill, fill, bound]
OBSERVE = {"do": "observe", "name": "q", "in": "f", "query": QUERY}
UNOBSERVE = {"do": "unobserve", "name": "q"}


def migrating(numbers, rules):
    """A migration with the lines around it: where the query isn't ended it is refused at the latest by that.
    Hooks and streams go with it, and others come."""
    changes = [go_home] if numbers.random() < 0.4 else numbers.choices(CHANGES, k=numbers.randint(1, 3))
    line = migration(numbers, rules, numbers.choice("mfg"), changes)
    if numbers.random() < 0.3:
        line = spoilt(numbers, line)
    if numbers.random() < 0.2:
        return [line]
    return [UNOBSERVE, line, *all_sides(), OBSERVE, *hooks_at_random(numbers), *streams(numbers, 0.7)]


def all_sides(sides="mfg"):
    return [{"do": do, "in": side} for side in sides for do in ("changes", "digest")]


def at_the_end_of_time(first, second):
    """One side is written at the last write time, and then the other. So a turn ends where it has
    to write to the first."""
    return [
        {"do": "tick", "at": MAX_TIME},
        {"do": "upsert", "in": first, "doc": {"id": "last"}},
        {"do": "upsert", "in": first, "doc": {"id": "past"}},
        {"do": "tick", "at": 0},
        {"do": "upsert", "in": second, "doc": {"id": "past"}},
        {"do": "turn", "name": "r", "link": ["lose_reply"]},
        {"do": "turn", "name": "r", "link": ["lose_request"]},
        {"do": "turn", "name": "r"},
        {"do": "turn", "name": "r", "link": [{"late": 2}]},
    ]


def events_at_the_end_of_time():
    """A fork has no write time left: an event without a row for it is taken, and no other one is."""
    sides = [{"do": "collection", "name": name, "schema": SCHEMA} for name in "xy"]
    return [
        *sides,
        {"do": "replicate", "name": "v", "fork": "y", "master": "x", "handler": "join"},
        {"do": "stream", "name": "v"},
        {"do": "tick", "at": MAX_TIME},
        {"do": "upsert", "in": "y", "doc": {"id": "last"}},
        {"do": "tick", "at": 0},
        {"do": "turn", "name": "v", "budget": 1},
        {"do": "upsert", "in": "x", "doc": {"id": "past"}},
        {"do": "upsert", "in": "x", "doc": {"id": "late"}},
        {"do": "deliver", "name": "v", "link": ["twice", "twice", "later"]},
        {"do": "deliver", "name": "v"},
        {"do": "turn", "name": "v"},
        *all_sides("xy"),
    ]


SIDES = [*({"do": "collection", "name": name, "schema": SCHEMA} for name in "mfg"),
         {"do": "replicate", "name": "r", "fork": "f", "master": "m"},
         {"do": "replicate", "name": "u", "fork": "g", "master": "f"}]
# A fork of a port at which nobody is. It can't migrate, and what is observed of it, and its hooks, stay while
# the others do.
ELSEWHERE = [{"do": "collection", "name": "p", "schema": SCHEMA},
             {"do": "replicate", "name": "s", "fork": "p", "port": 1, "handler": "join"}]
APART = [{**OBSERVE, "name": "o", "in": "p"},
         {"do": "hook", "in": "p", "when": "save", "hook": "count", "field": "n"}]


def script(numbers, how, model, run, lines):
    """One run, with turns without a fault at its end, between collections of the first fields."""
    def rules():
        return model.sides["f"].rules

    if run == 0:
        sides = [{**it, **how} if it["do"] == "replicate" else it for it in SIDES]
        yield from numbers.choice([[*sides, *ELSEWHERE], [*ELSEWHERE, *sides]])
    yield from [*APART, OBSERVE, *hooks_at_random(numbers), *streams(numbers, 0.9)]
    for number in range(lines):
        if (draw := numbers.random()) < 0.04:
            yield from migrating(numbers, rules()) if draw < 0.03 else burst(numbers, rules())
            continue
        # Now and then the master alone is written for a while, so that its fork has nothing to push.
        is_calm = number // 50 % 2 == 1
        if is_calm and number % 50 == 0:
            yield from ({"do": "turn", "name": name, "budget": 100_000} for name in "ur")
        line = line_at_random(numbers, model, "m" if is_calm else "ffmmg")
        yield line
        if line["do"] in ("turn", "sweep", "deliver"):
            yield from all_sides()
        if line["do"] == "restart":
            yield from streams(numbers, 0.7)
    yield from [UNOBSERVE, migration(numbers, rules(), "m", [go_home]), OBSERVE]
    for name in "uru":
        yield from [{"do": "turn", "name": name, "budget": 100_000}, *all_sides()]
    if run == RUNS - 1:
        yield from [*at_the_end_of_time(*numbers.choice(["mf", "fm"])), *all_sides()]
        yield from [{"do": "sweep", "name": numbers.choice("mf")}, *all_sides()]
        # It takes no write time.
        yield from [UNOBSERVE, migration(numbers, rules(), "f", [scale]), *all_sides()]
        yield from events_at_the_end_of_time()


# ---- what is tried

class Audit:
    """What the answers say of a fork's writes: which are still to be pushed, or in a conflict."""

    def __init__(self, name, fork, master):
        self.name, self.fork, self.sides = name, fork, (fork, master)
        self.unsent, self.digests = set(), None
        self.exchanges = self.conflicts = 0
        self.ends, self.took, self.migrations = Counter(), Counter(), Counter()

    def follow(self, line, replies, known):
        """The replies to a line, and the keys of which forks know their own state behind it."""
        do, is_own, known = line["do"], line.get("name") == self.name, known.get(self.name, set())
        if do not in ("changes", "digest", "migrate"):
            self.digests = None
        for reply in replies:
            if do == "migrate":
                self.migration(reply, known)
            elif "rev" in reply and "ok" in reply and line["in"] == self.fork:
                key = line.get("key") or line["doc"]["id"]
                (self.unsent.discard if key in known else self.unsent.add)(key)
            elif is_own and "exchange" in reply:
                self.exchange(reply)
            elif is_own and "event" in reply:
                self.event(reply)
            elif is_own and ("end" in reply or "level" in reply):
                self.end(reply)
            elif "digest" in reply and line["in"] in self.sides and self.digests is not None:
                self.digests.add(reply["digest"])
                if len(self.digests) > 1:
                    raise Wrong(f"line {reply['line']}: the sides differ after a quiet turn or a level delivery")
        if do == "turn" and not is_own:
            self.unsent -= known

    def exchange(self, reply):
        self.exchanges += 1
        rows = set(reply.get("rows", ()))
        if "lost" in reply:
            return
        if reply["sent"] == "push":
            self.unsent -= rows
            self.conflicts += len(reply["conflicts"])
        elif self.unsent & rows:
            raise Wrong(f"a pull went over what the fork wrote at {sorted(self.unsent & rows)}")

    def event(self, reply):
        self.took[reply["took"]] += 1
        if reply["took"] == "taken" and self.unsent:
            raise Wrong(f"an event was taken over what the fork wrote at {sorted(self.unsent)}")

    def migration(self, reply, known):
        self.migrations[reply.get("cause") or reply.get("refused") or "made"] += 1
        if "ok" in reply:
            self.unsent -= known
            self.digests = None if self.digests is None else set()

    def end(self, reply):
        word = reply["end"] if "end" in reply else "level" if reply["level"] else "not level"
        is_same = word in ("quiet", "level")
        self.digests = set() if is_same else None
        self.ends[word] += 1
        if is_same and self.unsent:
            raise Wrong(f"it ended {word} and left what the fork wrote at {sorted(self.unsent)}")


class Sweeps:
    """What the answers say of sweeps: one that ends quiet made two turns of each fork of its tree, and leaves one
    digest; and no budget was used up that is enough."""

    def __init__(self):
        self.masters, self.ends, self.turns = {}, Counter(), 0
        self.unseen = set()

    def follow(self, line, replies, _known):
        do, reply = line["do"], replies[0]
        if do == "replicate" and "master" in line:
            self.masters[line["fork"]] = line["master"]
        if do == "sweep":
            self.begin(line, reply)
        elif do == "changes" and line["in"] in self.unseen:
            self.keys.update(it["id"] for it in reply["docs"])
        elif do == "digest" and line["in"] in self.unseen:
            self.unseen.remove(line["in"])
            self.digests.add(reply["digest"])
            if not self.unseen:
                self.judge()
        elif do not in ("changes", "digest"):
            self.unseen = set()

    def begin(self, line, reply):
        self.ends[reply.get("end") or reply["refused"]] += 1
        self.turns += reply.get("turns", 0)
        self.line, self.reply, self.tree = line, reply, {line["name"]} if "ok" in reply else set()
        while more := {fork for fork, master in self.masters.items() if master in self.tree} - self.tree:
            self.tree |= more
        self.unseen, self.keys, self.digests = {*self.tree}, set(), set()

    def judge(self):
        """Once the states and the digests of all its tree are seen."""
        end, turns, at = self.reply["end"], self.reply["turns"], f"line {self.reply['line']}: "
        insist(end in ("quiet", "more", "clock"), f"{at}a sweep ended {end}")
        is_enough = self.line.get("budget", 1_000) > 3 * len(self.keys)
        insist(end != "more" or not is_enough, f"{at}no end with {len(self.keys)} keys")
        if end == "quiet":
            same(turns, 2 * len(self.tree) - 2, f"{at}the turns of a quiet sweep")
            same(len(self.digests), 1, f"{at}the digests after a quiet sweep")


class Noting(Model):
    """Notes the keys of which forks know their own state, by their replications: behind each turn that a line
    makes, and behind the line."""

    def play(self, line):
        self.notes = []
        due = super().play(line)
        self.notes.append(self.known())
        return due

    def make_turn(self, *asked):
        made = super().make_turn(*asked)
        self.notes.append(self.known())
        return made

    def known(self):
        return {name: {key for key in it.fork.docs if self.is_known(key, name)}
                for name, it in self.replications.items() if it.master}

    def tree(self, name):
        """The names of a collection and of all that reach it."""
        return [name, *(self.replications[it].fork.name for it in self.below(name, "down"))]

    def keys_below(self, name):
        return {key for side in self.tree(name) for key in self.sides[side].docs}


class Played(NamedTuple):
    """A line, what it is due to be answered, and the notes behind its turns and behind it."""
    line: dict
    due: list
    notes: list


def played(model, lines):
    """The lines of a run, which the model plays one by one before the next is made."""
    for line in lines:
        due = model.play(line)
        yield Played(line, due, model.notes)


def answers(journal, lines):
    """What the program writes."""
    status, written = command("run", journal, script=text(map(compact, lines)))
    insist(status <= 1, f"the run ended with {status}: {written[-200:]}")
    return written.decode().splitlines()


def compare(run, found, follow):
    """Compares what a run answered, line by line of its script."""
    place = 0
    for number, (line, due, notes) in enumerate(run, 1):
        seen = found[place:place + len(due)]
        place += len(due)
        if seen != due:
            pair = next(((a, b) for a, b in zip(seen, due) if a != b), (seen[-1:], due[-1:]))
            raise Wrong(f"line {number}, {compact(line)}: found {pair[0]}, due {pair[1]}")
        follow(line, seen, notes)
    if found[place:]:
        raise Wrong(f"nothing is due for {found[place]}")


def counted(counts):
    return ", ".join(f"{count:,} {what}" for what, count in sorted(counts.items()))


def parts_of(line, seen, notes):
    """A line with its replies and the note behind it. A sweep comes as its turns first, and then with the rest."""
    replies, behind = [], iter(notes)
    for reply in map(json.loads, seen):
        replies.append(reply)
        if "replication" in reply:
            yield {"do": "turn", "name": reply["replication"]}, replies, next(behind)
            replies = []
    yield line, replies, notes[-1]


def try_run(journal, run, audits):
    """One run, whose answers are due and go to the audits."""
    def follow(*played_line):
        for part in parts_of(*played_line):
            for audit in audits:
                audit.follow(*part)

    compare(run, answers(journal, [it.line for it in run]), follow)


class Course:
    """A script in so many runs, one after another on the same journal, and what was made of its lines."""

    def __init__(self, seed, lines):
        self.numbers, self.how, self.lines = random.Random(seed), HANDLERS[seed % len(HANDLERS)], lines
        self.sweeps, self.audits = Sweeps(), [Audit("r", "f", "m"), Audit("u", "g", "f")]

    def play(self, folder):
        model = Noting()
        for number in range(RUNS):
            model.open()
            run = [*played(model, script(self.numbers, self.how, model, number, self.lines // RUNS))]
            try_run(os.path.join(folder, "journal"), run, [*self.audits, self.sweeps])
        return self


def summed(courses):
    audits = [audit for it in courses for audit in it.audits]

    def all_of(name):
        return counted(sum((getattr(audit, name) for audit in audits), Counter()))

    return (f"{sum(audit.exchanges for audit in audits):,} exchanges, "
            f"{sum(audit.conflicts for audit in audits):,} conflicts; ends: {all_of('ends')}; "
            f"sweeps: {counted(sum((it.sweeps.ends for it in courses), Counter()))}; "
            f"events: {all_of('took')}; "
            f"migrations: {counted(sum((it.audits[0].migrations for it in courses), Counter()))}")


def try_short(seeds, folder):
    courses = []
    for seed in seeds:
        inside = os.path.join(folder, str(seed))
        os.mkdir(inside)
        courses.append(Course(seed, SHORT_LINES).play(inside))
    return summed(courses)


for number in SEEDS:
    add(f"seed {number}, {HANDLERS[number % len(HANDLERS)]['handler']}",
        lambda folder, seed=number: summed([Course(seed, LINES).play(folder)]), seconds=900, in_memory=True)
for at in range(0, len(SHORT_SEEDS), TOGETHER):
    some = SHORT_SEEDS[at:at + TOGETHER]
    add(f"seeds {some[0]} to {some[-1]}, shorter", lambda folder, seeds=some: try_short(seeds, folder), seconds=900,
        in_memory=True)


# ---- trees

TREES = range(1, 41)
TREE_RUNS, TREE_LINES = 2, 120
MOST_SIDES, MOST_DEPTH = 20, 6


def tree_at_random(numbers):
    """The master of each collection of a tree, the root first, which has none; and how deep it is."""
    root, *forks = numbers.sample("abcdefghijklmnopqrst", numbers.randint(2, MOST_SIDES))
    masters, depths = {root: None}, {root: 0}
    for fork in forks:
        below = [side for side, depth in depths.items() if depth < MOST_DEPTH]
        masters[fork] = numbers.choice(below[-numbers.choice([1, 3, MOST_SIDES]):])
        depths[fork] = depths[masters[fork]] + 1
    return masters, max(depths.values())


def joins(numbers, masters):
    """What makes the tree of its collections, in any order. Now and then its root is the fork of a port at which
    nobody is."""
    lines = [{"do": "replicate", "name": f"{fork}-{master}", "fork": fork, "master": master}
             for fork, master in masters.items() if master]
    if numbers.random() < 0.3:
        lines.append({"do": "replicate", "name": "away", "fork": next(iter(masters)), "port": 1})
    return [{**line, **numbers.choice(HANDLERS)} for line in numbers.sample(lines, len(lines))]


def tree_line(numbers, model, sides, keys):
    """A write of any side, or what turns, streams, queries and sweeps make of them."""
    draw, side, query = numbers.randrange(100), numbers.choice(sides), numbers.choice("vwxyz")
    names = [name for name, it in model.replications.items() if it.master]
    if draw < 52 or not names:
        return write(numbers, model.sides[side].rules, side, keys)
    if draw < 55:
        return {"do": "tick", "at": numbers.randrange(3_000)}
    if draw < 57:
        return {"do": "restart"}
    if draw < 64:
        return turn(numbers, names)
    if draw < 70:
        return delivery(numbers, names)
    if draw < 78:
        return {"do": "unstream" if draw == 77 else "stream", "name": numbers.choice(names)}
    if draw < 84:
        return {"do": "unobserve", "name": query} if draw == 83 else {**OBSERVE, "name": query, "in": side}
    return sweep(numbers, numbers.choice([sides[0], side]), model)


def shown_behind(line, model):
    """The states of all that a line may have brought together."""
    if line["do"] == "sweep":
        return all_sides(model.tree(line["name"]))
    if line["do"] in ("turn", "deliver") and (it := model.replications.get(line["name"])):
        return all_sides([it.fork.name, it.master.name])
    return []


def tree_lines(numbers, model, masters, run):
    """One run over a tree, which is made in the first one, while its collections are written. It ends with a sweep
    that has to end quiet; and in the last run another one finds no write time."""
    sides, keys, joining = [*masters], KEYS[:numbers.randint(1, 12)], []

    def swept():
        line = {**sweep(numbers, sides[0], model), "budget": 3 * len(model.keys_below(sides[0])) + 1}
        return [line, *shown_behind(line, model)]

    if run == 0:
        order, joining = numbers.sample(sides, len(sides)), joins(numbers, masters)
        yield from ({"do": "collection", "name": side, "schema": SCHEMA} for side in order)
    for _ in range(TREE_LINES):
        is_joining = joining and numbers.random() < 0.4
        line = joining.pop() if is_joining else tree_line(numbers, model, sides, keys)
        yield from [line, *shown_behind(line, model)]
    yield from joining
    yield from swept()
    if run == TREE_RUNS - 1:
        late = {"do": "upsert", "in": numbers.choice(sides), "doc": {"id": "last"}}
        yield from [{"do": "tick", "at": MAX_TIME}, late, {"do": "tick", "at": 0}]
        yield from (write(numbers, model.sides[side].rules, side, keys) for side in numbers.choices(sides, k=5))
        yield from swept()


def try_tree(seed, journal):
    """What the sweeps came to, how many collections there were, and how deep."""
    numbers, model, sweeps = random.Random(seed), Noting(), Sweeps()
    masters, depth = tree_at_random(numbers)
    audits = [Audit(f"{fork}-{master}", fork, master) for fork, master in masters.items() if master]
    for number in range(TREE_RUNS):
        model.open()
        run = [*played(model, tree_lines(numbers, model, masters, number))]
        try_run(journal, run, [*audits, sweeps])
    return sweeps, len(masters), depth


@case("sweeps of random trees", in_memory=True)
def sweeps_of_random_trees(folder):
    ends, turns, most, deepest = Counter(), 0, 0, 0
    for seed in TREES:
        try:
            sweeps, sides, depth = try_tree(seed, os.path.join(folder, f"journal{seed}"))
        except Wrong as why:
            raise Wrong(f"tree {seed}: {why}") from why
        ends, turns, most, deepest = ends + sweeps.ends, turns + sweeps.turns, max(most, sides), max(deepest, depth)
    insist(ends.keys() == {"quiet", "more", "clock"}, f"sweeps: {counted(ends)}")
    insist((most, deepest) == (MOST_SIDES, MOST_DEPTH), f"{most} collections at most, {deepest} deep")
    return f"{len(TREES)} trees of up to {most} collections, {deepest} deep; sweeps: {counted(ends)}; {turns:,} turns"


# ---- sweeps that are worked out by hand

def tree_of(sides, *forks):
    """Collections, and replications by their names, forks, masters, handlers and fields."""
    names = ("name", "fork", "master", "handler", "field")
    each = [{"do": "replicate", **dict(zip(names, it.split()))} for it in forks]
    return [*map(collection, sides.split()), *map(compact, each)]


def inserted(side, key, number):
    return compact({"do": "insert", "in": side, "doc": {"id": key, "n": number}})


def migrate(side, version, properties, *steps):
    schema = {"version": version, "primaryKey": "id", "type": "object", "properties": properties}
    return compact({"do": "migrate", "in": side, "schema": schema, "steps": steps})


CONFLICT = [*tree_of("m f", "r f m fork_wins"), inserted("m", "a", 1), inserted("f", "a", 2)]
CHAIN = tree_of("m f g", "r f m master_wins", "s g f master_wins")
DROPPED = [*tree_of("m f g", "s g f join", "r f m greater n"), migrate("m", 1, KEY, {"drop": "n"})]
# What the first of them leaves.
JOURNAL_SIZE, JOURNAL_HASH = 1_145, "85ae23ce7ec71749636586a17fca1d0e385bbc7264d7bbc31c95ceb5703f60ea"
# The lines before, of which each is taken, then others, and what these are answered.
BY_HAND = {
    "a document of the last fork": ([*CHAIN, inserted("g", "a", 1)], """
{"do":"sweep","name":"m"}
""", """
{"conflicts":[],"exchange":1,"rows":["a"],"sent":"push"}
{"exchange":2,"place":{"id":"a","lwt":1},"rows":["a"],"sent":"pull"}
{"end":"quiet","exchanges":2,"pass":"up","replication":"s"}
{"conflicts":[],"exchange":1,"rows":["a"],"sent":"push"}
{"exchange":2,"place":{"id":"a","lwt":1},"rows":["a"],"sent":"pull"}
{"end":"quiet","exchanges":2,"pass":"up","replication":"r"}
{"exchange":1,"place":{"id":"a","lwt":1},"rows":[],"sent":"pull"}
{"end":"quiet","exchanges":1,"pass":"down","replication":"r"}
{"exchange":1,"place":{"id":"a","lwt":1},"rows":[],"sent":"pull"}
{"end":"quiet","exchanges":1,"pass":"down","replication":"s"}
{"end":"quiet","line":7,"ok":"sweep","turns":4}
"""),
    "a budget of one exchange too few, and the rest": (CONFLICT, """
{"do":"sweep","name":"m","batch":1,"budget":3}
{"do":"sweep","name":"m","batch":1,"budget":1}
""", """
{"conflicts":["a"],"exchange":1,"rows":["a"],"sent":"push"}
{"conflicts":[],"exchange":2,"rows":["a"],"sent":"push"}
{"exchange":3,"place":{"id":"a","lwt":2},"rows":["a"],"sent":"pull"}
{"end":"more","exchanges":3,"pass":"up","replication":"r"}
{"end":"more","line":6,"ok":"sweep","turns":1}
{"exchange":1,"place":{"id":"a","lwt":2},"rows":[],"sent":"pull"}
{"end":"quiet","exchanges":1,"pass":"up","replication":"r"}
{"exchange":1,"place":{"id":"a","lwt":2},"rows":[],"sent":"pull"}
{"end":"quiet","exchanges":1,"pass":"down","replication":"r"}
{"end":"quiet","line":7,"ok":"sweep","turns":2}
"""),
    "a budget of three exchanges a key and one": (CONFLICT, """
{"do":"sweep","name":"m","batch":1,"budget":4}
""", """
{"conflicts":["a"],"exchange":1,"rows":["a"],"sent":"push"}
{"conflicts":[],"exchange":2,"rows":["a"],"sent":"push"}
{"exchange":3,"place":{"id":"a","lwt":2},"rows":["a"],"sent":"pull"}
{"exchange":4,"place":{"id":"a","lwt":2},"rows":[],"sent":"pull"}
{"end":"quiet","exchanges":4,"pass":"up","replication":"r"}
{"exchange":1,"place":{"id":"a","lwt":2},"rows":[],"sent":"pull"}
{"end":"quiet","exchanges":1,"pass":"down","replication":"r"}
{"end":"quiet","line":6,"ok":"sweep","turns":2}
"""),
    "replications that were made in another order than their forks": (
        [*tree_of("m f1 g1 f2 g2", "a f2 m join", "b g2 f2 join", "c f1 m join", "d g1 f1 join"),
         inserted("g1", "x", 1), inserted("g2", "x", 2)], """
{"do":"sweep","name":"m"}
{"do":"get","in":"g1","key":"x"}
{"do":"get","in":"f2","key":"x"}
""", """
{"conflicts":[],"exchange":1,"rows":["x"],"sent":"push"}
{"exchange":2,"place":{"id":"x","lwt":1},"rows":["x"],"sent":"pull"}
{"end":"quiet","exchanges":2,"pass":"up","replication":"d"}
{"conflicts":[],"exchange":1,"rows":["x"],"sent":"push"}
{"exchange":2,"place":{"id":"x","lwt":1},"rows":["x"],"sent":"pull"}
{"end":"quiet","exchanges":2,"pass":"up","replication":"c"}
{"conflicts":[],"exchange":1,"rows":["x"],"sent":"push"}
{"exchange":2,"place":{"id":"x","lwt":1},"rows":["x"],"sent":"pull"}
{"end":"quiet","exchanges":2,"pass":"up","replication":"b"}
{"conflicts":["x"],"exchange":1,"rows":["x"],"sent":"push"}
{"conflicts":[],"exchange":2,"rows":["x"],"sent":"push"}
{"exchange":3,"place":{"id":"x","lwt":2},"rows":["x"],"sent":"pull"}
{"end":"quiet","exchanges":3,"pass":"up","replication":"a"}
{"exchange":1,"place":{"id":"x","lwt":2},"rows":["x"],"sent":"pull"}
{"end":"quiet","exchanges":1,"pass":"down","replication":"c"}
{"exchange":1,"place":{"id":"x","lwt":2},"rows":["x"],"sent":"pull"}
{"end":"quiet","exchanges":1,"pass":"down","replication":"d"}
{"exchange":1,"place":{"id":"x","lwt":2},"rows":[],"sent":"pull"}
{"end":"quiet","exchanges":1,"pass":"down","replication":"a"}
{"exchange":1,"place":{"id":"x","lwt":2},"rows":["x"],"sent":"pull"}
{"end":"quiet","exchanges":1,"pass":"down","replication":"b"}
{"end":"quiet","line":12,"ok":"sweep","turns":8}
{"doc":{"id":"x","n":2},"line":13,"lwt":2,"ok":"get","rev":"2-g1"}
{"doc":{"id":"x","n":2},"line":14,"lwt":2,"ok":"get","rev":"2-f2"}
"""),
    "forks that were made against their names, and before the root": (
        tree_of("z y x w m", "xm x m join", "zm z m join", "yx y x join", "wz w z join"), """
{"do":"sweep","name":"m"}
{"do":"sweep","name":"x"}
{"do":"sweep","name":"y"}
""", """
{"exchange":1,"rows":[],"sent":"pull"}
{"end":"quiet","exchanges":1,"pass":"up","replication":"wz"}
{"exchange":1,"rows":[],"sent":"pull"}
{"end":"quiet","exchanges":1,"pass":"up","replication":"zm"}
{"exchange":1,"rows":[],"sent":"pull"}
{"end":"quiet","exchanges":1,"pass":"up","replication":"yx"}
{"exchange":1,"rows":[],"sent":"pull"}
{"end":"quiet","exchanges":1,"pass":"up","replication":"xm"}
{"exchange":1,"rows":[],"sent":"pull"}
{"end":"quiet","exchanges":1,"pass":"down","replication":"zm"}
{"exchange":1,"rows":[],"sent":"pull"}
{"end":"quiet","exchanges":1,"pass":"down","replication":"wz"}
{"exchange":1,"rows":[],"sent":"pull"}
{"end":"quiet","exchanges":1,"pass":"down","replication":"xm"}
{"exchange":1,"rows":[],"sent":"pull"}
{"end":"quiet","exchanges":1,"pass":"down","replication":"yx"}
{"end":"quiet","line":10,"ok":"sweep","turns":8}
{"exchange":1,"rows":[],"sent":"pull"}
{"end":"quiet","exchanges":1,"pass":"up","replication":"yx"}
{"exchange":1,"rows":[],"sent":"pull"}
{"end":"quiet","exchanges":1,"pass":"down","replication":"yx"}
{"end":"quiet","line":11,"ok":"sweep","turns":2}
{"end":"quiet","line":12,"ok":"sweep","turns":0}
"""),
    "streams, which hear what a sweep writes": (CHAIN, """
{"do":"stream","name":"r"}
{"do":"stream","name":"s"}
{"do":"insert","in":"m","doc":{"id":"a"}}
{"do":"insert","in":"g","doc":{"id":"b"}}
{"do":"sweep","name":"m"}
{"do":"deliver","name":"r"}
{"do":"deliver","name":"s"}
""", """
{"line":6,"ok":"stream"}
{"line":7,"ok":"stream"}
{"line":8,"ok":"insert","rev":"1-m"}
{"line":9,"ok":"insert","rev":"1-g"}
{"conflicts":[],"exchange":1,"rows":["b"],"sent":"push"}
{"exchange":2,"place":{"id":"b","lwt":1},"rows":["b"],"sent":"pull"}
{"end":"quiet","exchanges":2,"pass":"up","replication":"s"}
{"conflicts":[],"exchange":1,"rows":["b"],"sent":"push"}
{"exchange":2,"place":{"id":"b","lwt":2},"rows":["a","b"],"sent":"pull"}
{"end":"quiet","exchanges":2,"pass":"up","replication":"r"}
{"exchange":1,"place":{"id":"b","lwt":2},"rows":[],"sent":"pull"}
{"end":"quiet","exchanges":1,"pass":"down","replication":"r"}
{"exchange":1,"place":{"id":"a","lwt":2},"rows":["a"],"sent":"pull"}
{"end":"quiet","exchanges":1,"pass":"down","replication":"s"}
{"end":"quiet","line":10,"ok":"sweep","turns":4}
{"event":1,"rows":["a"],"took":"old"}
{"event":2,"rows":["b"],"took":"old"}
{"level":true,"line":11,"ok":"deliver","resync":false}
{"event":1,"rows":["b"],"took":"old"}
{"event":2,"rows":["a"],"took":"old"}
{"level":true,"line":12,"ok":"deliver","resync":false}
"""),
    "a master without a write time": (CHAIN, """
{"do":"tick","at":9007199254740991}
{"do":"insert","in":"m","doc":{"id":"a"}}
{"do":"tick","at":5}
{"do":"insert","in":"g","doc":{"id":"b"}}
{"do":"sweep","name":"m"}
{"do":"get","in":"f","key":"b"}
""", """
{"line":6,"ok":"tick"}
{"line":7,"ok":"insert","rev":"1-m"}
{"line":8,"ok":"tick"}
{"line":9,"ok":"insert","rev":"1-g"}
{"conflicts":[],"exchange":1,"rows":["b"],"sent":"push"}
{"exchange":2,"place":{"id":"b","lwt":5},"rows":["b"],"sent":"pull"}
{"end":"quiet","exchanges":2,"pass":"up","replication":"s"}
{"end":"clock","exchanges":0,"pass":"up","replication":"r"}
{"end":"clock","line":10,"ok":"sweep","turns":2}
{"doc":{"id":"b"},"line":11,"lwt":5,"ok":"get","rev":"1-f"}
"""),
    "a request of a sweep that comes late": ([*tree_of("m f", "r f m join"), inserted("f", "a", 1)], """
{"do":"sweep","name":"m"}
{"do":"patch","in":"f","key":"a","set":{"n":2}}
{"do":"sweep","name":"m"}
{"do":"patch","in":"m","key":"a","set":{"n":1}}
{"do":"turn","name":"r","link":[{"late":3}]}
{"do":"get","in":"m","key":"a"}
""", """
{"conflicts":[],"exchange":1,"rows":["a"],"sent":"push"}
{"exchange":2,"place":{"id":"a","lwt":1},"rows":["a"],"sent":"pull"}
{"end":"quiet","exchanges":2,"pass":"up","replication":"r"}
{"exchange":1,"place":{"id":"a","lwt":1},"rows":[],"sent":"pull"}
{"end":"quiet","exchanges":1,"pass":"down","replication":"r"}
{"end":"quiet","line":5,"ok":"sweep","turns":2}
{"line":6,"ok":"patch","rev":"2-f"}
{"conflicts":[],"exchange":1,"rows":["a"],"sent":"push"}
{"exchange":2,"place":{"id":"a","lwt":2},"rows":["a"],"sent":"pull"}
{"end":"quiet","exchanges":2,"pass":"up","replication":"r"}
{"exchange":1,"place":{"id":"a","lwt":2},"rows":[],"sent":"pull"}
{"end":"quiet","exchanges":1,"pass":"down","replication":"r"}
{"end":"quiet","line":7,"ok":"sweep","turns":2}
{"line":8,"ok":"patch","rev":"3-m"}
{"exchange":1,"place":{"id":"a","lwt":4},"rows":["a"],"sent":"pull"}
{"end":"quiet","exchanges":1,"line":9,"ok":"turn"}
{"doc":{"id":"a","n":2},"line":10,"lwt":4,"ok":"get","rev":"4-m"}
"""),
    "a handler whose field a migration took": (DROPPED, """
{"do":"turn","name":"r"}
{"do":"sweep","name":"m"}
{"do":"sweep","name":"f"}
""", """
{"code":19,"line":7,"refused":"no_handler"}
{"exchange":1,"rows":[],"sent":"pull"}
{"end":"quiet","exchanges":1,"pass":"up","replication":"s"}
{"exchange":1,"rows":[],"sent":"pull"}
{"end":"quiet","exchanges":1,"pass":"up","replication":"r"}
{"exchange":1,"rows":[],"sent":"pull"}
{"end":"quiet","exchanges":1,"pass":"down","replication":"r"}
{"exchange":1,"rows":[],"sent":"pull"}
{"end":"quiet","exchanges":1,"pass":"down","replication":"s"}
{"end":"quiet","line":8,"ok":"sweep","turns":4}
{"exchange":1,"rows":[],"sent":"pull"}
{"end":"quiet","exchanges":1,"pass":"up","replication":"s"}
{"exchange":1,"rows":[],"sent":"pull"}
{"end":"quiet","exchanges":1,"pass":"down","replication":"s"}
{"end":"quiet","line":9,"ok":"sweep","turns":2}
"""),
    "a handler whose field came back": ([*DROPPED, migrate("g", 2, SCHEMA["properties"])], """
{"do":"sweep","name":"m"}
""", """
{"exchange":1,"rows":[],"sent":"pull"}
{"end":"quiet","exchanges":1,"pass":"up","replication":"s"}
{"exchange":1,"rows":[],"sent":"pull"}
{"end":"quiet","exchanges":1,"pass":"up","replication":"r"}
{"exchange":1,"rows":[],"sent":"pull"}
{"end":"quiet","exchanges":1,"pass":"down","replication":"r"}
{"exchange":1,"rows":[],"sent":"pull"}
{"end":"quiet","exchanges":1,"pass":"down","replication":"s"}
{"end":"quiet","line":8,"ok":"sweep","turns":4}
"""),
}


@case("sweeps that are worked out by hand")
def sweeps_by_hand(folder):
    for number, (what, (before, lines, due)) in enumerate(BY_HAND.items()):
        journal, script = os.path.join(folder, f"journal{number}"), text([*before, *lines.strip().splitlines()])
        found = command("run", journal, script=script)[1].decode().splitlines()
        same([it for it in found[:len(before)] if '"ok":' not in it], [], f"{what}: refused before it")
        for reply, it in zip_longest(found[len(before):], due.strip().splitlines()):
            insist(reply == it, f"{what}: found {reply}, due {it}")
        if number == 0:
            left = content(journal)
            same((len(left), hashlib.sha256(left).hexdigest()), (JOURNAL_SIZE, JOURNAL_HASH), "the journal")
    return f"{len(BY_HAND)} scripts are answered as it stands there"


# ---- commits of many documents

def many_lines(numbers):
    """What is written to a master at once or line after line, delivered over a link, and now and then a turn."""
    yield from ({"do": "collection", "name": name, "schema": SCHEMA} for name in "mf")
    yield {"do": "replicate", "name": "r", "fork": "f", "master": "m", "handler": "master_wins"}
    yield {"do": "stream", "name": "r"}
    for round_ in range(16):
        keys = [f"k{round_}-{n}" for n in range(numbers.choice([1, 2, 99, 100, 101, 199, 200, 201, 350]))]
        if numbers.random() < 0.6:
            yield {"do": "bulk", "in": "m", "docs": [{"id": key, "n": numbers.randrange(3)} for key in keys]}
        else:
            yield from ({"do": "insert", "in": "m", "doc": {"id": key}} for key in keys[:80])
        link = [numbers.choice(["ok", "ok", "ok", *DELIVERIES]) for _ in range(numbers.randint(0, 4))]
        yield from [{"do": "deliver", "name": "r", "link": link}, *all_sides("mf")]
        if numbers.random() < 0.6:
            yield from [{"do": "turn", "name": "r", "budget": numbers.randint(2, 8)}, *all_sides("mf")]
    yield from [{"do": "turn", "name": "r"}, *all_sides("mf"), {"do": "deliver", "name": "r"}, *all_sides("mf")]


@case("commits of many documents")
def commits_of_many(folder):
    """Each is several events, and those that may wait are few."""
    audit = Audit("r", "f", "m")
    for seed in range(10):
        model = Noting()
        model.open()
        run = [*played(model, many_lines(random.Random(seed)))]
        try_run(os.path.join(folder, f"journal{seed}"), run, [audit])
    insist(audit.ends["level"] >= 10, f"ends: {counted(audit.ends)}")
    return f"ends: {counted(audit.ends)}; events: {counted(audit.took)}"


# ---- a group

FORKS = {"f": "m", "g": "m", "h": "f"}
NEXT = {**SCHEMA, "version": 1, "required": ["b", "id"],
        "properties": {**KEY, "b": HOME["b"], "v": HOME["n"], "u": {"type": "string", "maxLength": 9}}}
STEPS = [{"rename": "n", "to": "v"}, {"scale": "v", "by": 10}, {"rename": "t", "to": "u"},
         {"set": "b", "value": True}]


def group_lines(numbers):
    """Each fork pulls what all share, edits a document of these, removes one and has one of its own. Then the
    group migrates, and two turns of each replication, from the leaves and back, bring all together. No handler
    goes by a field, which the steps might take."""
    turns = [{"do": "turn", "name": f"{fork}-{master}"} for fork, master in FORKS.items()]
    yield from ({"do": "collection", "name": name, "schema": SCHEMA} for name in "mfgh")
    for fork, master in FORKS.items():
        how = numbers.choice(["master_wins", "fork_wins", "join"])
        yield {"do": "replicate", "name": f"{fork}-{master}", "fork": fork, "master": master, "handler": how}
    shared = [f"{what}-{side}" for side in "mfgh" for what in ("edited", "removed")]
    yield from ({"do": "upsert", "in": "m", "doc": {"id": key, "n": 1, "t": "m"}} for key in shared)
    yield from turns
    for side in "mfgh":
        yield {"do": "patch", "in": side, "key": f"edited-{side}", "set": {"n": 2, "t": side}}
        yield {"do": "remove", "in": side, "key": f"removed-{side}"}
        yield {"do": "insert", "in": side, "doc": {"id": f"of-{side}", "n": 3}}
    yield {"do": "migrate", "in": numbers.choice("mfgh"), "schema": NEXT, "steps": STEPS}
    yield from [*turns[::-1], *turns]
    yield from ({"do": "changes", "in": side} for side in "mfgh")
    yield from ({"do": "digest", "in": side} for side in "mfgh")


def state(key, number, word=None, deleted=False):
    """As a write left it, before the steps."""
    return {"_deleted": deleted, "id": key, "n": number, **({"t": word} if word else {})}


@case("a group of a master and three forks")
def a_group_of_forks(folder):
    """What each side wrote before the migration is on all sides in the end, as the steps made it."""
    due = [it for side in "mfgh" for it in (state(f"edited-{side}", 2, side), state(f"of-{side}", 3),
                                            state(f"removed-{side}", 1, "m", True))]
    due = sorted((migrated(STEPS, it) for it in due), key=compact)
    for seed in range(10):
        model, journal = Model(), os.path.join(folder, f"journal{seed}")
        model.open()
        run, replies = [], []
        for line in group_lines(random.Random(seed)):
            run.append(Played(line, model.play(line), []))
        compare(run, answers(journal, [it.line for it in run]),
                lambda line, seen, _notes: replies.append((line, json.loads(seen[-1]))))
        ends = [reply["end"] for line, reply in replies if line["do"] == "turn"]
        same(ends, ["quiet"] * 9, f"seed {seed}: the turns")
        migrations = [reply for line, reply in replies if line["do"] == "migrate"]
        same([it.get("collections") for it in migrations], [[*"mfgh"]], f"seed {seed}: the group")
        for reply in (reply for line, reply in replies if line["do"] == "changes"):
            same(sorted(reply["docs"], key=compact), due, f"seed {seed}: the documents")
        digests = {reply["digest"] for line, reply in replies if line["do"] == "digest"}
        same(len(digests), 1, f"seed {seed}: the digests")
    return f"{seed + 1} times all {len(due)} documents are on all sides, as the steps made them"


if __name__ == "__main__":
    main()
