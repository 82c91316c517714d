"""The client for threads."""
from __future__ import annotations

import os
import subprocess
import threading
from collections.abc import Iterable, Iterator, Sequence
from typing import Any, TypeVar

from . import calls, program as programs
from .calls import Call, Changes, Delivery, Digest, Document, Fields, Hook, Json, Object, Stored, Sweep, Turn
from .faults import Refused, Stopped
from .following import Account, SyncStatus
from .lines import Answer, Clock, Lines, Newest, closed, now

T = TypeVar("T")


def open(
    journal: str | os.PathLike[str],
    *,
    program: str | None = None,
    max_journal: int | None = None,
    clock: Clock | None = now,
) -> Database:
    """Opens a journal, which is made where there is none, or raises `Stopped` with why it can't be.

    The program is `program`, or what RX names in the environment, or `rx` on the path. Writes have the
    moment that `clock` tells in milliseconds; without one, as after `tick`, that is the caller's.
    """
    return Database(os.fspath(journal), program, max_journal, clock)


class Slot:
    """Where one thread waits for one answer."""

    def __init__(self) -> None:
        self._lock = threading.Lock()
        self._lock.acquire()
        self._reply: Json = {}
        self._fault: Exception | None = None

    def answer(self, reply: Json, fault: Exception | None) -> None:
        self._reply, self._fault = reply, fault
        self._lock.release()

    def wait(self) -> Json:
        self._lock.acquire()
        if self._fault is not None:
            raise self._fault
        return self._reply


class Database:
    """A program over a journal. Threads may share it: each waits for the answer of its own call."""

    def __init__(
        self, journal: str, program: str | None, max_journal: int | None, clock: Clock | None
    ) -> None:
        self.journal = journal
        self._lines = Lines(clock)
        self._writing = threading.Lock()
        words = programs.words(journal, program, max_journal)
        try:
            # In a session of its own a Ctrl-C at the terminal is this process's to answer.
            self._child = subprocess.Popen(
                words, stdin=subprocess.PIPE, stdout=subprocess.PIPE, start_new_session=True
            )
        except OSError as fault:
            raise Stopped("start", None, str(fault)) from fault
        assert self._child.stdin and self._child.stdout
        self._stdin, self._stdout = self._child.stdin, self._child.stdout
        self._opened = False
        self._reader = threading.Thread(target=self._read, name="rx", daemon=True)
        self._reader.start()
        try:
            self.ask(self._lines.first())
        except BaseException:
            self.close()
            raise
        self._opened = True

    def __enter__(self) -> Database:
        return self

    def __exit__(self, *_: object) -> None:
        self.close()

    def collection(
        self,
        name: str,
        schema: Object | None = None,
        hooks: Iterable[Hook] = (),
        *,
        steps: Iterable[Object] | None = None,
    ) -> Collection:
        """The collection of this name, made where it isn't there. Without a schema nothing is asked.

        The hooks, each its `when`, its name and its field, stand before its writes, in their order, as long as
        the journal is open here and it doesn't migrate.

        With `steps` it migrates where the schema that is held is of the version before, and opens where it is
        this one; another version is refused as `migration`. What is said of `migrate` holds then. Nothing else
        should write to it before this returns.
        """
        new = None if schema is None else self._hold(name, schema, steps)
        collection = Collection(self, name, new)
        for hook in self._lines.hooks_of(name, hooks):
            collection.hook(*hook)
        return collection

    def _hold(self, name: str, schema: Object, steps: Iterable[Object] | None) -> bool:
        """Whether the collection was made just now."""
        held = calls.collection(name, schema)
        try:
            return self.ask(held)
        except Refused as refused:
            if refused.word != "schema_differs" or steps is None:
                raise
        try:
            self.migrate(name, schema, steps)
        except Refused as refused:
            # It may have gone there meanwhile, with another collection.
            if refused.cause != "version" or not self._is_taken(held):
                raise
        return False

    def _is_taken(self, call: Call[Any]) -> bool:
        try:
            self.ask(call)
        except Refused:
            return False
        return True

    def migrate(self, collection: str, schema: Object, steps: Iterable[Object]) -> list[str]:
        """Takes a collection, with all that local replications join to it over any number of them, to the next
        version of its schema by steps, and answers their names. All of them go, with what is still to be
        pushed, or none.

        A step is `{"rename": field, "to": field}`, `{"set": field, "value": value}` where it is missing,
        `{"drop": field}` or `{"scale": field, "by": number}`. Queries of theirs that are observed have to be
        closed before, or it is refused as `observed`. Their hooks are gone behind it, and are to be given anew.
        """
        return self.ask(calls.migrate(collection, schema, steps))

    def replicate(
        self,
        name: str,
        fork: str,
        master: str | None = None,
        *,
        handler: str,
        port: int | None = None,
        field: str | None = None,
    ) -> None:
        """Makes a collection the fork of a master: another collection, or one that is served at a port."""
        self._lines.followed.sides[name] = fork, master
        self.ask(calls.replicate(name, fork, master, handler, port, field))

    def turn(
        self,
        name: str,
        *,
        batch: int | None = None,
        budget: int | None = None,
        link: Sequence[Any] | None = None,
    ) -> Turn:
        """Syncs a fork with its master, exchange after exchange."""
        return self.ask(calls.turn(name, batch, budget, link))

    def sweep(self, root: str, *, batch: int | None = None, budget: int | None = None) -> Sweep:
        """Brings a collection, its forks and theirs together: a turn for each of their replications on the way up
        to it and one on the way down, until one isn't quiet. Its answer has those that were made."""
        return self.ask(calls.sweep(root, batch, budget))

    def stream(self, name: str) -> None:
        """Has what is written to a fork's master, of the same journal, wait for the fork from now on."""
        self.ask(calls.stream(name))

    def deliver(self, name: str, *, link: Sequence[str] | None = None) -> Delivery:
        """Gives a fork what waits for it, event after event. Where `resync` is true a turn is due."""
        return self.ask(calls.deliver(name, link))

    def unstream(self, name: str) -> None:
        """Ends a stream, with what waits."""
        self.ask(calls.unstream(name))

    def follow(
        self,
        name: str,
        *,
        every: float = 1.0,
        longest: float = 30.0,
        batch: int | None = None,
        budget: int | None = 100,
    ) -> Following:
        """Keeps a fork in sync until it is closed, by turns and deliveries in a thread of its own.

        A turn comes at once and after each write to the fork, and a delivery after each write to its master. Of
        one elsewhere a turn comes `every` so many seconds in its place, and after turns that were lost the waits
        grow, up to `longest`. All other calls wait for a turn, of at most `budget` exchanges.
        """
        return Following(self, name, Account(every, longest, batch), batch, budget)

    def explain(self, name: str) -> Json:
        """What an observed query heard since it was observed."""
        return self.ask(calls.explain(name))

    def tick(self, at: int) -> None:
        """Sets the present moment, which write times are made of. From then on the clock doesn't."""
        self.ask(calls.tick(at))

    def restart(self) -> int:
        """Opens the journal again, and answers the number of the epoch that begins."""
        return self.ask(calls.restart())

    def call(self, request: Object) -> Json:
        """Writes any request and answers its reply."""
        return self.ask(calls.any_call(request))

    def line(self, text: str) -> Json:
        """Writes a line as it stands and answers its reply, which is empty for a blank one."""
        return self.ask(calls.any_line(text))

    def close(self) -> None:
        """Ends the program once all lines are answered."""
        for it in list(self._lines.followed.by_name.values()):
            it.end(None)
        with self._writing:
            self._end()
        self._reader.join()

    def ask(self, call: Call[T]) -> T:
        """Writes a line and waits for its answer."""
        return call.take(self.begin(call).wait())

    def begin(self, call: Call[Any]) -> Slot:
        """Writes a line. Its answer may be waited for later."""
        slot = Slot()
        self._write(call, slot.answer)
        return slot

    def _write(self, call: Call[Any], answer: Answer) -> None:
        with self._writing:
            try:
                self._stdin.write(self._lines.write(call, answer))
                self._stdin.flush()
            except OSError:
                pass  # the program has ended, and the reader tells
            except KeyboardInterrupt:
                self._end()  # a part of the line may be written, so none can follow it
                raise

    def _end(self) -> None:
        if self._lines.stopped is None:
            self._lines.stopped = closed
        try:
            self._stdin.close()
        except OSError:
            pass

    # Only this thread reads, so that the program never waits for a thread that writes to it.
    def _read(self) -> None:
        said = ""
        while data := os.read(self._stdout.fileno(), 1 << 16):
            try:
                self._lines.take(data)
            except (ValueError, KeyError, TypeError):
                said = repr(data[:200])
                self._child.kill()
                break
        self._stdout.close()
        status = self._child.wait()
        in_use = not self._opened and programs.is_in_use(self.journal)
        if said:
            self._lines.finish(None, "output", said)
        else:
            self._lines.finish(status, "ended", self.journal, in_use)


class Collection:
    def __init__(self, db: Database, name: str, new: bool | None) -> None:
        self._db = db
        self.name = name
        self.new = new

    def insert(self, doc: Fields) -> str:
        """Puts in a document whose key isn't live, and answers its revision."""
        return self._db.ask(calls.insert(self.name, doc))

    def bulk(self, docs: Iterable[Fields]) -> list[str]:
        """Inserts all of these or none, and answers their revisions."""
        return self._db.ask(calls.bulk(self.name, docs))

    def upsert(self, doc: Fields) -> str:
        """Inserts a document, or replaces all fields of the one with its key."""
        return self._db.ask(calls.upsert(self.name, doc))

    def patch(self, key: str, set: Fields, rev: str | None = None) -> str:
        """Sets fields of a document, and where a revision is given only of that one."""
        return self._db.ask(calls.patch(self.name, key, set, rev))

    def update(self, key: str, update: Object, rev: str | None = None) -> str:
        """Changes a document by operators, {"$inc": {"n": 1}}, and where a revision is given only of that one."""
        return self._db.ask(calls.update(self.name, key, update, rev))

    def remove(self, key: str, rev: str | None = None) -> str:
        return self._db.ask(calls.remove(self.name, key, rev))

    def hook(self, when: str, hook: str, field: str) -> None:
        """Has a hook stand before such writes, `insert`, `save` or `remove`, behind those that do."""
        self._db.ask(calls.hook(self.name, when, hook, field))

    def get(self, key: str) -> Stored:
        """The document of a key, with its write time and revision."""
        return self._db.ask(calls.get(self.name, key))

    def find(self, query: Object | None = None) -> list[Document]:
        return self._db.ask(calls.find(self.name, query))

    def count(self, query: Object | None = None) -> int:
        return self._db.ask(calls.count(self.name, query))

    def changes(self, since: Object | None = None, batch: int | None = None) -> Changes:
        """What was written last to each key above a place, in the order of writing, tombstones too."""
        return self._db.ask(calls.changes(self.name, since, batch))

    def digest(self) -> Digest:
        """One text that tells the states of all documents from others, and how many they are."""
        return self._db.ask(calls.digest(self.name))

    def observe(self, query: Object | None = None, name: str | None = None) -> Observed:
        """The query's result, now and after each change, until it is closed."""
        return Observed(self._db, name or self._db._lines.new_name(), self.name, query)


class Observed:
    """An iterator of results, each whole. It waits for the next one, which another thread's write may bring.

    Of those that came meanwhile it gives the newest, and the rows are its caller's own.
    """

    def __init__(self, db: Database, name: str, into: str, query: Object | None) -> None:
        self._db = db
        self.name = name
        self._heard = threading.Condition()
        self._newest = Newest()
        slot = Slot()

        def begun(reply: Json, fault: Exception | None) -> None:
            if fault is None:
                db._lines.watch(name, self)
            slot.answer(reply, fault)

        db._write(calls.observe(name, into, query), begun)
        slot.wait()

    def __enter__(self) -> Observed:
        return self

    def __exit__(self, *_: object) -> None:
        self.close()

    def __iter__(self) -> Iterator[list[Document]]:
        return self

    def __next__(self) -> list[Document]:
        rows = self.next()
        if rows is None:
            raise StopIteration
        return rows

    def next(self, timeout: float | None = None) -> list[Document] | None:
        """The next result, or None where no more come. Where none comes in so many seconds, TimeoutError."""
        with self._heard:
            if not self._heard.wait_for(self._newest.is_due, timeout):
                raise TimeoutError("no emission")
            return self._newest.take()

    def changed(self) -> list[Document] | None:
        """The result by all that is answered by now, or None where it is the one that was given last."""
        if not self._newest.over:
            self.explain()  # emissions come before this answer
        with self._heard:
            return self._newest.take() if self._newest.is_due() else None

    def rows(self) -> list[Document]:
        """The result by all that is answered by now, given before or not."""
        if not self._newest.over:
            self.explain()
        with self._heard:
            return self._newest.rows()

    def explain(self) -> Json:
        """What the query heard since it was observed."""
        return self._db.explain(self.name)

    def close(self) -> None:
        def over(_reply: Json, _fault: Exception | None) -> None:
            self._db._lines.unwatch(self.name)
            self.end(None)

        try:
            if not self._newest.over:
                self._db._write(calls.unobserve(self.name), over)
        except Stopped:
            pass

    def hear(self, rows: list[Document]) -> None:
        with self._heard:
            self._newest.hear(rows)
            self._heard.notify_all()

    def end(self, fault: Exception | None) -> None:
        with self._heard:
            self._newest.end(fault)
            self._heard.notify_all()


class Following:
    """A fork that is kept in sync, and an iterator of how it stands, which waits until that changes."""

    def __init__(
        self, db: Database, name: str, account: Account, batch: int | None, budget: int | None
    ) -> None:
        if name in db._lines.followed.by_name:
            raise ValueError(f"{name} is followed already")
        self.name = name
        self._db, self._account = db, account
        self._batch, self._budget = batch, budget
        self._heard = threading.Condition()
        self._told: SyncStatus | None = None
        self._hurries = self._over = self._has_stream = False
        self._fault: Exception | None = None
        if db._lines.followed.is_elsewhere(name):
            account.is_streamed = False
        db._lines.followed.by_name[name] = self
        threading.Thread(target=self._run, name=f"rx {name}", daemon=True).start()

    def __enter__(self) -> Following:
        return self

    def __exit__(self, *_: object) -> None:
        self.close()

    def __iter__(self) -> Iterator[SyncStatus]:
        return self

    def __next__(self) -> SyncStatus:
        status = self.next()
        if status is None:
            raise StopIteration
        return status

    def next(self, timeout: float | None = None) -> SyncStatus | None:
        """How it stands once that isn't what was told last, or None after the end. What ended it is raised."""
        with self._heard:
            if not self._heard.wait_for(lambda: self._over or self._account.now != self._told, timeout):
                raise TimeoutError("it stands as it stood")
            if self._account.now != self._told:
                self._told = self._account.now
                return self._told
            fault, self._fault = self._fault, None
        if fault is not None:
            raise fault
        return None

    @property
    def status(self) -> SyncStatus:
        """How it stands now."""
        return self._account.now

    def now(self) -> None:
        """Makes a turn at once, whatever was lost before."""
        with self._heard:
            self._account.hurry()
            self._hurries = True
            self._heard.notify_all()

    def close(self) -> None:
        self.end(None)
        self._leave()

    def wrote(self, keys: Iterable[object]) -> None:
        with self._heard:
            self._account.wrote(keys)
            self._hurries = self._hurries or self._account.now.state != "offline"
            self._heard.notify_all()

    def turned(self, turn: Json) -> None:
        with self._heard:
            self._account.turned(turn)
            self._heard.notify_all()

    def delivered(self, delivery: Json) -> None:
        with self._heard:
            self._account.delivered(delivery)
            self._hurries = self._hurries or not delivery["level"]
            self._heard.notify_all()

    def end(self, fault: Exception | None) -> None:
        with self._heard:
            if not self._over:
                self._over, self._fault = True, fault
                self._db._lines.followed.by_name.pop(self.name, None)
            self._heard.notify_all()

    def _run(self) -> None:
        while not self._over:
            self._hurries = False
            try:
                is_more = self._step()
            except (Refused, Stopped) as fault:
                self.end(fault)
                break
            with self._heard:
                wait = 0 if is_more else self._account.wait()
                self._heard.wait_for(lambda: self._over or self._hurries, wait)
        self._leave()

    def _step(self) -> bool:
        """A turn or a delivery. Whether another one comes at once."""
        account = self._account
        if account.is_streamed is None:
            account.is_streamed = self._open_stream()
        if account.takes_turn():
            return account.after(self._db.turn(self.name, batch=self._batch, budget=self._budget))
        try:
            return not self._db.deliver(self.name).level
        except Refused as refused:
            if refused.word != "no_stream":
                raise
        account.lost_stream()
        self._has_stream = False
        return True

    def _open_stream(self) -> bool:
        """Whether there is one: a master elsewhere has none. One that is open already stays so at the end."""
        try:
            self._db.stream(self.name)
            self._has_stream = True
        except Refused as refused:
            if refused.word not in ("exists", "remote"):
                raise
            return refused.word == "exists"
        return True

    def _leave(self) -> None:
        """Ends the stream that was opened here."""
        with self._heard:
            has_stream, self._has_stream = self._has_stream, False
        try:
            if has_stream:
                self._db.unstream(self.name)
        except (Refused, Stopped):
            pass  # it is over already
