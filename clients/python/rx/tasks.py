"""The client for asyncio: the calls of rx.database as coroutines."""
from __future__ import annotations

import asyncio
import os
from collections.abc import AsyncIterator, Generator, Iterable, Sequence
from typing import Any, TypeVar

from . import calls, program as programs
from .calls import Call, Changes, Delivery, Digest, Document, Fields, Hook, Json, Object, Stored, Sweep, Turn
from .faults import Refused, Stopped
from .following import Account, SyncStatus
from .lines import Answer, Clock, Lines, Newest, closed, now

T = TypeVar("T")
NOT_OPEN = (
    "it isn't open: `async with rx.open_async(..) as db`, "
    "or `db = await rx.open_async(..)` and later `await db.close()`"
)


def open_async(
    journal: str | os.PathLike[str],
    *,
    program: str | None = None,
    max_journal: int | None = None,
    clock: Clock | None = now,
) -> AsyncDatabase:
    """A database that is opened by `async with` or `await`, as `open` does it."""
    return AsyncDatabase(os.fspath(journal), program, max_journal, clock)


class AsyncDatabase:
    """A program over a journal, which tasks may share. A line waits until the program takes those before."""

    def __init__(
        self, journal: str, program: str | None, max_journal: int | None, clock: Clock | None
    ) -> None:
        self.journal = journal
        self._program, self._max_journal = program, max_journal
        self._lines = Lines(clock)
        self._writing = asyncio.Lock()
        self._child: asyncio.subprocess.Process | None = None
        self._opened = False

    def __await__(self) -> Generator[Any, None, AsyncDatabase]:
        return self._open().__await__()

    async def __aenter__(self) -> AsyncDatabase:
        return await self._open()

    async def __aexit__(self, *_: object) -> None:
        await self.close()

    async def collection(
        self,
        name: str,
        schema: Object | None = None,
        hooks: Iterable[Hook] = (),
        *,
        steps: Iterable[Object] | None = None,
    ) -> AsyncCollection:
        self._insist_on_open()
        new = None if schema is None else await self._hold(name, schema, steps)
        collection = AsyncCollection(self, name, new)
        for hook in self._lines.hooks_of(name, hooks):
            await collection.hook(*hook)
        return collection

    async def _hold(self, name: str, schema: Object, steps: Iterable[Object] | None) -> bool:
        held = calls.collection(name, schema)
        try:
            return await self.ask(held)
        except Refused as refused:
            if refused.word != "schema_differs" or steps is None:
                raise
        try:
            await self.migrate(name, schema, steps)
        except Refused as refused:
            if refused.cause != "version" or not await self._is_taken(held):
                raise
        return False

    async def _is_taken(self, call: Call[Any]) -> bool:
        try:
            await self.ask(call)
        except Refused:
            return False
        return True

    async def migrate(self, collection: str, schema: Object, steps: Iterable[Object]) -> list[str]:
        return await self.ask(calls.migrate(collection, schema, steps))

    async def replicate(
        self,
        name: str,
        fork: str,
        master: str | None = None,
        *,
        handler: str,
        port: int | None = None,
        field: str | None = None,
    ) -> None:
        self._lines.followed.sides[name] = fork, master
        await self.ask(calls.replicate(name, fork, master, handler, port, field))

    async def turn(
        self,
        name: str,
        *,
        batch: int | None = None,
        budget: int | None = None,
        link: Sequence[Any] | None = None,
    ) -> Turn:
        return await self.ask(calls.turn(name, batch, budget, link))

    async def sweep(self, root: str, *, batch: int | None = None, budget: int | None = None) -> Sweep:
        return await self.ask(calls.sweep(root, batch, budget))

    async def stream(self, name: str) -> None:
        await self.ask(calls.stream(name))

    async def deliver(self, name: str, *, link: Sequence[str] | None = None) -> Delivery:
        return await self.ask(calls.deliver(name, link))

    async def unstream(self, name: str) -> None:
        await self.ask(calls.unstream(name))

    def follow(
        self,
        name: str,
        *,
        every: float = 1.0,
        longest: float = 30.0,
        batch: int | None = None,
        budget: int | None = 100,
    ) -> AsyncFollowing:
        self._insist_on_open()
        return AsyncFollowing(self, name, Account(every, longest, batch), batch, budget)

    async def explain(self, name: str) -> Json:
        return await self.ask(calls.explain(name))

    async def tick(self, at: int) -> None:
        await self.ask(calls.tick(at))

    async def restart(self) -> int:
        return await self.ask(calls.restart())

    async def call(self, request: Object) -> Json:
        return await self.ask(calls.any_call(request))

    async def line(self, text: str) -> Json:
        return await self.ask(calls.any_line(text))

    async def close(self) -> None:
        """Ends the program once all lines are answered."""
        if self._child is None:
            return
        for it in list(self._lines.followed.by_name.values()):
            it.end(None)
        if self._lines.stopped is None:
            self._lines.stopped = closed
        self._stdin.close()
        await self._reader

    async def ask(self, call: Call[T]) -> T:
        """Writes a line and waits for its answer."""
        future: asyncio.Future[Json] = asyncio.get_running_loop().create_future()
        await self._write(call, _settle(future))
        return call.take(await future)

    async def _open(self) -> AsyncDatabase:
        if self._child is not None:
            return self
        pipe = asyncio.subprocess.PIPE
        words = programs.words(self.journal, self._program, self._max_journal)
        try:
            self._child = await asyncio.create_subprocess_exec(
                *words, stdin=pipe, stdout=pipe, start_new_session=True
            )
        except OSError as fault:
            raise Stopped("start", None, str(fault)) from fault
        assert self._child.stdin and self._child.stdout
        self._stdin, self._stdout = self._child.stdin, self._child.stdout
        self._reader = asyncio.ensure_future(self._read(self._child))
        try:
            await self.ask(self._lines.first())
        except BaseException:
            await self.close()
            raise
        self._opened = True
        return self

    def _insist_on_open(self) -> None:
        if self._child is None:
            raise RuntimeError(NOT_OPEN)

    # One line after another waits for room in the pipe: a thousand tasks queue as tasks, and not as bytes.
    async def _write(self, call: Call[Any], answer: Answer) -> None:
        self._insist_on_open()
        async with self._writing:
            try:
                await self._stdin.drain()
            except ConnectionError:
                pass  # the program has ended, and the reader tells
            self._stdin.write(self._lines.write(call, answer))

    async def _read(self, child: asyncio.subprocess.Process) -> None:
        said = ""
        while data := await self._stdout.read(1 << 16):
            try:
                self._lines.take(data)
            except (ValueError, KeyError, TypeError):
                said = repr(data[:200])
                child.kill()
                break
        status = await child.wait()
        in_use = not self._opened and programs.is_in_use(self.journal)
        if said:
            self._lines.finish(None, "output", said)
        else:
            self._lines.finish(status, "ended", self.journal, in_use)


def _settle(future: asyncio.Future[Json]) -> Answer:
    def answer(reply: Json, fault: Exception | None) -> None:
        if future.done():
            return  # its task was cancelled
        if fault is None:
            future.set_result(reply)
        else:
            future.set_exception(fault)

    return answer


class AsyncCollection:
    """A collection, with the calls of `Collection`."""

    def __init__(self, db: AsyncDatabase, name: str, new: bool | None) -> None:
        self._db = db
        self.name = name
        self.new = new

    async def insert(self, doc: Fields) -> str:
        return await self._db.ask(calls.insert(self.name, doc))

    async def bulk(self, docs: Iterable[Fields]) -> list[str]:
        return await self._db.ask(calls.bulk(self.name, docs))

    async def upsert(self, doc: Fields) -> str:
        return await self._db.ask(calls.upsert(self.name, doc))

    async def patch(self, key: str, set: Fields, rev: str | None = None) -> str:
        return await self._db.ask(calls.patch(self.name, key, set, rev))

    async def update(self, key: str, update: Object, rev: str | None = None) -> str:
        return await self._db.ask(calls.update(self.name, key, update, rev))

    async def remove(self, key: str, rev: str | None = None) -> str:
        return await self._db.ask(calls.remove(self.name, key, rev))

    async def hook(self, when: str, hook: str, field: str) -> None:
        await self._db.ask(calls.hook(self.name, when, hook, field))

    async def get(self, key: str) -> Stored:
        return await self._db.ask(calls.get(self.name, key))

    async def find(self, query: Object | None = None) -> list[Document]:
        return await self._db.ask(calls.find(self.name, query))

    async def count(self, query: Object | None = None) -> int:
        return await self._db.ask(calls.count(self.name, query))

    async def changes(self, since: Object | None = None, batch: int | None = None) -> Changes:
        return await self._db.ask(calls.changes(self.name, since, batch))

    async def digest(self) -> Digest:
        return await self._db.ask(calls.digest(self.name))

    def observe(self, query: Object | None = None, name: str | None = None) -> AsyncObserved:
        return AsyncObserved(self._db, name or self._db._lines.new_name(), self.name, query)


class AsyncObserved:
    """An observed query, from `async with` or the first result asked for until it is closed."""

    def __init__(self, db: AsyncDatabase, name: str, into: str, query: Object | None) -> None:
        self._db = db
        self.name = name
        self._call = calls.observe(name, into, query)
        self._heard = asyncio.Event()
        self._newest = Newest()
        self._begun = False

    async def __aenter__(self) -> AsyncObserved:
        await self._begin()
        return self

    async def __aexit__(self, *_: object) -> None:
        await self.close()

    def __aiter__(self) -> AsyncIterator[list[Document]]:
        return self

    async def __anext__(self) -> list[Document]:
        await self._begin()
        while not self._newest.is_due():
            self._heard.clear()
            await self._heard.wait()
        rows = self._newest.take()
        if rows is None:
            raise StopAsyncIteration
        return rows

    async def changed(self) -> list[Document] | None:
        """The result by all that is answered by now, or None where it is the one that was given last."""
        await self._begin()
        if not self._newest.over:
            await self.explain()
        return self._newest.take() if self._newest.is_due() else None

    async def rows(self) -> list[Document]:
        """The result by all that is answered by now, given before or not."""
        await self._begin()
        if not self._newest.over:
            await self.explain()
        return self._newest.rows()

    async def explain(self) -> Json:
        return await self._db.explain(self.name)

    async def close(self) -> None:
        if not self._begun or self._newest.over:
            return
        self.end(None)
        try:
            await self._db.ask(calls.unobserve(self.name))
        except Stopped:
            pass
        self._db._lines.unwatch(self.name)

    async def _begin(self) -> None:
        if self._begun:
            return
        self._begun = True
        future: asyncio.Future[Json] = asyncio.get_running_loop().create_future()
        settle = _settle(future)

        def begun(reply: Json, fault: Exception | None) -> None:
            if fault is None:
                self._db._lines.watch(self.name, self)
            settle(reply, fault)

        try:
            await self._db._write(self._call, begun)
            await future
        except BaseException:
            self.end(None)
            raise

    def hear(self, rows: list[Document]) -> None:
        self._newest.hear(rows)
        self._heard.set()

    def end(self, fault: Exception | None) -> None:
        self._newest.end(fault)
        self._heard.set()


class AsyncFollowing:
    """A fork that is kept in sync by a task, as `Following` is by a thread."""

    def __init__(
        self, db: AsyncDatabase, name: str, account: Account, batch: int | None, budget: int | None
    ) -> None:
        if name in db._lines.followed.by_name:
            raise ValueError(f"{name} is followed already")
        self.name = name
        self._db, self._account = db, account
        self._batch, self._budget = batch, budget
        self._heard, self._hurry = asyncio.Event(), asyncio.Event()
        self._told: SyncStatus | None = None
        self._over = self._has_stream = False
        self._fault: Exception | None = None
        if db._lines.followed.is_elsewhere(name):
            account.is_streamed = False
        db._lines.followed.by_name[name] = self
        self._task = asyncio.ensure_future(self._run())

    async def __aenter__(self) -> AsyncFollowing:
        return self

    async def __aexit__(self, *_: object) -> None:
        await self.close()

    def __aiter__(self) -> AsyncIterator[SyncStatus]:
        return self

    async def __anext__(self) -> SyncStatus:
        while not self._over and self._account.now == self._told:
            self._heard.clear()
            await self._heard.wait()
        if self._account.now != self._told:
            self._told = self._account.now
            return self._told
        fault, self._fault = self._fault, None
        if fault is not None:
            raise fault
        raise StopAsyncIteration

    @property
    def status(self) -> SyncStatus:
        return self._account.now

    def now(self) -> None:
        self._account.hurry()
        self._hurry.set()

    async def close(self) -> None:
        self.end(None)
        await self._leave()

    def wrote(self, keys: Iterable[object]) -> None:
        self._account.wrote(keys)
        self._heard.set()
        if self._account.now.state != "offline":
            self._hurry.set()

    def turned(self, turn: Json) -> None:
        self._account.turned(turn)
        self._heard.set()

    def delivered(self, delivery: Json) -> None:
        self._account.delivered(delivery)
        self._heard.set()
        if not delivery["level"]:
            self._hurry.set()

    def end(self, fault: Exception | None) -> None:
        if not self._over:
            self._over, self._fault = True, fault
            self._db._lines.followed.by_name.pop(self.name, None)
        self._heard.set()
        self._hurry.set()

    async def _run(self) -> None:
        while not self._over:
            self._hurry.clear()
            try:
                is_more = await self._step()
            except (Refused, Stopped) as fault:
                self.end(fault)
                break
            try:
                await asyncio.wait_for(self._hurry.wait(), 0 if is_more else self._account.wait())
            except asyncio.TimeoutError:
                pass
        await self._leave()

    async def _step(self) -> bool:
        account = self._account
        if account.is_streamed is None:
            account.is_streamed = await self._open_stream()
        if account.takes_turn():
            return account.after(await self._db.turn(self.name, batch=self._batch, budget=self._budget))
        try:
            return not (await self._db.deliver(self.name)).level
        except Refused as refused:
            if refused.word != "no_stream":
                raise
        account.lost_stream()
        self._has_stream = False
        return True

    async def _open_stream(self) -> bool:
        try:
            await self._db.stream(self.name)
            self._has_stream = True
        except Refused as refused:
            if refused.word not in ("exists", "remote"):
                raise
            return refused.word == "exists"
        return True

    async def _leave(self) -> None:
        has_stream, self._has_stream = self._has_stream, False
        try:
            if has_stream:
                await self._db.unstream(self.name)
        except (Refused, Stopped):
            pass
