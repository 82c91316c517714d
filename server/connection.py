"""One connection of a fork: bytes to lines, lines to requests, and to each its reply, one after another."""
import asyncio
import contextlib
import threading
import time
from collections.abc import AsyncIterator, Awaitable, Callable
from dataclasses import dataclass
from queue import SimpleQueue
from typing import Any

from counts import Counts
from store import Collection, Store
from tokens import Leave
from wire import (LONGEST_LINE, Fault, Pull, Push, conflicts_line, docs_line, fault_line, longest_request,
                  read_request)

# A longer line is read in a thread, so that others go on.
SHORT_LINE = 16_384
# So many rows are written in one transaction, or one push.
MOST_ROWS = 1_000

Send = Callable[[bytes], Awaitable[None]]
Work = Callable[..., Awaitable[Any]]
# A push, and what its connection waits for.
Waiting = tuple[Push, asyncio.Future]


@dataclass(frozen=True, slots=True)
class Limits:
    """Of one connection. A line may be as long as a right request, where its bytes aren't given."""
    line_bytes: int | None = None
    requests_a_second: int = 500
    rows_a_second: int = 20_000
    idle_seconds: int = 60
    connections: int = 2_000

    def longest(self, collection: Collection) -> int:
        return min(self.line_bytes or longest_request(collection.schema), LONGEST_LINE)


class Pace:
    """At most so many a second, after a second's worth at once. Whoever is faster waits."""

    def __init__(self, most: int):
        self.most, self.free, self.since = most, float(most), time.monotonic()

    async def take(self, count: int) -> None:
        moment = time.monotonic()
        self.free = min(self.most, self.free + (moment - self.since) * self.most) - count
        self.since = moment
        if self.free < 0:
            await asyncio.sleep(-self.free / self.most)


async def lines(pieces: AsyncIterator[bytes], longest: int) -> AsyncIterator[bytes]:
    """The lines in pieces of bytes. What is left at the end is no line, unless it is too long for one."""
    rest = bytearray()
    async for piece in pieces:
        looked = len(rest)
        rest += piece
        while (end := rest.find(b"\n", looked)) >= 0:
            if end > longest:
                raise Fault("too_long")
            line = bytes(rest[:end])
            del rest[:end + 1]
            looked = 0
            yield line
        if len(rest) > longest:
            raise Fault("too_long")


class Writer:
    """The pushes to one collection, written by a thread of its own. Those that come while others are written are
    written together, as each commit waits for the disk."""

    def __init__(self, store: Store, collection: Collection, turns: threading.Semaphore):
        self.store, self.collection, self.turns = store, collection, turns
        self.loop = asyncio.get_running_loop()
        self.waiting: SimpleQueue[Waiting] = SimpleQueue()
        threading.Thread(target=self.write_all, daemon=True).start()

    def push(self, request: Push) -> asyncio.Future:
        answer = self.loop.create_future()
        self.waiting.put((request, answer))
        return answer

    def write_all(self) -> None:
        """Until the loop is over."""
        with contextlib.suppress(RuntimeError):
            while True:
                batch = self.next_batch()
                self.loop.call_soon_threadsafe(tell, batch, self.written([it for it, _ in batch]))

    def written(self, requests: list[Push]) -> list[Any]:
        """To each request its conflicts, or to all why they weren't written."""
        try:
            with self.turns:
                return self.store.push(self.collection, requests)
        except Exception as fault:  # pylint: disable=broad-except
            return [fault] * len(requests)

    def next_batch(self) -> list[Waiting]:
        batch = [self.waiting.get()]
        while not self.waiting.empty() and sum(len(it.rows) for it, _ in batch) < MOST_ROWS:
            batch.append(self.waiting.get())
        return batch


def tell(batch: list[Waiting], told: list[Any]) -> None:
    """Answers those who still wait."""
    for (_, answer), it in zip(batch, told):
        if answer.done():
            continue
        if isinstance(it, Exception):
            answer.set_exception(it)
        else:
            answer.set_result(it)


class Connection:
    """A fork that may use a collection, and how it is answered. `work` runs a call in a thread, as the
    database is waited for there."""

    def __init__(self, writer: Writer, leave: Leave, refresh: Work, limits: Limits, counts: Counts, work: Work):
        self.writer, self.store, self.collection = writer, writer.store, writer.collection
        self.leave, self.refresh, self.limits, self.counts, self.work = leave, refresh, limits, counts, work
        self.requests, self.rows = Pace(limits.requests_a_second), Pace(limits.rows_a_second)
        self.answered = 0

    async def converse(self, pieces: AsyncIterator[bytes], send: Send) -> str:
        """Answers until an end, which is told: as `rx serve` has it, or that the token may not."""
        try:
            async for line in lines(pieces, self.limits.longest(self.collection)):
                await self.requests.take(1)
                request = await self.read(line)
                if not await self.may(request):
                    return "forbidden"
                begun = time.monotonic()
                reply, ask, states = await self.reply(request)
                if reply is None:
                    return "clock"
                self.counts.add(ask, time.monotonic() - begun, states)
                await send(reply)
                self.answered += 1
                await self.rows.take(sum(states.values()))
        except Fault as fault:
            self.counts.faults[str(fault)] += 1
            await send(fault_line(str(fault)))
            return "request"
        return "peer"

    async def read(self, line: bytes) -> Pull | Push:
        if len(line) < SHORT_LINE:
            return read_request(line, self.collection.schema)
        return await self.work(read_request, line, self.collection.schema)

    async def may(self, request: Pull | Push) -> bool:
        """Whether the token may still do this."""
        await self.refresh()
        return self.leave.may_read if isinstance(request, Pull) else self.leave.may_write

    async def reply(self, request: Pull | Push) -> tuple[bytes | None, str, dict[str, int]]:
        """The line that answers a request, if there is one, and the states that went either way."""
        if isinstance(request, Pull):
            count, states, place = await self.work(self.store.pull, self.collection, request)
            return docs_line(request, states, place), "pull", {"pulled": count}
        conflicts = await self.writer.push(request)
        if conflicts is None:
            return None, "push", {}
        taken = len(request.rows) - len(conflicts)
        return conflicts_line(request, conflicts), "push", {"conflict": len(conflicts), "taken": taken}
