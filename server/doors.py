"""Where forks come in: WebSockets for pages and for whoever is elsewhere, TCP for programs of this machine;
and where the server is watched."""
import asyncio
import contextlib
import functools
import http
import logging
import ssl
import threading
import time
from collections.abc import AsyncIterator, Callable
from concurrent.futures import ThreadPoolExecutor
from dataclasses import dataclass
from typing import Any
from weakref import WeakValueDictionary

import psycopg
from psycopg_pool import PoolTimeout
from websockets.datastructures import Headers
from websockets.exceptions import ConnectionClosed
from websockets.legacy.server import WebSocketServerProtocol, serve

import tokens
from connection import Connection, Limits, Writer
from counts import Counts
from store import Store

log = logging.getLogger("rx_server")

# The token comes as a subprotocol, since a page can set no header, and a URL stands in logs. The other one
# says that a connection may be kept, as there are many at once.
PROTOCOL, TOKEN = "rx", "token."
MESSAGE_BYTES = 1 << 20
HANDSHAKE_SECONDS = 10
# A revoked token is known so many seconds later.
FRESH_SECONDS = 5.0
# How a WebSocket ends, by how its connection did.
CODES = {"peer": 1000, "request": 1000, "clock": 1000, "forbidden": 1008, "text": 1003, "database": 1011}
# The ends behind which a port lets its last line arrive. The others break the connection off.
TOLD = ("peer", "request", "clock")
NO_DATABASE = (psycopg.Error, PoolTimeout)


@dataclass
class House:
    """What all doors share."""
    store: Store
    limits: Limits
    counts: Counts
    threads: int
    origins: tuple[str, ...] = ()

    def __post_init__(self) -> None:
        self.writers: dict[str, Writer] = {}
        # As long as a connection has them.
        self.leaves: WeakValueDictionary[tuple[str, str], tokens.Leave] = WeakValueDictionary()
        self.seen = 0.0
        # Pushes wait for one another, so half of the database's connections is theirs: nobody else waits for them.
        self.writing = threading.Semaphore(max(1, self.threads // 2))
        self.reading = ThreadPoolExecutor(max(1, self.threads - self.threads // 2))

    def work(self, call: Callable[..., Any], *words: Any) -> asyncio.Future:
        """What a call gives that waits for the database, in a thread."""
        return asyncio.get_running_loop().run_in_executor(self.reading, call, *words)

    async def connection(self, token: str, name: str) -> Connection | None:
        """What a token's connection to a collection is answered by, where it may have one."""
        found = await self.work(tokens.granted, self.store, [token])
        if (token, name) not in found:
            return None
        leave = self.leaves.setdefault((token, name), tokens.Leave(token, name, found[token, name]))
        if name not in self.writers:
            # A collection never gets another schema, so it is asked for once.
            collection = await self.work(self.store.collection, name)
            if name not in self.writers:
                self.writers[name] = Writer(self.store, collection, self.writing)
        return Connection(self.writers[name], leave, self.refresh, self.limits, self.counts, self.work)

    async def refresh(self) -> None:
        """Learns what the tokens in use may, once in some seconds. Meanwhile the others go by what is known."""
        if time.monotonic() - self.seen > FRESH_SECONDS:
            self.seen, leaves = time.monotonic(), dict(self.leaves)
            try:
                found = await self.work(tokens.granted, self.store, list({token for token, _ in leaves}))
            except BaseException:
                # Also where it was broken off: what isn't known is asked for again.
                self.seen = 0.0
                raise
            for key, leave in leaves.items():
                leave.may_read, leave.may_write = key in found, found.get(key, False)

    def is_full(self) -> bool:
        return self.counts.open >= self.limits.connections

    async def converse(self, connection: Connection, pieces: AsyncIterator[bytes],
                       send: Callable[[bytes], Any]) -> str:
        """Serves a connection, and tells how it ended. Nothing of a document is logged."""
        self.counts.open += 1
        end = "wire"
        try:
            end = await connection.converse(pieces, send)
        except TextMessage:
            end = "text"
        except NO_DATABASE as fault:
            end = "database"
            state = getattr(fault, "sqlstate", None) or ""
            log.error("the database failed: %s %s", type(fault).__name__, state)
        except (ConnectionError, ConnectionClosed, TimeoutError, asyncio.TimeoutError):
            pass
        finally:
            self.counts.open -= 1
            self.counts.ends[end] += 1
            log.info("token %s, collection %s: ended by %s after %d requests", connection.leave.token,
                     connection.leave.collection, end, connection.answered)
        return end


# ---- WebSockets

class TextMessage(Exception):
    """A message was text. Lines come as bytes, whose messages end anywhere."""


class Page(WebSocketServerProtocol):
    """A WebSocket. It is opened for a token that may use the collection that its path names."""

    def __init__(self, *words: Any, house: House, **more: Any):
        super().__init__(*words, **more)
        self.house, self.connection = house, None

    async def read_http_request(self) -> tuple[str, Headers]:
        try:
            return await asyncio.wait_for(super().read_http_request(), HANDSHAKE_SECONDS)
        except asyncio.TimeoutError:
            raise ConnectionError("no handshake") from None

    async def process_request(self, path: str, request_headers: Headers) -> Any:
        answer = await self.admitted(path, request_headers)
        self.house.counts.dials["admitted" if answer is None else answer.phrase.lower()] += 1
        return answer and (answer, [], b"")

    async def admitted(self, path: str, headers: Headers) -> http.HTTPStatus | None:
        """Why it isn't opened, or nothing."""
        origins = headers.get_all("Origin")
        if origins and (len(origins) > 1 or origins[0] not in self.house.origins):
            return http.HTTPStatus.FORBIDDEN
        if self.house.is_full():
            return http.HTTPStatus.SERVICE_UNAVAILABLE
        try:
            token = await self.house.work(tokens.name_of, self.house.store, self.secret(headers))
            if token is None:
                return http.HTTPStatus.UNAUTHORIZED
            self.connection = await self.house.connection(token, path.removeprefix("/"))
        except NO_DATABASE:
            return http.HTTPStatus.SERVICE_UNAVAILABLE
        return None if self.connection else http.HTTPStatus.FORBIDDEN

    @staticmethod
    def secret(headers: Headers) -> str:
        offered = [it.strip() for line in headers.get_all("Sec-WebSocket-Protocol") for it in line.split(",")]
        return next((it.removeprefix(TOKEN) for it in offered if it.startswith(TOKEN)), "")

    async def pieces(self) -> AsyncIterator[bytes]:
        async for message in self:
            if isinstance(message, str):
                raise TextMessage
            yield message


async def talk(page: Page) -> None:
    end = await page.house.converse(page.connection, page.pieces(), page.send)
    await page.close(CODES.get(end, 1011))


def open_pages(house: House, host: str, port: int, tls: ssl.SSLContext | None) -> Any:
    """Listens for WebSockets."""
    return serve(talk, host, port, ssl=tls, create_protocol=functools.partial(Page, house=house),
                 subprotocols=[PROTOCOL], compression=None, max_size=MESSAGE_BYTES, max_queue=4,
                 ping_interval=20, ping_timeout=house.limits.idle_seconds, server_header=None)


# ---- TCP

async def pieces_of(reader: asyncio.StreamReader, seconds: int) -> AsyncIterator[bytes]:
    while True:
        async with asyncio.timeout(seconds):
            piece = await reader.read(1 << 16)
        if not piece:
            return
        yield piece


async def leave(reader: asyncio.StreamReader, writer: asyncio.StreamWriter) -> None:
    """Ends a connection so that its last line arrives: what the peer still sends for a while isn't answered
    by a reset."""
    writer.write_eof()
    try:
        async with asyncio.timeout(1):
            while await reader.read(1 << 16):
                pass
    except (TimeoutError, OSError):
        pass
    writer.close()


async def open_port(house: House, port: int, name: str, token: str) -> asyncio.Server:
    """Listens at a port of this machine, where a connection has one token's leave for one collection: the
    program's own dial has no word for a token."""
    async def come(reader: asyncio.StreamReader, writer: asyncio.StreamWriter) -> None:
        async def send(line: bytes) -> None:
            writer.write(line)
            async with asyncio.timeout(house.limits.idle_seconds):
                await writer.drain()

        connection, end = None, "forbidden"
        try:
            if not house.is_full():
                with contextlib.suppress(*NO_DATABASE):
                    connection = await house.connection(token, name)
            house.counts.dials["admitted" if connection else "forbidden"] += 1
            if connection:
                end = await house.converse(connection, pieces_of(reader, house.limits.idle_seconds), send)
        finally:
            if end not in TOLD:
                writer.transport.abort()
        if end in TOLD:
            with contextlib.suppress(OSError):
                await leave(reader, writer)

    return await asyncio.start_server(come, "127.0.0.1", port, backlog=1024)


# ---- watching

async def open_watch(house: House, port: int) -> asyncio.Server:
    """Answers `/health` and `/metrics` at a port of this machine."""
    async def answer(path: bytes) -> tuple[http.HTTPStatus, str]:
        if path == b"/metrics":
            return http.HTTPStatus.OK, house.counts.text()
        if path != b"/health":
            return http.HTTPStatus.NOT_FOUND, ""
        try:
            await asyncio.wait_for(house.work(house.store.rows, "SELECT 1"), 5)
        except (*NO_DATABASE, asyncio.TimeoutError):
            return http.HTTPStatus.SERVICE_UNAVAILABLE, "no database\n"
        return http.HTTPStatus.OK, "ok\n"

    async def come(reader: asyncio.StreamReader, writer: asyncio.StreamWriter) -> None:
        try:
            head = await asyncio.wait_for(reader.readuntil(b"\r\n\r\n"), HANDSHAKE_SECONDS)
            status, body = await answer((head.split(b" ", 2) + [b""])[1])
            writer.write(f"HTTP/1.1 {status.value} {status.phrase}\r\n"
                         "Content-Type: text/plain; version=0.0.4\r\nConnection: close\r\n"
                         f"Content-Length: {len(body)}\r\n\r\n{body}".encode())
            await writer.drain()
        except (OSError, asyncio.TimeoutError, asyncio.IncompleteReadError, asyncio.LimitOverrunError):
            pass
        writer.close()

    return await asyncio.start_server(come, "127.0.0.1", port)
