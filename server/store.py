"""Documents in PostgreSQL: collections, and what a master does to them. What a call wrote is committed once
it has returned; of one that failed it isn't known."""
import hashlib
import os
import random
import re
import time
from collections.abc import Callable, Iterable
from dataclasses import dataclass
from typing import TypeVar

from psycopg import Connection, errors
from psycopg_pool import ConnectionPool

from schema import LARGEST, Schema
from wire import Place, Pull, Push, Row, read_json

HERE = os.path.dirname(os.path.abspath(__file__))
# A table has the collection's name. Its indexes have one that no collection has, of the 63 bytes that
# PostgreSQL takes.
NAME = re.compile(r"[a-z][a-z0-9_-]{0,58}")
# An index of PostgreSQL takes entries of at most 2,704 bytes, and a code point of a key has up to four.
MOST_KEY_POINTS = 650
# Engines that don't wait for a lock say that a transaction is to be tried again. Behind each such failure at
# most so many seconds are waited.
WAITS = [min(0.001 * 2**tries, 0.1) for tries in range(20)]
AGAIN = (errors.SerializationFailure, errors.DeadlockDetected)

T = TypeVar("T")


class Refused(Exception):
    """Why a command can't be done."""


@dataclass(frozen=True, slots=True)
class Collection:
    """A collection, and the SQL over its table."""
    name: str
    schema: Schema

    def query(self, text: str) -> bytes:
        """A statement over the table. No name of a collection has a quote in it."""
        return text.format(table=f'documents."{self.name}"', by_key=f'"{self.name} KEY"',
                           by_place=f'"{self.name} LWT"').encode()


def array(texts: Iterable[str]) -> str:
    """A list in PostgreSQL's spelling, for which the driver takes ten times as long."""
    return "{" + ",".join(['"' + it.replace("\\", "\\\\").replace('"', '\\"') + '"' for it in texts]) + "}"


def bytea(it: bytes) -> str:
    return "\\x" + it.hex()


def now() -> int:
    """The present moment, in milliseconds."""
    return min(time.time_ns() // 1_000_000, LARGEST)


class Batch:
    """What pushes do, one after another, to the states that are held."""

    def __init__(self, held: dict[bytes, str], last: int):
        self.held, self.last = held, last
        self.written: dict[bytes, tuple[Row, int]] = {}

    def answer(self, request: Push) -> list[str] | None:
        held = self.held
        taken = [row for row in request.rows if held.get(row.key) in (None, row.assumed)]
        if taken and self.last >= LARGEST:
            return None
        keys = {row.key for row in taken}
        conflicts = [held[row.key] for row in request.rows if row.key not in keys]
        if taken:
            self.last = max(self.last + 1, now())
            held.update((row.key, row.new) for row in taken)
            self.written.update((row.key, (row, self.last)) for row in taken)
        return conflicts


def pool_of(conninfo: str, most: int) -> ConnectionPool:
    return ConnectionPool(conninfo, min_size=1, max_size=most, open=False, timeout=10,
                          kwargs={"application_name": "rx_server", "autocommit": True})


class Store:
    """The database. Its calls may come from many threads."""

    def __init__(self, pool: ConnectionPool):
        self.pool = pool

    def attempt(self, call: Callable[[Connection], T]) -> T:
        """What a call makes of a connection, made anew where the database says so."""
        for wait in WAITS:
            try:
                with self.pool.connection() as connection:
                    return call(connection)
            except AGAIN:
                # Others wait too, and not as long.
                time.sleep(random.uniform(0, wait))
        with self.pool.connection() as connection:
            return call(connection)

    def transact(self, call: Callable[[Connection], T]) -> T:
        """What a call makes of a connection in one transaction."""
        def whole(connection: Connection) -> T:
            with connection.transaction():
                return call(connection)

        return self.attempt(whole)

    def rows(self, text: str | bytes, *values: object) -> list[tuple]:
        """The rows of a statement that is a transaction by itself."""
        return self.attempt(lambda connection: connection.execute(text, values).fetchall())

    def first(self, text: str | bytes, *values: object) -> tuple | None:
        return next(iter(self.rows(text, *values)), None)

    # ---- collections

    def prepare(self) -> None:
        """Makes the server's own tables and functions where they aren't there."""
        def call(connection: Connection) -> None:
            for name in ("tables.sql", "write.sql"):
                with open(os.path.join(HERE, name), encoding="utf-8") as file:
                    connection.execute(file.read())

        try:
            self.rows("SELECT 1 FROM rx.grants LIMIT 1")
        except errors.UndefinedTable:
            self.transact(call)

    def make(self, name: str, value: object) -> bool:
        """Makes a collection, unless it is held with the same schema; whether it is new."""
        schema = Schema(value)
        if not NAME.fullmatch(name):
            raise Refused(f"{name}: a collection's name is a lower-case letter and then up to 58 lower-case "
                          "letters, digits, `_` or `-`")
        if schema.longest_key > MOST_KEY_POINTS:
            raise Refused(f"{name}: the primary key's maxLength is above {MOST_KEY_POINTS}")

        def call(connection: Connection) -> bool:
            made = connection.execute("INSERT INTO rx.collections (name, definition) VALUES (%s, %s) "
                                      "ON CONFLICT DO NOTHING", (name, schema.text))
            if not made.rowcount:
                held = connection.execute("SELECT definition FROM rx.collections WHERE name = %s", (name,))
                if held.fetchone() != (schema.text,):
                    raise Refused(f"{name}: the collection is held with another schema")
                return False
            collection = Collection(name, schema)
            connection.execute(collection.query(
                "CREATE TABLE {table} (key bytea CONSTRAINT {by_key} PRIMARY KEY, state text NOT NULL, "
                "lwt bigint NOT NULL, deleted boolean NOT NULL)"))
            connection.execute(collection.query("CREATE UNIQUE INDEX {by_place} ON {table} (lwt ASC, key ASC)"))
            return True

        return self.transact(call)

    def collection(self, name: str) -> Collection | None:
        row = self.first("SELECT definition FROM rx.collections WHERE name = %s", name)
        return Collection(name, Schema(read_json(row[0].encode()))) if row else None

    def digest(self, collection: Collection) -> tuple[int, str]:
        """How many documents there are, and what tells one collection from another."""
        def call(connection: Connection) -> tuple[int, str]:
            count, digest = 0, hashlib.sha256()
            with connection.cursor("states") as cursor:
                cursor.execute(collection.query("SELECT state FROM {table} ORDER BY key"))
                for (state,) in cursor:
                    count += 1
                    digest.update(state.encode() + b"\n")
            return count, digest.hexdigest()

        return self.transact(call)

    # ---- requests

    def pull(self, collection: Collection, request: Pull) -> tuple[int, str, Place | None]:
        """The states above a place: how many, as one text, and the place of the last one, or the one asked
        from. The database joins them, as each row would cost more here."""
        after = request.place
        above, values = ("WHERE (lwt, key) > (%s, %s) ", (after.lwt, after.key)) if after else ("", ())
        query = (f"WITH page AS (SELECT state, lwt, key FROM {{table}} {above}ORDER BY lwt, key LIMIT %s) "
                 "SELECT count(*), string_agg(state, ',' ORDER BY lwt, key), max(lwt), "
                 "(array_agg(key ORDER BY lwt DESC, key DESC))[1] FROM page")
        count, states, lwt, key = self.first(collection.query(query), *values, request.batch)
        return count, states or "", Place(lwt, key) if count else after

    def push(self, collection: Collection, requests: list[Push]) -> list[list[str] | None]:
        """Answers pushes one after another, in one transaction. Each takes its rows whose assumed state is
        held, at a write time of its own. To each the states that its other rows met, or none where no time
        is left."""
        keys = array({bytea(row.key) for request in requests for row in request.rows})

        def call(connection: Connection) -> list[list[str] | None]:
            locked = connection.execute("SELECT last FROM rx.collections WHERE name = %s FOR UPDATE",
                                        (collection.name,))
            (last,) = locked.fetchone()
            # A statement of its own, as it has to see what was committed while the lock was waited for.
            held = dict(connection.execute(collection.query(
                "SELECT key, state FROM {table} WHERE key = ANY(%s::bytea[])"), (keys,)).fetchall())
            batch = Batch(held, last)
            answers = [batch.answer(request) for request in requests]
            if batch.written:
                self.write(connection, collection, batch)
            return answers

        return self.transact(call)

    @staticmethod
    def write(connection: Connection, collection: Collection, batch: Batch) -> None:
        rows, times = zip(*batch.written.values())
        connection.execute(collection.query(
            "INSERT INTO {table} (key, state, lwt, deleted) "
            "SELECT * FROM unnest(%s::bytea[], %s::text[], %s::bigint[], %s::boolean[]) ON CONFLICT (key) "
            "DO UPDATE SET state = excluded.state, lwt = excluded.lwt, deleted = excluded.deleted"),
            (array(bytea(it.key) for it in rows), array(it.new for it in rows), array(map(str, times)),
             array("t" if it.deleted else "f" for it in rows)))
        connection.execute("UPDATE rx.collections SET last = %s WHERE name = %s",
                           (batch.last, collection.name))
