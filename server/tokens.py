"""Who may: tokens, of which the database has only hashes, and the collections that each may read or write."""
import hashlib
import re
import secrets
from dataclasses import dataclass

from psycopg import Connection

from store import Refused, Store

NAME = re.compile(r"[a-z][a-z0-9_-]{0,63}")


@dataclass(frozen=True, slots=True)
class Grant:
    """A token's leave for one collection. To write is also to read."""
    token: str
    collection: str
    may_write: bool


def hash_of(secret: str) -> bytes:
    return hashlib.sha256(secret.encode()).digest()


def grants_of(token: str, words: list[str]) -> list[Grant]:
    """Words such as `todos:write` or `notes:read`."""
    grants = [Grant(token, name, may == "write") for name, _, may in (word.partition(":") for word in words)]
    if any(word.rpartition(":")[2] not in ("read", "write") for word in words):
        raise Refused("a grant is COLLECTION:read or COLLECTION:write")
    if len({it.collection for it in grants}) < len(grants):
        raise Refused("a collection stands twice")
    return grants


def make(store: Store, name: str, words: list[str]) -> str:
    """Makes a token, which is told this once."""
    if not NAME.fullmatch(name):
        raise Refused(f"{name}: a token's name is a lower-case letter and then up to 63 lower-case letters, "
                      "digits, `_` or `-`")
    secret, grants = secrets.token_hex(32), grants_of(name, words)

    def call(connection: Connection) -> None:
        made = connection.execute("INSERT INTO rx.tokens (name, hash) VALUES (%s, %s) ON CONFLICT DO NOTHING",
                                  (name, hash_of(secret)))
        if not made.rowcount:
            raise Refused(f"{name}: there is a token of that name")
        for it in grants:
            found = connection.execute("SELECT 1 FROM rx.collections WHERE name = %s", (it.collection,))
            if not found.fetchone():
                raise Refused(f"{it.collection}: there is no such collection")
            connection.execute("INSERT INTO rx.grants (token, collection, may_write) VALUES (%s, %s, %s)",
                               (name, it.collection, it.may_write))

    store.transact(call)
    return secret


def revoke(store: Store, name: str) -> None:
    if not store.first("UPDATE rx.tokens SET revoked = now() WHERE name = %s AND revoked IS NULL "
                       "RETURNING name", name):
        raise Refused(f"{name}: there is no such token, or it is revoked")


def listed(store: Store) -> list[str]:
    """A line for each token: its name, whether it is revoked, and its grants."""
    words: dict[str, list[str]] = {}
    for token, collection, may_write in store.rows(
            "SELECT token, collection, may_write FROM rx.grants ORDER BY collection"):
        words.setdefault(token, []).append(f"{collection}:{'write' if may_write else 'read'}")
    tokens = store.rows("SELECT name, revoked IS NOT NULL FROM rx.tokens ORDER BY made, name")
    return [" ".join([name, *["revoked"] * gone, *words.get(name, [])]) for name, gone in tokens]


def name_of(store: Store, secret: str) -> str | None:
    """The name of the token that has this secret, unless it is revoked."""
    row = store.first("SELECT name FROM rx.tokens WHERE hash = %s AND revoked IS NULL", hash_of(secret))
    return row[0] if row else None


class Leave:
    """What a token may do with a collection, as it was known last."""

    def __init__(self, token: str, collection: str, may_write: bool):
        self.token, self.collection, self.may_read, self.may_write = token, collection, True, may_write


def granted(store: Store, names: list[str]) -> dict[tuple[str, str], bool]:
    """Whether these tokens may write, by their names and the collections that they may read; of those that aren't
    revoked."""
    return {(token, collection): may_write for token, collection, may_write in store.rows(
        "SELECT token, collection, may_write FROM rx.grants JOIN rx.tokens ON token = name "
        "WHERE name = ANY(%s) AND revoked IS NULL", names)}
