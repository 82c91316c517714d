-- What the server keeps beside the documents. Each collection has a table of its own in `documents`.

CREATE SCHEMA IF NOT EXISTS rx;
CREATE SCHEMA IF NOT EXISTS documents;

-- `definition` is the schema's canonical text. `last` is the last write time, and its row is the lock of
-- whoever writes: times are then in the order of commits.
CREATE TABLE IF NOT EXISTS rx.collections (
    name text PRIMARY KEY,
    definition text NOT NULL,
    last bigint NOT NULL DEFAULT 0
);

-- Of a token there is only its hash.
CREATE TABLE IF NOT EXISTS rx.tokens (
    name text PRIMARY KEY,
    hash bytea NOT NULL UNIQUE,
    made timestamptz NOT NULL DEFAULT now(),
    revoked timestamptz
);

CREATE TABLE IF NOT EXISTS rx.grants (
    token text NOT NULL REFERENCES rx.tokens (name),
    collection text NOT NULL REFERENCES rx.collections (name),
    may_write boolean NOT NULL,
    PRIMARY KEY (token, collection)
);
