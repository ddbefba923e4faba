"""Registers in PostgreSQL, the values of the store `mst`, that catch up with those of peers: what a `RegisterTree` needs of a table. It needs the
package psycopg 3 (Debian's `python3-psycopg`).

`postgres_registers.py CONFIG CONFIG HASH_KEY` brings the rows of two databases into step, each way; store_peer.py has the pipes for `mst`."""
import socket
import sys
import threading
from typing import Any, Iterator, List, Optional, Tuple

import psycopg

from mst import Register, RegisterTree

# Keys and writers are the bytes of their UTF-8: a `text` can't hold a byte 0, and needs COLLATE "C" for this order. The kind is `Register.kind`.
TABLE = ("CREATE TABLE IF NOT EXISTS notes "
         "(key bytea PRIMARY KEY, time bigint NOT NULL, writer bytea NOT NULL, kind smallint NOT NULL, value bytea)")
ONE = "SELECT key, time, writer, value FROM notes WHERE key = %s"
FROM = "SELECT key, time, writer, value FROM notes WHERE key >= %s ORDER BY key LIMIT 100"
BETWEEN = "SELECT key, time, writer, value FROM notes WHERE key >= %s AND key < %s ORDER BY key LIMIT 100"
# The later register stays: of two with one time that of the greater writer, and then by kind and value.
JOIN = ("INSERT INTO notes SELECT * FROM unnest(%s::bytea[], %s::bigint[], %s::bytea[], %s::smallint[], %s::bytea[]) ON CONFLICT (key) DO UPDATE "
        "SET (time, writer, kind, value) = (excluded.time, excluded.writer, excluded.kind, excluded.value) "
        "WHERE (excluded.time, excluded.writer, excluded.kind, excluded.value) > (notes.time, notes.writer, notes.kind, notes.value) "
        "RETURNING key, time, writer, value")


class Notes:
    """A table with a row for each key, removed ones too. Threads use the connection by turns: none reads what another hasn't committed yet."""

    def __init__(self, config: str) -> None:
        self._config, self._lock = config, threading.Lock()
        self._connection = psycopg.connect(config, autocommit=True)
        self._connection.execute(TABLE)

    def _connected(self) -> "psycopg.Connection[Any]":
        """The connection; a new one if it is known to be lost."""
        if self._connection.closed:
            self._connection = psycopg.connect(self._config, autocommit=True)
        return self._connection

    def _read(self, statement: str, *words: bytes) -> "List[Tuple[str, Register]]":
        with self._lock:
            return entries(self._connected().execute(statement, words).fetchall())

    def get(self, key: str) -> "Optional[Register]":
        found = self._read(ONE, key.encode())
        return found[0][1] if found else None

    def scan(self, first: str, end: "Optional[str]") -> "Iterator[Tuple[str, Register]]":
        """The rows, a hundred at a time. PostgreSQL orders `bytea` by its bytes, as a tree does."""
        statement, below = (FROM, ()) if end is None else (BETWEEN, (end.encode(),))
        while some := self._read(statement, first.encode(), *below):
            yield from some
            first = some[-1][0] + "\0"

    def join(self, came: "List[Tuple[str, Register]]") -> "List[Tuple[str, Register]]":
        columns = zip(*((key.encode(), one.time, one.writer.encode(), one.kind, one.value) for key, one in came))
        with self._lock, self._connected().transaction():
            # (the other statements of the program's transaction go here)
            joined = self._connection.execute(JOIN, [list(column) for column in columns]).fetchall()
        return entries(joined)


def entries(rows: "List[Any]") -> "List[Tuple[str, Register]]":
    return [(key.decode(), Register(time, writer.decode(), value)) for key, time, writer, value in rows]


def main(left: str, right: str, hash_key: str) -> None:
    ours, theirs = Notes(left), Notes(right)
    here, there = socket.socketpair()

    def peer() -> None:
        tree = RegisterTree(theirs, hash_key=bytes.fromhex(hash_key))
        tree.serve(theirs, there.recv, there.sendall)
        print(tree.catch_up(theirs, there.recv, there.sendall), "rows came to the second")

    thread = threading.Thread(target=peer)
    thread.start()
    tree = RegisterTree(ours, hash_key=bytes.fromhex(hash_key))
    print(tree.catch_up(ours, here.recv, here.sendall), "rows came to the first")
    tree.serve(ours, here.recv, here.sendall)
    thread.join()


if __name__ == "__main__":
    main(*sys.argv[1:])
