"""Rows in PostgreSQL that catch up with those of peers, at the cost of what differs: what a `SyncTree` needs of a table. Of two values of a key
the greater stays, so a value begins with its time. It needs the package psycopg 3 (Debian's `python3-psycopg`).

`postgres_rows.py CONFIG CONFIG` brings the rows of two databases into step, each way."""
import socket
import sys
import threading
from typing import Any, Iterator, List, Optional, Tuple

import psycopg

from mst import SyncTree

TABLE = "CREATE TABLE IF NOT EXISTS rows (key bytea PRIMARY KEY, value bytea NOT NULL)"
ONE = "SELECT value FROM rows WHERE key = %s"
FROM = "SELECT key, value FROM rows WHERE key >= %s ORDER BY key LIMIT 100"
BETWEEN = "SELECT key, value FROM rows WHERE key >= %s AND key < %s ORDER BY key LIMIT 100"
JOIN = ("INSERT INTO rows SELECT * FROM unnest(%s::bytea[], %s::bytea[]) ON CONFLICT (key) DO UPDATE "
        "SET value = greatest(rows.value, excluded.value) RETURNING key, value")


class Rows:
    """A table of PostgreSQL. Threads use the connection by turns: none reads what another hasn't committed yet."""

    def __init__(self, config: str) -> None:
        self._config = config
        self._lock = threading.Lock()
        self._connection: "psycopg.Connection[Any]" = psycopg.connect(config, autocommit=True)
        self._connection.execute(TABLE)

    def _connected(self) -> "psycopg.Connection[Any]":
        """The connection; a new one if it is known to be lost."""
        if self._connection.closed:
            self._connection = psycopg.connect(self._config, autocommit=True)
        return self._connection

    def _read(self, statement: str, *words: bytes) -> "List[Any]":
        with self._lock:
            return self._connected().execute(statement, words).fetchall()

    def get(self, key: bytes) -> "Optional[bytes]":
        found = self._read(ONE, key)
        return found[0][0] if found else None

    def scan(self, first: bytes, end: "Optional[bytes]") -> "Iterator[Tuple[bytes, bytes]]":
        """The rows, a hundred at a time. PostgreSQL orders `bytea` by its bytes, as a tree does."""
        statement, below = (FROM, ()) if end is None else (BETWEEN, (end,))
        while some := self._read(statement, first, *below):
            yield from some
            first = some[-1][0] + b"\0"

    def join(self, came: "List[Tuple[bytes, bytes]]") -> "List[Tuple[bytes, bytes]]":
        keys, values = [key for key, _ in came], [value for _, value in came]
        with self._lock, self._connected().transaction():
            # (the other statements of the program's transaction go here)
            joined: "List[Tuple[bytes, bytes]]" = self._connection.execute(JOIN, (keys, values)).fetchall()
        return joined


def main(left: str, right: str) -> None:
    ours, theirs = Rows(left), Rows(right)
    here, there = socket.socketpair()

    def peer() -> None:
        tree = SyncTree(theirs)
        tree.serve(theirs, there.recv, there.sendall)
        print(tree.catch_up(theirs, there.recv, there.sendall), "rows came to the second")

    thread = threading.Thread(target=peer)
    thread.start()
    tree = SyncTree(ours)
    print(tree.catch_up(ours, here.recv, here.sendall), "rows came to the first")
    tree.serve(ours, here.recv, here.sendall)
    thread.join()


if __name__ == "__main__":
    main(*sys.argv[1:])
