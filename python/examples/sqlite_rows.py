"""Rows in SQLite that catch up with those of peers, at the cost of what differs: what a `SyncTree` needs of a table. Of two values of a key the
greater stays, so a value begins with its time."""
import socket
import sqlite3
import threading
from typing import Any, Iterator, List, Optional, Tuple

from mst import SyncTree


class Rows:
    """A table of SQLite, which threads use by turns."""

    def __init__(self, path: str) -> None:
        self._table = sqlite3.connect(path, check_same_thread=False)
        self._table.execute("CREATE TABLE IF NOT EXISTS rows (key BLOB PRIMARY KEY, value BLOB NOT NULL) WITHOUT ROWID")
        self._lock = threading.Lock()

    def _read(self, statement: str, *words: bytes) -> "List[Any]":
        with self._lock:
            return self._table.execute(statement, words).fetchall()

    def get(self, key: bytes) -> "Optional[bytes]":
        found = self._read("SELECT value FROM rows WHERE key = ?", key)
        return found[0][0] if found else None

    def scan(self, first: bytes, end: "Optional[bytes]") -> "Iterator[Tuple[bytes, bytes]]":
        """The rows, a hundred at a time. SQLite orders blobs by their bytes, as a tree does."""
        bounds, below = ("key >= ?", ()) if end is None else ("key >= ? AND key < ?", (end,))
        while some := self._read(f"SELECT key, value FROM rows WHERE {bounds} ORDER BY key LIMIT 100", first, *below):
            yield from some
            first = some[-1][0] + b"\0"

    def join(self, came: "List[Tuple[bytes, bytes]]") -> "List[Tuple[bytes, bytes]]":
        with self._lock, self._table:    # a transaction, which is committed at the end of the block
            # (the other statements of the program's transaction go here)
            self._table.executemany("INSERT INTO rows VALUES (?, ?) ON CONFLICT (key) DO UPDATE SET value = max(value, excluded.value)", came)
            return [self._table.execute("SELECT key, value FROM rows WHERE key = ?", (key,)).fetchone() for key, _ in came]


def main() -> None:
    left, right = Rows(":memory:"), Rows(":memory:")
    ours, theirs = SyncTree(left), SyncTree(right)
    ours.join(left, [(b"kiwi", b"1130 green"), (b"melon", b"1131 ripe")])
    theirs.join(right, [(b"apple", b"1132 red"), (b"kiwi", b"1207 brown")])
    here, there = socket.socketpair()

    def peer() -> None:
        theirs.serve(right, there.recv, there.sendall)
        theirs.catch_up(right, there.recv, there.sendall)

    thread = threading.Thread(target=peer)
    thread.start()
    print(ours.catch_up(left, here.recv, here.sendall), "rows came")
    ours.serve(left, here.recv, here.sendall)
    thread.join()
    assert ours.root_hash() == theirs.root_hash()
    print({key.decode(): value.decode() for key, value in left.scan(b"", None)})


if __name__ == "__main__":
    main()
