"""Notes in SQLite that sync with a store of `mst`, at the cost of what differs: what a `RegisterTree` needs of a table, and a program for the pipes.

    store_peer.py NOTES HASH_KEY ssh host mst serve --both FILE    pulls from the store FILE, and then answers it
    store_peer.py NOTES HASH_KEY                                   answers `mst pull` on its standard input and output

HASH_KEY is what `ssh host mst hash-key FILE` prints."""
import functools
import os
import sqlite3
import subprocess
import sys
from typing import IO, Callable, Iterator, List, Optional, Tuple

from mst import Register, RegisterTree


class Notes:
    """A table of SQLite with a row for each key, removed ones too."""

    def __init__(self, path: str) -> None:
        self._table = sqlite3.connect(path)
        self._table.execute("CREATE TABLE IF NOT EXISTS notes (key TEXT PRIMARY KEY, time INTEGER, writer TEXT, value BLOB) WITHOUT ROWID")

    def get(self, key: str) -> "Optional[Register]":
        found = self._table.execute("SELECT time, writer, value FROM notes WHERE key = ?", (key,)).fetchone()
        return Register(*found) if found else None

    def scan(self, first: str, end: "Optional[str]") -> "Iterator[Tuple[str, Register]]":
        """The rows of a range. SQLite orders texts by their bytes, as a tree does."""
        bounds, below = ("key >= ?", ()) if end is None else ("key >= ? AND key < ?", (end,))
        for key, *register in self._table.execute(f"SELECT * FROM notes WHERE {bounds} ORDER BY key", (first, *below)):
            yield key, Register(*register)

    def join(self, came: "List[Tuple[str, Register]]") -> "List[Tuple[str, Register]]":
        with self._table:    # a transaction, which is committed at the end of the block
            joined = [(key, max(register, self.get(key) or register)) for key, register in came]
            self._table.executemany("REPLACE INTO notes VALUES (?, ?, ?, ?)", ((key, one.time, one.writer, one.value) for key, one in joined))
        return joined


def over(source: "IO[bytes]", sink: "IO[bytes]") -> "Tuple[Callable[[int], bytes], Callable[[bytes], None]]":
    def write(message: bytes) -> None:
        sink.write(message)
        sink.flush()

    return functools.partial(os.read, source.fileno()), write


def main(path: str, hash_key: str, *command: str) -> None:
    notes = Notes(path)
    tree = RegisterTree(notes, hash_key=bytes.fromhex(hash_key))
    if not command:
        tree.serve(notes, *over(sys.stdin.buffer, sys.stdout.buffer))
        return
    with subprocess.Popen(command, stdin=subprocess.PIPE, stdout=subprocess.PIPE) as store:
        assert store.stdin and store.stdout
        read, write = over(store.stdout, store.stdin)
        print(tree.catch_up(notes, read, write), "entries came")
        tree.serve(notes, read, write)
    if store.returncode:
        sys.exit(f"the peer ended with status {store.returncode}")


if __name__ == "__main__":
    main(*sys.argv[1:])
