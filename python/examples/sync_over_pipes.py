"""Rows in SQLite, and the tree of their digests, which catch up with another program over standard input and output, such as a replica in Rust or C, and
answer it. The first argument says what they do first, `asks` or `answers`; the peer does the other. The others are the rows, each KEY=VALUE; what there is
at the end goes to standard error."""
import sys
from typing import List

from replica_over_pipes import read, write
from sqlite_rows import Rows

from mst import SyncTree


def main(first: str, words: "List[str]") -> None:
    rows = Rows(":memory:")
    tree = SyncTree(rows)
    tree.join(rows, ((key, value) for key, _, value in (word.encode().partition(b"=") for word in words)))
    if first == "asks":
        came = tree.catch_up(rows, read, write)
        tree.serve(rows, read, write)
    else:
        tree.serve(rows, read, write)
        came = tree.catch_up(rows, read, write)
    for key, value in rows.scan(b"", None):
        print(f"{key.decode()}={value.decode()}", file=sys.stderr)
    print(came, "rows came", file=sys.stderr)


if __name__ == "__main__":
    main(sys.argv[1], sys.argv[2:])
