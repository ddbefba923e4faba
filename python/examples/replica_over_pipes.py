"""A replica that catches up with another program over standard input and output, such as one in Rust or C, and answers it. The first argument says what
it does first, `asks` or `answers`; the peer does the other. The others are its rows, each KEY=VALUE; what it has at the end goes to standard error."""
import os
import sys
from typing import List

from mst import Replica


def read(size: int) -> bytes:
    return os.read(0, size)


def write(piece: bytes) -> None:
    sys.stdout.buffer.write(piece)
    sys.stdout.buffer.flush()


def main(first: str, rows: "List[str]") -> None:
    replica = Replica()
    for key, _, value in (row.encode().partition(b"=") for row in rows):
        replica.put(key, value)
    if first == "asks":
        came = replica.catch_up(read, write)
        replica.serve(read, write)
    else:
        replica.serve(read, write)
        came = replica.catch_up(read, write)
    for key, value in replica.items():
        print(f"{key.decode()}={value.decode()}", file=sys.stderr)
    print(came, "rows came", file=sys.stderr)


if __name__ == "__main__":
    main(sys.argv[1], sys.argv[2:])
