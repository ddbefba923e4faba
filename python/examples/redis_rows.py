"""Rows in Redis that catch up with those of peers, at the cost of what differs: what a `SyncTree` needs of them. A hash holds the values, and a
sorted set beside it holds the keys, since a range of keys needs an order and a hash has none. Of two values of a key the greater stays, so a
value begins with its time. It needs the package redis (Debian's `python3-redis`).

`redis_rows.py URL URL` brings the rows of two databases into step, each way."""
import socket
import sys
import threading
from typing import Dict, Iterable, Iterator, List, Optional, Tuple

import redis

from mst import SyncTree


class Rows:
    """The hash `values`, and the sorted set `keys`. A program that writes rows by other means has to write both, as `join` does."""

    def __init__(self, url: str) -> None:
        self._redis = redis.Redis.from_url(url)

    def get(self, key: bytes) -> "Optional[bytes]":
        value: "Optional[bytes]" = self._redis.hget("values", key)
        return value

    def scan(self, first: bytes, end: "Optional[bytes]") -> "Iterator[Tuple[bytes, bytes]]":
        """The rows, a hundred at a time. A sorted set orders keys with one score by their bytes, as a tree does."""
        start, stop = b"[" + first, b"+" if end is None else b"(" + end
        while keys := self._redis.zrangebylex("keys", start, stop, 0, 100):
            yield from ((key, value) for key, value in zip(keys, self._redis.hmget("values", keys)) if value is not None)
            start = b"(" + keys[-1]

    def join(self, came: "List[Tuple[bytes, bytes]]") -> "Iterable[Tuple[bytes, bytes]]":
        def write(pipe: "redis.client.Pipeline") -> "Dict[bytes, bytes]":
            """Reads the values, which are watched: if another program writes meanwhile, it is called again."""
            held = pipe.hmget("values", [key for key, _ in came])
            joined = {key: max(value, there or b"") for (key, value), there in zip(came, held)}
            pipe.multi()
            pipe.hset("values", mapping=joined)
            pipe.zadd("keys", dict.fromkeys(joined, 0))
            return joined

        joined: "Dict[bytes, bytes]" = self._redis.transaction(write, "values", value_from_callable=True)
        return joined.items()


def main(left: str, right: str) -> None:
    ours, theirs = Rows(left), Rows(right)
    here, there = socket.socketpair()

    def peer() -> None:
        tree = SyncTree(theirs)
        tree.serve(theirs, there.recv, there.sendall)
        print(tree.catch_up(theirs, there.recv, there.sendall), "rows came to the second")

    thread = threading.Thread(target=peer)
    thread.start()
    tree = SyncTree(ours)
    print(tree.catch_up(ours, here.recv, here.sendall), "rows came to the first")
    tree.serve(ours, here.recv, here.sendall)
    thread.join()


if __name__ == "__main__":
    main(*sys.argv[1:])
