"""Registers in Redis, the values of the store `mst`, that catch up with those of peers: what a `RegisterTree` needs of them. A hash holds the registers, and a
sorted set beside it holds the keys, since a range of keys needs an order and a hash has none. It needs the package redis (Debian's `python3-redis`).

`redis_registers.py URL URL HASH_KEY` brings the rows of two databases into step, each way; store_peer.py has the pipes for `mst`."""
import socket
import sys
import threading
from typing import Dict, Iterable, Iterator, List, Optional, Tuple

import redis

from mst import Register, RegisterTree


class Notes:
    """The hash `notes`, with the bytes of a register for each key, removed ones too; and the sorted set `noted`, with the keys. A program that writes notes by
    other means has to write both, as `join` does."""

    def __init__(self, url: str) -> None:
        self._redis = redis.Redis.from_url(url)

    def get(self, key: str) -> "Optional[Register]":
        held: "Optional[bytes]" = self._redis.hget("notes", key)
        return None if held is None else Register.from_bytes(held)

    def scan(self, first: str, end: "Optional[str]") -> "Iterator[Tuple[str, Register]]":
        """The rows, a hundred at a time. A sorted set orders keys with one score by their bytes, as a tree does."""
        start, stop = b"[" + first.encode(), b"+" if end is None else b"(" + end.encode()
        while keys := self._redis.zrangebylex("noted", start, stop, 0, 100):
            held = zip(keys, self._redis.hmget("notes", keys))
            yield from ((key.decode(), Register.from_bytes(register)) for key, register in held if register is not None)
            start = b"(" + keys[-1]

    def join(self, came: "List[Tuple[str, Register]]") -> "Iterable[Tuple[str, Register]]":
        def write(pipe: "redis.client.Pipeline") -> "Dict[str, Register]":
            """Reads the registers, which are watched: if another program writes meanwhile, it is called again."""
            held = pipe.hmget("notes", [key for key, _ in came])
            joined = {key: max(register, Register.from_bytes(there)) if there else register for (key, register), there in zip(came, held)}
            pipe.multi()
            pipe.hset("notes", mapping={key: register.to_bytes() for key, register in joined.items()})
            pipe.zadd("noted", dict.fromkeys(joined, 0))
            return joined

        joined: "Dict[str, Register]" = self._redis.transaction(write, "notes", value_from_callable=True)
        return joined.items()


def main(left: str, right: str, hash_key: str) -> None:
    ours, theirs = Notes(left), Notes(right)
    here, there = socket.socketpair()

    def peer() -> None:
        tree = RegisterTree(theirs, hash_key=bytes.fromhex(hash_key))
        tree.serve(theirs, there.recv, there.sendall)
        print(tree.catch_up(theirs, there.recv, there.sendall), "rows came to the second")

    thread = threading.Thread(target=peer)
    thread.start()
    tree = RegisterTree(ours, hash_key=bytes.fromhex(hash_key))
    print(tree.catch_up(ours, here.recv, here.sendall), "rows came to the first")
    tree.serve(ours, here.recv, here.sendall)
    thread.join()


if __name__ == "__main__":
    main(*sys.argv[1:])
