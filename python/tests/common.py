"""What the tests of catch-ups share: sides of each kind, drawn rows and their joins, catch-ups, and peers that send given bytes."""
import asyncio
import bisect
import functools
import importlib.util
import os
import socket
import struct
import sys
import threading
import unittest

from mst import MalformedError, Replica, SyncTree

EXAMPLES = os.path.join(os.path.dirname(os.path.abspath(__file__)), "..", "examples")


def example(name):
    """An example as a module."""
    spec = importlib.util.spec_from_file_location(name, os.path.join(EXAMPLES, f"{name}.py"))
    module = importlib.util.module_from_spec(spec)
    spec.loader.exec_module(module)
    return module


SqliteRows = example("sqlite_rows").Rows
number = struct.Struct("<Q").pack


class Rows:
    """Rows in a dict, of which the greater value stays, or the later register; how many were looked up; and what a call does before it returns."""

    def __init__(self, table=()):
        self.table, self.looked_up, self.closed, self.fault = dict(table), 0, 0, {}

    def _may_fail(self, when):
        if self.fault.get(when):
            raise self.fault[when]

    def get(self, key):
        self._may_fail("get")
        self.looked_up += 1
        return self.table.get(key)

    def scan(self, first, end):
        keys = sorted(self.table)
        try:
            for key in keys[bisect.bisect_left(keys, first):len(keys) if end is None else bisect.bisect_left(keys, end)]:
                self._may_fail("scan")
                self.looked_up += 1
                yield key, self.table[key]
        finally:
            self.closed += 1

    def join(self, came):
        assert came and all(row[0] < after[0] for row, after in zip(came, came[1:]))
        self._may_fail("join")
        for key, value in came:
            self.table[key] = max(value, self.table.get(key, value))
        self._may_fail("joined")
        return [(key, self.table[key]) for key, _ in came]


class Called:
    """A tree with its rows, called as a `Replica` is."""

    def __init__(self, rows, tree):
        self.rows, self.tree = rows, tree

    def catch_up_steps(self, **words):
        came = yield from self.tree.catch_up_steps(**words)
        assert all(row[0] < after[0] for row, after in zip(came, came[1:]))
        self.tree.join(self.rows, came)
        return len(came)

    def answer(self, question):
        return self.tree.answer(self.rows, question)

    def catch_up(self, read, write, **words):
        return self.tree.catch_up(self.rows, read, write, **words)

    def serve(self, read, write, **words):
        return self.tree.serve(self.rows, read, write, **words)

    def root_hash(self):
        return self.tree.root_hash()

    def put(self, key, value):
        self.tree.join(self.rows, [(key, value)])


class Side(Called):
    """Rows in a dict or elsewhere, and their tree."""

    def __init__(self, table=(), rows=None, **settings):
        rows = Rows(table) if rows is None else rows
        super().__init__(rows, SyncTree(rows, **settings))


def in_sqlite(table=(), **settings):
    """A side whose rows are in SQLite."""
    rows = SqliteRows(":memory:")
    rows._table.executemany("INSERT INTO rows VALUES (?, ?)", dict(table).items())
    rows._table.commit()
    return Side(rows=rows, **settings)


def rows_of(side):
    return dict(side) if isinstance(side, Replica) else dict(side.rows.scan(b"", None))


KINDS = {"dict": Side, "sqlite": in_sqlite, "replica": Replica}
PAIRS = [("dict", "dict"), ("dict", "replica"), ("replica", "dict"), ("sqlite", "sqlite"), ("sqlite", "replica"), ("replica", "sqlite"),
         ("replica", "replica")]


def pair(left, right, kinds, **settings):
    return [KINDS[kind](rows, **settings) for kind, rows in zip(kinds, (left, right))]


def drawn(draw, most, below=400):
    return {b"%d" % draw.randrange(below): b"%d" % draw.randrange(30) for _ in range(draw.randint(0, most))}


def joined(left, right):
    """The rows that both come to hold, by dicts alone."""
    return {key: max(left.get(key, b""), right.get(key, b"")) for key in sorted({*left, *right})}


def all_joined(*tables):
    """The rows that all come to hold."""
    return functools.reduce(joined, tables, {})


def lacked(left, right):
    """How many rows of the second the first hasn't."""
    return sum(left.get(key) != value for key, value in right.items())


def by_steps(asking, answer, **words):
    """A catch-up without a connection: how many rows came, and how many bytes went both ways."""
    steps, size = asking.catch_up_steps(**words), 0
    try:
        question = next(steps)
        while True:
            reply = answer(question)
            size += len(question) + len(reply)
            question = steps.send(reply)
    except StopIteration as end:
        return end.value, size


def begun_again(asking, answer):
    """How many rows came by a catch-up with a peer whose rows change in between: so it may tell a key twice, and the catch-up begins again."""
    for _ in range(100):
        try:
            return by_steps(asking, answer)[0]
        except MalformedError:
            pass
    raise AssertionError("the rows always change in between")


class InTurns(unittest.TestCase):
    """Tests of threads, which take turns as often as they can."""

    def setUp(self):
        self.addCleanup(sys.setswitchinterval, sys.getswitchinterval())
        sys.setswitchinterval(1e-6)


def in_threads(*calls):
    """What calls return or raise, each in a thread of its own."""
    ends = [None] * len(calls)

    def run(at):
        try:
            ends[at] = calls[at]()
        except Exception as error:
            ends[at] = error

    threads = [threading.Thread(target=run, args=(at,)) for at in range(len(calls))]
    for thread in threads:
        thread.start()
    for thread in threads:
        thread.join()
    return ends


def both_ways(left, right, **words):
    """A catch-up each way over one connection: what each side's two calls return, or the error of the one that raised."""
    pair = socket.socketpair()

    def side(replica, connection, calls):
        with connection:
            connection.settimeout(10)
            return [getattr(replica, call)(connection.recv, connection.sendall, **words) for call in calls]

    return in_threads(lambda: side(left, pair[0], ["catch_up", "serve"]), lambda: side(right, pair[1], ["serve", "catch_up"]))


def said_by(*messages):
    """What reads messages of a peer, each behind its length."""
    came = bytearray(b"".join(number(len(message)) + message for message in messages))

    def read(size):
        piece, came[:size] = bytes(came[:size]), b""
        return piece

    return read


async def over_streams(connection, *calls):
    """Makes calls over a connection, one after the other, and closes it."""
    reader, writer = await asyncio.open_connection(sock=connection)
    try:
        return [await call(reader, writer) for call in calls]
    finally:
        writer.close()
