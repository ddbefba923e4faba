"""Trees of the digests of rows that are elsewhere, in a dict and in SQLite: questions about rows, replies in parts, rows that fail, catch-ups over asyncio,
and threads."""
import asyncio
import contextlib
import copy
import ctypes
import os
import pickle
import random
import signal
import socket
import sqlite3
import subprocess
import sys
import tempfile
import threading
import unittest
from unittest import mock

from mst import MalformedError, RefusedError, Replica, SyncTree, Tree, UnreadError
from mst._library import ABSENT, library
from mst._sync_tree import _list, _look_up

from .common import (EXAMPLES, PAIRS, InTurns, Rows, Side, SqliteRows, all_joined, begun_again, both_ways, by_steps, drawn, in_sqlite, in_threads,
                     joined, lacked, number, over_streams, pair, rows_of, said_by)


def count(value):
    """The bytes of a count of docs/WIRE.md."""
    return bytes([value]) if value < 128 else bytes([128 + value % 128]) + count(value // 128)


def key_of_run(last, key):
    """A key in a run after one whose bytes are given, and its own bytes."""
    own = count(len(key)) + key
    kept = len(os.path.commonprefix([last[:255], own]))
    more = len(own) - kept
    front = bytes([16 * kept + more]) if kept < 15 and more < 16 else b"\xf0" + count(kept) + count(more)
    return front + own[kept:], own


def asks_at(keys):
    """The question for the values at keys."""
    parts, last = [b"\1\4", count(len(keys))], b""
    for key in keys:
        piece, last = key_of_run(last, key)
        parts.append(piece)
    return b"".join(parts)


def asks_in(gaps):
    """The question for the rows in gaps."""
    parts, last = [b"\1\5", count(len(gaps))], b""
    for bound in [bound for gap in gaps for bound in gap]:
        if bound is None:
            parts.append(b"\0")
        else:
            piece, last = key_of_run(last, bound)
            parts += [b"\1", piece]
    return b"".join(parts)


class Reply:
    """Reads a reply."""

    def __init__(self, reply, kind):
        assert reply[:2] == bytes([1, kind]), reply[:2]
        self.reply, self.at = reply, 2

    def take(self, size):
        part = self.reply[self.at:self.at + size]
        assert len(part) == size
        self.at += size
        return part

    def count(self):
        value = place = 0
        while True:
            byte = self.take(1)[0]
            value |= (byte & 127) << 7 * place
            place += 1
            if byte < 128:
                return value

    def string(self):
        return self.take(self.count())

    def is_over(self):
        return self.at == len(self.reply)

    def values(self):
        """The entries of a reply with values."""
        told = []
        while not self.is_over():
            told.append(self.string() if self.take(1) == b"\1" else None)
        return told

    def parts(self, gaps):
        """The parts of a reply with the rows in gaps, each with its flag."""
        told = []
        while not self.is_over():
            after = gaps[len(told)][0]
            last, rows = b"" if after is None else count(len(after)) + after, []
            for _ in range(self.count()):
                kept, more = divmod(self.take(1)[0], 16)
                if kept == 15:
                    kept, more = self.count(), self.count()
                last = last[:255][:kept] + self.take(more)
                inner = Reply(b"\1\1" + last, 1)
                rows.append((inner.string(), self.string()))
            told.append((rows, self.take(1) == b"\1"))
        return told


def values_at(side, keys):
    """The values at keys, in as many replies as it takes; and how many these were."""
    told, replies = [], 0
    while len(told) < len(keys):
        entries = Reply(side.answer(asks_at(keys[len(told):])), 132).values()
        assert entries
        told, replies = told + entries, replies + 1
    return told, replies


def rows_in(side, gaps):
    """The rows in each gap, in as many replies as it takes; and how many these were."""
    told, replies, begun = [], 0, []
    while len(told) < len(gaps):
        rest = list(gaps[len(told):])
        if begun:
            rest[0] = (begun[-1][0], rest[0][1])
        parts = Reply(side.answer(asks_in(rest)), 133).parts(rest)
        assert parts and all(is_all for _, is_all in parts[:-1]) and (parts[-1][0] or parts[-1][1])
        for rows, is_all in parts:
            begun += rows
            if is_all:
                told.append(begun)
                begun = []
        replies += 1
    return told, replies


def is_within(key, gap):
    return (gap[0] is None or key > gap[0]) and (gap[1] is None or key < gap[1])


class Trees(unittest.TestCase):
    def test_as_a_tree(self):
        draw = random.Random(1)
        for settings in [{}, {"key": bytes(range(16)), "level_base": 2, "page_format": 2}, {"level_base": 255}]:
            tree, other, held = SyncTree(**settings), Tree(**settings), {}
            for _ in range(1500):
                key, value = bytes(draw.choices(b"\0a\xff", k=draw.randint(0, 4))), bytes(draw.choices(b"\0a\xff", k=draw.randint(0, 3)))
                if draw.random() < 0.7:
                    tree[key] = other[key] = held[key] = value
                else:
                    self.assertEqual((tree.discard(key), other.discard(key)), (key in held,) * 2)
                    held.pop(key, None)
                self.assertEqual((tree.get_digest(key), key in tree), (other.get_digest(key), key in held))
            self.assertEqual((len(tree), tree.root_hash()), (len(held), other.root_hash()))
            self.assertEqual(tree.root_hash(), Replica(held, **settings).root_hash())
            del tree[next(iter(held))]
            self.assertEqual(len(tree), len(held) - 1)
        self.assertRaises(KeyError, tree.__delitem__, b"none such")
        self.assertTrue(SyncTree())

    def test_a_load(self):
        rows = Rows({b"b": b"1", b"a": b"2", b"": b""})
        tree = SyncTree(rows)
        self.assertEqual((tree.root_hash(), rows.closed), (Tree(rows.table).root_hash(), 1))
        tree[b"more"] = b"1"
        rows.table[b"c"] = b"1"
        tree.load(rows)
        self.assertEqual((tree.root_hash(), len(tree)), (Tree(rows.table).root_hash(), 4))
        rows.fault["scan"] = OSError("lost")
        self.assertRaises(OSError, tree.load, rows)
        self.assertEqual(tree.root_hash(), Tree(rows.table).root_hash())

    def test_a_load_ends_a_catch_up(self):
        ours, theirs = Side({b"a": b"1"}), Side({b"b": b"2"})
        steps = ours.tree.catch_up_steps()
        reply = theirs.answer(next(steps))
        ours.tree.load(ours.rows)
        self.assertRaises(ValueError, steps.send, reply)
        self.assertEqual((by_steps(ours, theirs.answer)[0], rows_of(ours)), (1, {b"a": b"1", b"b": b"2"}))

    def test_rows_that_come_in_another_order(self):
        class Others(Rows):
            def scan(self, first, end):
                return iter(self.out)

        rows, side = Others(), Side({b"%d" % i: b"" for i in range(9)})
        for keys, text in [((b"b", b"a"), "b'a' after b'b', .* COLLATE"), ((b"b", b"B"), "b'B' after b'b', .* COLLATE"), ((b"a", b"a"), "b'a' twice: ")]:
            rows.out = [(key, b"") for key in keys]
            for call in [side.tree.load, side.tree.verify, SyncTree, SyncTree().rescan]:
                self.assertRaisesRegex(ValueError, text, call, rows)
            self.assertRaisesRegex(ValueError, text, side.tree.answer, rows, asks_in([(None, None)]))
        for rows.out in [[(b"a", b"")], [(b"c", b"")], [(b"b", b""), (b"c", b"")]]:
            text = f"{rows.out[-1][0]}, which isn't in the range .* COLLATE"
            self.assertRaisesRegex(ValueError, text, side.tree.answer, rows, asks_in([(b"a", b"c")]))
            self.assertRaisesRegex(ValueError, text, SyncTree().rescan, rows, b"a\0", b"c")
        rows.out = [(b"k" * 5000, b""), (b"j" * 5000, b"")]
        with self.assertRaises(ValueError) as caught:
            side.tree.load(rows)
        self.assertLess(len(str(caught.exception)), 400)
        self.assertEqual((len(side.tree), side.root_hash()), (9, Tree(rows_of(side)).root_hash()))

    def test_one_that_is_closed(self):
        rows = Rows({b"a": b"1"})
        with SyncTree(rows) as tree:
            self.assertEqual(len(tree), 1)
        for call in [tree.root_hash, lambda: len(tree), lambda: tree.get_digest(b"a"), lambda: b"a" in tree, lambda: tree.discard(b"a"),
                     lambda: tree.__setitem__(b"a", b""), lambda: tree.load(rows), lambda: tree.join(rows, [(b"a", b"2")]),
                     lambda: tree.refresh(rows, [b"a"]), lambda: tree.answer(rows, b""), lambda: next(tree.catch_up_steps())]:
            self.assertRaises(ValueError, call)
        tree.close()
        self.assertEqual(repr(tree), "<SyncTree, closed>")

    def test_settings_and_words_that_are_none(self):
        for settings in [{"key": b"short"}, {"level_base": 0}, {"level_base": 256}, {"page_format": 3}]:
            self.assertRaises(ValueError, SyncTree, **settings)
        rows = Rows({b"a": b"1"})
        tree = SyncTree(rows)
        for key, value in [("text", b""), (b"", "text"), (None, b""), (b"", 3), (bytearray(b"a"), b"")]:
            self.assertRaises(TypeError, tree.__setitem__, key, value)
            self.assertRaises(TypeError, tree.join, rows, [(key, value)])
        for word in ["text", None, 3]:
            for call in [tree.get_digest, tree.__contains__, tree.discard, lambda word: tree.refresh(rows, [word]), lambda word: tree.answer(rows, word)]:
                self.assertRaises(TypeError, call, word)
        self.assertRaisesRegex(ValueError, "twice", tree.join, rows, [(b"a", b"1"), (b"b", b""), (b"a", b"2")])
        steps = tree.catch_up_steps()
        next(steps)
        self.assertRaises(TypeError, steps.send, "text")
        for made in [copy.copy, copy.deepcopy, pickle.dumps]:
            self.assertRaises(TypeError, made, tree)
        self.assertEqual((rows.table, len(tree), tree._unsure), ({b"a": b"1"}, 1, {}))


class CatchUps(unittest.TestCase):
    def test_what_is_looked_up_is_what_differs(self):
        rows = {b"key%06d" % i: b"" for i in range(20000)}
        ours, theirs = Side(rows), Side({**rows, b"key012345": b"new"})
        theirs.rows.looked_up = ours.rows.looked_up = 0
        self.assertEqual((by_steps(ours, theirs.answer)[0], ours.rows.table[b"key012345"]), (1, b"new"))
        self.assertEqual((theirs.rows.looked_up, ours.rows.looked_up), (1, 0))

    def test_one_that_is_left_is_let_go(self):
        ours = Side({b"a": b"1"})
        left = ours.tree.catch_up_steps()
        next(left)
        left.close()
        size, other = ctypes.c_size_t(), ctypes.c_size_t()
        self.assertEqual(library.mst_sync_take(ours.tree._address, b"", 0, ctypes.byref(size), ctypes.byref(other)), ABSENT)
        self.assertEqual(by_steps(ours, Side({b"b": b"2"}).answer)[0], 1)

    def test_a_rule_of_ones_own(self):
        class Least(Rows):
            def join(self, came):
                for key, value in came:
                    self.table[key] = min(value, self.table.get(key, value))
                return [(key, self.table[key]) for key, _ in came]

        ours, theirs = [Side(rows=Least(table)) for table in ({b"a": b"1", b"b": b"2"}, {b"a": b"2", b"b": b"1", b"c": b"3"})]
        both_ways(ours, theirs)
        self.assertEqual((rows_of(ours), ours.root_hash()), ({b"a": b"1", b"b": b"1", b"c": b"3"}, theirs.root_hash()))

    def test_rows_that_arent_taken(self):
        class Few(Rows):
            def join(self, came):
                return super().join([row for row in came if row[0] != b"b"])

        ours, theirs = Side(rows=Few({b"a": b"1"})), Side({b"b": b"2", b"c": b"3"})
        self.assertEqual((by_steps(ours, theirs.answer)[0], rows_of(ours)), (2, {b"a": b"1", b"c": b"3"}))
        self.assertEqual(ours.root_hash(), Tree(rows_of(ours)).root_hash())


class Parts(unittest.TestCase):
    """Replies that have as many rows as fit, and as many look-ups."""

    def test_catch_ups_in_parts(self):
        draw = random.Random(8)
        for most in [1, 40, 1000]:
            with mock.patch("mst._sync_tree._MOST", most):
                for kinds in PAIRS[:5]:
                    for size in [5, 60, 400]:
                        left, right = drawn(draw, draw.choice([0, size])), drawn(draw, size)
                        ours, theirs = pair(left, right, kinds)
                        both_ways(ours, theirs)
                        self.assertEqual((rows_of(ours), rows_of(theirs)), (joined(left, right),) * 2)

    def drawn_key(self, draw):
        front = draw.choice([b"", b"", b"p" * 7, b"q" * 253, b"q" * 260])
        return front + bytes(draw.choices(b"\0a\xff", k=draw.randint(0, 5)))

    def drawn_gaps(self, draw, few):
        if draw.random() < 0.3:
            keys = sorted({self.drawn_key(draw) for _ in range(2 * draw.randint(1, few))})
            return [(None, keys[0]), *zip(keys, keys[1:]), (keys[-1], None)]
        return [tuple(draw.choice([None, self.drawn_key(draw)]) for _ in range(2)) for _ in range(draw.randint(1, few))]

    def test_values_at_keys(self):
        draw = random.Random(9)
        for _ in range(300):
            table = {self.drawn_key(draw): bytes(draw.randrange(20)) for _ in range(draw.randint(0, 40))}
            side, keys = Side(table), [self.drawn_key(draw) for _ in range(draw.randint(1, 30))]
            keys += draw.sample(sorted(table), min(len(table), draw.randint(0, 30)))
            draw.shuffle(keys)
            self.assertEqual(side.answer(asks_at(keys)), Replica(table).answer(asks_at(keys)))
            with mock.patch("mst._sync_tree._MOST", draw.choice([1, 17, 100, 500])):
                self.assertEqual(values_at(side, keys)[0], [table.get(key) for key in keys])

    def test_rows_in_ranges(self):
        draw = random.Random(10)
        for _ in range(300):
            table = {self.drawn_key(draw): bytes(draw.randrange(20)) for _ in range(draw.randint(0, 60))}
            side, gaps = Side(table), self.drawn_gaps(draw, 8)
            self.assertEqual(side.answer(asks_in(gaps)), Replica(table).answer(asks_in(gaps)))
            with mock.patch("mst._sync_tree._MOST", draw.choice([1, 17, 100, 500, 2000])):
                told = rows_in(side, gaps)[0]
            self.assertEqual(told, [sorted(row for row in table.items() if is_within(row[0], gap)) for gap in gaps])

    def test_no_more_is_looked_up_than_fits(self):
        side = Side({b"key%06d" % i: b"v" * 100 for i in range(3000)})
        keys = sorted(side.rows.table)
        with mock.patch("mst._sync_tree._MOST", 10000):
            for ask, some in [(lambda: side.answer(asks_in([(None, None)])), 100), (lambda: side.answer(asks_at(keys)), 100),
                              (lambda: side.answer(asks_in([(b"x", b"y")] * 5000)), 1), (lambda: side.answer(asks_at([b"none"] * 5000)), 501),
                              (lambda: side.answer(asks_in([(key, key + b"\0") for key in keys])), 1)]:
                side.rows.looked_up = side.rows.closed = 0
                self.assertLess(len(ask()), 12000)
                self.assertLessEqual(side.rows.looked_up, some)
                self.assertLessEqual(side.rows.closed, 2000)
            told, replies = rows_in(side, [(None, None)])
            self.assertEqual((told, replies > 25, replies < 60), ([sorted(side.rows.table.items())], True, True))

    def test_what_is_handed_in_for_a_reply(self):
        # rows of the first keys or ranges are handed in as such, and else as all
        rows, keys = Rows({b"%02d" % i: b"v" * 10 for i in range(50)}), [b"%02d" % i for i in range(50)]
        for needed, most, handed_in, is_all in [
            ([], 100, 0, True),
            ([(key, b"\2") for key in keys], 10000, 50, True),
            ([(key, b"\2") for key in keys[::-1]], 100, 4, False),
            ([(key, b"\2") for key in [b"none", *keys]], 100, 3, True),
            ([(b"", b"\0")], 10000, 50, True),
            ([(b"", b"\0")], 100, 5, False),
            ([(b"1", b"\0011"), (b"11", b"\0")], 100, 4, False),
            ([(b"4", b"\0"), (b"1", b"\0")], 300, 12, True),
            ([(b"2", b"\0013"), (b"1", b"\0012")], 300, 12, True),
            ([(b"2", b"\0011"), (b"3", b"\0")], 100, 4, True),
        ]:
            found, are_all, least = _look_up(rows, _list(needed), most)
            self.assertEqual((len(found), are_all), (handed_in, is_all))
            self.assertTrue(least == most if len(found) in (0, 50) else 0 < least < most)

    def test_what_scan_returns_is_closed(self):
        class Cursors(Rows):
            def scan(self, first, end):
                cursor = mock.Mock(spec=["__iter__", "__next__", "close"], wraps=super().scan(first, end))
                cursor.__iter__ = lambda cursor: super(Cursors, self).scan(first, end)
                self.cursors.append(cursor)
                return cursor

        rows = Cursors({b"%d" % i: b"1" for i in range(50)})
        rows.cursors = []
        tree = SyncTree(rows)
        with mock.patch("mst._sync_tree._MOST", 100):
            tree.answer(rows, asks_in([(None, None)]))
        rows.fault["scan"] = OSError("lost")
        self.assertRaises(OSError, tree.answer, rows, asks_in([(None, None)]))
        self.assertEqual([cursor.close.call_count for cursor in rows.cursors], [1, 1, 1])

    def test_a_row_that_is_longer_than_a_reply(self):
        table = {b"a": b"1", b"long": b"x" * 100000, b"longer": b"y" * 100000, b"z": b""}
        with mock.patch("mst._sync_tree._MOST", 1000):
            ours, theirs = Side(), Side(table)
            self.assertEqual((by_steps(ours, theirs.answer)[0], rows_of(ours)), (4, table))

    def test_a_row_that_went_between_question_and_answer(self):
        table = {b"%03d" % i: b"1" for i in range(200)}
        ours, theirs = Side({**table, b"003": b"0", b"004": b"0", b"005": b"0"}), Side(table)

        def answer(question):
            if question[:2] == b"\1\4":
                theirs.rows.table.pop(b"004", None)
                theirs.rows.table[b"005"] = b"3"
            return theirs.answer(question)

        self.assertEqual((by_steps(ours, answer)[0], rows_of(ours)), (2, {**table, b"004": b"0", b"005": b"3"}))

    def test_keys_of_one_front(self):
        # keys that take few bytes in a reply, and many in memory
        side = Side({b"k" * 240 + b"%05d" % i: b"" for i in range(2000)})
        with mock.patch("mst._sync_tree._MOST", 20000):
            side.rows.looked_up = 0
            told, replies = rows_in(side, [(None, None)])
        self.assertEqual((told, replies < 80), ([sorted(side.rows.table.items())], True))
        self.assertLess(side.rows.looked_up, 3 * 2000)


class Texts(Rows):
    """A table that can't hold keys with a byte 0, nor look them up."""

    def get(self, key):
        if b"\0" in key:
            raise UnicodeError("no text")
        return super().get(key)

    def join(self, came):
        for key, _ in came:
            self.get(key)
        return super().join(came)


def both_ways_raising(ours, theirs):
    """A catch-up each way; the error of this side if there is one."""
    end = both_ways(ours, theirs)[0]
    if isinstance(end, Exception):
        raise end
    return end


class Faults(unittest.TestCase):
    """Rows that fail, and programs that end: nothing is lost."""

    def in_step(self, side):
        self.assertEqual(side.root_hash(), Tree(rows_of(side)).root_hash())

    def test_a_join_that_writes_nothing(self):
        ours, theirs = Side({b"a": b"1"}), Side({b"b": b"2"})
        ours.rows.fault["join"] = OSError("lost")
        self.assertRaises(OSError, by_steps, ours, theirs.answer)
        self.assertEqual(rows_of(ours), {b"a": b"1"})
        self.in_step(ours)
        ours.rows.fault.clear()
        self.assertEqual((by_steps(ours, theirs.answer)[0], rows_of(ours)), (1, {b"a": b"1", b"b": b"2"}))
        self.in_step(ours)

    def test_a_join_whose_commit_isnt_told(self):
        for use in ["catch_up", "answer", "refresh"]:
            ours, theirs = Side({b"a": b"1"}), Side({b"b": b"2", b"c": b"3"})
            ours.rows.fault["joined"] = OSError("lost")
            self.assertRaises(OSError, by_steps, ours, theirs.answer)
            self.assertEqual((rows_of(ours), len(ours.tree)), ({b"a": b"1", b"b": b"2", b"c": b"3"}, 1))
            ours.rows.fault["get"] = OSError("still lost")
            self.assertRaisesRegex(UnreadError, "b'b', b'c': OSError: still lost", ours.answer, b"any question")
            ours.rows.fault.clear()
            if use == "catch_up":
                self.assertEqual(both_ways(ours, theirs)[0][0], 0)
            elif use == "answer":
                self.assertEqual((by_steps(theirs, ours.answer)[0], rows_of(theirs)), (1, rows_of(ours)))
            else:
                ours.tree.refresh(ours.rows)
            self.in_step(ours)
            self.assertEqual(ours.tree._unsure, {})

    def test_a_refresh_that_fails_is_made_up_for(self):
        ours, theirs = Side({b"a": b"1", b"b": b"1"}), Side()
        ours.rows.table.update({b"a": b"2", b"c": b"3"})
        del ours.rows.table[b"b"]
        ours.rows.fault["get"] = OSError("lost")
        self.assertRaises(UnreadError, ours.tree.refresh, ours.rows, [b"a", b"b", b"c"])
        ours.rows.fault.clear()
        self.assertEqual((by_steps(theirs, ours.answer)[0], rows_of(theirs)), (2, {b"a": b"2", b"c": b"3"}))
        self.in_step(ours)

    def unread(self, call, *words):
        """The keys at which a call can't look up rows."""
        with self.assertRaises(UnreadError) as caught:
            call(*words)
        self.assertIsInstance(caught.exception.__cause__, UnicodeError)
        self.assertIn("UnicodeError: no text", str(caught.exception))
        self.assertTrue(all(repr(key) in str(caught.exception) for key in caught.exception.keys))
        self.assertEqual(copy.copy(caught.exception).keys, caught.exception.keys)
        self.assertEqual(pickle.loads(pickle.dumps(caught.exception)).keys, caught.exception.keys)
        return caught.exception.keys

    def test_a_key_that_cant_be_looked_up(self):
        for way_out in ["get", "rescan", "load"]:
            side = Side(rows=Texts({b"a": b"1"}))
            self.assertRaises(UnicodeError, side.tree.join, side.rows, [(b"b", b"1"), (b"k\0", b""), (b"z", b"1")])
            # the other keys are looked up, in whatever order, and others go on
            side.rows.table.update({b"b": b"2", b"z": b"3"})
            self.assertEqual(self.unread(side.answer, b"any question"), [b"k\0"])
            self.in_step(side)
            self.assertEqual(self.unread(both_ways_raising, side, Side({b"c": b"1"})), [b"k\0"])
            side.rows.table[b"d"] = b"4"
            self.assertEqual(self.unread(side.tree.refresh, side.rows, [b"d"]), [b"k\0"])
            self.in_step(side)
            side.tree.rescan(side.rows, b"a", b"k\0")
            self.assertEqual(self.unread(side.tree.refresh, side.rows), [b"k\0"])
            if way_out == "get":
                side.rows.get = Rows(side.rows.table).get
            elif way_out == "rescan":
                side.tree.rescan(side.rows, b"k\0", b"k\0\0")
            else:
                side.tree.load(side.rows)
            self.assertEqual((both_ways(side, Side({b"c": b"1"}))[0][0], side.tree._unsure), (1, {}))
            self.in_step(side)

    def test_many_keys_that_cant_be_looked_up(self):
        bad, good = [b"%02d\0" % i for i in range(20)], [b"%02d" % i for i in range(30)]
        side = Side(rows=Texts())
        side.rows.table.update((key, b"1") for key in good)
        # eight in a call, and then others first
        self.assertEqual(self.unread(side.tree.refresh, side.rows, [*bad, *good]), bad[:8])
        self.assertEqual((len(side.tree), side.rows.looked_up), (0, 0))
        self.assertEqual(self.unread(side.tree.refresh, side.rows), bad[8:16])
        self.assertEqual(self.unread(side.tree.refresh, side.rows), [*bad[16:], *bad[:4]])
        self.assertEqual(side.rows.looked_up, 30)
        self.in_step(side)
        side.rows.table[b"new"] = b"2"
        self.assertEqual(self.unread(side.tree.refresh, side.rows, [b"new"]), bad[4:12])
        self.in_step(side)
        self.assertEqual(sorted(side.tree._unsure), bad)

    def test_a_refresh_after_writes_of_another_program(self):
        side = Side({b"%d" % i: b"1" for i in range(50)})
        side.rows.table.update({b"7": b"2", b"new": b"3"})
        del side.rows.table[b"8"]
        side.tree.refresh(side.rows, [b"7", b"8", b"new", b"none", b"9"])
        self.in_step(side)
        self.assertEqual(len(side.tree), 50)

    def test_look_ups_that_fail(self):
        theirs, pairs = Side({b"%03d" % i: b"1" for i in range(300)}), []
        for when, held in [("scan", {}), ("get", {**theirs.rows.table, b"007": b"0"})]:
            theirs.rows.fault = {when: OSError("lost")}
            ours = Side(held)
            ends = both_ways(ours, theirs)
            self.assertEqual(([type(end) for end in ends], rows_of(ours)), ([EOFError, OSError], held))
            theirs.rows.fault = {}
            both_ways(ours, theirs)
            self.assertEqual(rows_of(ours), rows_of(theirs))
            pairs.append(ours)
        self.in_step(theirs)

    def test_the_end_cant_be_told(self):
        ours, theirs = Side({b"a": b"1"}), Side({b"b": b"2"})
        said = []
        by_steps(Side({b"a": b"1"}), lambda question: said.append(theirs.answer(question)) or said[-1])

        def write(message):
            if message == bytes(8):
                raise OSError("broken")

        self.assertRaises(OSError, ours.catch_up, said_by(*said), write)
        self.assertEqual(rows_of(ours), {b"a": b"1", b"b": b"2"})
        self.in_step(ours)

    def test_sqlite_that_fails_within_a_transaction(self):
        ours, theirs = in_sqlite({b"a": b"1"}), Side({b"b": b"2", b"c": b"3"})
        ours.rows._table.execute("CREATE TRIGGER t BEFORE INSERT ON rows WHEN NEW.key = x'63' BEGIN SELECT RAISE(ABORT, 'no'); END")
        self.assertRaises(sqlite3.IntegrityError, by_steps, ours, theirs.answer)
        self.assertEqual(rows_of(ours), {b"a": b"1"})
        ours.rows._table.execute("DROP TRIGGER t")
        both_ways(ours, theirs)
        self.assertEqual((rows_of(ours), rows_of(theirs)), ({b"a": b"1", b"b": b"2", b"c": b"3"},) * 2)
        self.in_step(ours)

    def test_a_program_that_is_killed_between_commit_and_tree(self):
        killed = ("import os, signal, sys\nfrom mst import SyncTree\nfrom sqlite_rows import Rows\n"
                  "class Killing(Rows):\n    def join(self, came):\n        stand = super().join(came)\n"
                  "        if came[0][0] == b'melon':\n            os.kill(os.getpid(), signal.SIGKILL)\n        return stand\n"
                  "rows = Killing(sys.argv[1])\ntree = SyncTree(rows)\n"
                  "tree.join(rows, [(b'kiwi', b'1')])\ntree.join(rows, [(b'melon', b'2'), (b'plum', b'3')])\n")
        with tempfile.TemporaryDirectory() as folder:
            path = os.path.join(folder, "rows.db")
            done = subprocess.run([sys.executable, "-B", "-c", killed, path], timeout=60, check=False,
                                  env={**os.environ, "PYTHONPATH": os.pathsep.join([EXAMPLES, *sys.path])})
            self.assertEqual(done.returncode, -signal.SIGKILL)
            ours, theirs = Side(rows=SqliteRows(path)), Replica()
            both_ways(theirs, ours)
            self.assertEqual(dict(theirs), {b"kiwi": b"1", b"melon": b"2", b"plum": b"3"})
            self.in_step(ours)


class Peers(unittest.TestCase):
    """What a peer may send."""

    def test_replies_are_those_of_a_replica(self):
        side, draw = Side({b"a": b"1", b"b": b"2"}), random.Random(9)
        question = next(Replica({b"b": b"2"}).catch_up_steps())
        questions = [question, b"\1\2\x10\1\0\0", b"\1\3\x10\1\0\0", asks_at([b"a", b"zz", b"a"]), asks_in([(b"a", None), (None, b"b")]), bytes(20)]
        replica = Replica(side.rows.table)
        for _ in range(5000):
            message = bytearray(draw.choice(questions))
            for _ in range(draw.randint(1, 3)):
                message[draw.randrange(len(message))] = draw.randrange(256)
            reply = side.answer(bytes(message))
            # (pages are told by rows in a replica, and here by digests)
            if message[1:2] in (b"\1", b"\4", b"\5"):
                self.assertEqual(reply, replica.answer(bytes(message)))
        self.assertEqual((rows_of(side), side.root_hash()), (dict(replica), replica.root_hash()))

    def test_bytes_that_are_drawn(self):
        side, draw = Side({b"a": b"1", b"b": b"2"}), random.Random(10)
        for _ in range(3000):
            side.answer(bytes([1, draw.randrange(8)]) + bytes(draw.choices(range(256), k=draw.randrange(30))))
            steps = side.tree.catch_up_steps()
            next(steps)
            with contextlib.suppress(MalformedError, RefusedError, StopIteration):
                steps.send(bytes([1, draw.choice([129, 130, 255])]) + bytes(draw.choices(range(256), k=draw.randrange(30))))
            steps.close()
        self.assertEqual((rows_of(side), side.root_hash()), ({b"a": b"1", b"b": b"2"}, Tree(side.rows.table).root_hash()))


class Streams(unittest.TestCase):
    def streams(self, side, *calls, **words):
        return [lambda reader, writer, call=call: getattr(side.tree, f"{call}_streams")(side.rows, reader, writer, **words) for call in calls]

    def both(self, ours, theirs, **words):
        async def run():
            here, there = socket.socketpair()
            return await asyncio.gather(over_streams(here, *self.streams(ours, "catch_up", "serve", **words)),
                                        over_streams(there, *self.streams(theirs, "serve", "catch_up", **words)), return_exceptions=True)
        return asyncio.run(run())

    def test_both_ways(self):
        draw = random.Random(12)
        for kinds in [("dict", "dict"), ("sqlite", "sqlite")]:
            for size in [0, 1, 400]:
                left, right = drawn(draw, size), drawn(draw, size)
                wanted = joined(left, right)
                ours, theirs = pair(left, right, kinds)
                ends = self.both(ours, theirs)
                self.assertEqual((ends[0][0], ends[1][1]), (lacked(left, right), lacked(right, wanted)))
                self.assertEqual((rows_of(ours), rows_of(theirs), ours.root_hash()), (wanted, wanted, theirs.root_hash()))

    def test_with_a_replica_over_a_socket(self):
        left, right = [{b"%d" % i: b"%d" % step for i in range(0, 600, step)} for step in (2, 3)]
        ours, theirs = in_sqlite(left), Replica(right)
        here, there = socket.socketpair()

        def peer():
            with there:
                there.settimeout(10)
                return theirs.serve(there.recv, there.sendall), theirs.catch_up(there.recv, there.sendall)

        ends = in_threads(peer, lambda: asyncio.run(over_streams(here, *self.streams(ours, "catch_up", "serve"))))
        self.assertEqual((ends[0][1], ends[1][0]), (lacked(right, joined(left, right)), lacked(left, right)))
        self.assertEqual((rows_of(ours), dict(theirs)), (joined(left, right),) * 2)

    def test_the_loop_goes_on_while_rows_are_looked_up_and_written(self):
        class Slow(Rows):
            def scan(self, first, end):
                went_on.append(goes_on.wait(2))
                return super().scan(first, end)

            def join(self, came):
                went_on.append(goes_on.wait(2))
                return super().join(came)

        async def run():
            here, there = socket.socketpair()
            served = asyncio.gather(over_streams(here, *self.streams(ours, "catch_up")), over_streams(there, *self.streams(theirs, "serve")))
            await asyncio.sleep(0.1)
            self.assertEqual((served.done(), rows_of(ours)), (False, {}))
            goes_on.set()
            return await served

        for slow in ["ours", "theirs"]:
            goes_on, went_on, ours, theirs = threading.Event(), [], Side(), Side({b"%d" % i: b"1" for i in range(50)})
            if slow == "ours":
                ours.rows = Slow()
                ours.rows.scan = Rows().scan
            else:
                theirs.rows = Slow(theirs.rows.table)
            self.assertEqual((asyncio.run(run())[0], len(ours.tree), went_on), ([50], 50, [True]))

    def test_what_isnt_well(self):
        ends = self.both(Side({b"a": b"1"}), Side({b"b": b"2"}, page_format=2))
        self.assertEqual([type(end) for end in ends], [RefusedError, RefusedError])
        ends = self.both(Side({b"a": b"1"}), Side({b"b": b"2"}), limit=5)
        self.assertEqual([type(end) for end in ends], [RefusedError, MalformedError])
        ours = Side()
        ends = self.both(ours, Side((b"%d" % i, b"1") for i in range(300)), messages=1)
        self.assertEqual((type(ends[0]), rows_of(ours)), (MalformedError, {}))
        theirs = Side((b"%d" % i, b"1") for i in range(300))
        theirs.rows.fault["scan"] = OSError("lost")
        ends = self.both(ours, theirs)
        self.assertEqual(([type(end) for end in ends], rows_of(ours)), ([EOFError, OSError], {}))

    def test_a_peer_that_breaks_off_or_sends_other_bytes(self):
        side = Side({b"a": b"1"})
        question = next(Replica({b"b": b"2"}).catch_up_steps())
        asked = number(len(question)) + question
        for call, said, error in [("catch_up", b"", EOFError), ("catch_up", number(9) + b"1234", EOFError), ("catch_up", number(3) + b"abc", MalformedError),
                                  ("serve", asked[:4], EOFError), ("serve", asked[:-1], EOFError), ("serve", number(3) + b"abc", MalformedError),
                                  ("serve", asked, None), ("serve", b"", None), ("serve", asked + bytes(8), None)]:
            here, there = socket.socketpair()
            there.sendall(said)
            there.shutdown(socket.SHUT_WR)
            with there:
                if error:
                    self.assertRaises(error, asyncio.run, over_streams(here, *self.streams(side, call)))
                else:
                    self.assertEqual(asyncio.run(over_streams(here, *self.streams(side, call))), [1 if said else 0])
        self.assertEqual((rows_of(side), by_steps(side, Replica({b"b": b"2"}).answer)[0]), ({b"a": b"1"}, 1))

    def test_a_task_that_is_cancelled(self):
        ours, theirs = Side({b"a": b"1"}), Side({b"b": b"2"})

        async def run():
            here, there = socket.socketpair()
            with there:
                await asyncio.wait_for(over_streams(here, *self.streams(ours, "catch_up")), 0.05)

        self.assertRaises(asyncio.TimeoutError, asyncio.run, run())
        self.assertEqual((self.both(ours, theirs)[0][0], rows_of(ours)), (1, {b"a": b"1", b"b": b"2"}))


class Threads(InTurns):
    def test_threads_on_one_tree(self):
        hub, peers = in_sqlite(), [Replica((b"%d" % i, b"%d" % seed) for i in range(seed, 2000, 7)) for seed in range(4)]
        wanted = all_joined(*map(dict, peers), {b"%d" % i: b"9" for i in range(0, 2000, 11)})

        def write():
            for i in range(0, 2000, 22):
                hub.put(b"%d" % i, b"9")

        def write_and_refresh():
            for i in range(11, 2000, 22):
                hub.rows.join([(b"%d" % i, b"9")])
                hub.tree.refresh(hub.rows, [b"%d" % i])

        def asks():
            return sum(begun_again(hub, peer.answer) for peer in peers)

        def loads():
            for _ in range(3):
                hub.tree.load(hub.rows)

        ends = in_threads(write, write_and_refresh, *[lambda peer=peer: sum(begun_again(peer, hub.answer) for _ in range(10)) for peer in peers])
        self.assertEqual([type(end) for end in ends], [type(None)] * 2 + [int] * 4)
        ends = in_threads(write, asks, *[lambda peer=peer: begun_again(peer, hub.answer) for peer in peers])
        self.assertEqual([type(end) for end in ends], [type(None)] + [int] * 5)
        ends = in_threads(write, write_and_refresh, loads)
        self.assertEqual(ends, [None] * 3)
        for peer in peers:
            by_steps(hub, peer.answer)
        self.assertEqual((rows_of(hub), hub.root_hash()), (wanted, Tree(wanted).root_hash()))
        for peer in peers:
            by_steps(peer, hub.answer)
            self.assertEqual(dict(peer), wanted)

    def test_writes_of_one_key_by_threads(self):
        side = in_sqlite()

        def write(seed):
            for i in range(100):
                if i % 2:
                    side.put(b"key", b"%03d" % (i * 7 % 100 + seed))
                else:
                    side.rows.join([(b"key", b"%03d" % (i * 7 % 100 + seed))])
                    side.tree.refresh(side.rows, [b"key"])

        self.assertEqual(in_threads(*[lambda seed=seed: write(seed) for seed in range(4)]), [None] * 4)
        self.assertEqual(side.root_hash(), Tree(rows_of(side)).root_hash())

    def test_a_write_while_another_is_told_to_the_tree(self):
        class Slow(Rows):
            def join(self, came):
                stand = super().join(came)
                written.set()
                told.wait(0.3)
                return stand

        def refresh():
            written.wait(10)
            side.rows.table[b"key"] = b"2"
            side.tree.refresh(side.rows, [b"key"])
            told.set()

        written, told, side = threading.Event(), threading.Event(), Side(rows=Slow())
        self.assertEqual(in_threads(lambda: side.put(b"key", b"1"), refresh), [None, None])
        self.assertEqual(side.root_hash(), Tree({b"key": b"2"}).root_hash())


if __name__ == "__main__":
    unittest.main()
