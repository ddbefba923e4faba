"""Sessions that end early or have bounds: connections that are cut or silent, messages and rows above the limits, and settings that differ, also
where a side has no row."""
import asyncio
import contextlib
import socket
import threading
import time
import unittest

from mst import REFUSAL, MalformedError, RefusedError, RegisterTree, Tree

from .common import KINDS, PAIRS, Called, Rows, Side, both_ways, by_steps, in_threads, joined, number, over_streams, pair, rows_of, said_by


def every(step, most=300):
    return {b"%d" % i: b"%d" % step * 20 for i in range(0, most, step)}


class Cut:
    """A connection that is lost once so many bytes went over it, both ways together."""

    def __init__(self, connection, left):
        self.connection, self.left = connection, left

    def _may_go(self, size):
        if self.left == 0:
            with contextlib.suppress(OSError):
                self.connection.shutdown(socket.SHUT_RDWR)
        return min(size, max(self.left, 1))

    def recv(self, size):
        piece = self.connection.recv(self._may_go(size))
        self.left -= len(piece)
        return piece

    def sendall(self, message):
        while message:
            sent = self.connection.send(message[:self._may_go(len(message))])
            self.left -= sent
            message = message[sent:]


class Lost(unittest.TestCase):
    def in_step(self, side):
        self.assertEqual(side.root_hash(), Tree(rows_of(side)).root_hash())

    def cut_after(self, size, ours, theirs):
        """A catch-up each way over a connection that is cut: how the calls of both sides end."""
        here, there = socket.socketpair()

        def side(replica, raw, connection, calls):
            with raw:
                raw.settimeout(10)
                return [getattr(replica, call)(connection.recv, connection.sendall) for call in calls]

        return in_threads(lambda: side(ours, here, Cut(here, size), ["catch_up", "serve"]), lambda: side(theirs, there, there, ["serve", "catch_up"]))

    def test_connections_that_are_cut_after_each_byte(self):
        left, right = every(2, 24), every(3, 24)
        wanted = joined(left, right)
        for kinds, step in [(("dict", "dict"), 1), (("sqlite", "sqlite"), 17), (("dict", "replica"), 7), (("replica", "dict"), 7)]:
            reached = set()
            for size in range(0, 1 << 20, step):
                ours, theirs = pair(left, right, kinds)
                ends = self.cut_after(size, ours, theirs)
                if all(isinstance(end, list) for end in ends):
                    break
                self.assertTrue(all(isinstance(end, (list, EOFError, OSError)) for end in ends), ends)
                self.assertIn(rows_of(ours), [left, wanted])
                self.assertIn(rows_of(theirs), [right, wanted])
                for side in (ours, theirs):
                    self.in_step(side)
                reached.add((rows_of(ours) == wanted, rows_of(theirs) == wanted))
                both_ways(ours, theirs)
                self.assertEqual((rows_of(ours), rows_of(theirs)), (wanted, wanted))
                for side in (ours, theirs):
                    self.in_step(side)
            self.assertEqual((rows_of(ours), rows_of(theirs)), (wanted, wanted))
            self.assertLessEqual({(False, False), (True, False)}, reached)
            self.assertGreater(size, 500)

    def connected(self):
        """Two ends of a connection over TCP."""
        with socket.create_server(("127.0.0.1", 0)) as listener:
            ours = socket.create_connection(listener.getsockname())
            return ours, listener.accept()[0]

    def test_a_peer_that_is_silent(self):
        for kind in ["dict", "sqlite", "replica"]:
            side, began = KINDS[kind](every(2)), time.monotonic()
            # before any byte, within a length, and within a message
            for said in [b"", b"\x09\0", number(9) + b"\1\x81"]:
                for call in [side.catch_up, side.serve]:
                    ours, theirs = self.connected()
                    with ours, theirs:
                        ours.settimeout(0.05)
                        theirs.sendall(said)
                        self.assertRaises(socket.timeout, call, ours.recv, ours.sendall)
                    self.assertEqual(rows_of(side), every(2))
                    self.in_step(side)
            self.assertLess(time.monotonic() - began, 10)
            self.assertEqual((by_steps(side, Side(every(3)).answer)[0], rows_of(side)), (100, joined(every(2), every(3))))

    def test_a_peer_that_takes_nothing(self):
        side = Side({b"key": bytes(1 << 25)})
        ours, theirs = self.connected()
        with ours, theirs:
            ours.settimeout(0.05)
            theirs.sendall(number(5) + b"\1\5\1\0\0")
            self.assertRaises(socket.timeout, side.serve, ours.recv, ours.sendall)
        self.in_step(side)

    def test_a_peer_that_sends_a_byte_now_and_then_until_a_timer_shuts_the_connection(self):
        side, began = Side(every(2)), time.monotonic()
        ours, theirs = self.connected()

        def drip():
            with contextlib.suppress(OSError):
                theirs.sendall(number(1000))
                while True:
                    theirs.sendall(b"\1")
                    time.sleep(0.01)

        with ours, theirs:
            ours.settimeout(0.5)
            timer = threading.Timer(0.2, ours.shutdown, [socket.SHUT_RDWR])
            timer.start()
            ends = in_threads(lambda: side.catch_up(ours.recv, ours.sendall), drip)
        self.assertIsInstance(ends[0], EOFError)
        self.assertTrue(0.2 <= time.monotonic() - began < 10)
        self.assertEqual(rows_of(side), every(2))
        self.in_step(side)

    def test_a_silent_peer_under_asyncio(self):
        async def run(call):
            ours, theirs = self.connected()
            with theirs:
                await asyncio.wait_for(over_streams(ours, lambda reader, writer: call(side.rows, reader, writer)), 0.05)

        side = Side(every(2))
        for call in [side.tree.catch_up_streams, side.tree.serve_streams]:
            self.assertRaises(asyncio.TimeoutError, asyncio.run, run(call))
        self.assertEqual((by_steps(side, Side(every(3)).answer)[0], rows_of(side)), (100, joined(every(2), every(3))))


class Bounds(unittest.TestCase):
    """Bounds on the bytes and the rows of a session."""

    def one_way(self, ours, theirs, asks, answers):
        here, there = socket.socketpair()

        def side(connection, call, words):
            with connection:
                return call(connection.recv, connection.sendall, **words)

        return in_threads(lambda: side(here, ours.catch_up, asks), lambda: side(there, theirs.serve, answers))

    def test_bytes(self):
        for kinds in PAIRS[:3]:
            ours, theirs = pair(every(2), every(3), kinds)
            came, size = by_steps(ours, theirs.answer)
            self.assertEqual(came, 100)
            for most, well in [(size, True), (size - 1, False), (10, False), (0, False)]:
                bound = {"session_bytes": most}
                for asks, answers, error in [(bound, {}, MalformedError), ({}, bound, RefusedError)]:
                    ours, theirs = pair(every(2), every(3), kinds)
                    ends = self.one_way(ours, theirs, asks, answers)
                    if well:
                        self.assertEqual((ends[0], rows_of(ours)), (100, joined(every(2), every(3))))
                        continue
                    self.assertEqual((type(ends[0]), rows_of(ours)), (error, every(2)))
                    if answers:
                        self.assertEqual((type(ends[1]), rows_of(theirs)), (MalformedError, every(3)))
                    self.assertEqual(self.one_way(ours, theirs, {}, {})[0], 100)

    def test_a_peer_that_asks_again_and_again(self):
        side, written = Side(every(3)), []
        asks_for_all = b"\1\5\1\0\0"
        size = len(asks_for_all) + len(side.answer(asks_for_all))
        self.assertRaisesRegex(MalformedError, "the limit is", side.serve, said_by(*[asks_for_all] * 9), written.append, session_bytes=4 * size)
        self.assertEqual((len(written), written[-1]), (5, number(2) + REFUSAL))

    def test_rows(self):
        for most, came in [(100, 100), (99, None), (0, None)]:
            ours, theirs = Side(every(2)), Side(every(3))
            ends = self.one_way(ours, theirs, {"session_rows": most}, {})
            self.assertEqual(rows_of(ours), joined(every(2), every(3)) if came else every(2))
            if came:
                self.assertEqual(ends[0], came)
            else:
                self.assertIsInstance(ends[0], MalformedError)
                self.assertEqual(self.one_way(ours, theirs, {}, {})[0], 100)
            self.assertEqual(ours.root_hash(), Tree(rows_of(ours)).root_hash())
        self.assertEqual(by_steps(Side(every(3)), Side(every(3)).answer, session_rows=0)[0], 0)

    def test_over_streams(self):
        def both(asks, answers):
            async def run():
                here, there = socket.socketpair()
                calls = [over_streams(here, lambda reader, writer: ours.tree.catch_up_streams(ours.rows, reader, writer, **asks)),
                         over_streams(there, lambda reader, writer: theirs.tree.serve_streams(theirs.rows, reader, writer, **answers))]
                return await asyncio.gather(*calls, return_exceptions=True)
            return asyncio.run(run())

        for asks, answers in [({"session_bytes": 1000}, {}), ({"session_rows": 99}, {}), ({}, {"session_bytes": 1000})]:
            ours, theirs = Side(every(2)), Side(every(3))
            ends = both(asks, answers)
            self.assertIsInstance(ends[0], RefusedError if answers else MalformedError)
            self.assertEqual((rows_of(ours), both({}, {})[0]), (every(2), [100]))

    def test_bounds_that_are_none(self):
        def never(_):
            raise AssertionError("nothing is read or written")

        registers = Called(Rows(), RegisterTree(hash_key=bytes(16)))
        for side in [*(KINDS[kind](every(2)) for kind in KINDS), registers]:
            has_rows = isinstance(side, Called)
            for wrong in [-1, 1.5, "9", None]:
                for name in ["limit", "messages", "session_bytes", *["session_rows"] * has_rows]:
                    bound, text = {name: wrong}, f"^{name} is a whole number from 0 on, not {wrong!r}$"
                    self.assertRaisesRegex(ValueError, text, side.catch_up, never, never, **bound)
                    if name != "limit":
                        self.assertRaisesRegex(ValueError, text, next, side.catch_up_steps(**bound))
                    if name != "session_rows":
                        self.assertRaisesRegex(ValueError, text, side.serve, never, never, **bound)
                    if has_rows:
                        self.assertRaisesRegex(ValueError, text, asyncio.run, side.tree.catch_up_streams(side.rows, None, None, **bound))
                    if has_rows and name != "session_rows":
                        self.assertRaisesRegex(ValueError, text, asyncio.run, side.tree.serve_streams(side.rows, None, None, **bound))
        side = Side(every(2))
        self.assertEqual(by_steps(side, Side(every(3)).answer, messages=1 << 9, session_bytes=1 << 64, session_rows=1 << 64)[0], 100)


class Settings(unittest.TestCase):
    OTHERS = [{"key": b"a key of SipHash"}, {"level_base": 255}, {"page_format": 2}]

    def test_others_are_an_error_in_one_round_without_rows_too(self):
        for settings in self.OTHERS:
            for kinds in PAIRS[:3]:
                for left, right in [({}, every(3)), (every(2), {}), ({}, {})]:
                    ours, theirs = KINDS[kinds[0]](left, **settings), KINDS[kinds[1]](right)
                    questions = []
                    self.assertRaises(RefusedError, by_steps, ours, lambda question: questions.append(question) or theirs.answer(question))
                    self.assertEqual(len(questions), 1)
                    self.assertEqual([type(end) for end in both_ways(ours, theirs)], [RefusedError, RefusedError])
                    self.assertEqual((rows_of(ours), rows_of(theirs)), (left, right))

    def test_sides_without_rows_that_have_the_same(self):
        for settings in self.OTHERS:
            for kinds in PAIRS[:3]:
                ours, theirs = pair({}, {}, kinds, **settings)
                self.assertEqual([end[0 if at == 0 else 1] for at, end in enumerate(both_ways(ours, theirs))], [0, 0])
                rows = {b"": b"of the empty key", b"kiwi": b"1"}
                theirs = KINDS[kinds[1]](rows, **settings)
                both_ways(ours, theirs)
                self.assertEqual((rows_of(ours), ours.root_hash()), (rows, theirs.root_hash()))


if __name__ == "__main__":
    unittest.main()
