"""Catch-ups of replicas, and of rows that are elsewhere, in a dict and in SQLite: what they bring and cost, limits, and peers that don't keep to the
messages."""
import random
import socket
import unittest

from mst import REFUSAL, MalformedError, RefusedError, Replica, Tree

from .common import KINDS, PAIRS, both_ways, by_steps, drawn, in_threads, joined, lacked, number, pair, rows_of, said_by


class Sides(unittest.TestCase):
    def assert_has(self, side, rows):
        """Checks which rows a side with the default settings has, and that its tree is that of these."""
        self.assertEqual((rows_of(side), side.root_hash()), (rows, Tree(rows).root_hash()))


class CatchUps(Sides):
    def test_one_side_comes_to_hold_the_join_and_then_both_do(self):
        draw = random.Random(5)
        for kinds in PAIRS:
            for size in [0, 1, 5, 60, 400] * 4:
                left, right = drawn(draw, size), drawn(draw, draw.choice([0, size]))
                wanted = joined(left, right)
                ours, theirs = pair(left, right, kinds)
                self.assertEqual(by_steps(ours, theirs.answer)[0], lacked(left, right))
                self.assert_has(ours, wanted)
                self.assert_has(theirs, right)
                self.assertEqual(by_steps(theirs, ours.answer)[0], lacked(right, wanted))
                self.assert_has(theirs, wanted)
                self.assertEqual(by_steps(ours, theirs.answer)[0], 0)
                self.assert_has(ours, wanted)

    def test_over_a_connection(self):
        draw = random.Random(6)
        for kinds in PAIRS:
            for size in [0, 1, 60, 400] * 3:
                left, right = drawn(draw, size), drawn(draw, size)
                wanted = joined(left, right)
                ours, theirs = pair(left, right, kinds)
                (came, answered), (answered_to_ours, came_to_theirs) = both_ways(ours, theirs)
                self.assertEqual((came, came_to_theirs), (lacked(left, right), lacked(right, wanted)))
                self.assertTrue(answered >= 1 and answered_to_ours >= 1)
                self.assert_has(ours, wanted)
                self.assert_has(theirs, wanted)

    def test_changed_missing_and_more_rows(self):
        same = {b"same%03d" % i: b"1" for i in range(300)}
        left = {**same, b"same007": b"2", b"only left": b"1", b"changed": b"1"}
        right = {**same, b"same008": b"3", b"only right": b"", b"changed": b"22", b"": b"the empty key", b"k" * 300: b"x" * 300}
        for kinds in PAIRS:
            ours, theirs = pair(left, right, kinds)
            self.assertEqual(both_ways(ours, theirs)[0][0], 6)
            self.assertEqual((rows_of(ours), rows_of(theirs)), (joined(left, right),) * 2)

    def test_under_other_settings_that_both_have(self):
        draw = random.Random(7)
        for settings in [{"key": b"a key of SipHash"}, {"level_base": 2}, {"level_base": 255}, {"page_format": 2}]:
            for kinds in PAIRS:
                left, right = drawn(draw, 200), drawn(draw, 200)
                ours, theirs = pair(left, right, kinds, **settings)
                both_ways(ours, theirs)
                self.assertEqual((rows_of(ours), rows_of(theirs)), (joined(left, right),) * 2)
                self.assertEqual(ours.root_hash(), Tree(rows_of(ours), **settings).root_hash())

    def test_what_it_costs_is_what_differs(self):
        rows = {b"key%06d" % i: b"" for i in range(20000)}
        for kind in ["dict", "replica"]:
            ours, theirs = pair(rows, {**rows, b"key012345": b"new"}, (kind, kind))
            came, size = by_steps(ours, theirs.answer)
            self.assertEqual((came, rows_of(ours)), (1, rows_of(theirs)))
            self.assertLess(size, 2500)
            came, size = by_steps(ours, theirs.answer)
            self.assertEqual(came, 0)
            self.assertLess(size, 100)

    def test_what_is_put_in_between_stays(self):
        def answer(question):
            ours.put(b"7", b"2")
            ours.put(b"b", b"2")
            return theirs.answer(question)

        for kinds in PAIRS:
            ours, theirs = pair({b"a": b"1"}, {b"%d" % i: b"1" for i in range(500)}, kinds)
            by_steps(ours, answer)
            self.assert_has(ours, {**rows_of(theirs), b"7": b"2", b"a": b"1", b"b": b"2"})

    def test_a_side_answers_while_it_asks(self):
        def answer(question):
            by_steps(others, ours.answer)
            return theirs.answer(question)

        left, right, third = [{b"%d" % i: b"%d" % step for i in range(0, 600, step)} for step in (2, 3, 5)]
        for kinds in PAIRS:
            (ours, theirs), others = pair(left, right, kinds), KINDS[kinds[1]](third)
            by_steps(ours, answer)
            self.assertEqual((rows_of(ours), rows_of(others)), (joined(left, right), joined(left, third)))

    def test_another_catch_up_takes_the_place_of_one(self):
        for kinds in PAIRS:
            ours, theirs = pair({b"a": b"1"}, {b"b": b"2"}, kinds)
            first = ours.catch_up_steps()
            reply = theirs.answer(next(first))
            second = ours.catch_up_steps()
            question = next(second)
            self.assertRaises(ValueError, first.send, reply)
            with self.assertRaises(StopIteration) as end:
                while True:
                    question = second.send(theirs.answer(question))
            self.assertEqual((end.exception.value, rows_of(ours)), (1, {b"a": b"1", b"b": b"2"}))

    def test_one_serves_many_connections(self):
        for kind in KINDS:
            hub, peers = KINDS[kind]((b"%d" % i, b"1") for i in range(500)), [Replica({b"own%d" % at: b"1"}) for at in range(4)]
            pairs = [socket.socketpair() for _ in peers]
            ends = in_threads(*[lambda at=at: hub.serve(pairs[at][0].recv, pairs[at][0].sendall) for at in range(4)],
                              *[lambda at=at: peers[at].catch_up(pairs[at][1].recv, pairs[at][1].sendall) for at in range(4)])
            for connection in [connection for pair in pairs for connection in pair]:
                connection.close()
            self.assertEqual((ends[4:], [len(peer) for peer in peers]), ([500] * 4, [501] * 4))


class Peers(Sides):
    """What a peer may send."""

    def test_other_settings_are_refused(self):
        for settings in [{"key": bytes(range(16))}, {"level_base": 4}, {"page_format": 2}]:
            for kinds in PAIRS:
                ours, theirs = KINDS[kinds[0]]({b"a": b"1"}), KINDS[kinds[1]]({b"b": b"2"}, **settings)
                self.assertRaises(RefusedError, by_steps, ours, theirs.answer)
                self.assertEqual(theirs.answer(next(ours.catch_up_steps())), REFUSAL)
                self.assertEqual([type(end) for end in both_ways(ours, theirs)], [RefusedError, RefusedError])
                self.assertEqual((rows_of(ours), rows_of(theirs)), ({b"a": b"1"}, {b"b": b"2"}))

    def test_what_is_no_reply(self):
        for kinds in PAIRS:
            theirs = KINDS[kinds[1]]((b"%d" % i, b"1") for i in range(300))
            for altered in [lambda reply: reply[:-1], lambda reply: reply + b"\0", lambda reply: b"", lambda reply: b"\2" + reply[1:],
                            lambda reply: bytes([reply[0], reply[1] ^ 1]) + reply[2:]]:
                for first in range(2):
                    ours, asked = KINDS[kinds[0]]({b"a": b"1"}), 0

                    def answer(question):
                        nonlocal asked
                        asked += 1
                        reply = theirs.answer(question)
                        return altered(reply) if asked > first else reply

                    self.assertRaises(MalformedError, by_steps, ours, answer)
                    self.assert_has(ours, {b"a": b"1"})

    def test_what_is_no_question(self):
        for kind in KINDS:
            side, draw = KINDS[kind]({b"a": b"1"}), random.Random(9)
            question = next(Replica({b"b": b"2"}).catch_up_steps())
            self.assertNotEqual(side.answer(question), REFUSAL)
            for message in [b"", b"\1", question[:-1], question + b"\0", b"\2" + question[1:], REFUSAL, side.answer(question)]:
                self.assertEqual(side.answer(message), REFUSAL)
            for _ in range(3000):
                message = bytearray(draw.choice([question, b"\1\2\x10\1\0\0", b"\1\3\x10\1\0\0", b"\1\4\1\1a", b"\1\5\1\0\0", bytes(20)]))
                for _ in range(draw.randint(1, 3)):
                    message[draw.randrange(len(message))] = draw.randrange(256)
                side.answer(bytes(message))
            self.assert_has(side, {b"a": b"1"})

    def test_replies_that_are_altered(self):
        def answer(question):
            nonlocal at
            reply = bytearray(theirs.answer(question))
            at -= 1
            if at == -1:
                for _ in range(draw.randint(1, 2)):
                    reply[draw.randrange(min(len(reply), draw.choice([8, 1 << 20])))] = draw.randrange(256)
            return bytes(reply)

        for kinds in [("dict", "dict"), ("dict", "replica"), ("replica", "dict"), ("replica", "replica")]:
            theirs = KINDS[kinds[1]]((b"%d" % i, b"1") for i in range(0, 300, 3))
            draw, ends = random.Random(11), set()
            for _ in range(300):
                ours, at = KINDS[kinds[0]]((b"%d" % i, b"1") for i in range(0, 300, 2)), draw.randrange(4)
                before = rows_of(ours)
                try:
                    by_steps(ours, answer, messages=50)
                    ends.add("done")
                    after = rows_of(ours)
                    self.assertTrue(all(after[key] >= value for key, value in before.items()))
                except (MalformedError, RefusedError) as error:
                    ends.add(type(error))
                    after = before
                self.assert_has(ours, after)
            self.assertLessEqual({"done", MalformedError}, ends)

    def test_a_peer_that_goes_on(self):
        for kinds in PAIRS:
            ours, theirs = pair({}, {b"%d" % i: b"1" for i in range(300)}, kinds)
            self.assertRaises(MalformedError, by_steps, ours, theirs.answer, messages=1)
            self.assertEqual((rows_of(ours), by_steps(ours, theirs.answer, messages=2)[0]), ({}, 300))
            question, written = next(Replica().catch_up_steps()), []
            self.assertRaises(MalformedError, theirs.serve, said_by(question, question, question), written.append, messages=2)
            self.assertEqual((len(written), written[-1]), (3, number(2) + REFUSAL))
            self.assertEqual(theirs.serve(said_by(question, question), written.append, messages=2), 2)

    def test_a_peer_that_breaks_off(self):
        def read(size):
            piece, came[:size] = bytes(came[:size]), b""
            return piece

        for kinds in PAIRS:
            theirs = KINDS[kinds[1]]((b"%d" % i, b"1") for i in range(300))
            said = []
            by_steps(KINDS[kinds[0]]({b"a": b"1"}), lambda question: said.append(theirs.answer(question)) or said[-1])
            whole = b"".join(number(len(reply)) + reply for reply in said)
            for end in {0, 1, 7, 8, 9, len(said[0]) + 7, len(said[0]) + 8, len(said[0]) + 9, len(whole) - 1}:
                ours, came = KINDS[kinds[0]]({b"a": b"1"}), bytearray(whole[:end])
                self.assertRaises(EOFError, ours.catch_up, read, lambda message: None)
                self.assert_has(ours, {b"a": b"1"})
                self.assertEqual(by_steps(ours, theirs.answer)[0], 300)
            written = []
            self.assertEqual(theirs.serve(lambda size: b"", written.append), 0)
            for end in (1, 7, 8, 9):
                came = bytearray((number(6) + b"\1\2\x10\1\0\0")[:end])
                self.assertRaises(EOFError, theirs.serve, read, written.append)
            self.assertEqual(written, [])

    def test_what_reads_and_writes_may_raise(self):
        def breaks(_):
            raise OSError("broken")

        for kind in KINDS:
            side = KINDS[kind]({b"a": b"1"})
            for read, write in [(breaks, lambda message: None), (lambda size: b"", breaks)]:
                self.assertRaises(OSError, side.catch_up, read, write)
            self.assertRaises(OSError, side.serve, breaks, lambda message: None)
            self.assertRaises(OSError, side.serve, said_by(next(Replica().catch_up_steps())), breaks)
            self.assertEqual(by_steps(side, Replica({b"b": b"2"}).answer)[0], 1)

    def test_a_peer_that_is_gone_is_told_by_what_it_sent(self):
        other = next(Replica({b"b": b"2"}, key=bytes(range(16))).catch_up_steps())
        question = next(Replica({b"b": b"2"}).catch_up_steps())
        for kind in KINDS:
            side = KINDS[kind]({b"a": b"1"})
            for message, error in [(b"no question", MalformedError), (other, RefusedError), (bytes(2000), MalformedError), (question, BrokenPipeError)]:
                ours, theirs = socket.socketpair()
                with ours:
                    theirs.sendall(number(len(message)) + message)
                    theirs.close()
                    self.assertRaises(error, side.serve, ours.recv, ours.sendall, limit=1000)

    def test_lengths_above_the_limit(self):
        def read(size):
            taken.append(size)
            return number(1 << 27) if len(taken) == 1 else b""

        for kind in KINDS:
            side, written, taken = KINDS[kind]({b"a": b"1"}), [], []
            question = next(Replica({b"b": b"2"}).catch_up_steps())
            reply = side.answer(question)
            self.assertRaisesRegex(MalformedError, "the limit is", side.catch_up, said_by(reply), written.append, limit=len(reply) - 1)
            self.assertRaisesRegex(MalformedError, "the limit is", side.serve, said_by(question), written.append, limit=len(question) - 1)
            self.assertEqual(written[1:], [number(2) + REFUSAL])
            self.assertEqual(side.serve(said_by(question), written.append, limit=len(question)), 1)
            self.assertRaises(MalformedError, side.serve, said_by(b"no question"), written.append)
            self.assertEqual(written[2:], [number(len(reply)) + reply, number(2) + REFUSAL])
            self.assertRaises(EOFError, side.catch_up, read, written.append)
            self.assertLessEqual(max(taken), 1 << 16)


if __name__ == "__main__":
    unittest.main()
