"""Replicas that hold their rows: as dicts, their root hashes, and threads."""
import copy
import ctypes
import pickle
import random
import unittest

from mst import Replica, Tree
from mst._library import ABSENT, library

from .common import InTurns, all_joined, begun_again, by_steps, drawn, in_threads, joined


class Rows(unittest.TestCase):
    def test_as_a_dict_whose_greater_values_stay(self):
        draw, held, replica = random.Random(1), {}, Replica()
        for _ in range(3000):
            key, value = bytes(draw.choices(b"\0a\xff", k=draw.randint(0, 4))), bytes(draw.choices(b"\0a\xff", k=draw.randint(0, 3)))
            replica.put(key, value)
            held[key] = max(held.get(key, b""), value)
            self.assertEqual((replica[key], len(replica)), (held[key], len(held)))
        self.assertEqual(list(replica), sorted(held))
        self.assertEqual((list(replica.items()), list(replica.keys()), list(replica.values())),
                         (sorted(held.items()), sorted(held), [held[key] for key in sorted(held)]))
        self.assertEqual((dict(replica), replica), (held, Replica(held)))
        self.assertTrue(all(key in replica for key in held))
        self.assertEqual((b"b" in replica, replica.get(b"b"), replica.get(b"b", b"?")), (False, None, b"?"))
        self.assertRaises(KeyError, replica.__getitem__, b"b")
        self.assertFalse(hasattr(replica, "__setitem__") or hasattr(replica, "__delitem__"))

    def test_rows_that_are_long(self):
        rows = {b"long": b"x" * 300000, b"k" * 70000: b"", b"": b"short"}
        replica = Replica(rows)
        self.assertEqual((dict(replica), replica[b"long"], replica[b"k" * 70000]), (rows, rows[b"long"], b""))
        self.assertTrue(b"k" * 70000 in replica)

    def test_rows_of_which_some_have_one_key(self):
        self.assertEqual(dict(Replica([(b"b", b"1"), (b"a", b"3"), (b"b", b"0"), (b"a", b"20")])), {b"a": b"3", b"b": b"1"})

    def test_what_is_iterated_is_what_was_there(self):
        replica = Replica({b"a": b"1"})
        keys, rows = iter(replica), replica.items()
        replica.put(b"b", b"2")
        self.assertEqual((list(keys), list(rows)), ([b"a"], [(b"a", b"1")]))

    def test_the_root_hash_is_that_of_a_tree(self):
        draw = random.Random(3)
        for base, page_format in [(base, page_format) for base in (1, 2, 16, 255) for page_format in (1, 2)]:
            rows, settings = drawn(draw, 300), {"key": bytes(range(16)), "level_base": base, "page_format": page_format}
            replica = Replica(rows, **settings)
            self.assertEqual(replica.root_hash(), Tree(rows, **settings).root_hash())
            replica.put(b"more", b"1")
            self.assertEqual(replica.root_hash(), Tree({**rows, b"more": b"1"}, **settings).root_hash())
        self.assertEqual(Replica().root_hash(), Tree().root_hash())

    def test_one_that_is_closed(self):
        with Replica({b"a": b"1"}) as replica:
            self.assertEqual(len(replica), 1)
        for call in [replica.root_hash, replica.items, lambda: len(replica), lambda: list(replica), lambda: replica.put(b"a", b"2"),
                     lambda: replica[b"a"], lambda: b"a" in replica, lambda: replica.answer(b""), lambda: next(replica.catch_up_steps())]:
            self.assertRaises(ValueError, call)
        replica.close()
        self.assertEqual(repr(replica), "<Replica, closed>")

    def test_one_that_is_closed_within_a_catch_up(self):
        replica = Replica({b"a": b"1"})
        steps = replica.catch_up_steps()
        question = next(steps)
        replica.close()
        self.assertRaises(ValueError, steps.send, Replica({b"b": b"1"}).answer(question))

    def test_settings_and_words_that_are_none(self):
        for settings in [{"key": b"short"}, {"level_base": 0}, {"level_base": 256}, {"page_format": 3}]:
            self.assertRaises(ValueError, Replica, **settings)
        replica = Replica({b"a": b"1"})
        for key, value in [("text", b""), (b"", "text"), (None, b""), (b"", 3), (bytearray(b"a"), b"")]:
            self.assertRaises(TypeError, replica.put, key, value)
        for word in ["text", None, 3]:
            self.assertRaises(TypeError, replica.__getitem__, word)
            self.assertRaises(TypeError, replica.__contains__, word)
            self.assertRaises(TypeError, replica.answer, word)
        steps = replica.catch_up_steps()
        next(steps)
        self.assertRaises(TypeError, steps.send, "text")
        for made in [copy.copy, copy.deepcopy, pickle.dumps]:
            self.assertRaises(TypeError, made, replica)
        self.assertEqual(dict(replica), {b"a": b"1"})


class CatchUps(unittest.TestCase):
    def test_one_that_is_left_is_let_go(self):
        ours = Replica({b"a": b"1"})
        left = ours.catch_up_steps()
        next(left)
        left.close()
        size, joined = ctypes.c_size_t(), ctypes.c_size_t()
        status = library.mst_replica_take(ours._address, b"", 0, ctypes.byref(size), ctypes.byref(joined))
        self.assertEqual(status, ABSENT)
        self.assertEqual(by_steps(ours, Replica({b"b": b"2"}).answer)[0], 1)


class Threads(InTurns):
    def test_threads_on_one_replica(self):
        replica, peers = Replica(), [Replica((b"%d" % i, b"%d" % seed) for i in range(seed, 3000, 7)) for seed in range(4)]
        wanted = all_joined(*map(dict, peers), {b"%d" % i: b"9" for i in range(0, 3000, 11)})

        def fill():
            for i in range(0, 3000, 11):
                replica.put(b"%d" % i, b"9")
                if i % 55 == 0:
                    keys = list(replica)
                    self.assertEqual(keys, sorted(keys))

        def asked(peer):
            return sum(begun_again(peer, replica.answer) for _ in range(20))

        def asks():
            return sum(begun_again(replica, peer.answer) for peer in peers)

        ends = in_threads(fill, asks, *[lambda peer=peer: asked(peer) for peer in peers])
        self.assertEqual([type(end) for end in ends], [type(None)] + [int] * 5)
        for peer in peers:
            by_steps(replica, peer.answer)
        self.assertEqual((dict(replica), replica.root_hash()), (wanted, Tree(wanted).root_hash()))
        for peer in peers:
            by_steps(peer, replica.answer)
            self.assertEqual(dict(peer), wanted)


if __name__ == "__main__":
    unittest.main()
