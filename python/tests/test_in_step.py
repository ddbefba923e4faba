"""A tree and rows that others write: what a tree says of them, and how it is brought into step."""
import random
import unittest

from mst import SyncTree, Tree

from .common import Rows, Side, by_steps, in_sqlite, rows_of

SETTINGS = [{}, {"key": b"a key of SipHash", "level_base": 2, "page_format": 2}, {"level_base": 1}, {"level_base": 255}]


def drawn_key(draw):
    """A key that shares much, little or nothing with others."""
    return b"f" * draw.choice([0, 0, 7, 14, 130, 253, 300]) + bytes(draw.choices(b"\0abz\xff", k=draw.randint(0, 4)))


def drawn(draw, most):
    return {drawn_key(draw): b"v" * draw.randint(0, 2) for _ in range(draw.randint(0, most))}


def written(draw, rows):
    """The rows after another program wrote and deleted some of them."""
    return {key: value for key, value in {**rows, **drawn(draw, 10)}.items() if draw.random() > 0.1}


def differing(one, other):
    return sorted(key for key in {**one, **other} if one.get(key) != other.get(key))


class Verify(unittest.TestCase):
    def test_it_names_the_keys_that_differ_which_a_refresh_sets_right(self):
        draw = random.Random(21)
        for settings in SETTINGS:
            for size in [0, 1, 5, 60, 400, 3000]:
                told = drawn(draw, size)
                side = Side(told, **settings)
                side.rows.table = written(draw, told)
                before = side.root_hash()
                keys = side.tree.verify(side.rows)
                self.assertEqual((keys, side.root_hash()), (differing(told, side.rows.table), before))
                side.tree.refresh(side.rows, keys)
                self.assertEqual((side.tree.verify(side.rows), side.root_hash()), ([], Tree(side.rows.table, **settings).root_hash()))

    def test_rows_that_are_all_gone_or_all_new(self):
        rows = {b"%05d" % i: b"1" for i in range(3000)}
        for told, now in [(rows, {}), ({}, rows)]:
            side = Side(told)
            side.rows.table = dict(now)
            self.assertEqual(side.tree.verify(side.rows), sorted(rows))

    def test_in_sqlite(self):
        side = in_sqlite({b"%03d" % i: b"1" for i in range(500)})
        self.assertEqual(side.tree.verify(side.rows), [])
        side.rows._table.execute("DELETE FROM rows WHERE key = ?", (b"007",))
        side.rows._table.execute("UPDATE rows SET value = ? WHERE key = ?", (b"2", b"008"))
        side.rows._table.execute("INSERT INTO rows VALUES (?, ?)", (b"new", b"1"))
        self.assertEqual(side.tree.verify(side.rows), [b"007", b"008", b"new"])
        side.tree.rescan(side.rows, b"007", b"009")
        self.assertEqual(side.tree.verify(side.rows), [b"new"])
        side.tree.rescan(side.rows)
        self.assertEqual((side.tree.verify(side.rows), side.root_hash()), ([], Tree(rows_of(side)).root_hash()))


class Rescan(unittest.TestCase):
    def test_it_sets_the_rows_of_a_range_and_no_others(self):
        draw = random.Random(22)
        for settings in SETTINGS:
            for size in [0, 1, 5, 60, 400, 3000] * 5:
                told = drawn(draw, size)
                side = Side(told, **settings)
                side.rows.table = written(draw, told)
                first, end = draw.choice([b"", drawn_key(draw)]), draw.choice([None, drawn_key(draw)])
                side.tree.rescan(side.rows, first, end)
                rows = [(key, value) for key, value in told.items() if key < first or (end is not None and key >= end)]
                rows += [(key, value) for key, value in side.rows.table.items() if key >= first and (end is None or key < end)]
                self.assertEqual(side.root_hash(), Tree(rows, **settings).root_hash(), (first, end))

    def test_rows_that_fail_and_ones_in_another_order(self):
        class Disordered(Rows):
            def scan(self, first, end):
                return iter([(b"b", b""), (b"a", b"")])

        side = Side({b"%d" % i: b"1" for i in range(50)})
        side.rows.table = {b"%d" % i: b"2" for i in range(0, 50, 2)}
        before = side.root_hash()
        side.rows.fault["scan"] = OSError("lost")
        for call in [side.tree.verify, side.tree.rescan]:
            self.assertRaises(OSError, call, side.rows)
            self.assertEqual(side.root_hash(), before)
        self.assertRaisesRegex(ValueError, "ascend", side.tree.verify, Disordered())
        self.assertRaisesRegex(ValueError, "ascend", side.tree.rescan, Disordered())
        side.rows.fault.clear()
        side.tree.rescan(side.rows)
        self.assertEqual(side.root_hash(), Tree(side.rows.table).root_hash())

    def test_words_that_are_none_and_a_tree_that_is_closed(self):
        rows = Rows({b"a": b"1"})
        tree = SyncTree(rows)
        for words in [("a", None), (None, None), (b"a", "b"), (3, None)]:
            self.assertRaises(TypeError, tree.rescan, rows, *words)
        tree.close()
        self.assertRaises(ValueError, tree.verify, rows)
        self.assertRaises(ValueError, tree.rescan, rows)

    def test_a_catch_up_goes_on(self):
        ours, theirs = Side({b"%d" % i: b"1" for i in range(0, 300, 2)}), Side({b"%d" % i: b"1" for i in range(300)})

        def answer(question):
            self.assertEqual(ours.tree.verify(ours.rows), [])
            ours.tree.rescan(ours.rows, b"1", b"2")
            return theirs.answer(question)

        self.assertEqual((by_steps(ours, answer)[0], rows_of(ours)), (150, rows_of(theirs)))


if __name__ == "__main__":
    unittest.main()
