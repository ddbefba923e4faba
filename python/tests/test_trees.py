"""Trees, against root hashes from outside: the tables of rust/tests."""
import base64
import copy
import os
import pickle
import random
import threading
import unittest

from mst import MalformedError, Tree

TABLES = os.path.join(os.path.dirname(os.path.abspath(__file__)), "..", "..", "rust", "tests")


def table(name):
    """The lines of a table, cut into words."""
    with open(os.path.join(TABLES, name), encoding="ascii") as file:
        return [line.split() for line in file if not line.startswith("#")]


def row(i):
    return b"k%04d" % i, (i * i).to_bytes(8, "little")


def squares(size, **settings):
    return Tree((row(i) for i in range(size)), **settings)


class Roots(unittest.TestCase):
    def test_those_of_the_rust_crate(self):
        lines = table("roots.txt")
        self.assertEqual(len(lines), 15)
        for size, root, count, *first in lines:
            tree = squares(int(size))
            self.assertEqual(tree.root_hash(), base64.b64decode(root))
            ranges = tree.page_ranges()
            self.assertEqual(len(ranges), int(count))
            self.assertEqual([f"{page.first.decode()}..{page.last.decode()}" for page in ranges][:6], first)

    def test_page_format_2(self):
        for size, root in table("format2.txt"):
            self.assertEqual(squares(int(size), page_format=2).root_hash(), base64.b64decode(root))

    def test_keys_that_are_fed_as_in_the_rust_crate(self):
        lines = table("feeds.txt")
        self.assertEqual(len(lines), 20)
        for feed, step, base, size, count, root in lines:
            tree = squares(int(size), key=bytes(int(step) * i for i in range(16)), level_base=int(base), key_feed=feed)
            self.assertEqual((tree.root_hash().hex(), len(tree.page_ranges())), (root, int(count)))
            self.assertEqual(tree.copy().root_hash().hex(), root)

    def test_another_key_and_other_bases(self):
        for base, page_format, root, count in [
            (1, 1, "943ebbaf1652f9a0296e5ad760b80238", 5),
            (4, 1, "7e48a06ba06be2b468ea6dd8075afeb5", 101),
            (128, 2, "578a7dab0c81c92573088eaae4d00249", 7),
            (255, 2, "cdf41ea7186c4a138feb9f32112c4c81", 9),
        ]:
            tree = squares(500, key=bytes(range(16)), level_base=base, page_format=page_format)
            self.assertEqual((tree.root_hash().hex(), len(tree.page_ranges())), (root, count))

    def test_the_order_of_rows_is_no_matter(self):
        rows = [row(i) for i in range(500)]
        random.Random(3).shuffle(rows)
        tree = Tree()
        tree.update(rows)
        self.assertEqual(tree.root_hash(), squares(500).root_hash())
        tree.update(dict(rows[:9]))
        self.assertEqual(tree.root_hash(), squares(500).root_hash())

    def test_many_rows_are_set_in_lists(self):
        for size in [999, 1000, 1001, 2500]:
            rows = [row(i) for i in range(size)]
            random.Random(size).shuffle(rows)
            tree, one_by_one = Tree({b"more": b"kept", rows[0][0]: b"older"}), squares(size)
            one_by_one[b"more"] = b"kept"
            tree.update([(key, b"older") for key, _ in rows] + rows)
            self.assertEqual((len(tree), tree.root_hash()), (size + 1, one_by_one.root_hash()))
        tree.update([])
        self.assertEqual(len(tree), 2501)


class Changes(unittest.TestCase):
    def test_the_last_of_equal_keys_stays(self):
        self.assertEqual(Tree([(b"a", b"1"), (b"a", b"2")]).root_hash(), Tree({b"a": b"2"}).root_hash())

    def test_a_load(self):
        tree = Tree({b"gone": b""})
        tree.load(row(i) for i in range(500))
        self.assertEqual(tree.root_hash(), squares(500).root_hash())
        for rows in [[(b"b", b""), (b"a", b"")], [(b"a", b""), (b"a", b"")]]:
            self.assertRaises(MalformedError, tree.load, rows)
        self.assertEqual(tree.root_hash(), squares(500).root_hash())

    def test_removals(self):
        tree = squares(300)
        for i in range(200, 300):
            del tree[b"k%04d" % i]
        self.assertEqual(tree.root_hash(), squares(200).root_hash())
        self.assertFalse(tree.discard(b"k0250"))
        self.assertRaises(KeyError, tree.__delitem__, b"k0250")
        self.assertTrue(tree.discard(b"k0000"))
        self.assertEqual(len(tree), 199)

    def test_a_copy_is_its_own_tree(self):
        for made in [Tree.copy, copy.copy, copy.deepcopy]:
            tree = squares(10)
            other = made(tree)
            other[b"more"] = b""
            self.assertEqual((len(tree), len(other)), (10, 11))
            self.assertEqual(tree.root_hash(), squares(10).root_hash())
            del tree
            self.assertEqual(len(other), 11)
        self.assertRaises(TypeError, pickle.dumps, Tree())

    def test_digests(self):
        tree, again = squares(300), Tree()
        self.assertEqual(list(tree.digests()), [b"k%04d" % i for i in range(300)])
        for key, digest in tree.digests().items():
            again.set_digest(key, digest)
        self.assertEqual(again.root_hash(), tree.root_hash())
        self.assertRaises(ValueError, tree.set_digest, b"key", b"short")
        self.assertEqual(Tree().digests(), {})

    def test_digests_are_found_and_loaded(self):
        tree, again = squares(300), squares(3)
        digests = tree.digests()
        self.assertEqual({key: tree.get_digest(key) for key in digests}, digests)
        self.assertTrue(b"k0299" in tree and b"k0300" not in tree and b"" not in tree)
        self.assertIsNone(tree.get_digest(b"k"))
        self.assertRaises(MalformedError, again.load_digests, reversed(list(digests.items())))
        self.assertRaises(ValueError, again.load_digests, {b"key": b"short"})
        self.assertEqual(len(again), 3)
        again.load_digests(digests)
        self.assertEqual(again.root_hash(), tree.root_hash())

    def test_pages(self):
        def walk(page, under):
            self.assertLess(page.level, under)
            found.append(page)
            keys = []
            for key, below in zip(page.keys, page.below):
                keys += (walk(below, page.level) if below else []) + [key]
            return keys + (walk(page.high, page.level) if page.high else [])

        tree = squares(500)
        found = []
        self.assertEqual(walk(tree.pages(), 256), [row(i)[0] for i in range(500)])
        self.assertEqual([page.digest for page in found], [None] * 31)
        root = tree.root_hash()
        found = []
        walk(tree.pages(), 256)
        self.assertEqual([page.digest for page in found], [page.digest for page in tree.page_ranges()])
        self.assertEqual(found[0].digest, root)
        self.assertEqual(Tree().pages(), (0, None, (), (), None))

    def test_a_closed_tree(self):
        with squares(3) as tree:
            self.assertEqual(len(tree), 3)
        for call in [tree.root_hash, tree.page_ranges, tree.digests, tree.copy, lambda: len(tree), lambda: tree.discard(b""),
                     lambda: tree.update({b"": b""}), lambda: tree.set_digest(b"", bytes(16)), lambda: tree.load([]),
                     lambda: tree.load_digests([]), lambda: tree.get_digest(b""), tree.pages]:
            self.assertRaises(ValueError, call)
        tree.close()
        self.assertEqual(repr(tree), "<Tree, closed>")

    def test_settings_that_are_none(self):
        for settings in [{"key": b"short"}, {"level_base": 0}, {"level_base": 256}, {"page_format": 3}, {"key_feed": "str"}]:
            self.assertRaises(ValueError, Tree, **settings)

    def test_what_is_no_bytes(self):
        tree = Tree()
        for key, value in [("text", b""), (b"", "text"), (None, b""), (b"", 3)]:
            self.assertRaises(TypeError, tree.__setitem__, key, value)
            self.assertRaises(TypeError, tree.update, [(key, value)])
        for key in ["text", None, 3]:
            self.assertRaises(TypeError, tree.discard, key)
            self.assertRaises(TypeError, tree.get_digest, key)
            self.assertRaises(TypeError, tree.set_digest, key, bytes(16))
        self.assertRaises(TypeError, tree.load, [("text", b"")])
        self.assertEqual((len(tree), bool(tree)), (0, True))

    def test_bytes_with_zeros(self):
        tree = Tree([(b"\0", b"\0"), (b"\0\0", b""), (b"", b"\0\0")])
        self.assertEqual(list(tree.digests()), [b"", b"\0", b"\0\0"])


class Threads(unittest.TestCase):
    def test_a_tree_goes_to_another_thread(self):
        tree = squares(100)
        thread = threading.Thread(target=lambda: tree.update(row(i) for i in range(100, 200)))
        thread.start()
        thread.join()
        self.assertEqual(tree.root_hash(), squares(200).root_hash())

    def test_threads_on_one_tree(self):
        tree = Tree()

        def fill(seed):
            for i in range(6000):
                tree[b"%d" % ((i * 7919 + seed) % 5000)] = b""
                if i % 1000 == seed:
                    tree.page_ranges()

        threads = [threading.Thread(target=fill, args=(seed,)) for seed in range(4)]
        for thread in threads:
            thread.start()
        for thread in threads:
            thread.join()
        self.assertEqual(tree.root_hash(), Tree((b"%d" % i, b"") for i in range(5000)).root_hash())


if __name__ == "__main__":
    unittest.main()
