"""Lists that a peer may send, and differences of lists."""
import os
import random
import struct
import unittest

from mst import KeyRanges, MalformedError, PageRanges, Tree, diff, unshared

from .common import joined
from .test_trees import TABLES, squares

number = struct.Struct("<Q").pack


def string(data):
    return number(len(data)) + data


def page_ranges(text):
    """The page ranges of a text as `2-15:1 2-6:2`, whose keys are eight bytes of a number."""
    entries = []
    for entry in text.split():
        keys, digest = entry.split(":")
        entries += [string(int(key).to_bytes(8, "big")) for key in keys.split("-")] + [bytes([int(digest)] * 16)]
    return PageRanges(b"MSTp" + number(len(text.split())) + b"".join(entries))


def numbers(asked):
    return [f"{int.from_bytes(first, 'big')}-{int.from_bytes(last, 'big')}" for first, last in asked]


def key_ranges(*ranges):
    return b"MSTk" + number(len(ranges)) + b"".join(string(bytes([key])) for span in ranges for key in span)


def differences(name):
    """The lines of a table: the page ranges of both sides, and the ranges to ask for."""
    with open(os.path.join(TABLES, name), encoding="ascii") as file:
        return [[part.strip() for part in line.split("|")] for line in file if not line.startswith("#")]


class Differences(unittest.TestCase):
    def test_those_of_the_rust_crate(self):
        lines = differences("diffs.txt")
        self.assertEqual(len(lines), 117)
        for local, peer, answer in lines:
            asked = diff(page_ranges(local), page_ranges(peer))
            self.assertEqual(numbers(asked), answer.split())
            self.assertEqual(KeyRanges(bytes(asked)), asked)

    def test_what_lies_outside_of_pages_that_both_have(self):
        lines = differences("unshared.txt")
        self.assertEqual(len(lines), 10)
        for local, peer, answer in lines:
            self.assertEqual(numbers(unshared(page_ranges(local), page_ranges(peer))), answer.split())

    def test_one_pull_each_way_outside_of_shared_pages_brings_all(self):
        def rows(skipped, changed):
            return {b"key%04d" % i: b"%d" % (i % changed == 2) for i in range(2000) if i % skipped != 1}

        def pulled(ours, theirs):
            asked = unshared(Tree(ours).page_ranges(), PageRanges(bytes(Tree(theirs).page_ranges())))
            return joined(ours, {key: value for key, value in theirs.items() if any(span.holds(key) for span in asked)})

        for left, right in [(2, 3), (3, 2), (7, 100), (100, 7), (1000, 999), (2000, 2000), (2000, 1)]:
            left, right = rows(left, right), rows(right, left)
            self.assertEqual([pulled(left, right), pulled(right, left)], [joined(left, right)] * 2)
        self.assertEqual((pulled({}, rows(7, 7)), pulled(rows(7, 7), {})), (rows(7, 7), rows(7, 7)))


class Lists(unittest.TestCase):
    def test_there_and_back(self):
        tree = squares(2000)
        ranges = tree.page_ranges()
        came = PageRanges(bytes(ranges))
        self.assertEqual((came, hash(came), list(came)), (ranges, hash(ranges), list(ranges)))
        self.assertEqual((len(came), len(list(came)), next(iter(came)).digest), (124, 124, tree.root_hash()))
        self.assertEqual(len(diff(came, ranges)), 0)

    def test_what_is_no_list(self):
        listed = bytes(squares(300).page_ranges())
        for cut in range(len(listed)):
            self.assertRaises(MalformedError, PageRanges, listed[:cut])
        self.assertRaises(MalformedError, PageRanges, listed + b"\0")
        self.assertRaises(MalformedError, KeyRanges, listed)
        self.assertRaises(MalformedError, PageRanges, key_ranges((1, 2)))
        backwards = b"MSTp" + number(1) + string(b"b") + string(b"a") + bytes(16)
        self.assertRaises(MalformedError, PageRanges, backwards)

    def test_key_ranges_ascend(self):
        for ranges in [[], [(1, 1)], [(1, 1), (2, 9)]]:
            listed = key_ranges(*ranges)
            self.assertEqual([(first[0], last[0]) for first, last in KeyRanges(listed)], ranges)
            for cut in range(len(listed)):
                self.assertRaises(MalformedError, KeyRanges, listed[:cut])
        for ranges in [[(1, 2), (2, 9)], [(3, 4), (1, 2)], [(1, 1), (1, 1)], [(2, 1)]]:
            self.assertRaises(MalformedError, KeyRanges, key_ranges(*ranges))

    def test_altered_lists(self):
        ranges = Tree({b"": b"", b"\0": b"", b"plain": b"", b"\xff": b""}).page_ranges()
        draw, lists = random.Random(5), 0
        for _ in range(20000):
            altered = bytearray(bytes(ranges))
            for _ in range(draw.randint(1, 3)):
                altered[draw.randrange(len(altered))] = draw.randrange(256)
            try:
                peer = PageRanges(bytes(altered))
            except MalformedError:
                continue
            self.assertTrue(all(page.first <= page.last for page in peer))
            diff(ranges, peer)
            lists += 1
        self.assertGreater(lists, 1000)


if __name__ == "__main__":
    unittest.main()
