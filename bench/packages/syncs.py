"""Catch-ups of rows in two files of SQLite, which `syncs` counts and times: `syncs.py LEFT RIGHT DIFFERING..`. Each line ends with a figure."""
import bisect
import random
import sys
import time

from mst import SyncTree, Tree, unshared
from sqlite_rows import Rows


def memory():
    with open("/proc/self/statm", encoding="ascii") as pages:
        return int(pages.read().split()[1]) * 4096


def caught_up(ours, theirs):
    """A catch-up and its join: how many rows came, how many questions were asked, their bytes, and those of the replies."""
    (tree, rows), (peer, peers_rows) = ours, theirs
    steps, questions, sent, received = tree.catch_up_steps(), 0, 0, 0
    try:
        question = next(steps)
        while True:
            reply = peer.answer(peers_rows, question)
            questions, sent, received = questions + 1, sent + len(question), received + len(reply)
            question = steps.send(reply)
    except StopIteration as end:
        tree.join(rows, end.value)
        return len(end.value), questions, sent, received


def by_page_ranges(left, right):
    """What sides that compare page ranges send: the bytes of both lists, and how many rows are in the ranges that differ."""
    ours, theirs = [Tree(rows.scan(b"", None)).page_ranges() for rows in (left, right)]
    ranges = [] if bytes(ours) == bytes(theirs) else unshared(ours, theirs)
    rows = sum(bisect.bisect_right(all_keys, last) - bisect.bisect_left(all_keys, first) for first, last in ranges)
    return len(bytes(ours)), len(bytes(theirs)), rows


left, right = Rows(sys.argv[1]), Rows(sys.argv[2])
before, begin = memory(), time.perf_counter()
tree = SyncTree(left)
print("load: seconds", time.perf_counter() - begin)
print("load: bytes a key", (memory() - before) / len(tree))
begin = time.perf_counter()
tree.root_hash()
print("first root hash: seconds", time.perf_counter() - begin)
begin = time.perf_counter()
assert tree.verify(left) == []
print("verify: seconds", time.perf_counter() - begin)
peer = SyncTree(right)
draw, all_keys = random.Random(1), [key for key, _ in right.scan(b"", None)]
for turn, differing in enumerate(map(int, sys.argv[3:])):
    peer.join(right, [(key, b"%d" % (turn + 1) + b"0" * 78 + key) for key in draw.sample(all_keys, differing)])
    peer.root_hash()
    print("%d differ, lists of page ranges of %d and %d bytes: rows in the ranges %d" % (differing, *by_page_ranges(left, right)))
    begin = time.perf_counter()
    came, questions, sent, received = caught_up((tree, left), (peer, right))
    seconds = time.perf_counter() - begin
    assert came == differing and tree.root_hash() == peer.root_hash()
    print(f"{differing} differ, {questions} questions of {sent} bytes, replies of {received}: seconds", seconds)
