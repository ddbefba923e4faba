"""A model of the calls of c/mst.h, written from its comments: dicts from keys to digests under handles, and what each call answers."""
import functools
import struct

from soak_parts import lists
from soak_parts.differences import broken_law, broken_law_of_trees, difference
from soak_parts.trees import Settings

DONE, NO_MEMORY, MALFORMED, TOO_SHORT, BAD_ARGUMENT, ABSENT = range(6)


class Handle:
    """The settings and the map of the tree that a handle has."""

    def __init__(self, settings, digests):
        self.settings, self.digests = settings, digests

    def tree(self):
        return self.settings.tree(self.digests)


def of_a_tree(step):
    """A step on the tree of a handle, which has to have one."""
    @functools.wraps(step)
    def checked(self, slot, *words):
        return step(self, self.at[slot], *words) if self.at[slot] else (BAD_ARGUMENT, None)
    return checked


class Handles:
    """So many handles, each with a tree or None. A step's answer is a status and what the call writes, if it is done."""

    def __init__(self, count):
        self.at, self.broken = [None] * count, None

    def answer(self, step):
        return getattr(self, step[0])(*step[1:])

    def new(self, slot, key=bytes(16), base=16, form=1, feed=0):
        if self.at[slot] or not 1 <= base <= 255 or form not in (1, 2) or feed > 2:
            return BAD_ARGUMENT, None
        self.at[slot] = Handle(Settings(key, base, form, feed), {})
        return DONE, None

    def clone(self, slot, to):
        if not self.at[slot] or self.at[to]:
            return BAD_ARGUMENT, None
        self.at[to] = Handle(self.at[slot].settings, dict(self.at[slot].digests))
        return DONE, None

    def free(self, slot):
        self.at[slot] = None
        return None, None

    @of_a_tree
    def upsert(self, held, key, value):
        held.digests[key] = held.settings.digest(value)
        return DONE, None

    @of_a_tree
    def upsert_digest(self, held, key, digest):
        held.digests[key] = digest
        return DONE, None

    @of_a_tree
    def remove(self, held, key):
        return (ABSENT if held.digests.pop(key, None) is None else DONE), None

    @of_a_tree
    def load(self, held, given):
        rows = lists.rows(given)
        if rows is None:
            return MALFORMED, None
        held.digests = {key: held.settings.digest(value) for key, value in rows}
        return DONE, None

    @of_a_tree
    def upsert_rows(self, held, given):
        rows = lists.read(lists.ROWS, given)
        if rows is None:
            return MALFORMED, None
        held.digests.update((key, held.settings.digest(value)) for key, value in rows)
        return DONE, len(rows)

    @of_a_tree
    def load_digests(self, held, given):
        rows = lists.digests(given)
        if rows is None:
            return MALFORMED, None
        held.digests = dict(rows)
        return DONE, None

    @of_a_tree
    def find(self, held, key):
        found = held.digests.get(key)
        return (ABSENT if found is None else DONE), found

    @of_a_tree
    def count(self, held):
        return DONE, len(held.digests)

    @of_a_tree
    def root_hash(self, held):
        return DONE, held.tree()[0]

    @of_a_tree
    def page_ranges(self, held):
        return DONE, lists.written(lists.PAGE_RANGES, held.tree()[1])

    @of_a_tree
    def digests(self, held):
        return DONE, lists.written(lists.DIGESTS, sorted(held.digests.items()))

    @of_a_tree
    def pages(self, held):
        """The pages of a tree that was hashed right before."""
        return DONE, lists.written(lists.PAGES, [(entry,) for entry in held.settings.pages_of(held.digests)])

    def diff(self, local, peer):
        """The comparison of two lists of any bytes."""
        own, other = lists.page_ranges(local), lists.page_ranges(peer)
        if own is None or other is None:
            return MALFORMED, None
        found = difference(own, other)
        self.broken = self.broken or broken_law(own, other, found)
        return DONE, lists.written(lists.KEY_RANGES, found)

    def asked(self, slot, of):
        """The key ranges that the tree of one handle asks the other's for."""
        own, other = self.at[slot].tree()[1], self.at[of].tree()[1]
        found = difference(own, other)
        self.broken = self.broken or broken_law(own, other, found) or broken_law_of_trees(own, other, found)
        return found

    def pull(self, slot, of):
        """Brings the other tree's keys in the ranges; of two digests the greater stays."""
        if not self.at[slot] or not self.at[of]:
            return BAD_ARGUMENT, None
        own, other, came = self.at[slot].digests, dict(self.at[of].digests), 0
        for first, last in self.asked(slot, of):
            for key in [key for key in other if first <= key <= last]:
                own[key], came = max(other[key], own.get(key, b"")), came + 1
        return DONE, came

    def turns(self, slot, of):
        """Four pulls by turns. Trees with the same settings then have the join."""
        if not self.at[slot] or not self.at[of]:
            return BAD_ARGUMENT, None
        one, two = self.at[slot], self.at[of]
        join = {key: max(one.digests.get(key, b""), two.digests.get(key, b"")) for key in {**one.digests, **two.digests}}
        came = [self.pull(slot, of)[1] if turn % 2 == 0 else self.pull(of, slot)[1] for turn in range(4)]
        alike = vars(one.settings) == vars(two.settings)
        if alike and not one.digests == two.digests == join:
            self.broken = self.broken or "four pulls by turns don't leave the join"
        return DONE, came

    def goes(self, given, place):
        """Where going over a list goes from a place: the place behind, and the keys and the digest of the range there."""
        return self.step(given, place, (lists.PAGE_RANGES, lists.KEY_RANGES))

    def rows(self, given, place):
        """The same over a list of rows or of digests."""
        return self.step(given, place, (lists.ROWS, lists.DIGESTS))

    def step(self, given, place, kinds):
        """The same over a list of one of these kinds."""
        kind = next((kind for kind in kinds if given[:4] == kind[0]), None)
        if kind is None or len(given) < 12 or place == 0 and lists.read(kind, given) is None:
            return MALFORMED, None
        start = place or 12
        if start >= len(given):
            return (ABSENT if start == len(given) else BAD_ARGUMENT), None
        at, found = start, []
        for _ in range(kind[1]):
            if at + 8 > len(given):
                return MALFORMED, None
            length = struct.unpack_from("<Q", given, at)[0]
            found.append(given[at + 8:at + 8 + length])
            at += 8 + length
        digest = given[at:at + kind[2]] if kind[2] else None
        at += kind[2]
        return (MALFORMED, None) if at > len(given) else (DONE, (at, *found, digest))
