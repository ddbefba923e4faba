"""Random sessions of the library for C: calls on a few trees, and on lists of their bytes, judged by the model of handles.py.

A session runs in a process of its own, so that the end of that one is seen, too.
"""
import ctypes
import os
import pickle
import random
import signal

from soak_parts import lists
from soak_parts.handles import ABSENT, DONE, TOO_SHORT, Handles
from soak_parts.header import SIZE, Range, Row, loaded
from soak_parts.shrink import smaller
from soak_parts.trees import Settings

SLOTS = 3
# Seconds that a session may take.
PATIENCE = 60


class Wrong(Exception):
    """An answer that the header doesn't allow."""


class Trees:
    """The same steps as Handles has, by the library: each answers a status and what the call wrote."""

    def __init__(self, library, count):
        self.library, self.at = library, [ctypes.c_void_p() for _ in range(count)]

    def answer(self, step):
        return getattr(self, step[0])(*step[1:])

    def new(self, slot, *settings):
        if len(settings) == 4:
            return self.library.mst_tree_new_as(self.at[slot], *settings), None
        if settings:
            return self.library.mst_tree_new_with(self.at[slot], *settings), None
        return self.library.mst_tree_new(self.at[slot]), None

    def clone(self, slot, to):
        return self.library.mst_tree_clone(self.at[slot], self.at[to]), None

    def free(self, slot):
        self.library.mst_tree_free(self.at[slot])
        if self.at[slot]:
            raise Wrong("a freed handle has a tree")
        return None, None

    def upsert(self, slot, key, value):
        return self.library.mst_tree_upsert(self.at[slot], key, len(key), value, len(value)), None

    def upsert_digest(self, slot, key, digest):
        return self.library.mst_tree_upsert_digest(self.at[slot], key, len(key), digest), None

    def upsert_rows(self, slot, given):
        out = SIZE(77)
        status = self.library.mst_tree_upsert_rows(self.at[slot], given, len(given), out)
        return (status, out.value) if status == DONE else (status, left(out.value == 77))

    def remove(self, slot, key):
        return self.library.mst_tree_remove(self.at[slot], key, len(key)), None

    def load(self, slot, given):
        return self.library.mst_tree_load(self.at[slot], given, len(given)), None

    def load_digests(self, slot, given):
        return self.library.mst_tree_load_digests(self.at[slot], given, len(given)), None

    def find(self, slot, key):
        out = ctypes.create_string_buffer(b"\xaa" * 20, 20)
        status = self.library.mst_tree_find(self.at[slot], key, len(key), out)
        left(out.raw[16:] == b"\xaa" * 4)
        return (status, out.raw[:16]) if status == DONE else (status, left(out.raw == b"\xaa" * 20))

    def count(self, slot):
        out = SIZE(77)
        status = self.library.mst_tree_len(self.at[slot], out)
        return (status, out.value) if status == DONE else (status, left(out.value == 77))

    def root_hash(self, slot):
        out = ctypes.create_string_buffer(b"\xaa" * 20, 20)
        status = self.library.mst_tree_root_hash(self.at[slot], out)
        left(out.raw[16:] == b"\xaa" * 4)
        return (status, out.raw[:16]) if status == DONE else (status, left(out.raw == b"\xaa" * 20))

    def page_ranges(self, slot):
        return written(lambda *out: self.library.mst_tree_page_ranges(self.at[slot], *out))

    def digests(self, slot):
        return written(lambda *out: self.library.mst_tree_digests(self.at[slot], *out))

    def pages(self, slot):
        self.root_hash(slot)
        return written(lambda *out: self.library.mst_tree_pages(self.at[slot], *out))

    def diff(self, local, peer):
        return written(lambda *out: self.library.mst_diff(local, len(local), peer, len(peer), *out))

    def pull(self, slot, of):
        """The answer of mst_diff, and by going over it the other's digests within."""
        (status, own), (other_status, other) = self.page_ranges(slot), self.page_ranges(of)
        if status or other_status:
            return max(status, other_status), None
        _, found = self.diff(own, other)
        held, own_rows, came, place = lists.read(lists.DIGESTS, self.digests(of)[1]), dict(lists.read(lists.DIGESTS, self.digests(slot)[1])), 0, 0
        while (step := self.goes(found, place))[0] == DONE:
            place, first, last, _ = step[1]
            for key, digest in held:
                if first <= key <= last:
                    self.upsert_digest(slot, key, max(digest, own_rows.get(key, b"")))
                    came += 1
        left(step[0] == ABSENT)
        return DONE, came

    def turns(self, slot, of):
        pulls = [self.pull(slot, of) if turn % 2 == 0 else self.pull(of, slot) for turn in range(4)]
        worst = max(status for status, _ in pulls)
        return (worst, None) if worst else (DONE, [came for _, came in pulls])

    def goes(self, given, place):
        at, found = SIZE(place), Range()
        status = self.library.mst_ranges_next(given, len(given), at, found)
        if status != DONE:
            left(at.value == place and not found.first and not found.last and not found.digest)
            return status, None
        digest = ctypes.string_at(found.digest, 16) if found.digest else None
        return status, (at.value, text(found.first, found.first_len), text(found.last, found.last_len), digest)

    def rows(self, given, place):
        at, found = SIZE(place), Row()
        status = self.library.mst_rows_next(given, len(given), at, found)
        if status != DONE:
            left(at.value == place and not found.key and not found.value)
            return status, None
        key, value = text(found.key, found.key_len), text(found.value, found.value_len)
        return status, (at.value, key, value, None) if given[:4] == lists.ROWS[0] else (at.value, key, value)


def text(start, length):
    """So many bytes at a place."""
    return ctypes.string_at(start, length) if length else b""


def left(as_before):
    """What a call that isn't done must not write to, is as before."""
    if not as_before:
        raise Wrong("something was written that is to be as before")


def written(call):
    """A status and the bytes that a call writes: where its length alone is asked for, into too little room, and into more than enough."""
    needed = SIZE(77)
    status = call(None, 0, needed)
    if status != TOO_SHORT:
        left(needed.value == 77)
        return status, None
    size = needed.value
    for room in sorted({1, size - 1}):
        out = ctypes.create_string_buffer(b"\xaa" * room, room)
        if (call(out, room, needed), needed.value) != (TOO_SHORT, size):
            raise Wrong(f"room for {room} bytes of {size} isn't too short")
        left(out.raw == b"\xaa" * room)
    out = ctypes.create_string_buffer(b"\xaa" * (size + 9), size + 9)
    status = call(out, size + 9, needed)
    left(out.raw[size:] == b"\xaa" * 9 and needed.value == size)
    return status, out.raw[:size]


# ---- the steps of a session

BYTE_KEYS = [b"", b"\0", b"\0\0", b"\xff", b"\xff\xff", b"a", b"a\0", b"ab", b"b" * 300]


def keys_of(chosen, count):
    """Up to so many keys: of one length or each the front of the next, some on high levels."""
    kind = chosen.randrange(5)
    if kind == 0:
        return BYTE_KEYS
    if kind == 1:
        return [bytes([chosen.choice([0, 1, 255])] * chosen.randrange(12)) for _ in range(count)]
    if kind == 2:
        level = Settings().level
        return sorted((b"h%d" % i for i in range(12 * count)), key=lambda key: -level(key))[:count]
    if kind == 3:
        return [chosen.randbytes(chosen.choice([1, 2, 8, 40])) for _ in range(count)]
    return [b"key%05d" % chosen.randrange(100000) for _ in range(count)]


class Steps:
    """What makes the steps of a session with so many keys."""

    def __init__(self, chosen, count):
        self.chosen, self.keys, self.values = chosen, keys_of(chosen, count), [b"", b"v", b"w", b"a longer value"]
        self.settings = [(chosen.choice([bytes(16), bytes(range(16))]), chosen.choice([16, 16, 1, 2, 4, 128, 255]), chosen.randrange(1, 3),
                          chosen.choice([0, 0, 1, 2]))]
        self.settings += self.settings * 3 + [(bytes(16), 16, 2)]
        # How often steps of each kind come: rows, looks, pulls, lists, handles.
        self.weights = [chosen.choice([10, 40]), chosen.choice([2, 6]), chosen.choice([1, 4]), chosen.choice([0, 2, 8]), 1]

    def step(self):
        kind = self.chosen.choices(range(5), self.weights)[0]
        return (self.row, self.look, self.exchange, self.lists, self.handle)[kind](self.chosen, self.chosen.randrange(SLOTS))

    def row(self, chosen, slot):
        key, kind = chosen.choice(self.keys), chosen.randrange(11)
        if kind < 5:
            return "upsert", slot, key, chosen.choice(self.values)
        if kind < 7:
            return "upsert_digest", slot, key, bytes([chosen.randrange(3)] * 16)
        if kind < 9:
            return "remove", slot, key
        if kind < 10:
            return "upsert_rows", slot, self.rows(chosen)
        return ("load", slot, self.rows(chosen)) if chosen.randrange(2) else ("load_digests", slot, self.digests(chosen))

    def rows(self, chosen):
        """A list of rows, which may not ascend, may be altered, or may be none."""
        given = lists.written(lists.ROWS, [(key, chosen.choice(self.values)) for key in self.some(chosen)])
        return given if chosen.randrange(4) else self.altered(chosen, given)

    def digests(self, chosen):
        """The same of a list of digests."""
        given = lists.written(lists.DIGESTS, [(key, bytes([chosen.randrange(3)] * 16)) for key in self.some(chosen)])
        return given if chosen.randrange(4) else self.altered(chosen, given)

    def some(self, chosen):
        """Some of the keys, which may not ascend."""
        keys = chosen.sample(self.keys, chosen.randrange(len(self.keys) + 1))
        return sorted(set(keys)) if chosen.randrange(4) else sorted(keys) if chosen.randrange(2) else keys

    def most(self):
        """A list of rows of nearly all keys."""
        keys = sorted({key for key in self.keys if self.chosen.randrange(20)})
        return lists.written(lists.ROWS, [(key, self.chosen.choice(self.values)) for key in keys])

    def look(self, chosen, slot):
        kind = chosen.choice(["count", "root_hash", "page_ranges", "digests", "root_hash", "find", "find", "pages"])
        return (kind, slot, chosen.choice(self.keys)) if kind == "find" else (kind, slot)

    def exchange(self, chosen, slot):
        other = chosen.choice([at for at in range(SLOTS) if at != slot])
        return chosen.choice(["pull", "pull", "turns"]), slot, other

    def lists(self, chosen, slot):
        kind = chosen.randrange(10)
        if kind > 7:
            given = self.rows(chosen) if chosen.randrange(2) else self.digests(chosen)
            return "rows", given, chosen.choice([0, 0, 12, len(given) + 1, chosen.randrange(len(given) + 3)])
        if kind < 4:
            return "diff", self.entries(chosen), self.entries(chosen)
        if kind == 4:
            return "diff", self.altered(chosen, self.entries(chosen)), self.entries(chosen)
        if kind == 5:
            return "diff", self.entries(chosen), self.altered(chosen, self.entries(chosen))
        given = self.entries(chosen) if chosen.randrange(2) else self.spans(chosen)
        given = given if chosen.randrange(2) else self.altered(chosen, given)
        return "goes", given, chosen.choice([0, 0, 12, len(given) + 1, chosen.randrange(len(given) + 3)])

    def entries(self, chosen):
        """A list of page ranges: those of a tree, with some of them changed, or any over a few keys."""
        if chosen.randrange(2):
            keys = chosen.sample(self.keys, chosen.randrange(min(len(self.keys), 60) + 1))
            settings = Settings(*self.settings[0])
            listed = settings.tree({key: bytes([chosen.randrange(2)] * 16) for key in keys})[1]
            if listed and chosen.randrange(2):
                at = chosen.randrange(len(listed))
                listed[at:at + chosen.randrange(2)] = [(*sorted(chosen.choices(self.keys, k=2)), bytes(16))]
        else:
            few = chosen.choices(self.keys, k=chosen.choice([2, 4, 9]))
            listed = [(*sorted(chosen.choices(few, k=2)), bytes([chosen.randrange(3)] * 16)) for _ in range(chosen.randrange(12))]
        return lists.written(lists.PAGE_RANGES, listed)

    def spans(self, chosen):
        return lists.written(lists.KEY_RANGES, [chosen.choices(self.keys, k=2) for _ in range(chosen.randrange(8))])

    def altered(self, chosen, given):
        """The bytes with a few of them changed, cut, too long, or repeated."""
        given = bytearray(given)
        for _ in range(chosen.randrange(1, 4)):
            at, kind = chosen.randrange(len(given) + 1), chosen.randrange(5)
            if kind == 0:
                given[at:at + 1] = bytes([chosen.choice([0, 1, 2, 128, 255])])
            elif kind == 1:
                del given[at:]
            elif kind == 2:
                given += bytes(chosen.randrange(1, 20))
            elif kind == 3:
                given[4:12] = chosen.choice([0, 1, 2, 1 << 32, (1 << 64) - 1]).to_bytes(8, "little")
            else:
                given[at:at + chosen.randrange(30)] = given[:chosen.randrange(30)]
        return bytes(given)

    def handle(self, chosen, slot):
        kind = chosen.randrange(6)
        if kind == 0:
            return "free", slot
        if kind == 1:
            return "clone", slot, chosen.choice([at for at in range(SLOTS) if at != slot])
        if kind == 2:
            return "new", slot
        if kind == 3:
            return "new", slot, bytes(16), chosen.choice([0, 1, 255]), chosen.choice([0, 1, 2, 3, 255]), chosen.choice([0, 1, 2, 3, 255])
        return "new", slot, *chosen.choice(self.settings)


def session(seed):
    """The steps of the session of a seed."""
    chosen = random.Random(f"library {seed}")
    is_large = not chosen.randrange(25)
    steps = Steps(chosen, 2000 if is_large else chosen.choice([2, 5, 20, 100, 300]))
    begun = [("new", slot, *chosen.choice(steps.settings)) for slot in range(SLOTS)]
    if is_large:
        begun += [("load", slot, steps.most()) for slot in range(SLOTS)]
    return begun + [steps.step() for _ in range(30 if is_large else chosen.choice([5, 20, 60, 200, 600]))]


def compare(library, steps):
    """The first step in which the library isn't as the model says; None where there is none."""
    trees, handles = Trees(library, SLOTS), Handles(SLOTS)
    for place, step in enumerate(steps + [("free", slot) for slot in range(SLOTS)]):
        wanted = handles.answer(step)
        if handles.broken:
            return f"step {place + 1}: the definitions give an answer that breaks a law: {handles.broken}"
        try:
            seen = trees.answer(step)
        except Wrong as wrong:
            return f"step {place + 1}: {wrong}"
        if seen != wanted:
            return f"step {place + 1}, {step[0]}: {seen}, where the model says {wanted}"
    return None


def fault(path, steps):
    """What is wrong with these steps, run in a process of their own."""
    reading, writing = os.pipe()
    child = os.fork()
    if child == 0:
        os.close(reading)
        signal.alarm(PATIENCE)
        try:
            found = compare(loaded(path, "mst.h"), steps)
        except BaseException as wrong:  # what the model itself does wrong is to be seen by the parent
            found = f"{type(wrong).__name__}: {wrong}"
        with os.fdopen(writing, "wb") as told:
            told.write(pickle.dumps(found))
        os._exit(0)
    os.close(writing)
    with os.fdopen(reading, "rb") as told:
        found = told.read()
    _, status = os.waitpid(child, 0)
    return pickle.loads(found) if os.WIFEXITED(status) and found else f"the process ended by signal {os.WTERMSIG(status)}"


def smaller_bytes(given, fails):
    """A list with fewer entries that still fails, or, of bytes that are no list, fewer bytes."""
    for kind in (lists.PAGE_RANGES, lists.KEY_RANGES, lists.ROWS, lists.DIGESTS):
        entries = lists.read(kind, given)
        if entries is not None:
            return lists.written(kind, smaller(entries, lambda some: fails(lists.written(kind, some))))
    return b"".join(smaller([given[at:at + 1] for at in range(len(given))], lambda some: fails(b"".join(some))))


def smaller_parts(steps, fails):
    """The same steps, with less in the bytes that may have any length."""
    for place, step in enumerate(steps):
        for at, part in enumerate(step):
            if isinstance(part, bytes) and step[0] not in ("new", "upsert_digest"):
                put = lambda less: steps[:place] + [steps[place][:at] + (less,) + steps[place][at + 1:]] + steps[place + 1:]
                steps = put(smaller_bytes(part, lambda less: fails(put(less))))
    return steps


class Driver:
    """The sessions of the library at this path."""

    def __init__(self, path):
        self.path = path

    def soak(self, seed):
        """Runs the session of a seed: how many steps it has, and, if it fails, what is to be shown."""
        steps = session(seed)
        if fault(self.path, steps) is None:
            return len(steps), None
        fails = lambda some: fault(self.path, some) is not None
        steps = smaller_parts(smaller(steps, fails), fails)
        shown = "\n".join(repr(step) for step in steps)
        return len(steps), f"these {len(steps)} steps:\n{shown}\n{fault(self.path, steps)}"
