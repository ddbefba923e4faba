"""Two stores that come to hold the same keys, as in example.c: they give each other bytes alone. The calls of mst.h go by ctypes."""
import ctypes
import os

DONE, TOO_SHORT, ABSENT = 0, 3, 5


class Range(ctypes.Structure):
    """A range of a list, `struct mst_range` of mst.h."""
    _fields_ = [("first", ctypes.c_void_p), ("first_len", ctypes.c_size_t), ("last", ctypes.c_void_p), ("last_len", ctypes.c_size_t),
                ("digest", ctypes.c_void_p)]


# What the calls take: a handle, `struct mst_tree` of mst.h, is a pointer, and its address is given.
HANDLE, BYTES, SIZE, WRITTEN = ctypes.POINTER(ctypes.c_void_p), ctypes.c_char_p, ctypes.c_size_t, ctypes.POINTER(ctypes.c_size_t)
CALLS = {
    "mst_tree_new": [HANDLE],
    "mst_tree_free": [HANDLE],
    "mst_tree_upsert": [HANDLE, BYTES, SIZE, BYTES, SIZE],
    "mst_tree_root_hash": [HANDLE, BYTES],
    "mst_tree_page_ranges": [HANDLE, BYTES, SIZE, WRITTEN],
    "mst_diff": [BYTES, SIZE, BYTES, SIZE, BYTES, SIZE, WRITTEN],
    "mst_ranges_next": [BYTES, SIZE, WRITTEN, ctypes.POINTER(Range)],
}
# not CDLL, by which two threads could be within calls on one tree
library = ctypes.PyDLL(os.path.join(os.path.dirname(os.path.abspath(__file__)), "libmst.so"))
for name, takes in CALLS.items():
    getattr(library, name).argtypes = takes
library.mst_tree_free.restype = None


def check(status, wanted=DONE):
    if status != wanted:
        raise RuntimeError(f"status {status}")


def answer(call):
    """The bytes that a call writes, after it has said how many they are."""
    needed = SIZE()
    check(call(None, 0, needed), TOO_SHORT)
    out = ctypes.create_string_buffer(needed.value)
    check(call(out, needed, needed))
    return out.raw


class Tree:
    """A tree, which is freed with the object."""

    def __init__(self):
        self.handle = ctypes.c_void_p()
        check(library.mst_tree_new(self.handle))

    def __del__(self):
        library.mst_tree_free(self.handle)

    def upsert(self, key, value):
        check(library.mst_tree_upsert(self.handle, key, len(key), value, len(value)))

    def root_hash(self):
        root = ctypes.create_string_buffer(16)
        check(library.mst_tree_root_hash(self.handle, root))
        return root.raw

    def page_ranges(self):
        return answer(lambda out, size, needed: library.mst_tree_page_ranges(self.handle, out, size, needed))


def difference(own, peer):
    """The list of the ranges of keys to ask the peer for."""
    return answer(lambda out, size, needed: library.mst_diff(own, len(own), peer, len(peer), out, size, needed))


def ranges(listed):
    """Goes over the ranges of a list: the first and the last key of each."""
    at, found = SIZE(), Range()
    while (status := library.mst_ranges_next(listed, len(listed), at, found)) == DONE:
        yield ctypes.string_at(found.first, found.first_len), ctypes.string_at(found.last, found.last_len)
    check(status, ABSENT)


class Store:
    """Rows, and the tree over them."""

    def __init__(self):
        self.rows, self.tree = {}, Tree()

    def put(self, key, value):
        self.tree.upsert(key, value)
        self.rows[key] = value

    def rows_in(self, asked):
        """The rows in the ranges that a peer asks for: each is its key of 8 bytes, how long the value is in one byte, and the value."""
        return b"".join(key + bytes([len(value)]) + value
                        for first, last in ranges(asked) for key, value in self.rows.items() if first <= key <= last)

    def take(self, rows):
        """Takes the rows that a peer sent, and says how many of them are new. Of two values of a key the greater stays."""
        came = 0
        while rows:
            key, end = rows[:8], 9 + rows[8]
            value, rows = rows[9:end], rows[end:]
            if value > self.rows.get(key, b""):
                self.put(key, value)
                came += 1
        return came

    def pull(self, peer):
        """Brings what the peer has in the ranges in which the two differ."""
        own = self.tree.page_ranges()
        others = peer.tree.page_ranges()  # sent by the peer
        asked = difference(own, others)   # sent to the peer
        rows = peer.rows_in(asked)        # sent by the peer
        return self.take(rows)


a, b = Store(), Store()
for number in range(1000):
    if number % 10 != 3:
        a.put(b"key%05d" % number, b"newer" if number == 500 else b"known")
    if number % 100 != 7:
        b.put(b"key%05d" % number, b"newer" if number == 42 else b"known")
to_a = to_b = 0
for turn in range(2):
    to_a += a.pull(b)
    to_b += b.pull(a)
print(f"{to_a} rows came to a, {to_b} to b")
print(a.tree.root_hash().hex())
print(b.tree.root_hash().hex())
