"""The tree."""
import ctypes
import struct
from typing import Any, Dict, Iterable, List, Mapping, NamedTuple, NoReturn, Optional, Tuple, Union

from ._digests import Digests
from ._library import Handle, check, check_settings, library, written
from ._ranges import PageRanges

AnyRows = Union[Mapping[bytes, bytes], Iterable[Tuple[bytes, bytes]]]

_pack = struct.Struct("<Q").pack
_number = struct.Struct("<Q").unpack_from
_upsert = library.mst_tree_upsert


_FEEDS = ("bytes", "text", "vector")

# How many rows go over in one call of `update`.
_MANY = 1000


class Page(NamedTuple):
    """A page of a tree: its keys in their order, for each of them the page of the keys between it and the one before, if any, and the page of
    the keys above the last, if any. The digest is None where the page changed since the tree was hashed."""
    level: int
    digest: "Optional[bytes]"
    keys: "Tuple[bytes, ...]"
    below: "Tuple[Optional[Page], ...]"
    high: "Optional[Page]"


def _page(data: bytes, at: int) -> "Tuple[Page, int]":
    """The page that is at a place of a list of pages, and the place after it and what is below it."""
    level, has_digest = data[at + 1], data[at + 2]
    at += 3
    digest = data[at:at + 16] if has_digest else None
    at += 16 * has_digest
    keys: "List[bytes]" = []
    pages: "List[Optional[Page]]" = []
    high: "Optional[Page]" = None
    size = _number(data, at)[0]
    at += 8
    while len(keys) < size:
        below: "Optional[Page]" = None
        if data[at] == 1:
            below, at = _page(data, at)
        end = at + 9 + _number(data, at + 1)[0]
        pages.append(below)
        keys.append(data[at + 9:end])
        at = end
    if data[at:at + 1] == b"\2":
        high, at = _page(data, at)
    return Page(level, digest, tuple(keys), tuple(pages), high), at


class Tree(Digests):
    """A Merkle search tree: a map from byte strings to the digests of byte strings, whose root hash depends on the map and on the settings
    alone. The values aren't kept.

    >>> tree = Tree({b"kiwi": b"1"})
    >>> tree[b"melon"] = b"2"
    >>> tree.root_hash() == Tree({b"melon": b"2", b"kiwi": b"1"}).root_hash()
    True
    >>> del tree[b"kiwi"]
    >>> len(tree), b"melon" in tree, b"kiwi" in tree
    (1, True, False)

    Any thread may use a tree: one call at a time is under way. A tree holds memory outside of Python, which `close`, a `with` statement or
    the collector gives back. ValueError where it is closed, in every call but `close`; MemoryError where memory is refused, and then the
    tree is as before but for `update`; TypeError where a key or a value is none of bytes.
    """

    __slots__ = ("_guess",)

    def __init__(self, rows: AnyRows = (), *, key: bytes = bytes(16), level_base: int = 16, page_format: int = 1,
                 key_feed: str = "bytes") -> None:
        """The tree of these rows, of which the last stays where a key comes twice.

        Trees that are compared have key, level base, page format and key feed in common. Where others may choose keys of rows, take a secret `key` of
        SipHash, which all replicas share: under one that they know, they can choose keys that all lie on one page, and then each call takes
        time in proportion to the number of keys. The level base is from 1 to 255: from 2 to 128, about one key in that many is above
        level 0. Page format 1 is that of the Rust crate; take 2 where no peer needs its root hashes.

        The key feed says what of a key is fed to SipHash: its "bytes" alone; or those of a "text", with a byte 0xff after them; or those of a
        "vector", with their number in front of them. In page format 1 a tree with "text" has the root hashes of the Rust crate for keys of
        the type `String` under its own SipHasher, and one with "vector" those for `Vec<u8>`, where values are what `Hash` of Rust feeds.
        """
        check_settings(key, level_base, page_format)
        if key_feed not in _FEEDS:
            raise ValueError("the key feed is bytes, text or vector")
        super().__init__()
        self._guess = 1024
        check(library.mst_tree_new_as(self._address, key, level_base, page_format, _FEEDS.index(key_feed)))
        found = dict(rows)
        if found:
            self.load(sorted(found.items()))

    def __setitem__(self, key: bytes, value: bytes) -> None:
        """Sets a key to the digest of a value."""
        try:
            status = _upsert(self._address, key, len(key), value, len(value))
        except ctypes.ArgumentError:
            raise TypeError("keys and values are bytes") from None
        if status:
            check(status)

    def _remove(self, key: bytes) -> int:
        return library.mst_tree_remove(self._address, key, len(key))

    def _find(self, key: bytes, digest: Any) -> int:
        return library.mst_tree_find(self._address, key, len(key), digest)

    def update(self, rows: AnyRows) -> None:
        """Sets each key of the rows to the digest of its value, in any order; of rows with one key the last stays. They go over a thousand at a
        time. If a row isn't bytes, or memory runs out, some of those in front are set, and none after it.

        >>> tree = Tree({b"kiwi": b"1"})
        >>> tree.update([(b"melon", b"1"), (b"kiwi", b"2"), (b"melon", b"2")])
        >>> tree.root_hash() == Tree({b"kiwi": b"2", b"melon": b"2"}).root_hash()
        True
        """
        parts: "List[bytes]" = []
        for key, value in (rows.items() if isinstance(rows, Mapping) else rows):
            if not (isinstance(key, bytes) and isinstance(value, bytes)):
                raise TypeError("keys and values are bytes")
            parts += (_pack(len(key)), key, _pack(len(value)), value)
            if len(parts) == 4 * _MANY:
                self._set_rows(parts)
                parts = []
        self._set_rows(parts)

    def _set_rows(self, parts: "List[bytes]") -> None:
        """Sets rows, each of which is four parts of a list."""
        if parts:
            data = b"".join([b"MSTr", _pack(len(parts) // 4), *parts])
            check(library.mst_tree_upsert_rows(self._address, data, len(data), ctypes.byref(ctypes.c_size_t())))

    def set_digest(self, key: bytes, digest: bytes) -> None:
        """Sets a key to the digest of a value, by whatever hash function: 16 bytes, which peers that compare trees make in one way."""
        if len(digest) != 16:
            raise ValueError("a digest is of 16 bytes")
        try:
            check(library.mst_tree_upsert_digest(self._address, key, len(key), digest))
        except ctypes.ArgumentError:
            raise TypeError("keys and digests are bytes") from None

    def load(self, rows: "Iterable[Tuple[bytes, bytes]]") -> None:
        """Makes these rows, which ascend strictly by key, the map of the tree; MalformedError where they don't, and then the tree is as
        before. It is the quickest way to fill a tree. The rows are put into one list first."""
        parts: "List[bytes]" = []
        count = 0
        for key, value in rows:
            parts += (_pack(len(key)), key, _pack(len(value)), value)
            count += 1
        data = b"".join([b"MSTr", _pack(count), *parts])
        check(library.mst_tree_load(self._address, data, len(data)))

    def load_digests(self, rows: AnyRows) -> None:
        """The same of keys with the digests of their values, as `digests` answers them: so a tree is kept between runs.

        >>> tree, again = Tree({b"kiwi": b"1", b"melon": b"2"}), Tree()
        >>> again.load_digests(tree.digests())
        >>> again.root_hash() == tree.root_hash()
        True
        """
        parts: "List[bytes]" = []
        count = 0
        for key, digest in (rows.items() if isinstance(rows, Mapping) else rows):
            if len(digest) != 16:
                raise ValueError("a digest is of 16 bytes")
            parts += (_pack(len(key)), key, digest)
            count += 1
        data = b"".join([b"MSTd", _pack(count), *parts])
        check(library.mst_tree_load_digests(self._address, data, len(data)))

    def root_hash(self) -> bytes:
        """The root hash, 16 bytes. It hashes the pages that changed since the last call."""
        root = ctypes.create_string_buffer(16)
        check(library.mst_tree_root_hash(self._address, root))
        return root.raw

    def page_ranges(self) -> PageRanges:
        """The ranges of all pages, to give to `diff` or to send to a peer. It hashes what `root_hash` would."""
        data = written(self._guess, lambda out, size, needed: library.mst_tree_page_ranges(self._address, out, size, needed))
        self._guess = len(data) + len(data) // 8
        return PageRanges._of_tree(data)

    def digests(self) -> "Dict[bytes, bytes]":
        """The keys in their order, each with the digest of its value."""
        data = written(0, lambda out, size, needed: library.mst_tree_digests(self._address, out, size, needed))
        found, at = {}, 12
        while at < len(data):
            end = at + 8 + _number(data, at)[0]
            found[data[at + 8:end]] = data[end:end + 16]
            at = end + 16
        return found

    def pages(self) -> Page:
        """The root page, and by it all pages as they are. It hashes nothing.

        >>> root = Tree({b"%02d" % i: b"" for i in range(8)}).pages()
        >>> root.level, root.digest, root.keys
        (1, None, (b'05',))
        >>> root.below[0].keys, root.high.keys
        ((b'00', b'01', b'02', b'03', b'04'), (b'06', b'07'))
        """
        data = written(0, lambda out, size, needed: library.mst_tree_pages(self._address, out, size, needed))
        return _page(data, 12)[0]

    def copy(self) -> "Tree":
        """A copy of the tree, its settings, and the digests that its pages have."""
        copy = Tree.__new__(Tree)
        Handle.__init__(copy)
        copy._guess = self._guess
        check(library.mst_tree_clone(self._address, copy._address))
        return copy

    def __copy__(self) -> "Tree":
        return self.copy()

    def __deepcopy__(self, _memo: object) -> "Tree":
        return self.copy()

    def __reduce__(self) -> "NoReturn":
        raise TypeError("a tree isn't pickled; it is made anew of its rows")

    def __len__(self) -> int:
        """How many keys there are. It counts them."""
        count = ctypes.c_size_t()
        check(library.mst_tree_len(self._address, ctypes.byref(count)))
        return count.value

    def __bool__(self) -> bool:
        """A tree is true, as it is without a key: to count them for a test would be slow."""
        return True

    def _free(self) -> None:
        library.mst_tree_free(self._address)
