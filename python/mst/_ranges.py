"""Lists of page ranges and of key ranges, which are sent to a peer as they are, and the difference of two lists of page ranges."""
import struct
from typing import Iterator, List, NamedTuple, Optional, Tuple

from ._library import MalformedError, difference, is_list

_FRONT = 12
_number, _number_of = struct.Struct("<Q").unpack_from, struct.Struct("<Q").pack
_NO_PAGE_RANGES = b"MSTp" + bytes(8)


class PageRange(NamedTuple):
    """The first and the last key of a page and of all below it, and the 16 bytes of the page's digest."""
    first: bytes
    last: bytes
    digest: bytes


class KeyRange(NamedTuple):
    """The first and the last key to ask for, both in it.

    >>> KeyRange(b"apple", b"melon").holds(b"kiwi")
    True
    """
    first: bytes
    last: bytes

    def holds(self, key: bytes) -> bool:
        """Whether a key is in the range."""
        return self.first <= key <= self.last


def _entries(data: bytes, digest: int) -> "Iterator[Tuple[bytes, bytes, bytes]]":
    """The entries of bytes that are a list: two keys, and a digest of this many bytes."""
    at = _FRONT
    while at < len(data):
        first = at + 8
        last = first + _number(data, at)[0] + 8
        end = last + _number(data, last - 8)[0]
        at = end + digest
        yield data[first:last - 8], data[last:end], data[end:at]


class _List:
    """A list of ranges, as it is sent."""

    __slots__ = ("_data",)
    _data: bytes

    def __bytes__(self) -> bytes:
        return self._data

    def __eq__(self, other: object) -> bool:
        return isinstance(other, type(self)) and self._data == other._data

    def __hash__(self) -> int:
        return hash(self._data)


class PageRanges(_List):
    """The page ranges of a tree at one time. `bytes(ranges)` is what a peer is sent.

    >>> from mst import Tree
    >>> ranges = PageRanges(bytes(Tree({b"kiwi": b"1"}).page_ranges()))
    >>> [(page.first, page.last) for page in ranges]
    [(b'kiwi', b'kiwi')]
    """

    __slots__ = ("_read",)

    def __init__(self, data: bytes) -> None:
        """Takes the list that a peer sent. Any bytes may be given: MalformedError where they are no list of page ranges, or where a first
        key in them is above a last one."""
        self._data = bytes(data)
        self._read: "Optional[List[PageRange]]" = None
        difference(self._data, _NO_PAGE_RANGES)

    @classmethod
    def _of_tree(cls, data: bytes) -> "PageRanges":
        """The page ranges of a list that the library wrote."""
        ranges = cls.__new__(cls)
        ranges._data, ranges._read = data, None
        return ranges

    def __iter__(self) -> "Iterator[PageRange]":
        if self._read is None:
            self._read = [PageRange(*entry) for entry in _entries(self._data, 16)]
        return iter(self._read)

    def __len__(self) -> int:
        count: int = _number(self._data, 4)[0]
        return count

    def __repr__(self) -> str:
        return f"<PageRanges of {len(self)} pages>"


class KeyRanges(_List):
    """Ranges of keys to ask a peer for: they ascend, and no two meet. `bytes(ranges)` is what the peer is sent."""

    __slots__ = ("_read",)

    def __init__(self, data: bytes) -> None:
        """Takes the list that a peer sent. Any bytes may be given: MalformedError where they are no list of key ranges, or where the ranges
        don't ascend or two of them meet."""
        self._data = bytes(data)
        if self._data[:4] != b"MSTk" or not is_list(self._data):
            raise MalformedError("the bytes are no list of key ranges")
        self._read = [KeyRange(first, last) for first, last, _ in _entries(self._data, 0)]
        bounds = [bound for entry in self._read for bound in entry]
        if any(first > last for first, last in self._read) or any(last >= first for last, first in zip(bounds[1::2], bounds[2::2])):
            raise MalformedError("the key ranges don't ascend")

    def __iter__(self) -> "Iterator[KeyRange]":
        return iter(self._read)

    def __len__(self) -> int:
        return len(self._read)

    def __repr__(self) -> str:
        return f"<KeyRanges {self._read!r}>"


def diff(local: PageRanges, peer: PageRanges) -> KeyRanges:
    """The ranges of keys to ask the peer for, by one's own page ranges and the peer's.

    It is the `diff` of the Rust crate. The ranges may hold many more keys than differ, nearly all of a tree in which one of 20,000 does, and
    there may be none though the root hashes differ: pulls by turns go on until the root hashes are equal. Four pulls leave both sides with
    the same rows, where both join two values of a key by one rule whatever their order, and digests don't collide.

    >>> from mst import Tree
    >>> ours, theirs = Tree({b"kiwi": b"1"}), Tree({b"apple": b"1", b"melon": b"2"})
    >>> list(diff(ours.page_ranges(), theirs.page_ranges()))
    [KeyRange(first=b'apple', last=b'melon')]
    """
    return KeyRanges(difference(bytes(local), bytes(peer)))


def unshared(local: PageRanges, peer: PageRanges) -> KeyRanges:
    """The ranges of the peer's keys outside of the pages that both trees have.

    A page that both have has the same rows on both sides, while digests don't collide. So the peer has no row elsewhere that is new, and one
    pull of these ranges brings all: one each way leaves both sides with the same rows. Of a page that differs they hold the keys on it and
    the bounds of the pages below it that both have.

    >>> from mst import Tree
    >>> rows = {b"%05d" % number: b"1" for number in range(20000)}
    >>> ours, theirs = Tree(rows), Tree({**rows, b"12345": b"2"})
    >>> asked = unshared(ours.page_ranges(), theirs.page_ranges())
    >>> asked_for = [key for key in rows if any(span.holds(key) for span in asked)]
    >>> b"12345" in asked_for, len(asked_for) < 500
    (True, True)
    """
    pages = list(peer)
    found: "List[bytes]" = []
    if pages:
        shared, (start, end, _) = set(local), pages[0]
        for page in pages:
            if page in shared and start <= page.first < page.last:
                if start < page.first:
                    found += [start, page.first]
                start = page.last
        if start < end or start == pages[0].first:
            found += [start, end]
    strings = b"".join(_number_of(len(key)) + key for key in found)
    return KeyRanges(b"MSTk" + _number_of(len(found) // 2) + strings)
