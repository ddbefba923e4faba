"""The keys that a tree of digests has in a range, from its own replies to the questions of docs/WIRE.md by which a peer goes down it: mst_sync.h has
no call that lists them."""
import os.path
from typing import Callable, Iterator, List, Optional, Tuple

# How many bytes a digest has, and how many of a key the next one of a run refers to.
_DIGEST, _MOST_SHARED = 16, 255

# A key above which keys are or below which they are, if there is one.
Bound = Optional[bytes]
Tell = Callable[[bytes], bytes]


def keys_in(tell: Tell, first: bytes, end: Bound, after: Bound = None, before: Bound = None) -> "Iterator[bytes]":
    """The keys with first <= key < end in their order, below the page over a gap of keys; `tell` replies to a question, and the tree stays as it is
    meanwhile."""
    keys, below = _Page(tell(_asks_for_page(after, before)), after).read()
    for at, is_page in enumerate(below):
        above = keys[at] if at < len(keys) else before
        if is_page and (above is None or first < above) and _is_below(after, end):
            yield from keys_in(tell, first, end, after, above)
        if at < len(keys):
            after = keys[at]
            if first <= after and _is_below(after, end):
                yield after


def _is_below(after: Bound, end: Bound) -> bool:
    """Whether keys right above this one may be below the end of a range."""
    return end is None or after is None or after < end


class _Page:
    """A reply with the outline of one page, whose keys are above a bound, as it is read."""

    def __init__(self, reply: bytes, after: Bound) -> None:
        self._reply, self._at, self._last = reply, 2, b"" if after is None else _spelled(after)[:_MOST_SHARED]

    def read(self) -> "Tuple[List[bytes], List[bool]]":
        """The keys of its nodes; and before each and after the last whether there is a page below."""
        has_pages = self._cut(1) == b"\2"
        if has_pages:
            self._cut(_DIGEST)
        keys = [self._key() for _ in range(self._count())]
        return keys, [has_pages and self._is_digest() for _ in range(len(keys) + 1)]

    def _cut(self, size: int) -> bytes:
        self._at += size
        return self._reply[self._at - size:self._at]

    def _count(self) -> int:
        byte = self._cut(1)[0]
        return byte if byte < 128 else byte - 128 + (self._count() << 7)

    def _key(self) -> bytes:
        """A key of a run, after the first bytes of the one before."""
        front = self._cut(1)[0]
        kept, more = (self._count(), self._count()) if front == 240 else divmod(front, 16)
        whole = self._last[:kept] + self._cut(more)
        self._last = whole[:_MOST_SHARED]
        size = 0
        while whole[size] > 127:
            size += 1
        return whole[size + 1:]

    def _is_digest(self) -> bool:
        """Whether a digest is there, which is gone over."""
        is_there = self._cut(1) == b"\1"
        if is_there:
            self._cut(_DIGEST)
        return is_there


def _asks_for_page(after: Bound, before: Bound) -> bytes:
    """The question for the outline of the page over a gap."""
    question, last = b"\1\2\0\1", b""
    for bound in (after, before):
        if bound is None:
            question += b"\0"
        else:
            whole = _spelled(bound)
            kept = len(os.path.commonprefix([last, whole]))
            more = len(whole) - kept
            front = bytes([16 * kept + more]) if kept < 15 and more < 16 else b"\xf0" + _spelled_count(kept) + _spelled_count(more)
            question += b"\1" + front + whole[kept:]
            last = whole[:_MOST_SHARED]
    return question


def _spelled(key: bytes) -> bytes:
    """A key by itself: how many bytes it has, and these."""
    return _spelled_count(len(key)) + key


def _spelled_count(number: int) -> bytes:
    return bytes([number]) if number < 128 else bytes([number & 127 | 128]) + _spelled_count(number >> 7)
