"""Trees of the digests of rows that are elsewhere, as in a database, and catch-ups of such rows by messages, whose cost is what differs.

The calls are those of mst_sync.h. The messages are those of docs/WIRE.md, where keys and values are byte strings.
"""
import asyncio
import contextlib
import ctypes
import heapq
import itertools
import os.path
import struct
import threading
from typing import Any, Callable, Dict, Generator, Iterable, Iterator, List, NoReturn, Optional, Protocol, Tuple

from . import _wire
from ._asking import Asking
from ._digests import Digests
from ._keys import keys_in
from ._library import MALFORMED, NEEDS_ROWS, OTHER_SETTINGS, MalformedError, library, written
from ._ranges import _entries
from ._sessions import Sessions
from ._wire import LIMIT, MESSAGES, SESSION_BYTES, SESSION_ROWS, Read, Write, check

# How many bytes of rows are looked up for one reply; the peer asks for the rest.
_MOST = 1 << 22
# What the look-up of a row counts for, besides its bytes.
_ROW = 16
# After how many look-ups that raised a refresh gives up: then it may be the database that is lost, and each look-up may take long to say so.
_MOST_UNREAD = 8
# How many bytes of a key an error shows.
_SHOWN = 100

_set = library.mst_sync_set
_pack = struct.Struct("<Q").pack

Row = Tuple[bytes, bytes]
Steps = Generator[bytes, bytes, List[Row]]


class UnreadError(Exception):
    """`get` raised for some keys, which `keys` has, so that the tree may not be in step with the rows there. The cause is what it raised first."""

    def __init__(self, text: str, keys: "Iterable[bytes]" = ()) -> None:
        super().__init__(text)
        self.keys = list(keys)


class Rows(Protocol):
    """What a catch-up needs of rows that are elsewhere, as in a table of a database: three methods. If threads write, catch up or serve
    at the same time, they call them at the same time."""

    def get(self, key: bytes) -> "Optional[bytes]":
        """The value at a key, or None; None also at a key that the table can't hold."""

    def scan(self, first: bytes, end: "Optional[bytes]") -> "Iterable[Row]":
        """The rows with first <= key < end, or all with first <= key if the end is None, in the order of the bytes of their keys. No more are
        taken than a reply needs, so read a few at a time. What it returns is closed then, if it has a method `close`."""

    def join(self, came: "List[Row]") -> "Iterable[Row]":
        """Joins rows, whose keys ascend, in one transaction, and returns the rows at their keys as they are after it. Of a value that came and
        one that is there a rule makes one, whatever their order: in a `Replica` the greater stays. A row that isn't taken is returned
        as it was, or not at all."""


class SyncTree(Sessions[Rows, Row], Asking[List[Row]], Digests):
    """The digests of rows that are elsewhere, as in a database, in a Merkle search tree in memory; and catch-ups of these rows with those
    of peers: other such trees, `Replica`, and replicas in C and Rust.

    >>> class InDict:
    ...     def __init__(self):
    ...         self.table = {}
    ...     def get(self, key):
    ...         return self.table.get(key)
    ...     def scan(self, first, end):
    ...         return ((key, self.table[key]) for key in sorted(self.table) if first <= key and (end is None or key < end))
    ...     def join(self, came):
    ...         self.table.update((key, max(value, self.table.get(key, b""))) for key, value in came)
    ...         return [(key, self.table[key]) for key, _ in came]
    >>> from mst import Replica
    >>> office, laptop = InDict(), Replica({b"kiwi": b"1207 two", b"melon": b"1208 six"})
    >>> tree = SyncTree(office)
    >>> tree.join(office, [(b"apple", b"1131 ten"), (b"kiwi", b"1130 one")])
    >>> steps = tree.catch_up_steps()
    >>> try:
    ...     question = next(steps)
    ...     while True:
    ...         question = steps.send(laptop.answer(question))
    ... except StopIteration as end:
    ...     tree.join(office, end.value)
    >>> office.table
    {b'apple': b'1131 ten', b'kiwi': b'1207 two', b'melon': b'1208 six'}

    The rows are the truth, and the tree is never stored: `load` makes it of the rows, when the program starts. From then on it has to be told
    of each write, after the commit: `join` writes and tells it; after a write by other means call `refresh`. So nothing is lost if the program
    ends between a commit and the tree, and if it goes on after an error, the keys of that `join` or `refresh` are looked up again before the
    next catch-up, answer or `refresh`. UnreadError, each time, while some of them can't be.

    Any thread may use a tree, to answer many peers too, and none waits for a peer. But it is in one catch-up at a time: if another begins, or
    the tree is loaded anew, the one before raises ValueError. So hold a lock round each `catch_up`, and none round `serve`, if threads catch
    up. It holds memory outside of Python, which `close`, a `with` statement or the collector gives back. ValueError if it is closed, in every
    call but `close`; MemoryError if memory is refused, and then the tree is as before; TypeError if a key, a value or a message isn't bytes.
    """

    __slots__ = ("_writing", "_unsure")
    _OTHER = "another catch-up of this tree began in the place of this one, or the tree was loaded anew"

    def __init__(self, rows: "Optional[Rows]" = None, *, key: bytes = bytes(16), level_base: int = 16, page_format: int = 1) -> None:
        """The tree of these rows, by `load`. The settings are those of `Replica`, and peers that catch up with each other have all three in
        common, and refuse others."""
        # (Its lock is held within each call of the library and until what it keeps is read; never while rows are looked up or written.)
        super().__init__(key, level_base, page_format)
        # Held while rows are written, and looked up after a write, until the tree is set to them: so the last of several settings of a key is
        # the one that was read last.
        self._writing = threading.RLock()
        # The keys to be looked up; those at which a look-up raised are the last.
        self._unsure: "Dict[bytes, None]" = {}
        check(library.mst_sync_new_with(self._address, key, level_base, page_format))
        if rows is not None:
            self.load(rows)

    def load(self, rows: Rows) -> None:
        """Makes the tree that of all rows, by one scan: when the program starts, and when it can't be sure that it told the tree of each write,
        as after a restore of the database. `join` and `refresh` wait meanwhile; write by no other means. A catch-up that is under way ends
        with ValueError. If the scan fails, or its keys don't ascend (ValueError, which names two), the tree is as before. It takes a few
        microseconds a row, and never holds more than one row."""
        with self._writing:
            fresh = self._loaded(rows)
            with self._lock:
                if not self._handle.value:
                    raise ValueError("the tree is closed")
                self._handle, fresh._handle = fresh._handle, self._handle
                self._address, fresh._address = fresh._address, self._address
                self._under_way = None
            self._unsure = {}

    def _loaded(self, rows: Rows) -> "SyncTree":
        """Another tree, of all rows and with these settings."""
        sip_key, level_base, page_format = self._settings
        fresh = SyncTree(key=sip_key, level_base=level_base, page_format=page_format)
        with contextlib.closing(_scanned(rows, b"", None)) as found:
            for key, value in found:
                fresh[key] = value
        return fresh

    def verify(self, rows: Rows) -> "List[bytes]":
        """The keys at which the tree isn't that of the rows, in their order; none if it is in step. They are those of rows that the tree lacks or
        has with another digest, and those of the tree that have no row: `refresh` them, or `load` the tree anew. `join` and `refresh` wait
        meanwhile; write by no other means.

        It makes another tree by one scan, and compares root hashes. Only if these differ does it go over the keys of both. What `load`
        raises."""
        with self._writing, self._loaded(rows) as fresh:
            if fresh.root_hash() == self.root_hash():
                return []
            keys = heapq.merge(keys_in(fresh._told, b"", None), keys_in(self._told, b"", None))
            return [key for key, _ in itertools.groupby(keys) if fresh.get_digest(key) != self.get_digest(key)]

    def rescan(self, rows: Rows, first: bytes = b"", end: "Optional[bytes]" = None) -> None:
        """Sets the tree to the rows with first <= key < end, or all with first <= key if the end is None, as they are, by one scan of them, and
        takes out the keys there that have no row: after another program wrote or deleted some of them. `join` and `refresh` wait meanwhile; write
        there by no other means. ValueError if keys aren't in this range, or don't ascend. If it raises, the tree has some of these rows as they
        are and the others as they were: call it again."""
        if not (isinstance(first, bytes) and isinstance(end, (bytes, type(None)))):
            raise TypeError("keys are bytes")
        with self._writing:
            gone = set(keys_in(self._told, first, end))
            with contextlib.closing(_scanned(rows, first, end)) as found:
                for key, value in found:
                    self[key] = value
                    gone.discard(key)
            for key in gone:
                self.discard(key)
            self._unsure = {key: None for key in self._unsure if key < first or (end is not None and key >= end)}

    def join(self, rows: Rows, came: "Iterable[Row]") -> None:
        """Joins rows with those that are kept, by their own `join`, and sets the tree to what they then are: so `catch_up` does with what came,
        and so a program writes. Each key comes once (ValueError). Another `join` or `refresh` waits meanwhile.

        If it raises, the rows say what was written. The tree is brought to it before it is next given rows, except by `join`."""
        joining = sorted(came)
        if not all(isinstance(key, bytes) and isinstance(value, bytes) for key, value in joining):
            raise TypeError("keys and values are bytes")
        if any(row[0] == after[0] for row, after in zip(joining, joining[1:])):
            raise ValueError("a key comes twice")
        if not joining:
            return
        with self._writing:
            try:
                for key, value in rows.join(joining):
                    self[key] = value
            except BaseException:
                self._unsure = {**{key: None for key, _ in joining}, **self._unsure}
                raise

    def refresh(self, rows: Rows, keys: "Iterable[bytes]" = ()) -> None:
        """Looks up keys, and sets the tree to their rows as they are, or takes keys out: call it after the commit of each write that isn't by
        `join`, and after writes of another program. Keys that weren't looked up because it raised are looked up the next time, as are those
        of a `join` that raised.

        UnreadError if `get` raises. It names the keys, and all others are looked up; but after eight such keys it leaves the rest for the next time."""
        asked = {key: None for key in keys}
        if not all(isinstance(key, bytes) for key in asked):
            raise TypeError("keys are bytes")
        with self._writing:
            left = {**asked, **self._unsure}
            try:
                unread = self._look_up(rows, left)
            finally:
                self._unsure = left
            if unread:
                self._unsure = {key: None for key in [*(key for key in left if key not in unread), *unread]}
                cause = next(iter(unread.values()))
                names = ", ".join(map(_shown, unread))
                raise UnreadError(f"the rows can't be looked up at {names}: {type(cause).__name__}: {cause}", unread) from cause

    def _look_up(self, rows: Rows, left: "Dict[bytes, None]") -> "Dict[bytes, Exception]":
        """Sets the tree to the rows at keys, and takes these out of what is left, but for those at which `get` raises. It returns what was raised."""
        unread: "Dict[bytes, Exception]" = {}
        for key in list(left):
            try:
                value = rows.get(key)
            except Exception as error:
                unread[key] = error
                if len(unread) == _MOST_UNREAD:
                    break
                continue
            if value is None:
                self.discard(key)
            else:
                self[key] = value
            del left[key]
        return unread

    def __setitem__(self, key: bytes, value: bytes) -> None:
        """Sets a key to the digest of a value. That the row is written is the caller's to see to, and, if several threads write, that the tree
        is set in the order of the commits: `join` and `refresh` see to both."""
        try:
            with self._lock:
                status = _set(self._address, key, len(key), value, len(value))
        except ctypes.ArgumentError:
            raise TypeError("keys and values are bytes") from None
        if status:
            check(status)

    def _remove(self, key: bytes) -> int:
        with self._lock:
            return library.mst_sync_remove(self._address, key, len(key))

    def _find(self, key: bytes, digest: Any) -> int:
        with self._lock:
            return library.mst_sync_find(self._address, key, len(key), digest)

    def __len__(self) -> int:
        """How many keys there are. It counts them."""
        count = ctypes.c_size_t()
        with self._lock:
            check(library.mst_sync_len(self._address, ctypes.byref(count)))
        return count.value

    def root_hash(self) -> bytes:
        """The root hash, 16 bytes: that of a `Replica` with these rows and settings. It hashes the pages that changed since the last call."""
        root = ctypes.create_string_buffer(16)
        with self._lock:
            check(library.mst_sync_root_hash(self._address, root))
        return root.raw

    def answer(self, rows: Rows, question: bytes) -> bytes:
        """The reply to a question of a peer that catches up. Any bytes may be given. If they are no question, or the peer has other settings,
        the reply is `REFUSAL`, which is to be sent too. It looks up the rows that the reply has, up to some 4 MiB and one row more, and keeps
        nothing between questions. What `get` and `scan` raise; ValueError if what `scan` returns isn't in the order of its keys."""
        return self._answer(rows, question)[1]

    def catch_up_steps(self, *, messages: int = MESSAGES, session_bytes: int = SESSION_BYTES, session_rows: int = SESSION_ROWS) -> Steps:
        """A catch-up step by step, for a transport of one's own: it yields each question, whole, is sent the reply to it, and returns the rows
        that came, in the order of their keys, each of which the tree lacks or has with another digest. Then give them to `join`: until then
        nothing changes. It asks that many questions at most, which have no more than `session_bytes` together with the replies, and no more than
        `session_rows` rows come. ValueError if one of these isn't a whole number from 0 on.

        MalformedError if a reply isn't one to what was asked, or the peer goes on for too long, and RefusedError if it refuses.
        MalformedError comes too if rows were written at the peer in between, so that a key came twice: then begin again."""
        _wire.check_limits(session_rows=session_rows)
        came = yield from self._steps(messages, session_bytes)
        if len(came) > session_rows:
            raise MalformedError(f"{len(came)} rows came, and the limit is {session_rows}")
        return came

    def catch_up(self, rows: Rows, read: Read, write: Write, *, limit: int = LIMIT, messages: int = MESSAGES,
                 session_bytes: int = SESSION_BYTES, session_rows: int = SESSION_ROWS) -> int:
        """Brings the rows of a peer that runs `serve` over a connection, joins them, and returns how many came. At the end the peer is told so:
        then it may catch up, and this side serve, over the same connection. `read` and `write` are those of `Replica.catch_up`. A message goes after how
        many bytes it has, in eight bytes, the lowest first; a reply of more than `limit` bytes is refused. The other bounds are those of
        `catch_up_steps`. The keys that a message spells may have 64 times its bytes together. All rows that come are held until they are
        joined, once all came.

        EOFError if the peer ends before; what `catch_up_steps`, `read` and `write` raise: rows and tree are then as before, unless it is the
        end that can't be told. What `join` raises."""
        steps = self.catch_up_steps(messages=messages, session_bytes=session_bytes, session_rows=session_rows)
        return self._catch_up(rows, steps, read, write, limit)

    async def catch_up_streams(self, rows: Rows, reader: asyncio.StreamReader, writer: asyncio.StreamWriter, *, limit: int = LIMIT,
                               messages: int = MESSAGES, session_bytes: int = SESSION_BYTES, session_rows: int = SESSION_ROWS) -> int:
        """The same as `catch_up`, over the streams of asyncio. The rows are called in threads of the loop's executor, so that the loop waits
        neither for the peer nor for the database. A `join` that has begun goes on in its thread if the task is cancelled."""
        steps = self.catch_up_steps(messages=messages, session_bytes=session_bytes, session_rows=session_rows)
        return await self._catch_up_streams(rows, steps, reader, writer, limit)

    def close(self) -> None:
        """Gives the memory back. To close a tree twice does no harm."""
        with self._lock:
            self._free()

    def _free(self) -> None:
        library.mst_sync_free(self._address)

    def _settle(self, rows: Rows) -> None:
        if self._unsure:
            self.refresh(rows)

    def _answer(self, rows: Rows, question: bytes) -> "Tuple[int, bytes]":
        self._settle(rows)
        size, needs_size = ctypes.c_size_t(), ctypes.c_size_t()
        with self._lock:
            try:
                status = library.mst_sync_answer(self._address, question, len(question), ctypes.byref(size), ctypes.byref(needs_size))
            except ctypes.ArgumentError:
                raise TypeError("messages are bytes") from None
            if status != NEEDS_ROWS:
                return self._kept_reply(status, size.value)
            needs = self._kept(library.mst_sync_list, needs_size.value)
        found, is_all, most = _look_up(rows, needs, _MOST)
        data = _list(sorted(found.items()))
        with self._lock:
            status = library.mst_sync_answer_with(self._address, question, len(question), data, len(data), is_all, most, ctypes.byref(size))
            if status == NEEDS_ROWS:
                raise RuntimeError("a reply needs more rows than were looked up for it")
            return self._kept_reply(status, size.value)

    def _told(self, question: bytes) -> bytes:
        """The reply to a question that needs no rows."""
        size = ctypes.c_size_t()
        with self._lock:
            check(library.mst_sync_answer(self._address, question, len(question), ctypes.byref(size), ctypes.byref(ctypes.c_size_t())))
            return self._message(size.value)

    def _kept_reply(self, status: int, size: int) -> "Tuple[int, bytes]":
        if status not in (MALFORMED, OTHER_SETTINGS):
            check(status)
        return status, self._message(size)

    def _begin(self) -> int:
        size = ctypes.c_size_t()
        check(library.mst_sync_ask(self._address, ctypes.byref(size)))
        return size.value

    def _first_question(self) -> bytes:
        return first_question(*self._settings)

    def _taken(self, reply: bytes) -> "Tuple[bytes, List[Row]]":
        size, list_size = ctypes.c_size_t(), ctypes.c_size_t()
        check(library.mst_sync_take(self._address, reply, len(reply), ctypes.byref(size), ctypes.byref(list_size)))
        if size.value:
            return self._message(size.value), []
        came = self._kept(library.mst_sync_list, list_size.value)
        return b"", [(key, value) for key, value, _ in _entries(came, 0)]

    def _let_go(self) -> None:
        library.mst_sync_take(self._address, b"", 0, ctypes.byref(ctypes.c_size_t()), ctypes.byref(ctypes.c_size_t()))

    def _message(self, size: int) -> bytes:
        return self._kept(library.mst_sync_message, size)

    def _kept(self, call: "Callable[..., int]", size: int) -> bytes:
        """The message or the list that the library keeps."""
        return written(size, lambda out, room, needed: call(self._address, out, room, needed))

    def __reduce__(self) -> "NoReturn":
        raise TypeError("a tree isn't copied or pickled; it is made anew of its rows")


def first_question(key: bytes, level_base: int, page_format: int) -> bytes:
    """The first question of a tree with these settings that has the empty key alone."""
    with SyncTree(key=key, level_base=level_base, page_format=page_format) as tree:
        tree[b""] = b""
        return tree._ask(None)


# The rows that were looked up for a reply; whether they are all that it needs, and else they are the first of these; and by how many bytes it
# ends, with the entry or the row that brings it there.
_Found = Tuple[Dict[bytes, bytes], bool, int]


def _look_up(rows: Rows, needs: bytes, most: int) -> _Found:
    """Looks up the rows that a list of needs of mst_sync.h names, in the order of the list, until they have `most` bytes."""
    needed = ((first, end) for first, end, _ in _entries(needs, 0))
    entry = next(needed, None)
    if entry is None:
        return {}, True, most
    look = _look_up_keys if entry[1] == b"\2" else _look_up_ranges
    return look(rows, itertools.chain([entry], needed), most)


# Where not all rows are looked up, a reply must end before those that weren't. So both functions count in `least` how many bytes the entries
# take in a reply at the least. Rows of the first keys, or ranges, are handed in as such; if a key isn't there, or ranges don't ascend, they
# can't be: then they are handed in as all rows, which for a reply that ends by `least` bytes they are.

def _look_up_keys(rows: Rows, needed: "Iterator[Tuple[bytes, bytes]]", most: int) -> _Found:
    """Of each key a reply has a byte, and if it is there at least one for how long the value is, and the value."""
    found: "Dict[bytes, bytes]" = {}
    size = least = 0
    are_there = True
    for key, _ in needed:
        if size >= most:
            return found, not are_there, least
        value = found[key] if key in found else rows.get(key)
        if value is None:
            are_there = False
            least += 1
        else:
            found[key] = value
            size += len(value)
            least += 2 + len(value)
        size += _ROW + len(key)
    return found, True, most


def _look_up_ranges(rows: Rows, needed: "Iterator[Tuple[bytes, bytes]]", most: int) -> _Found:
    """Of each range a reply has at least two bytes, and of each row in it two, the value, and what the key doesn't share with the one before.
    One row more is looked up than the reply has, by which it says that its last range goes on, or the range before has ended."""
    found: "Dict[bytes, bytes]" = {}
    size = least = 0
    bound: "Optional[bytes]" = b""
    ascend = True
    for first, kind in needed:
        if size >= 2 * most:
            return found, True, least
        end = kind[1:] if kind[:1] == b"\1" else None
        ascend = ascend and bound is not None and first >= bound and (end is None or end >= first)
        bound, before = end, first[:-1]
        with contextlib.closing(_scanned(rows, first, end)) as scanned:
            for key, value in scanned:
                if size >= most:
                    found[key] = value
                    return found, not ascend, least
                found[key] = value
                size += _ROW + len(key) + len(value)
                least += 2 + len(value) + len(key) - len(os.path.commonprefix([before, key]))
                before = key
        size += _ROW + len(first)
        least += 2
    return found, True, most


def _list(rows: "List[Row]") -> bytes:
    """A list of rows, as mst.h has it."""
    parts = [b"MSTr", _pack(len(rows))]
    for key, value in rows:
        parts += (_pack(len(key)), key, _pack(len(value)), value)
    return b"".join(parts)


def _shown(key: bytes) -> str:
    """A key in an error."""
    return repr(key) if len(key) <= _SHOWN else f"{key[:_SHOWN]!r}.."


def _disorder(key: bytes, before: "Optional[bytes]") -> str:
    """What is wrong with a key that a scan returned, after another one that was well if there is one."""
    if before is not None and key == before:
        return f"scan returned the key {_shown(key)} twice: a key has one row, and where a scan goes on it begins after the last key"
    text = 'a text in PostgreSQL needs COLLATE "C"'
    if before is not None and key < before:
        return f"scan returned {_shown(key)} after {_shown(before)}, which don't ascend by their bytes: {text}"
    return f"scan returned {_shown(key)}, which isn't in the range by the order of bytes: {text}"


def _scanned(rows: Rows, first: bytes, end: "Optional[bytes]") -> "Generator[Row, None, None]":
    """The rows of a range. ValueError if they aren't in it or don't ascend, as those of a table whose order isn't that of bytes."""
    if end is not None and end <= first:
        return
    before: "Optional[bytes]" = None
    found = rows.scan(first, end)
    try:
        for key, value in found:
            if key < first or (end is not None and key >= end) or (before is not None and key <= before):
                raise ValueError(_disorder(key, before))
            yield key, value
            before = key
    finally:
        close = getattr(found, "close", None)
        if close is not None:
            close()
