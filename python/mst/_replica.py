"""Replicas: rows in memory with their tree, and catch-ups with others by messages, whose cost is what differs.

The calls are those of mst_replica.h. The messages are those of docs/WIRE.md, where keys and values are byte strings.
"""
import ctypes
import struct
from typing import Dict, Generator, ItemsView, Iterator, KeysView, Mapping, NoReturn, Tuple, ValuesView

from . import _wire
from ._asking import Asking
from ._library import ABSENT, MALFORMED, OTHER_SETTINGS, TOO_SHORT, library, written
from ._sync_tree import first_question
from ._tree import AnyRows
from ._wire import LIMIT, MESSAGES, SESSION_BYTES, Read, Write
from ._wire import check as _check

_number = struct.Struct("<Q").unpack_from

Steps = Generator[bytes, bytes, int]


class Replica(Asking[int], Mapping[bytes, bytes]):
    """Rows in memory with the tree over them, which catch up with those of other replicas. It is read as a dict whose keys are in their order.

    Of two values under one key the greater stays, as Python orders bytes: so replicas that have caught up with each other hold the same rows,
    whatever the order. This is why nothing is set and nothing deleted: `put` joins a value with the one that is there. Begin each value by
    what is to decide, such as eight bytes of time, the highest first, and the last writer wins; for a removal put a value that says so.

    >>> office, laptop = Replica({b"kiwi": b"1130 one"}), Replica({b"kiwi": b"1207 two", b"melon": b"1208 six"})
    >>> office.put(b"apple", b"1131 ten")
    >>> office.put(b"apple", b"1055 two")
    >>> office[b"apple"], office.get(b"melon"), b"kiwi" in office, len(office), list(office)
    (b'1131 ten', None, True, 2, [b'apple', b'kiwi'])
    >>> steps = office.catch_up_steps()
    >>> try:
    ...     question = next(steps)
    ...     while True:
    ...         question = steps.send(laptop.answer(question))
    ... except StopIteration as end:
    ...     print(end.value, "rows came")
    2 rows came
    >>> dict(office)
    {b'apple': b'1131 ten', b'kiwi': b'1207 two', b'melon': b'1208 six'}

    Any thread may use a replica, to answer many peers too. But it is in one catch-up at a time: where another begins, the one before raises
    ValueError. So hold a lock round each `catch_up`, and none round `serve`, where threads catch up. It holds memory outside of Python,
    which `close`, a `with` statement or the collector gives back. ValueError where it is closed, in every call but `close`; MemoryError
    where memory is refused, and then the rows are as before but for a catch-up; TypeError where a key, a value or a message is none of
    bytes.
    """

    __slots__ = ("_guess",)
    _OTHER = "another catch-up of this replica began in the place of this one"

    def __init__(self, rows: AnyRows = (), *, key: bytes = bytes(16), level_base: int = 16, page_format: int = 1) -> None:
        """The replica of these rows; of values under one key the greatest stays. The settings are those of `Tree`. Replicas that catch up with
        each other have all three in common, and refuse others."""
        super().__init__(key, level_base, page_format)
        self._guess = 1024
        _check(library.mst_replica_new_with(self._address, key, level_base, page_format))
        for row in sorted(rows.items() if isinstance(rows, Mapping) else rows):
            self.put(*row)

    def put(self, key: bytes, value: bytes) -> None:
        """Joins a value at a key: where there is one, the greater of both stays. A new key takes time in proportion to the rows after it, at a
        few nanoseconds each: put many rows in the order of their keys, as `Replica(rows)` does."""
        try:
            status = library.mst_replica_put(self._address, key, len(key), value, len(value))
        except ctypes.ArgumentError:
            raise TypeError("keys and values are bytes") from None
        if status:
            _check(status)

    def __getitem__(self, key: bytes) -> bytes:
        """The value at a key; KeyError where it isn't there."""
        try:
            return written(256, lambda out, size, needed: library.mst_replica_get(self._address, key, len(key), out, size, needed))
        except ctypes.ArgumentError:
            raise TypeError("keys are bytes") from None
        except KeyError:
            raise KeyError(key) from None

    def __contains__(self, key: object) -> bool:
        """Whether a key is there."""
        if not isinstance(key, bytes):
            raise TypeError("keys are bytes")
        status = library.mst_replica_get(self._address, key, len(key), None, 0, ctypes.byref(ctypes.c_size_t()))
        if status not in (ABSENT, TOO_SHORT):
            _check(status)
        return status != ABSENT

    def __len__(self) -> int:
        count = ctypes.c_size_t()
        _check(library.mst_replica_len(self._address, ctypes.byref(count)))
        return count.value

    def __iter__(self) -> "Iterator[bytes]":
        """The keys in their order, as they are now: rows that come later aren't seen. So it is of `items`, `keys` and `values`."""
        return iter(self._rows())

    def items(self) -> "ItemsView[bytes, bytes]":
        """The rows in the order of their keys."""
        return self._rows().items()

    def keys(self) -> "KeysView[bytes]":
        """The keys in their order."""
        return self._rows().keys()

    def values(self) -> "ValuesView[bytes]":
        """The values in the order of their keys."""
        return self._rows().values()

    def _rows(self) -> "Dict[bytes, bytes]":
        data = written(self._guess, lambda out, size, needed: library.mst_replica_rows(self._address, out, size, needed))
        self._guess = len(data) + len(data) // 8
        rows, at = {}, 12
        while at < len(data):
            end = at + 8 + _number(data, at)[0]
            last = end + 8 + _number(data, end)[0]
            rows[data[at + 8:end]] = data[end + 8:last]
            at = last
        return rows

    def root_hash(self) -> bytes:
        """The root hash, 16 bytes: that of a `Tree` of the same rows and settings. Replicas with the same settings and equal root hashes have
        the same rows, while digests don't collide. It hashes the pages that changed since the last call."""
        root = ctypes.create_string_buffer(16)
        _check(library.mst_replica_root_hash(self._address, root))
        return root.raw

    def answer(self, question: bytes) -> bytes:
        """The reply to a question of a peer that catches up. Any bytes may be given. Where they are no question, or the peer has other
        settings, the reply is `REFUSAL`, which is to be sent too: a caller that wants to know compares it, and `serve` says which of both it
        was. The rows are as before, and nothing is kept between questions.

        >>> from mst import REFUSAL
        >>> Replica().answer(b"no question") == REFUSAL
        True
        """
        return self._answer(question)[1]

    def catch_up_steps(self, *, messages: int = MESSAGES, session_bytes: int = SESSION_BYTES) -> Steps:
        """A catch-up step by step, for a transport of one's own and for asyncio: it yields each question, whole, is sent the reply to it, and
        returns how many rows came. These are joined at the end, all at once; those of which this side has the greater value count too.
        It asks that many questions at most, which have no more than `session_bytes` together with the replies. ValueError where one of these is
        no whole number from 0 on.

        MalformedError where a reply is none to what was asked, or the peer goes on for too long, and RefusedError where it refuses: the rows
        are as before. MalformedError comes too where rows were put into the peer's in between, so that a key came twice: then begin again.
        MemoryError where memory is refused: it says how many of the rows that came are joined."""
        return self._steps(messages, session_bytes)

    def catch_up(self, read: Read, write: Write, *, limit: int = LIMIT, messages: int = MESSAGES, session_bytes: int = SESSION_BYTES) -> int:
        """Brings the rows of a peer that runs `serve` over a connection, and returns how many came. At the end the peer is told so: then it may
        catch up, and this side serve, over the same connection. `read` returns at most that many bytes, at least one, and none at the end, as
        `recv` of a socket and `read` of a file do; `write` sends all that it is given, as `sendall` does, and flushes it where it is buffered.
        A message goes after how many bytes it has, in eight bytes, the lowest first; a reply of more than `limit` bytes is refused. The other
        bounds are those of `catch_up_steps`. The keys that a message spells may have 64 times its bytes together.

        EOFError where the peer ends before; what `catch_up_steps`, `read` and `write` raise. The rows are then as before, but for a
        MemoryError, and where it is the end that can't be told."""
        came = _wire.ask(self.catch_up_steps(messages=messages, session_bytes=session_bytes), read, write, limit)
        _wire.send(write, b"")
        return came

    def serve(self, read: Read, write: Write, *, limit: int = LIMIT, messages: int = MESSAGES, session_bytes: int = SESSION_BYTES) -> int:
        """Answers a peer that runs `catch_up`, until it says that it is done or ends, and returns how many questions it was answered. The
        rest is as for `catch_up`, from the other side.

        RefusedError where the peer has other settings, and MalformedError where it sends what is no question, one of more bytes than the
        limit, more questions than `messages`, or where all messages have more bytes than `session_bytes`: it is sent the refusal first, if it
        is still there. EOFError where it ends within a message; what `read` and `write` raise."""
        return _wire.answer(self._answer, read, write, limit, messages, _wire.Spent(session_bytes))

    def _free(self) -> None:
        library.mst_replica_free(self._address)

    def _answer(self, question: bytes) -> "Tuple[int, bytes]":
        """The status of an answer, and the message that it kept."""
        size = ctypes.c_size_t()
        with self._lock:
            try:
                status = library.mst_replica_answer(self._address, question, len(question), ctypes.byref(size))
            except ctypes.ArgumentError:
                raise TypeError("messages are bytes") from None
            if status not in (MALFORMED, OTHER_SETTINGS):
                _check(status)
            return status, self._message(size.value)

    def _begin(self) -> int:
        size = ctypes.c_size_t()
        _check(library.mst_replica_ask(self._address, ctypes.byref(size)))
        return size.value

    def _first_question(self) -> bytes:
        return first_question(*self._settings)

    def _taken(self, reply: bytes) -> "Tuple[bytes, int]":
        size, joined = ctypes.c_size_t(), ctypes.c_size_t()
        status = library.mst_replica_take(self._address, reply, len(reply), ctypes.byref(size), ctypes.byref(joined))
        _check(status, joined.value)
        return self._message(size.value) if size.value else b"", joined.value

    def _let_go(self) -> None:
        library.mst_replica_take(self._address, b"", 0, ctypes.byref(ctypes.c_size_t()), ctypes.byref(ctypes.c_size_t()))

    def _message(self, size: int) -> bytes:
        return written(size, lambda out, room, needed: library.mst_replica_message(self._address, out, room, needed))

    def __reduce__(self) -> "NoReturn":
        raise TypeError("a replica isn't copied or pickled; it is made anew of its rows")
