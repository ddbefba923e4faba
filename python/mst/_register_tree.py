"""Peers of the store `mst`: rows of registers that are kept elsewhere, as in a database, in step with `mst serve` and `mst pull`.

The messages are those of docs/WIRE.md. A `SyncTree` reads and writes them with values that are byte strings. A register is hashed by other bytes than
it has in a message, so here the tree has byte strings of those that are hashed, and each reply is written anew with the other form of its values.
"""
import asyncio
import contextlib
from typing import Generator, Iterable, Iterator, List, Optional, Protocol, Tuple

from ._library import DONE, MALFORMED, MalformedError
from ._register import LAST, Register, milliseconds, of_hashed_bytes, with_byte_strings, with_registers
from ._sessions import Sessions
from ._sync_tree import SyncTree
from ._wire import LIMIT, MESSAGES, REFUSAL, SESSION_BYTES, SESSION_ROWS, Read, Write

_DAY = 86_400_000
# The front of a question that asks for a delta.
_BY_DELTA = b"\1\6"

Entry = Tuple[str, Register]
Steps = Generator[bytes, bytes, List[Entry]]
_ByteRow = Tuple[bytes, bytes]


class RegisterRows(Protocol):
    """What a `RegisterTree` needs of rows that are kept elsewhere: the methods of `Rows`, with texts as keys and registers as values."""

    def get(self, key: str) -> "Optional[Register]":
        """The register at a key, or None if the key was never written; None also at a key that the table can't hold."""

    def scan(self, first: str, end: "Optional[str]") -> "Iterable[Entry]":
        """The rows with first <= key < end, or all with first <= key if the end is None, in the order of the bytes of their keys. No more are
        taken than a reply needs. What it returns is closed then, if it has a method `close`."""

    def join(self, came: "List[Entry]") -> "Iterable[Entry]":
        """Joins rows, whose keys ascend, in one transaction, and returns the rows at their keys as they are after it: of a register that came
        and one that is there the later stays."""


class RegisterTree(Sessions[RegisterRows, Entry]):
    """The digests of rows of registers that are kept elsewhere, in a tree as `mst` has one; and catch-ups of these rows with stores of `mst` and with
    other such trees. It is used as a `SyncTree`, whose documentation says more of the calls. Over a connection, after `mst serve --both` at the other end,
    call `catch_up` and then `serve`; with `mst pull` call `serve`, and after `mst pull --both` also `catch_up`. `serve` counts questions that asked for a
    delta, too.

    UntakenError from each call that is given a row that no `mst` takes, or reads one: its key, writer or value has more than `MOST_TEXT` bytes, or its
    time more than 63 bits. A peer would take nothing that comes with it.

    >>> class Rows:
    ...     def __init__(self):
    ...         self.table = {}
    ...     def get(self, key):
    ...         return self.table.get(key)
    ...     def scan(self, first, end):
    ...         return ((key, self.table[key]) for key in sorted(self.table) if first <= key and (end is None or key < end))
    ...     def join(self, came):
    ...         self.table.update((key, max(register, self.table.get(key, register))) for key, register in came)
    ...         return [(key, self.table[key]) for key, _ in came]
    >>> rows = Rows()
    >>> tree = RegisterTree(rows, hash_key=bytes(range(16)))
    >>> tree.join(rows, [(key, Register(1764400000000, "alice", b"1")) for key in ("ant", "cow", "crow", "elk", "k213", "owl")])
    >>> tree.root_hash().hex()
    '00c2b0c77643ea94a13092ca6ec14e92'
    """

    __slots__ = ("_tree", "__weakref__")

    def __init__(self, rows: "Optional[RegisterRows]" = None, *, hash_key: bytes) -> None:
        """The tree of these rows, by `load`. All peers have one hash key, of 16 bytes: `bytes.fromhex` of what `mst hash-key FILE` prints."""
        self._tree = SyncTree(key=hash_key, page_format=2)
        if rows is not None:
            self.load(rows)

    def load(self, rows: RegisterRows) -> None:
        """Makes the tree that of all rows, by one scan: when the program starts, and when it can't be sure that it told the tree of each write. If it
        raises, the tree is as before: UntakenError names the first row that no `mst` takes."""
        self._tree.load(_ByteRows(rows))

    def verify(self, rows: RegisterRows) -> "List[str]":
        """The keys at which the tree isn't that of the rows, in their order; none if it is in step. `refresh` them, or `load` the tree anew. It makes
        another tree to compare, and raises what `load` does."""
        return [key.decode() for key in self._tree.verify(_ByteRows(rows))]

    def rescan(self, rows: RegisterRows, first: str = "", end: "Optional[str]" = None) -> None:
        """Sets the tree to the rows with first <= key < end, or all with first <= key if the end is None, as they are, by one scan of them, and takes
        out the keys there that have no row: after another program wrote or deleted some of them. If it raises, as `load` does, the tree has some of
        these rows as they are and the others as they were: call it again."""
        if not (isinstance(first, str) and isinstance(end, (str, type(None)))):
            raise TypeError("keys are str")
        self._tree.rescan(_ByteRows(rows), first.encode(), None if end is None else end.encode())

    def join(self, rows: RegisterRows, came: "Iterable[Entry]") -> None:
        """Joins rows with those that are kept, by their own `join`, and sets the tree to what they then are: so `catch_up` does with what came, and so
        a program writes. Each key comes once (ValueError). Nothing is written if `mst` wouldn't take a row (UntakenError)."""
        self._tree.join(_ByteRows(rows), map(_byte_row, came))

    def refresh(self, rows: RegisterRows, keys: "Iterable[str]" = ()) -> None:
        """Looks up keys, and sets the tree to their rows as they are, or takes keys out: call it after the commit of each write that isn't by `join`.
        UnreadError, whose `keys` are in UTF-8, if `get` raises, or returns a register that no `mst` takes: so call `Register.check` before the commit."""
        self._tree.refresh(_ByteRows(rows), [key.encode() for key in keys])

    def get_digest(self, key: str) -> "Optional[bytes]":
        """The digest of the register at a key; None if the key isn't there."""
        return self._tree.get_digest(key.encode())

    def __len__(self) -> int:
        """How many keys there are, removed ones too. It counts them."""
        return len(self._tree)

    def root_hash(self) -> bytes:
        """The root hash, 16 bytes: that of a store of `mst` with these rows and this hash key. `mst root` prints it in base64."""
        return self._tree.root_hash()

    def answer(self, rows: RegisterRows, question: bytes) -> bytes:
        """The reply to a question of a peer that catches up. Any bytes may be given. If they are no question, or the peer has other settings, or asks
        for a delta, the reply is `REFUSAL`, which is to be sent too: after the refusal of a delta `mst` asks without one."""
        return self._answer(rows, question)[1]

    def catch_up_steps(self, *, messages: int = MESSAGES, session_bytes: int = SESSION_BYTES, session_rows: int = SESSION_ROWS,
                       latest: "Optional[int]" = None) -> Steps:
        """A catch-up step by step, for a transport of one's own: it yields each question, whole, is sent the reply to it, and returns the rows that
        came, in the order of their keys. Then give them to `join`: until then nothing changes.

        It raises what `SyncTree.catch_up_steps` does; MalformedError also if a key or a register that came is none. UntakenError if a key, a writer
        or a value has more than `MOST_TEXT` bytes, or a time is after `latest`, which is a day ahead of the clock if none is given."""
        steps = self._tree.catch_up_steps(messages=messages, session_bytes=session_bytes, session_rows=session_rows)
        with contextlib.closing(steps):
            question = next(steps)
            while True:
                reply = yield question
                try:
                    question = steps.send(with_byte_strings(reply))
                except StopIteration as end:
                    came: "List[_ByteRow]" = end.value
                    break
        return _taken(came, milliseconds() + _DAY if latest is None else latest)

    def catch_up(self, rows: RegisterRows, read: Read, write: Write, *, limit: int = LIMIT, messages: int = MESSAGES,
                 session_bytes: int = SESSION_BYTES, session_rows: int = SESSION_ROWS, latest: "Optional[int]" = None) -> int:
        """Brings the rows of a peer that runs `serve` or `mst serve` over a connection, joins them, and returns how many came. At the end the peer is
        told so: then it may catch up, and this side serve, over the same connection, as with `mst serve --both`. The rest is as for a `SyncTree`,
        with the errors of `catch_up_steps`."""
        steps = self.catch_up_steps(messages=messages, session_bytes=session_bytes, session_rows=session_rows, latest=latest)
        return self._catch_up(rows, steps, read, write, limit)

    async def catch_up_streams(self, rows: RegisterRows, reader: asyncio.StreamReader, writer: asyncio.StreamWriter, *, limit: int = LIMIT,
                               messages: int = MESSAGES, session_bytes: int = SESSION_BYTES, session_rows: int = SESSION_ROWS,
                               latest: "Optional[int]" = None) -> int:
        """The same as `catch_up`, over the streams of asyncio. The rows are called in threads, as by a `SyncTree`."""
        steps = self.catch_up_steps(messages=messages, session_bytes=session_bytes, session_rows=session_rows, latest=latest)
        return await self._catch_up_streams(rows, steps, reader, writer, limit)

    def close(self) -> None:
        """Gives the memory back. To close a tree twice does no harm."""
        self._tree.close()

    def _settle(self, rows: RegisterRows) -> None:
        self._tree._settle(_ByteRows(rows))

    def _answer(self, rows: RegisterRows, question: bytes) -> "Tuple[int, bytes]":
        if question[:2] == _BY_DELTA:
            return DONE, REFUSAL
        try:
            status, reply = self._tree._answer(_ByteRows(rows), question)
        except _NoTextError:
            return MALFORMED, REFUSAL
        return status, with_registers(reply) if status == DONE else reply

    def __enter__(self) -> "RegisterTree":
        return self

    def __exit__(self, *_error: object) -> None:
        self.close()


class _NoTextError(Exception):
    """A peer asks for a key that isn't in UTF-8."""


class _ByteRows:
    """Rows of registers as a `SyncTree` takes them: each key in UTF-8, and of each register the bytes that are hashed."""

    def __init__(self, rows: RegisterRows) -> None:
        self._rows = rows

    def get(self, key: bytes) -> "Optional[bytes]":
        text = _asked(key)
        register = self._rows.get(text)
        return None if register is None else _byte_row((text, register))[1]

    def scan(self, first: bytes, end: "Optional[bytes]") -> "Iterator[_ByteRow]":
        found = self._rows.scan(_asked(first), None if end is None else _asked(end))
        try:
            yield from map(_byte_row, found)
        finally:
            close = getattr(found, "close", None)
            if close is not None:
                close()

    def join(self, came: "List[_ByteRow]") -> "Iterable[_ByteRow]":
        return map(_byte_row, self._rows.join([(key.decode(), of_hashed_bytes(value)) for key, value in came]))


def _asked(key: bytes) -> str:
    try:
        return key.decode()
    except UnicodeDecodeError:
        raise _NoTextError from None


def _byte_row(entry: Entry) -> _ByteRow:
    key, register = entry
    register.check(key)
    return key.encode(), register.hashed_bytes()


def _taken(came: "List[_ByteRow]", latest: int) -> "List[Entry]":
    """The entries that came, if all are taken."""
    entries = []
    for key, value in came:
        try:
            text = key.decode()
        except UnicodeDecodeError:
            raise MalformedError("the peer sent a key that isn't in UTF-8") from None
        register = of_hashed_bytes(value)
        register.check(text, min(latest, LAST))
        entries.append((text, register))
    return entries
