"""Registers, the values of the store `mst`: their order, their bytes, and replies to a catch-up with another form of these.

docs/WIRE.md has the bytes, those of a message and those that are hashed.
"""
import dataclasses
import functools
import struct
import time
from typing import Callable, Iterator, List, Optional, Tuple

from ._library import MalformedError
from ._sync_tree import SyncTree

MOST_TEXT = 1 << 20
"""How many bytes a key, a writer's name and a value have at most, each: `mst` takes nothing from a peer that sends a longer one."""

LAST = (1 << 63) - 1
"""The last time that a store can hold."""

_DIGEST = 16
_front = struct.Struct("<QQ")


class UntakenError(ValueError):
    """An entry that no `mst` takes: a part of it is too long, or its time is too late. Nothing of what comes with it is joined. `key` is its key, and
    `part` says what is wrong: "key", "writer", "value" or "time"."""

    def __init__(self, text: str, key: str = "", part: str = "") -> None:
        super().__init__(text)
        self.key, self.part = key, part


@functools.total_ordering
@dataclasses.dataclass(frozen=True)
class Register:
    """What was written last under a key of the store `mst`: when, in milliseconds since 1970; by which writer; and the value, or None if the key was
    removed. Of two registers that of the greater time is the later; of one time, that of the greater writer; of one writer, the greater value. A
    removal is less than any value, and a value in UTF-8 less than any other.

    >>> first = Register(1764400000000, "alice", b"2")
    >>> first < Register(1764400060000, "bob", None)
    True
    >>> Register.from_bytes(first.to_bytes()) == first
    True
    """

    time: int
    writer: str
    value: "Optional[bytes]"

    def __post_init__(self) -> None:
        if not isinstance(self.time, int) or not isinstance(self.writer, str) or not isinstance(self.value, (bytes, type(None))):
            raise TypeError("a register is a number, a str, and bytes or None")
        if not 0 <= self.time < 1 << 64:
            raise ValueError("the time of a register is a number of 64 bits")
        self.writer.encode()

    @classmethod
    def over(cls, held: "Optional[Register]", writer: str, value: "Optional[bytes]", now: "Optional[int]" = None) -> "Register":
        """A write, or with None a removal, over the register that the key has: at the clock's time, or at one more than that register's, whichever
        is later. So it wins over what this copy has. ValueError if that register has the last time that there is."""
        clock = milliseconds() if now is None else now
        return cls(clock if held is None else max(clock, held.time + 1), writer, value)

    def check(self, key: str, latest: int = LAST) -> None:
        """UntakenError if `mst` doesn't take it at this key: if the key, the writer or the value has more than `MOST_TEXT` bytes, or the time is after
        the latest one. Call it before a transaction of your own is committed; `join` of a `RegisterTree` does."""
        for part, size in (("key", len(key.encode())), ("writer", len(self.writer.encode())), ("value", len(self.value or b""))):
            if size > MOST_TEXT:
                raise UntakenError(f"the entry at {key[:40]!r} isn't taken: its {part} has {size} bytes, and {MOST_TEXT} are the most", key, part)
        if self.time > latest:
            raise UntakenError(f"the entry at {key[:40]!r} isn't taken: its time is {self.time}, and {latest} is the latest", key, "time")

    def __lt__(self, other: object) -> bool:
        if not isinstance(other, Register):
            return NotImplemented
        return self._rank() < other._rank()

    @property
    def kind(self) -> int:
        """What is compared before the value, as by a column in SQL: 0 of a removal, 1 of a value in UTF-8, and 2 of another one."""
        return _mark(self.value)

    def _rank(self) -> "Tuple[int, bytes, int, bytes]":
        return self.time, self.writer.encode(), self.kind, self.value or b""

    def to_bytes(self) -> bytes:
        """The bytes that it has in a message."""
        writer = self.writer.encode()
        front = _count(self.time) + _count(len(writer)) + writer + bytes([self.kind])
        return front if self.value is None else front + _count(len(self.value)) + self.value

    @classmethod
    def from_bytes(cls, data: bytes) -> "Register":
        """The register that has these bytes in a message; MalformedError if none has."""
        reader = _Reader(data)
        register = _read_register(reader)
        if not reader.is_read():
            raise MalformedError("bytes follow a register")
        return register

    def hashed_bytes(self) -> bytes:
        """The bytes of which its digest is."""
        writer = self.writer.encode()
        return _front.pack(self.time, len(writer)) + writer + bytes([self.kind]) + (self.value or b"")

    def digest(self, hash_key: bytes) -> bytes:
        """Its digest, 16 bytes, under a hash key of 16 bytes."""
        with SyncTree(key=hash_key) as tree:
            tree[b""] = self.hashed_bytes()
            digest = tree.get_digest(b"")
        assert digest is not None
        return digest


def of_hashed_bytes(data: bytes) -> Register:
    """The register of bytes that `hashed_bytes` made."""
    moment, size = _front.unpack_from(data)
    end = _front.size + size
    return Register(moment, data[_front.size:end].decode(), data[end + 1:] if data[end] else None)


def milliseconds() -> int:
    """The time of the clock, since 1970."""
    return time.time_ns() // 1_000_000


def with_byte_strings(reply: bytes) -> bytes:
    """A reply whose values are registers, with byte strings in place of these: the bytes that are hashed. MalformedError if a value is no register, or
    can't be found."""
    return _rewritten(reply, _read_register, _byte_string)


def with_registers(reply: bytes) -> bytes:
    """The reply of which `with_byte_strings` makes this one."""
    return _rewritten(reply, lambda reader: of_hashed_bytes(reader.string()), Register.to_bytes)


def _mark(value: "Optional[bytes]") -> int:
    """The byte before a value: 1 if it is in UTF-8, and else 2; or 0 of a removal."""
    if value is None:
        return 0
    try:
        value.decode()
    except UnicodeDecodeError:
        return 2
    return 1


def _count(number: int) -> bytes:
    """The bytes of a count: seven bits a byte, the lowest first, with 128 more in each byte but the last."""
    written = bytearray()
    while number > 127:
        written.append(number & 127 | 128)
        number >>= 7
    written.append(number)
    return bytes(written)


class _Reader:
    """A message that is read from its front. MalformedError if it doesn't have what is read."""

    def __init__(self, message: bytes) -> None:
        self.message, self.at = message, 0

    def is_read(self) -> bool:
        return self.at == len(self.message)

    def take(self, size: int) -> bytes:
        part = self.message[self.at:self.at + size]
        if len(part) < size:
            raise MalformedError("a message ends early")
        self.at += size
        return part

    def byte(self) -> int:
        return self.take(1)[0]

    def count(self) -> int:
        number = shift = 0
        while True:
            byte = self.byte()
            number |= (byte & 127) << shift
            shift += 7
            if byte < 128 or shift == 70:
                break
        if byte > 127 or number >= 1 << 64 or (byte == 0 and shift > 7):
            raise MalformedError("a number in a message has more than 64 bits, or more bytes than it takes")
        return number

    def flag(self) -> bool:
        flag = self.byte()
        if flag > 1:
            raise MalformedError("a flag in a message is neither 0 nor 1")
        return flag == 1

    def string(self) -> bytes:
        return self.take(self.count())

    def skip_key(self) -> None:
        """Skips a key of a run: how many bytes it keeps of the key before, and its other bytes."""
        front = self.byte()
        if front < 240:
            self.take(front & 15)
        else:
            self.count()
            self.take(self.count())

    def skip_keys(self) -> int:
        """Skips a list of keys, and returns how many there are."""
        count = self.count()
        for _ in range(count):
            self.skip_key()
        return count


def _read_register(reader: _Reader) -> Register:
    moment, writer, mark = reader.count(), reader.string(), reader.byte()
    value = reader.string() if mark else None
    if mark != _mark(value):
        raise MalformedError("a value in a message has the mark of another kind than its own")
    try:
        return Register(moment, writer.decode(), value)
    except UnicodeDecodeError:
        raise MalformedError("the name of a writer isn't in UTF-8") from None


def _byte_string(register: Register) -> bytes:
    data = register.hashed_bytes()
    return _count(len(data)) + data


def _rewritten(reply: bytes, read: "Callable[[_Reader], Register]", write: "Callable[[Register], bytes]") -> bytes:
    """A reply with its values in another form."""
    reader, copied = _Reader(reply), 0
    pieces: "List[bytes]" = []
    for _ in _to_values(reader):
        pieces.append(reply[copied:reader.at])
        pieces.append(write(read(reader)))
        copied = reader.at
    return b"".join([*pieces, reply[copied:]])


def _to_values(reader: _Reader) -> "Iterator[None]":
    """Goes through a reply, and stops in front of each value, which the caller reads."""
    entry = _ENTRIES.get(reader.message[1:2])
    reader.at = 2
    while entry is not None and not reader.is_read():
        yield from entry(reader)


def _to_values_of_an_outline(reader: _Reader) -> "Iterator[None]":
    kind = reader.byte()
    if kind == 0:
        yield from _to_values_of_rows(reader)
    elif kind == 1:
        reader.take(_DIGEST * reader.skip_keys())
    else:
        reader.take(_DIGEST)
        for _ in range(reader.skip_keys() + 1):
            reader.take(_DIGEST if reader.flag() else 0)


def _to_values_of_rows(reader: _Reader) -> "Iterator[None]":
    for _ in range(reader.count()):
        reader.skip_key()
        yield


def _to_the_value_at_a_key(reader: _Reader) -> "Iterator[None]":
    if reader.flag():
        yield


def _to_values_of_a_part(reader: _Reader) -> "Iterator[None]":
    yield from _to_values_of_rows(reader)
    reader.flag()


# What each entry of a reply of this kind is.
_ENTRIES = {bytes([130]): _to_values_of_an_outline, bytes([131]): _to_values_of_an_outline, bytes([132]): _to_the_value_at_a_key,
            bytes([133]): _to_values_of_a_part}
