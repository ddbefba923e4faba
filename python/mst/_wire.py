"""Catch-ups over a connection: how a message is sent, and what each side does until the catch-up is over. docs/WIRE.md has the messages."""
import asyncio
import contextlib
import struct
from typing import Awaitable, Callable, Generator, Tuple, TypeVar

from ._library import DONE, MALFORMED, OTHER_SETTINGS, REFUSED, MalformedError
from ._library import check as check_of_tree

LIMIT = 1 << 28
"""How many bytes a message of the peer may have, where no other limit is given."""

MESSAGES = 1 << 16
"""How many questions one catch-up asks or is answered, where no other number is given. A peer that keeps to the messages needs far fewer
than a thousand, and one for each further 64 MiB."""

SESSION_BYTES = 1 << 32
"""How many bytes the messages of one catch-up have together, those that are sent and those that come, where no other number is given."""

SESSION_ROWS = 1 << 26
"""How many rows one catch-up of a `SyncTree` brings at most, where no other number is given."""

REFUSAL = b"\x01\xff"
"""The message that says that a question was refused."""

# How many bytes the first question of a catch-up has that tells the digest of no key.
WITHOUT_KEY = 6
_PIECE = 1 << 16
_pack = struct.Struct("<Q").pack
_number = struct.Struct("<Q").unpack_from
_Came = TypeVar("_Came")

Read = Callable[[int], bytes]
Write = Callable[[bytes], object]
# What answers a question: the status of the answer, and the message that is sent back.
Answer = Callable[[bytes], Tuple[int, bytes]]
AnswerLater = Callable[[bytes], Awaitable[Tuple[int, bytes]]]


class RefusedError(ValueError):
    """A catch-up was refused by the side that was asked: mostly since the other side has another key of SipHash, level base or page format."""


def check_limits(**limits: int) -> None:
    """ValueError if one of these limits isn't a whole number from 0 on."""
    for name, limit in limits.items():
        if not isinstance(limit, int) or limit < 0:
            raise ValueError(f"{name} is a whole number from 0 on, not {limit!r}")


class Spent:
    """How many bytes the messages of a catch-up had so far, of those that they may have."""

    def __init__(self, session_bytes: int) -> None:
        check_limits(session_bytes=session_bytes)
        self._most, self._bytes = session_bytes, 0

    def add(self, *messages: bytes) -> None:
        """Counts messages; MalformedError if all have too many bytes."""
        self._bytes += sum(map(len, messages))
        if self._bytes > self._most:
            raise MalformedError(f"the messages have {self._bytes} bytes together, and the limit is {self._most}")


def check(status: int, joined: int = 0) -> None:
    """Raises what a status of a call on messages means, but for DONE."""
    if status == DONE:
        return
    if status == REFUSED:
        raise RefusedError("the peer rejected the request: it may have other settings, or met a limit of its own")
    if status == MALFORMED:
        raise MalformedError("the peer's reply isn't one to what was asked")
    if joined:
        raise MemoryError(f"{joined} of the rows that came are joined")
    check_of_tree(status)


def ask(steps: "Generator[bytes, bytes, _Came]", read: Read, write: Write, limit: int) -> "_Came":
    """Asks what the steps of a catch-up ask, and returns what they return. The peer isn't told that the catch-up is over."""
    check_limits(limit=limit)
    with contextlib.closing(steps):
        question = next(steps)
        while True:
            send(write, question)
            reply = receive(read, limit)
            try:
                question = steps.send(reply)
            except StopIteration as end:
                came: _Came = end.value
                return came


async def ask_streams(steps: "Generator[bytes, bytes, _Came]", reader: asyncio.StreamReader, writer: asyncio.StreamWriter,
                      limit: int) -> "_Came":
    """The same over the streams of asyncio."""
    check_limits(limit=limit)
    with contextlib.closing(steps):
        question = next(steps)
        while True:
            await send_stream(writer, question)
            reply = await receive_stream(reader, limit)
            try:
                question = steps.send(reply)
            except StopIteration as end:
                came: _Came = end.value
                return came


def answer(answers: Answer, read: Read, write: Write, limit: int, messages: int, spent: Spent) -> int:
    """Answers a peer until it says that it is done or ends, and returns how many questions it was answered."""
    check_limits(limit=limit, messages=messages)
    count = 0
    while True:
        try:
            question = receive(read, limit, may_end=True)
            _check_count(question, count, messages)
            if not question:
                return count
            status, reply = answers(question)
            _check_answer(status)
            spent.add(question, reply)
        except (MalformedError, RefusedError):
            _refuse(write)
            raise
        send(write, reply)
        count += 1


async def answer_streams(answers: AnswerLater, reader: asyncio.StreamReader, writer: asyncio.StreamWriter, limit: int, messages: int,
                         spent: Spent) -> int:
    """The same over the streams of asyncio."""
    check_limits(limit=limit, messages=messages)
    count = 0
    while True:
        try:
            question = await receive_stream(reader, limit, may_end=True)
            _check_count(question, count, messages)
            if not question:
                return count
            status, reply = await answers(question)
            _check_answer(status)
            spent.add(question, reply)
        except (MalformedError, RefusedError):
            await _refuse_stream(writer)
            raise
        await send_stream(writer, reply)
        count += 1


def send(write: Write, message: bytes) -> None:
    """Sends a message after how many bytes it has. One of no bytes ends a catch-up."""
    write(_pack(len(message)) + message)


async def send_stream(writer: asyncio.StreamWriter, message: bytes) -> None:
    """The same over a stream of asyncio."""
    writer.write(_pack(len(message)) + message)
    await writer.drain()


def receive(read: Read, limit: int, *, may_end: bool = False) -> bytes:
    """The message that the peer sends; none where it ends instead of one and may."""
    front = _exactly(read, 8, may_end)
    return _exactly(read, _size(front, limit)) if front else b""


async def receive_stream(reader: asyncio.StreamReader, limit: int, *, may_end: bool = False) -> bytes:
    """The same over a stream of asyncio."""
    try:
        front = await reader.readexactly(8)
    except asyncio.IncompleteReadError as error:
        if may_end and not error.partial:
            return b""
        raise EOFError("the peer ended within a catch-up") from None
    try:
        return await reader.readexactly(_size(front, limit))
    except asyncio.IncompleteReadError:
        raise EOFError("the peer ended within a catch-up") from None


def _size(front: bytes, limit: int) -> int:
    """How many bytes the message has whose front this is."""
    size: int = _number(front)[0]
    if size > limit:
        raise MalformedError(f"a message of {size} bytes came, and the limit is {limit}")
    return size


def _exactly(read: Read, size: int, may_end: bool = False) -> bytes:
    """So many bytes; or none, where the peer ends before the first of them and may. Memory is taken as they come."""
    came = bytearray()
    while len(came) < size:
        piece = read(min(size - len(came), _PIECE))
        if not piece:
            if may_end and not came:
                return b""
            raise EOFError("the peer ended within a catch-up")
        came += piece
    return bytes(came)


def _check_count(question: bytes, count: int, messages: int) -> None:
    """MalformedError where this question is one too many."""
    if question and count == messages:
        raise MalformedError(f"the peer isn't done after {messages} questions")


def _check_answer(status: int) -> None:
    """Raises what is wrong with a question, if the status of the answer says so."""
    if status == OTHER_SETTINGS:
        raise RefusedError("the peer has other settings")
    if status == MALFORMED:
        raise MalformedError("the peer sent what is no question")


def _refuse(write: Write) -> None:
    """Tells the peer that it is refused. It may be gone, which says less than why."""
    with contextlib.suppress(Exception):
        send(write, REFUSAL)


async def _refuse_stream(writer: asyncio.StreamWriter) -> None:
    """The same over a stream of asyncio."""
    with contextlib.suppress(Exception):
        await send_stream(writer, REFUSAL)
