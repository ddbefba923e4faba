"""Sessions of a tree of digests whose rows are elsewhere: what a `SyncTree` and a `RegisterTree` do alike over a connection."""
import asyncio
import functools
from typing import Any, Callable, Generator, Generic, Iterable, List, Tuple, TypeVar

from . import _wire
from ._wire import LIMIT, MESSAGES, SESSION_BYTES, Read, Write

_Rows = TypeVar("_Rows")
_Row = TypeVar("_Row")


class Sessions(Generic[_Rows, _Row]):
    """A tree that catches up and answers, by what it says of the rows."""

    __slots__ = ()

    def join(self, rows: _Rows, came: "Iterable[_Row]") -> None:
        """Joins rows with those that are kept, and sets the tree to what they then are."""
        raise NotImplementedError

    def _settle(self, rows: _Rows) -> None:
        """Looks up the keys of writes of which it isn't known how they ended."""
        raise NotImplementedError

    def _answer(self, rows: _Rows, question: bytes) -> "Tuple[int, bytes]":
        """The status of an answer, and the message that is to be sent."""
        raise NotImplementedError

    def _catch_up(self, rows: _Rows, steps: "Generator[bytes, bytes, List[_Row]]", read: Read, write: Write, limit: int) -> int:
        """A catch-up by its steps, with the join at its end, and the end told to the peer: how many rows came."""
        self._settle(rows)
        came = _wire.ask(steps, read, write, limit)
        self.join(rows, came)
        _wire.send(write, b"")
        return len(came)

    async def _catch_up_streams(self, rows: _Rows, steps: "Generator[bytes, bytes, List[_Row]]", reader: asyncio.StreamReader,
                                writer: asyncio.StreamWriter, limit: int) -> int:
        """The same over the streams of asyncio."""
        await _in_thread(self._settle, rows)
        came = await _wire.ask_streams(steps, reader, writer, limit)
        await _in_thread(self.join, rows, came)
        await _wire.send_stream(writer, b"")
        return len(came)

    def serve(self, rows: _Rows, read: Read, write: Write, *, limit: int = LIMIT, messages: int = MESSAGES,
              session_bytes: int = SESSION_BYTES) -> int:
        """Answers a peer that runs `catch_up`, until it says that it is done or ends, and returns how many questions it was answered: the same if
        it joined the rows or hung up before it did. The rest is as for `catch_up`, from the other side.

        RefusedError if the peer has other settings, and MalformedError if it sends what is no question, one of more bytes than the limit,
        more questions than `messages`, or if all messages have more bytes than `session_bytes`: it is sent the refusal first, if it is still
        there. EOFError if it ends within a message; what `answer`, `read` and `write` raise."""
        return _wire.answer(functools.partial(self._answer, rows), read, write, limit, messages, _wire.Spent(session_bytes))

    async def serve_streams(self, rows: _Rows, reader: asyncio.StreamReader, writer: asyncio.StreamWriter, *, limit: int = LIMIT,
                            messages: int = MESSAGES, session_bytes: int = SESSION_BYTES) -> int:
        """The same as `serve`, over the streams of asyncio, with the rows called as in `catch_up_streams`."""
        answers = functools.partial(_in_thread, self._answer, rows)
        return await _wire.answer_streams(answers, reader, writer, limit, messages, _wire.Spent(session_bytes))

    def __bool__(self) -> bool:
        """A tree is true, as it is without a key: to count them for a test would be slow."""
        return True


async def _in_thread(call: "Callable[..., Any]", *words: object) -> "Any":
    """Makes a call in a thread of the loop's executor."""
    return await asyncio.get_running_loop().run_in_executor(None, call, *words)
