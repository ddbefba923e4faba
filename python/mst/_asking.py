"""Catch-ups step by step: what a `Replica` and a `SyncTree` do alike as the side that asks."""
import ctypes
import threading
from typing import Generator, Generic, Optional, Tuple, TypeVar

from . import _wire
from ._library import Handle, MalformedError, check_settings

_Came = TypeVar("_Came")


class Asking(Handle, Generic[_Came]):
    """A side of catch-ups with its settings, by the library's calls. It is in one catch-up at a time."""

    __slots__ = ("_settings", "_lock", "_under_way")
    # Why a catch-up isn't the one that is under way.
    _OTHER = "another catch-up began in the place of this one"

    def __init__(self, key: bytes, level_base: int, page_format: int) -> None:
        check_settings(key, level_base, page_format)
        super().__init__()
        self._settings = key, level_base, page_format
        # Held within each call of the library that keeps a message, and until that is read.
        self._lock = threading.RLock()
        self._under_way: "Optional[object]" = None

    def _begin(self) -> int:
        """Begins a catch-up in the library, in place of one that is under way, and returns how many bytes its first question has."""
        raise NotImplementedError

    def _message(self, size: int) -> bytes:
        """The message that the library keeps."""
        raise NotImplementedError

    def _first_question(self) -> bytes:
        """The first question of another side, which has these settings and the empty key alone."""
        raise NotImplementedError

    def _taken(self, reply: bytes) -> "Tuple[bytes, _Came]":
        """Gives the library a reply, and returns the next question, or none and what came."""
        raise NotImplementedError

    def _let_go(self) -> None:
        """Ends the library's catch-up: no bytes are a reply to no question."""
        raise NotImplementedError

    def _ask(self, mine: object) -> bytes:
        """Begins a catch-up, and returns its first question, which tells the settings: the key of SipHash by the digest of a key. A side without
        keys takes the empty one, as a side does that has it alone."""
        with self._lock:
            size = self._begin()
            self._under_way = mine
            question = self._message(size)
        return question if len(question) > _wire.WITHOUT_KEY else self._first_question()

    def _take(self, mine: object, reply: bytes) -> "Tuple[bytes, _Came]":
        """Takes a reply, and returns the next question, or none and what came."""
        with self._lock:
            if self._under_way is not mine:
                raise ValueError(self._OTHER)
            try:
                return self._taken(reply)
            except ctypes.ArgumentError:
                raise TypeError("messages are bytes") from None

    def _leave(self, mine: object) -> None:
        """Ends a catch-up that was left, so that what came of it is let go."""
        with self._lock:
            if self._under_way is mine:
                self._under_way = None
                self._let_go()

    def _steps(self, messages: int, session_bytes: int) -> "Generator[bytes, bytes, _Came]":
        """A catch-up within these bounds, which yields each question, is sent the reply to it, and returns what came."""
        _wire.check_limits(messages=messages)
        mine, spent = object(), _wire.Spent(session_bytes)
        question = self._ask(mine)
        try:
            for _ in range(messages):
                reply = yield question
                spent.add(question, reply)
                question, came = self._take(mine, reply)
                if not question:
                    return came
            raise MalformedError(f"the peer isn't done after {messages} questions")
        finally:
            self._leave(mine)
