"""The calls of mst.h, mst_replica.h and mst_sync.h, by ctypes. Nothing outside of the package needs it."""
import ctypes
import functools
import os
import sys
import threading
from typing import Any, Callable, ContextManager, TypeVar

DONE, NO_MEMORY, MALFORMED, TOO_SHORT, BAD_ARGUMENT, ABSENT, OTHER_SETTINGS, REFUSED, NEEDS_ROWS = range(9)

_HANDLE, _BYTES, _SIZE, _OUT = ctypes.c_void_p, ctypes.c_char_p, ctypes.c_size_t, ctypes.c_void_p
_CALLS = {
    "mst_tree_new_as": [_HANDLE, _BYTES, ctypes.c_uint8, ctypes.c_uint8, ctypes.c_uint8],
    "mst_tree_clone": [_HANDLE, _HANDLE],
    "mst_tree_free": [_HANDLE],
    "mst_tree_upsert": [_HANDLE, _BYTES, _SIZE, _BYTES, _SIZE],
    "mst_tree_upsert_digest": [_HANDLE, _BYTES, _SIZE, _BYTES],
    "mst_tree_upsert_rows": [_HANDLE, _BYTES, _SIZE, _OUT],
    "mst_tree_remove": [_HANDLE, _BYTES, _SIZE],
    "mst_tree_load": [_HANDLE, _BYTES, _SIZE],
    "mst_tree_load_digests": [_HANDLE, _BYTES, _SIZE],
    "mst_tree_find": [_HANDLE, _BYTES, _SIZE, _OUT],
    "mst_tree_len": [_HANDLE, _OUT],
    "mst_tree_root_hash": [_HANDLE, _OUT],
    "mst_tree_page_ranges": [_HANDLE, _OUT, _SIZE, _OUT],
    "mst_tree_digests": [_HANDLE, _OUT, _SIZE, _OUT],
    "mst_tree_pages": [_HANDLE, _OUT, _SIZE, _OUT],
    "mst_diff": [_BYTES, _SIZE, _BYTES, _SIZE, _OUT, _SIZE, _OUT],
    "mst_ranges_next": [_BYTES, _SIZE, _OUT, _OUT],
    "mst_version": [],
    "mst_replica_new_with": [_HANDLE, _BYTES, ctypes.c_uint8, ctypes.c_uint8],
    "mst_replica_free": [_HANDLE],
    "mst_replica_put": [_HANDLE, _BYTES, _SIZE, _BYTES, _SIZE],
    "mst_replica_get": [_HANDLE, _BYTES, _SIZE, _OUT, _SIZE, _OUT],
    "mst_replica_len": [_HANDLE, _OUT],
    "mst_replica_root_hash": [_HANDLE, _OUT],
    "mst_replica_rows": [_HANDLE, _OUT, _SIZE, _OUT],
    "mst_replica_message": [_HANDLE, _OUT, _SIZE, _OUT],
    "mst_replica_answer": [_HANDLE, _BYTES, _SIZE, _OUT],
    "mst_replica_ask": [_HANDLE, _OUT],
    "mst_replica_take": [_HANDLE, _BYTES, _SIZE, _OUT, _OUT],
    "mst_sync_new_with": [_HANDLE, _BYTES, ctypes.c_uint8, ctypes.c_uint8],
    "mst_sync_free": [_HANDLE],
    "mst_sync_set": [_HANDLE, _BYTES, _SIZE, _BYTES, _SIZE],
    "mst_sync_remove": [_HANDLE, _BYTES, _SIZE],
    "mst_sync_find": [_HANDLE, _BYTES, _SIZE, _OUT],
    "mst_sync_len": [_HANDLE, _OUT],
    "mst_sync_root_hash": [_HANDLE, _OUT],
    "mst_sync_message": [_HANDLE, _OUT, _SIZE, _OUT],
    "mst_sync_list": [_HANDLE, _OUT, _SIZE, _OUT],
    "mst_sync_ask": [_HANDLE, _OUT],
    "mst_sync_take": [_HANDLE, _BYTES, _SIZE, _OUT, _OUT],
    "mst_sync_answer": [_HANDLE, _BYTES, _SIZE, _OUT, _OUT],
    "mst_sync_answer_with": [_HANDLE, _BYTES, _SIZE, _BYTES, _SIZE, ctypes.c_int, _SIZE, _OUT],
}
_RESULTS = {"mst_tree_free": None, "mst_replica_free": None, "mst_sync_free": None, "mst_version": ctypes.c_char_p}


class MalformedError(ValueError):
    """Bytes aren't a list or a message of the kind that was expected, or rows don't ascend."""


class _Range(ctypes.Structure):
    """`struct mst_range`."""
    _fields_ = [("first", ctypes.c_void_p), ("first_len", ctypes.c_size_t), ("last", ctypes.c_void_p), ("last_len", ctypes.c_size_t),
                ("digest", ctypes.c_void_p)]


def _find() -> str:
    """The library: the file of the variable MST_LIBRARY, else that of the package, else that of a checkout's folder c."""
    here, named = os.path.dirname(os.path.abspath(__file__)), os.environ.get("MST_LIBRARY")
    if named and not os.path.isfile(named):
        raise ImportError(f"MST_LIBRARY names {named}, which isn't a file")
    for path in [named, os.path.join(here, "libmst.so"), os.path.join(here, "..", "..", "c", "libmst.so")]:
        if path and os.path.isfile(path):
            return path
    raise ImportError("libmst.so isn't there: install the wheel of a release, which has it; or run c/build in a checkout; or set MST_LIBRARY to "
                      "the file")


def _one_at_a_time(call: "Callable[..., Any]", lock: "ContextManager[object]") -> "Callable[..., Any]":
    """The call, while no other thread is within one. The collector may free a tree while a thread prepares a call, so the lock is one that the
    thread may take again."""
    @functools.wraps(call)
    def locked(*arguments: Any) -> Any:
        with lock:
            return call(*arguments)
    return locked


class _Library:
    """The calls, of which one at a time is under way, as mst.h asks of the calls on one tree.

    The interpreter's lock sees to that, since a call by PyDLL keeps it. Where an interpreter has none, a lock of the library's own does.
    """

    mst_version: "Callable[[], bytes]"

    def __init__(self) -> None:
        loaded = ctypes.PyDLL(_find())
        locked = getattr(sys, "_is_gil_enabled", lambda: True)()
        lock = threading.RLock()
        for name, takes in _CALLS.items():
            call = getattr(loaded, name)
            call.argtypes = takes
            call.restype = _RESULTS.get(name, ctypes.c_int)
            setattr(self, name, call if locked else _one_at_a_time(call, lock))

    def __getattr__(self, name: str) -> "Callable[..., int]":
        raise AttributeError(name)


library = _Library()
_Held = TypeVar("_Held", bound="Handle")


class Handle:
    """A tree or a replica, as memory outside of Python."""

    __slots__ = ("_handle", "_address", "__weakref__")

    def __init__(self) -> None:
        self._handle = ctypes.c_void_p()
        self._address = ctypes.addressof(self._handle)

    def _free(self) -> None:
        """Gives the memory back, if there is some."""
        raise NotImplementedError

    def close(self) -> None:
        """Gives the memory back. To close it twice does no harm."""
        self._free()

    def __enter__(self: _Held) -> _Held:
        return self

    def __exit__(self, *_error: object) -> None:
        self.close()

    def __del__(self) -> None:
        if hasattr(self, "_address"):
            self._free()

    def __repr__(self) -> str:
        name = type(self).__name__
        return f"<{name} at {self._handle.value:#x}>" if self._handle.value else f"<{name}, closed>"


def check_settings(key: bytes, level_base: int, page_format: int) -> None:
    """ValueError if one of these settings isn't one."""
    if len(key) != 16:
        raise ValueError("the key of SipHash is of 16 bytes")
    if not 1 <= level_base <= 255:
        raise ValueError("the level base is from 1 to 255")
    if page_format not in (1, 2):
        raise ValueError("the page format is 1 or 2")


def check(status: int) -> None:
    """Raises what a status means, but for DONE."""
    if status == DONE:
        return
    if status == NO_MEMORY:
        raise MemoryError
    if status == MALFORMED:
        raise MalformedError("the bytes are no such list, or its rows don't ascend")
    if status == ABSENT:
        raise KeyError
    raise ValueError("the tree or the replica is closed")


def written(guess: int, call: "Callable[[Any, int, Any], int]") -> bytes:
    """The bytes that a call writes. It is made once more where they are more than the guess."""
    needed = ctypes.c_size_t()
    size = guess
    while True:
        out = ctypes.create_string_buffer(size)
        status = call(out, size, ctypes.byref(needed))
        if status != TOO_SHORT:
            check(status)
            return ctypes.string_at(out, needed.value)
        size = needed.value


def difference(local: bytes, peer: bytes) -> bytes:
    """The list of the key ranges in which two lists of page ranges differ; MalformedError where one is no such list."""
    return written(1024, lambda out, size, needed: library.mst_diff(local, len(local), peer, len(peer), out, size, needed))


def is_list(data: bytes) -> bool:
    """Whether the bytes are a list of page ranges or of key ranges, whatever the order of their keys."""
    status = library.mst_ranges_next(data, len(data), ctypes.byref(ctypes.c_size_t()), ctypes.byref(_Range()))
    return status in (DONE, ABSENT)


def version() -> str:
    """The version of the library."""
    return library.mst_version().decode()
