"""Trees of digests: what a `Tree` and a `SyncTree` do alike at a key."""
import ctypes
from typing import Any, Optional

from ._library import ABSENT, Handle, check


class Digests(Handle):
    """A map from keys to the digests of their values, by what the library says at a key."""

    __slots__ = ()

    def _remove(self, key: bytes) -> int:
        """Takes a key out: the status of the library's call."""
        raise NotImplementedError

    def _find(self, key: bytes, digest: Any) -> int:
        """Writes the digest at a key: the status of the library's call."""
        raise NotImplementedError

    def __delitem__(self, key: bytes) -> None:
        """Takes a key out; KeyError if it isn't there."""
        if not self.discard(key):
            raise KeyError(key)

    def discard(self, key: bytes) -> bool:
        """Takes a key out, and says whether it was there. A peer that has the row brings it back, unless a value says that it was removed."""
        try:
            status = self._remove(key)
        except ctypes.ArgumentError:
            raise TypeError("keys are bytes") from None
        if status == ABSENT:
            return False
        check(status)
        return True

    def get_digest(self, key: bytes) -> "Optional[bytes]":
        """The digest of the value at a key; None if the key isn't there."""
        digest = ctypes.create_string_buffer(16)
        try:
            status = self._find(key, digest)
        except ctypes.ArgumentError:
            raise TypeError("keys are bytes") from None
        if status == ABSENT:
            return None
        check(status)
        return digest.raw

    def __contains__(self, key: bytes) -> bool:
        """Whether a key is there."""
        return self.get_digest(key) is not None
