"""Hostile input to the program `mst_pair`: the bytes of sessions, broken in many ways, judged by the model of pairs.py."""
import random

from soak_parts import program
from soak_parts.shrink import smaller

TOKENS = [b"\n", b"\n\n", b"\r\n", b" ", b"\0", b"\xff", b"put a ", b"put b x 1\n", b"del a ", b"turns 9\n", b"pull b\n", b"format 2\n", b"keys a\n",
          b"18446744073709551615", b"18446744073709551616", b"-1", b"\xef\xbb\xbf", b"\xc0\x80", b"\xed\xa0\x80", b"\xf4\x90\x80\x80"]


def place(chosen, given, most):
    """A part of the bytes: where it begins, and where it ends."""
    at = chosen.randrange(len(given) + 1)
    return at, min(len(given), at + chosen.randrange(most))


def break_once(chosen, given):
    """Breaks the bytes in one way."""
    (at, end), kind = place(chosen, given, chosen.choice([2, 8, 200])), chosen.randrange(8)
    if kind == 0:
        given[at:end] = bytes(byte ^ 1 << chosen.randrange(8) for byte in given[at:end])
    elif kind == 1:
        del given[at:end]
    elif kind == 2:
        given[at:at] = given[at:end] * chosen.choice([1, 1, 20])
    elif kind == 3:
        given[at:end] = chosen.randbytes(chosen.choice([1, 3, 40]))
    elif kind == 4:
        given[at:at] = chosen.choice(TOKENS)
    elif kind == 5:
        given[at:at] = chosen.choice([b"k", b"0", b" ", b"\xc3\xa9", b"\0", b"put a x 1"]) * chosen.choice([255, 256, 5000, 100000])
    elif kind == 6:
        other = place(chosen, given, 200)
        given[at:at] = given[other[0]:other[1]]
    else:
        given[at:end] = given[at:end].replace(*chosen.choice([(b" ", b"  "), (b"\n", b""), (b" ", b"\n"), (b"a", b"b"), (b"\n", b"\r\n")]))


def session(seed):
    """The input of a seed."""
    chosen = random.Random(f"hostile {seed}")
    if not chosen.randrange(8):
        return chosen.randbytes(chosen.choice([1, 100, 5000]))
    lines = program.session(seed)[:chosen.choice([3, 20, 100])]
    given = bytearray(b"\n".join(lines) + b"\n")
    for _ in range(chosen.choice([1, 3, 10, 40])):
        break_once(chosen, given)
    return bytes(given)


class Driver:
    """Hostile input to the built program at this path."""

    def __init__(self, path):
        self.path = path

    def soak(self, seed):
        """Runs the input of a seed: how many bytes it has, and, if it fails, what is to be shown."""
        given, piece = session(seed), [1 << 20, 1 << 20, 4096, 100][seed % 4]
        if program.fault(self.path, given, piece) is None:
            return len(given), None
        parts = [bytes([byte]) for byte in given]
        parts = smaller(parts, lambda some: program.fault(self.path, b"".join(some), piece) is not None)
        return len(given), program.shown(self.path, b"".join(parts), piece)
