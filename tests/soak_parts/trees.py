"""A model of trees, written from their definitions: SipHash, levels, the tree of a map, its page ranges and its root hash.

A map is a dict from keys, which are bytes, to the digests of values; docs/SPECS.md names the definition of each part.
"""
import functools
import struct

WORD = (1 << 64) - 1
ZERO_KEY = bytes(16)


def rotated(word, places):
    return (word << places | word >> (64 - places)) & WORD


def sip_round(a, b, c, d):
    """One round on the four words of a state."""
    a = (a + b) & WORD
    b = rotated(b, 13) ^ a
    c = (c + d) & WORD
    d = rotated(d, 16) ^ c
    a = (rotated(a, 32) + d) & WORD
    d = rotated(d, 21) ^ a
    c = (c + b) & WORD
    b = rotated(b, 17) ^ c
    return a, b, rotated(c, 32), d


@functools.lru_cache(1 << 18)
def siphash128(key, message):
    """SipHash-2-4 with 128 bits of output."""
    low, high = struct.unpack("<2Q", key)
    state = low ^ 0x736F6D6570736575, high ^ 0x646F72616E646F6D ^ 0xEE, low ^ 0x6C7967656E657261, high ^ 0x7465646279746573
    padded = message + bytes(7 - len(message) % 8) + bytes([len(message) % 256])
    for word in struct.unpack(f"<{len(padded) // 8}Q", padded):
        a, b, c, d = state
        a, b, c, d = sip_round(*sip_round(a, b, c, d ^ word))
        state = a ^ word, b, c, d
    halves = []
    for marks in ((0, 0, 0xEE, 0), (0, 0xDD, 0, 0)):
        state = tuple(word ^ mark for word, mark in zip(state, marks))
        for _ in range(4):
            state = sip_round(*state)
        halves.append(state[0] ^ state[1] ^ state[2] ^ state[3])
    return struct.pack("<2Q", *halves)


def level_of(digest, base):
    """Two for each zero byte at the front, one more where the base divides the byte after them, and at most 255."""
    rest = digest.lstrip(b"\0")
    zeros = len(digest) - len(rest)
    return min(255, 2 * zeros + (1 if rest and rest[0] % base == 0 else 0))


def number(value):
    """A number as eight bytes, the lowest first."""
    return struct.pack("<Q", value)


class Settings:
    """The key of SipHash for keys and values, the level base, the page format, and how keys are fed."""

    def __init__(self, key=ZERO_KEY, base=16, form=1, feed=0):
        self.key, self.base, self.form, self.feed = key, base, form, feed

    def digest(self, fed):
        return siphash128(self.key, fed)

    def level(self, key):
        return level_of(self.digest((key, key + b"\xff", number(len(key)) + key)[self.feed]), self.base)

    def stream_of_key(self, key):
        return number(len(key)) + key if self.form == 2 else key

    def page(self, rows, levels):
        """The digest of the page of these rows, and the page ranges of it and of those below it. A row is a key and a digest."""
        top = max(levels, default=0)
        nodes = [place for place, level in enumerate(levels) if level == top]
        stream = [struct.pack("<BBQ", 2, top, len(nodes)) if self.form == 2 else b""]
        ranges = []
        for start, end in zip([0] + [place + 1 for place in nodes], nodes + [len(rows)]):
            if start < end:
                digest, below = self.page(rows[start:end], levels[start:end])
                stream.append(b"\1" + digest if self.form == 2 else digest)
                ranges += below
            elif self.form == 2:
                stream.append(b"\0")
            if end < len(rows):
                stream += [self.stream_of_key(rows[end][0]), rows[end][1]]
        digest = siphash128(ZERO_KEY, b"".join(stream))
        return digest, [(rows[0][0], rows[-1][0], digest)] + ranges if rows else []

    def pages(self, rows, levels, is_high=False):
        """The entries of a list of pages: that of the page of these rows, and those of its keys and of all below it. Each page has its digest."""
        top = max(levels, default=0)
        nodes = [place for place, level in enumerate(levels) if level == top]
        entries = [bytes([1 + is_high, top, 1]) + self.page(rows, levels)[0] + number(len(nodes))]
        for start, end in zip([0] + [place + 1 for place in nodes], nodes + [len(rows)]):
            if start < end:
                entries += self.pages(rows[start:end], levels[start:end], end == len(rows))
            if end < len(rows):
                entries.append(b"\0" + number(len(rows[end][0])) + rows[end][0])
        return entries

    def pages_of(self, digests):
        """The entries of the list of the pages of the tree of a map."""
        rows = sorted(digests.items())
        return self.pages(rows, [self.level(key) for key, _ in rows])

    def tree(self, digests):
        """The root hash and the page ranges of the tree of a map: of each page the first key, the last key and the digest."""
        rows = sorted(digests.items())
        return self.page(rows, [self.level(key) for key, _ in rows])
