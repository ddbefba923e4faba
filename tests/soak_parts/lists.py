"""A model of the lists of c/mst.h, written from its last comment: page ranges, key ranges, digests and rows as bytes."""
import struct

# A kind of list: its mark, how many strings each entry has, and how many bytes of digest stand behind them.
PAGE_RANGES, KEY_RANGES, DIGESTS, ROWS = (b"MSTp", 2, 16), (b"MSTk", 2, 0), (b"MSTd", 1, 16), (b"MSTr", 2, 0)
# Pages, whose entries are written as they are.
PAGES = (b"MSTt", 0, 0)


def written(kind, entries):
    """The bytes of a list."""
    mark, strings, _ = kind
    out = [mark, struct.pack("<Q", len(entries))]
    for entry in entries:
        for text in entry[:strings]:
            out += [struct.pack("<Q", len(text)), text]
        out += entry[strings:]
    return b"".join(out)


def read(kind, given):
    """The entries that the bytes spell; None where they are no list of the kind."""
    mark, strings, size = kind
    if given[:4] != mark or len(given) < 12:
        return None
    count, at, entries = struct.unpack_from("<Q", given, 4)[0], 12, []
    while len(entries) < count:
        entry = []
        for _ in range(strings):
            if at + 8 > len(given):
                return None
            start = at + 8
            at = start + struct.unpack_from("<Q", given, at)[0]
            entry.append(given[start:at])
        at += size
        if at > len(given):
            return None
        entries.append((*entry, given[at - size:at]) if size else tuple(entry))
    return entries if at == len(given) else None


def page_ranges(given):
    """The page ranges that the bytes spell, of which none begins above its end."""
    entries = read(PAGE_RANGES, given)
    return None if entries is None or any(first > last for first, last, _ in entries) else entries


def rows(given, kind=ROWS):
    """The rows that the bytes spell, which ascend by key."""
    entries = read(kind, given)
    return None if entries is None or any(one[0] >= other[0] for one, other in zip(entries, entries[1:])) else entries


def digests(given):
    """The keys with their digests that the bytes spell, which ascend."""
    return rows(given, DIGESTS)
