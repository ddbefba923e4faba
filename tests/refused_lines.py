"""Lines of the program `mst_pair` where memory is refused, judged by every state that docs/PROGRAM.md allows.

A state is the rows of both replicas, as (key, number) in the order of the keys' bytes, and the page format. Root hashes and pages are
made here, by the definition of the tree; the ranges of a pull are those that the program itself shows, with all memory at hand.
"""
import base64
import functools
import os
import random
import re
import struct
import subprocess

TOP = os.path.dirname(os.path.dirname(os.path.realpath(__file__)))
WORD = (1 << 64) - 1
EMPTY = ((), (), 1)
DONKEY = "put a donkey 1|put b bananas 1|put b plátanos 1|diff a|pull a|keys a|same|pull b|same|root a"
THREE = "put b x 1|put b y 2|put b z 3|turns 4|keys a|keys b"


def sip_round(v):
    a, b, c, d = v
    rotated = lambda x, n: (x << n | x >> (64 - n)) & WORD
    a, c = (a + b) & WORD, (c + d) & WORD
    b, d = rotated(b, 13) ^ a, rotated(d, 16) ^ c
    a, c = (rotated(a, 32) + d) & WORD, (c + b) & WORD
    return [a, rotated(b, 17) ^ c, rotated(c, 32), rotated(d, 21) ^ a]


@functools.lru_cache(None)
def siphash128(message):
    """SipHash-2-4 with 128 bits of output, under the zero key."""
    v = [0x736F6D6570736575, 0x646F72616E646F6D ^ 0xEE, 0x6C7967656E657261, 0x7465646279746573]
    padded = message + bytes(7 - len(message) % 8) + bytes([len(message) % 256])
    for word in struct.unpack(f"<{len(padded) // 8}Q", padded):
        v[3] ^= word
        v = sip_round(sip_round(v))
        v[0] ^= word
    halves = []
    for place, mark in ((2, 0xEE), (1, 0xDD)):
        v[place] ^= mark
        for _ in range(4):
            v = sip_round(v)
        halves.append(v[0] ^ v[1] ^ v[2] ^ v[3])
    return struct.pack("<2Q", *halves)


def level(key):
    digest = siphash128(key)
    zeros = len(digest) - len(digest.lstrip(b"\0"))
    return 2 * zeros + (zeros < 16 and digest[zeros] % 16 == 0)


@functools.lru_cache(None)
def page(rows, form):
    """The digest of the page of these rows, and the bounds of its page ranges and of those below it."""
    top = max((level(key) for key, _ in rows), default=0)
    places = [i for i, (key, _) in enumerate(rows) if level(key) == top]
    stream = struct.pack("<BBQ", 2, top, len(places)) if form == 2 else b""
    bounds = [(rows[0][0], rows[-1][0])] if rows else []
    for start, end in zip([0] + [i + 1 for i in places], places + [len(rows)]):
        if rows[start:end]:
            digest, below = page(rows[start:end], form)
            stream += (b"\1" if form == 2 else b"") + digest
            bounds += below
        elif form == 2:
            stream += b"\0"
        if end < len(rows):
            key, number = rows[end]
            stream += (struct.pack("<Q", len(key)) if form == 2 else b"") + key + siphash128(struct.pack("<Q", number))
    return siphash128(stream), bounds


def join(rows, others):
    joined = dict(rows)
    for key, number in others:
        joined[key] = max(number, joined.get(key, 0))
    return tuple(sorted(joined.items()))


def parse(line):
    """The words of a line, with its number; none of a line that spells no request."""
    if re.fullmatch(rb"(keys|root|pages|diff|pull) [ab]|turns [0-9]|same|format [12]", line):
        return line.split(b" ")
    found = re.fullmatch(rb"(?:(put) ([ab]) ([^\0- \x7f]{1,255}) ([0-9]{1,20})|(del) ([ab]) ([^\0- \x7f]{1,255}))", line)
    words = [word for word in found.groups() if word] if found else []
    try:
        line.decode()
    except UnicodeDecodeError:
        return []
    return words if len(words) < 4 or int(words[3]) <= WORD else []


class Judge:
    """What the program at this path may answer."""

    def __init__(self, program):
        self.program = program
        self.asked = functools.lru_cache(None)(self.asked)

    def asked(self, local, peer, form):
        """The ranges that the first replica may ask the other for."""
        rows = [b"put %s %s %d" % (name, *row) for name, rows in ((b"a", local), (b"b", peer)) for row in rows]
        lines = [b"format %d" % form, *rows, b"diff a"]
        shown = subprocess.run([self.program], input=b"\n".join(lines), capture_output=True, check=True).stdout
        return [tuple(line.split(b" ")) for line in shown.split(b"\n")[1 + len(rows):-2]]

    def pulls(self, local, peer, form):
        """The ranges of a pull, the peer's rows in them, and the rows where memory is refused to it: the first ones may be joined."""
        ranges = self.asked(local, peer, form)
        inside = [row for row in peer if any(start <= row[0] <= end for start, end in ranges)]
        return ranges, inside, [join(local, inside[:done]) for done in range(max(len(inside), 1))]

    def turns(self, count, local, peer, form):
        """The counts of so many pulls by turns and what stands then, and what may stand where memory is refused to one of them."""
        counts, stopped, swapped = [], [], False
        for _ in range(count):
            _, inside, parts = self.pulls(local, peer, form)
            stopped += [(peer, part) if swapped else (part, peer) for part in parts]
            counts.append(len(inside))
            local, peer, swapped = peer, join(local, inside), not swapped
        return counts, (peer, local) if swapped else (local, peer), stopped

    def steps(self, state, line):
        """Each reply to a line that the definition allows, by its lines, with the state that it leaves."""
        words, (a, b, form) = parse(line), state
        if not words:
            return [([b"bad line"], state)]
        refused, shown = ([b"no memory"], state), lambda ranges: [b"%s %s" % bounds for bounds in ranges] + [b"end"]
        if words[0] == b"same":
            return [([b"same" if page(a, form)[0] == page(b, form)[0] else b"differ"], state)]
        if words[0] == b"format":
            return [([b"not empty"], state) if a or b else ([b"ok"], ((), (), int(words[1])))]
        if words[0] == b"turns":
            counts, after, stopped = self.turns(int(words[1]), a, b, form)
            whole = ([b"joined %d" % count for count in counts] + [b"end"], (*after, form))
            return [whole] + [([b"no memory"], (*rows, form)) for rows in stopped]
        rows, other = (a, b) if words[1] == b"a" else (b, a)
        left = lambda new: (new, b, form) if words[1] == b"a" else (a, new, form)
        if words[0] == b"put":
            return [([b"ok"], left(join(rows, [(words[2], int(words[3]))]))), refused]
        if words[0] == b"del":
            found = words[2] in dict(rows)
            return [([b"ok" if found else b"absent"], left(tuple(row for row in rows if row[0] != words[2]))), refused]
        if words[0] == b"keys":
            return [([b"%s %d" % row for row in rows] + [b"end"], state)]
        if words[0] == b"root":
            return [([base64.b64encode(page(rows, form)[0])], state)]
        if words[0] == b"pages":
            return [(shown(page(rows, form)[1]), state), refused]
        if words[0] == b"diff":
            return [(shown(self.asked(rows, other, form)), state), refused]
        ranges, inside, parts = self.pulls(rows, other, form)
        pulled = (shown(ranges) + [b"joined %d" % len(inside)], left(join(rows, inside)))
        return [pulled] + [([b"no memory"], left(part)) for part in parts]

    def fault(self, lines, output):
        """What is wrong with the output of these lines; none where the definition allows it."""
        states, replies = {EMPTY}, output.split(b"\n")
        for line in lines:
            words, count = parse(line), 1
            if words and words[0] in (b"keys", b"pages", b"diff", b"pull", b"turns") and replies[0] != b"no memory":
                count = (replies + [b"end"]).index(b"end") + (2 if words[0] == b"pull" else 1)
            reply, replies = replies[:count], replies[count:]
            states = {after for state in states for wanted, after in self.steps(state, line) if wanted == reply}
            if not states:
                return f"{line.decode(errors='replace')}: {reply}"
        return None if replies == [b""] else f"more than is asked for: {replies}"


def random_lines(seed, count):
    """Lines that put and take out rows of both replicas, look at them, and pull; a few of them are wrong."""
    chosen = random.Random(seed)
    keys = sorted((f"k{i}" for i in range(60)), key=lambda key: -level(key.encode()))[:6] + ["é", "plátanos", "x", "xy", "z"]
    lines = [f"format {1 + seed % 2}"]
    for _ in range(count - 1):
        name, key = chosen.choice("ab"), chosen.choice(keys)
        kinds = [f"put {name} {key} {chosen.randrange(4)}"] * 12 + [f"pull {name}", f"diff {name}"] * 3 + [f"keys {name}"] * 2
        kinds += [f"del {name} {key}"] * 3 + [f"pages {name}", f"root {name}", "same", f"turns {chosen.randrange(5)}"]
        lines.append(chosen.choice(kinds + [f"format {1 + seed % 2}", chosen.choice(["", "put a x", "keys c", "put a \x7f 1"])]))
    return [line.encode() for line in lines]


def lists():
    """The lists of lines: the example of docs/PROGRAM.md, three rows that are pulled by turns, the stored run, and random ones."""
    given = [[line.encode() for line in text.split("|")] for text in (DONKEY, THREE)]
    with open(f"{TOP}/crates/mst_pair_cli/stdin", "rb") as stored:
        given.append(stored.read().split(b"\n"))
    return given + [random_lines(seed, 30) for seed in range(12)]
