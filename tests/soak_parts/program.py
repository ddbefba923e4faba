"""Random sessions of the program `mst_pair`: lines of two replicas, judged by the model of pairs.py."""
import random
import subprocess
import tempfile

from soak_parts import pairs
from soak_parts.shrink import smaller
from soak_parts.trees import Settings

# Seconds that a session may take.
PATIENCE = 60
BIG = (1 << 64) - 1
ODD_NUMBERS = [b"0", b"007", b"00000000000000000000", b"%d" % BIG, b"%d" % (BIG + 1), b"99999999999999999999", b"000000000000000000001"]
ODD_LINES = [b"", b" ", b"put a x", b"put a  x 1", b"put a x 1 ", b" put a x 1", b"put c x 1", b"put a x -1", b"put a x +1", b"put a x 1\r",
             b"PUT a x 1", b"put a x 1\0", b"keys", b"keys c", b"keys a ", b"same a", b"turns", b"turns 10", b"turns a", b"format 0",
             b"format 3", b"del a", b"del a x 1", b"del a \xff", b"root\ta", b"pull ab", b"pages a\x85"]
ODD_KEYS = ["é", "plátanos", "\u0080", "\u07ff", "\u0800", "\uffff", "\U00010000", "\U0010ffff", "!", "~", "k" * 255, "é" * 127]
TOO_LONG = b"k" * 256


def keys_of(chosen, count):
    """So many keys for a session: close together or not, some of them on high levels, some of them odd."""
    kind = chosen.randrange(5)
    if kind == 0:
        keys = [b"%d" % i for i in range(count)]
    elif kind == 1:
        keys = [b"key%05d" % chosen.randrange(100000) for _ in range(count)]
    elif kind == 2:
        keys = ["".join(chosen.choice("ab") for _ in range(chosen.randrange(1, 9))).encode() for _ in range(count)]
    elif kind == 3:
        keys = [key.encode() for key in ODD_KEYS] + [b"x%d" % i for i in range(count)]
    else:
        level = Settings().level
        keys = sorted((b"h%d" % i for i in range(12 * count)), key=lambda key: -level(key))[:count]
    return keys


class Lines:
    """What makes the lines of a session with so many keys."""

    def __init__(self, chosen, count):
        self.chosen, self.keys = chosen, keys_of(chosen, count)
        self.most = chosen.choice([1, 3, 1000, BIG])
        # How often lines of each kind come: rows, removals, looks, pulls, odd ones.
        self.weights = [chosen.choice([10, 30]), chosen.choice([0, 3, 10]), chosen.choice([1, 4]), chosen.choice([1, 4]), chosen.choice([0, 1, 8])]

    def line(self):
        chosen = self.chosen
        kind = chosen.choices(range(5), self.weights)[0]
        name, key = chosen.choice([b"a", b"b"]), chosen.choice(self.keys)
        if kind == 0:
            return self.put(name, key)
        if kind == 1:
            return b"del %s %s" % (name, key)
        if kind == 2:
            return chosen.choice([b"keys " + name, b"root " + name, b"pages " + name, b"same"])
        if kind == 3:
            return chosen.choice([b"diff " + name, b"pull " + name, b"turns %d" % chosen.randrange(10)])
        return self.odd(name, key)

    def put(self, name, key):
        return b"put %s %s %d" % (name, key, self.chosen.randint(0, self.most))

    def all(self):
        """Lines that put nearly all keys into both replicas."""
        rows = [(name, key) for name in (b"a", b"b") for key in self.keys if self.chosen.randrange(20)]
        self.chosen.shuffle(rows)
        return [self.put(*row) for row in rows]

    def odd(self, name, key):
        """A line that spells no request, or one that is spelled in a rare way."""
        chosen, kind = self.chosen, self.chosen.randrange(6)
        if kind == 0:
            return chosen.choice(ODD_LINES)
        if kind == 1:
            return b"put %s %s %s" % (name, key, chosen.choice(ODD_NUMBERS))
        if kind == 2:
            return b"put %s %s 1" % (name, chosen.choice([TOO_LONG, key * 90, key + b"\xc3", key + b"\x7f", b"\xed\xa0\x80", b""]))
        if kind == 3:
            return b"format %d" % chosen.randrange(1, 3)
        if kind == 4:
            return altered(chosen, b"put %s %s 7" % (name, key))
        return bytes(chosen.randrange(256) for _ in range(chosen.randrange(40))).replace(b"\n", b"")


def altered(chosen, line):
    """A line with a few of its bytes turned, taken out, or put in."""
    line = bytearray(line)
    for _ in range(chosen.randrange(1, 4)):
        at = chosen.randrange(len(line) + 1)
        line[at:at + chosen.randrange(2)] = bytes(chosen.choice([b"", b" ", b"\0", b"1", b"a", b"\xff", bytes([chosen.randrange(256)])]))
    return bytes(line).replace(b"\n", b"")


def session(seed):
    """The lines of the session of a seed."""
    chosen = random.Random(f"program {seed}")
    is_large = not chosen.randrange(25)
    lines = Lines(chosen, 2000 if is_large else chosen.choice([1, 3, 8, 30, 120, 400]))
    begun = [b"format %d" % chosen.randrange(1, 3)] if chosen.randrange(3) else []
    if is_large:
        return begun + lines.all() + [lines.line() for _ in range(30)]
    return begun + [lines.line() for _ in range(chosen.choice([5, 20, 60, 150, 400, 800]))]


def lines_of(given):
    """The lines of an input: the last may lack its newline."""
    lines = given.split(b"\n")
    return lines if lines[-1] else lines[:-1]


def run(path, given, piece):
    """The program on this input, given in pieces of so many bytes: its status, what it wrote and what it said."""
    with tempfile.TemporaryFile() as written, tempfile.TemporaryFile() as said:
        with subprocess.Popen([path], stdin=subprocess.PIPE, stdout=written, stderr=said) as running:
            try:
                for at in range(0, len(given), piece):
                    running.stdin.write(given[at:at + piece])
                    running.stdin.flush()
                running.stdin.close()
                running.wait(PATIENCE)
            except (subprocess.TimeoutExpired, BrokenPipeError):
                running.kill()
        written.seek(0)
        said.seek(0)
        return running.returncode, written.read(), said.read()


def fault(path, given, piece):
    """What is wrong with the run of the program on this input; None where it is as the model says."""
    wanted, broken = pairs.output(lines_of(given))
    if broken:
        return f"the definitions give an answer that breaks a law: {broken}"
    seen = run(path, given, piece)
    return None if seen == (0, wanted, b"") else told(seen, wanted)


def told(seen, wanted):
    """In which line of the output a run isn't as wanted."""
    status, written, said = seen
    end = [b"(nothing)"]
    for place, (line, other) in enumerate(zip(written.split(b"\n") + end, wanted.split(b"\n") + end)):
        if line != other:
            return f"line {place + 1} of the output is {line!r}, where the model says {other!r}; status {status}, standard error {said!r}"
    return f"status {status}, standard error {said!r}"


def shown(path, given, piece):
    return f"this input, given in pieces of {piece} bytes:\n{given!r}\n{fault(path, given, piece)}"


class Driver:
    """The sessions of the built program at this path."""

    def __init__(self, path):
        self.path = path

    def soak(self, seed):
        """Runs the session of a seed: how many lines it has, and, if it fails, what is to be shown."""
        lines, end = session(seed), b"\n" if seed % 3 else b""
        piece = [1 << 20, 1, 7, 4096][seed % 4] if len(lines) < 300 else 1 << 20
        if fault(self.path, b"\n".join(lines) + end, piece) is None:
            return len(lines), None
        lines = smaller(lines, lambda some: fault(self.path, b"\n".join(some) + end, piece) is not None)
        return len(lines), shown(self.path, b"\n".join(lines) + end, piece)
