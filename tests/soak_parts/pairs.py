"""A model of the program `mst_pair`, written from docs/PROGRAM.md: two dicts from keys to numbers, and what each line is answered."""
import base64
import re

from soak_parts.differences import broken_law, broken_law_of_trees, difference
from soak_parts.trees import Settings, number

KEY = rb"([^\0- \x7f]{1,255})"
REQUESTS = [
    (b"put", re.compile(rb"put ([ab]) %s ([0-9]{1,20})" % KEY)),
    (b"del", re.compile(rb"del ([ab]) %s" % KEY)),
    (None, re.compile(rb"(keys|root|pages|diff|pull) ([ab])")),
    (b"same", re.compile(rb"same")),
    (b"turns", re.compile(rb"turns ([0-9])")),
    (b"format", re.compile(rb"format ([12])")),
]


def request(line):
    """What a line asks for: a word and its fields; None where it spells no request."""
    for word, spelled in REQUESTS:
        found = spelled.fullmatch(line)
        if found:
            break
    else:
        return None
    try:
        line.decode()
    except UnicodeDecodeError:
        return None
    words = [word, *found.groups()] if word else list(found.groups())
    return None if word == b"put" and int(words[3]) >= 1 << 64 else words


class Pair:
    """Both replicas, with all memory at hand."""

    def __init__(self):
        self.settings, self.rows = Settings(), {b"a": {}, b"b": {}}
        self.broken = None

    def tree(self, name):
        return self.settings.tree({key: self.settings.digest(number(value)) for key, value in self.rows[name].items()})

    def asked(self, name):
        """The ranges that a replica asks the other for."""
        own, other = self.tree(name)[1], self.tree(other_of(name))[1]
        found = difference(own, other)
        self.broken = self.broken or broken_law(own, other, found) or broken_law_of_trees(own, other, found)
        return found

    def pull(self, name):
        """Joins the other's rows in the ranges: the ranges, and how many rows there are."""
        found = self.asked(name)
        inside = {key: value for key, value in self.rows[other_of(name)].items() if any(a <= key <= b for a, b in found)}
        for key, value in inside.items():
            self.put(name, key, value)
        return found, len(inside)

    def put(self, name, key, value):
        self.rows[name][key] = max(value, self.rows[name].get(key, 0))

    def turns(self, count):
        """Pulls by turns. After four or more both hold the join."""
        join = dict(self.rows[b"a"])
        for key, value in self.rows[b"b"].items():
            join[key] = max(value, join.get(key, 0))
        counts = [self.pull(b"ab"[turn % 2:turn % 2 + 1])[1] for turn in range(count)]
        if count >= 4 and not (self.rows[b"a"] == self.rows[b"b"] == join):
            self.broken = self.broken or f"{count} pulls by turns don't leave the join"
        return counts

    def answer(self, line):
        """The lines of the reply."""
        words = request(line)
        return getattr(self, "on_" + words[0].decode())(*words[1:]) if words else [b"bad line"]

    def on_put(self, name, key, digits):
        self.put(name, key, int(digits))
        return [b"ok"]

    def on_del(self, name, key):
        return [b"absent" if self.rows[name].pop(key, None) is None else b"ok"]

    def on_keys(self, name):
        return [b"%s %d" % row for row in sorted(self.rows[name].items())] + [b"end"]

    def on_root(self, name):
        return [base64.b64encode(self.tree(name)[0])]

    def on_pages(self, name):
        return shown(self.tree(name)[1])

    def on_diff(self, name):
        return shown(self.asked(name))

    def on_pull(self, name):
        found, count = self.pull(name)
        return shown(found) + [b"joined %d" % count]

    def on_same(self):
        return [b"same" if self.tree(b"a")[0] == self.tree(b"b")[0] else b"differ"]

    def on_turns(self, digit):
        return [b"joined %d" % count for count in self.turns(int(digit))] + [b"end"]

    def on_format(self, digit):
        if self.rows[b"a"] or self.rows[b"b"]:
            return [b"not empty"]
        self.settings = Settings(form=int(digit))
        return [b"ok"]


def other_of(name):
    return b"b" if name == b"a" else b"a"


def shown(spans):
    return [b"%s %s" % (span[0], span[1]) for span in spans] + [b"end"]


def output(lines):
    """What the program writes on these lines, and what of the model's own answers breaks a law, if anything does."""
    pair = Pair()
    replies = [line + b"\n" for asked in lines for line in pair.answer(asked)]
    return b"".join(replies), pair.broken
