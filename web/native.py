"""Syncs of two replicas by the native library, against which `web/test` holds the messages that the page shows."""
import ctypes
import json
import random
import subprocess

PAGE_FORMAT = 2
# What asks for all rows: the question of kind 5 over the gap of all keys.
ALL_ROWS = bytes([1, 5, 1, 0, 0])
SIZE = ctypes.c_size_t


class Replica:
    """A replica of mst_replica.h, with rows of texts."""

    def __init__(self, library, base, rows):
        self.library, self.at = library, ctypes.c_void_p()
        self.call("new_with", bytes(16), base, PAGE_FORMAT)
        for key, value in rows:
            self.call("put", *sized(key.encode()), *sized(value.encode()))

    def call(self, name, *words):
        status = getattr(self.library, f"mst_replica_{name}")(self.at, *words)
        if status != 0:
            raise AssertionError(f"mst_replica_{name} answers {status}")

    def root_hash(self):
        out = ctypes.create_string_buffer(16)
        self.call("root_hash", out)
        return out.raw.hex()

    def written(self, name):
        """The bytes that a call writes after it has said how many they are."""
        needed = SIZE()
        getattr(self.library, f"mst_replica_{name}")(self.at, None, 0, needed)
        out = ctypes.create_string_buffer(max(needed.value, 1))
        self.call(name, out, needed.value, needed)
        return out.raw[:needed.value]

    def message(self, name, *words):
        """The message that a call keeps."""
        self.call(name, *words, SIZE())
        return self.written("message")

    def catch_up(self, peer):
        """The questions and replies of a catch-up with a peer, in their order."""
        messages = [self.message("ask")]
        while True:
            messages.append(peer.message("answer", *sized(messages[-1])))
            length, joined = SIZE(), SIZE()
            self.call("take", *sized(messages[-1]), length, joined)
            if length.value == 0:
                return messages
            messages.append(self.written("message"))

    def free(self):
        self.library.mst_replica_free(self.at)


def sized(data):
    return data, len(data)


def rows_of(data):
    """The rows of a list of rows."""
    rows, at = [], 12
    while at < len(data):
        row = []
        for _ in range(2):
            size = int.from_bytes(data[at:at + 8], "little")
            row.append(data[at + 8:at + 8 + size].decode())
            at += 8 + size
        rows.append(row)
    return rows


def sync_of(library, shown):
    """The same of the native library as the page shows of its stores."""
    base, first = shown["base"], shown["first"]
    replicas = [Replica(library, base, rows) for rows in shown["rows"]]
    roots = [replica.root_hash() for replica in replicas]
    everything = len(replicas[1 - first].message("answer", *sized(ALL_ROWS)))
    sent, total = [], 0
    for asking in (first, 1 - first):
        for place, message in enumerate(replicas[asking].catch_up(replicas[1 - asking])):
            total += len(message)
            sent.append([asking if place % 2 == 0 else 1 - asking, message.hex(), total])
    after = [rows_of(replica.written("rows")) for replica in replicas]
    for replica in replicas:
        replica.free()
    return {"base": base, "first": first, "rows": shown["rows"], "roots": roots, "sent": sent, "all": everything, "total": total, "after": after}


def addresses(seed, count):
    """The page's beginning, and random states: few rows and many, few that differ and all, and edits by hand."""
    choose = random.Random(seed)
    yield "#"
    for _ in range(count):
        rows = choose.choice((0, 1, choose.randrange(50), choose.randrange(400), 2000))
        differ = choose.choice((0, 1, 3, choose.randrange(rows + 1), rows))
        acts = choose.choice(("", "A+acorn=1,B+a%20b=%E6%9C%A8,A-beach", "~A,B+jam=1"))
        base, first = choose.choice((4, 8, 16, 32)), choose.choice("AB")
        yield f"#rows={rows}&differ={min(rows, differ)}&seed={choose.randrange(1000)}&base={base}&first={first}&acts={acts}"


def shown_by(module, script, asked):
    """What the page shows of these addresses."""
    done = subprocess.run(["node", str(script), str(module)], input="\n".join(asked), capture_output=True, text=True, check=False)
    if done.returncode != 0:
        raise AssertionError(done.stderr.strip())
    return [json.loads(line) for line in done.stdout.splitlines()]
