"""Hostile input to the program `mst`: messages of syncs, CSV, lines of the shell and files of stores, each broken in many ways.

A run must end with status 0, or with 1 to 9 and one line that says why. What is refused leaves the log as it was; what is taken adds to it
and loses none of its entries; a file that is no store any more is left byte by byte.

Of the inputs but those of files the least that is answered by each line of standard error may be kept, in store_corpus.txt. What is broken
is recorded of two stores that are the same in each run, and is taken as it is before anything is broken.
"""
import csv
import io
import os
import random
import re
import shutil
import struct
import subprocess
import tempfile
import threading

from soak_parts.hostile import break_once

SECONDS = 60
CORPUS = f"{os.path.dirname(os.path.realpath(__file__))}/store_corpus.txt"
# Bytes of an input that may be kept.
SMALL = 2000
# The hash key of both stores, and the time of their first entry: digests are the same in each run, so that kept messages stay what they are.
HASH_KEY, BEGUN = "0" * 32, 1_700_000_000_000
csv.field_size_limit(1 << 30)
KINDS = {"questions": ["serve"], "replies": ["pull"], "differences": ["diff"], "rows": ["import"], "log": ["import", "--log"], "lines": ["shell"],
         "file": None}


def corpus():
    """The inputs that are kept, each with its kind."""
    with open(CORPUS) as kept:
        return [(kind, bytes.fromhex(given)) for kind, given in (line.rstrip("\n").split(" ") for line in kept if not line.startswith("#"))]


def framed(messages):
    return b"".join(struct.pack("<Q", len(message)) + message for message in messages)


class Driver:
    """Hostile input to the built program at this path."""

    def __init__(self, path):
        self.path, self.room = path, tempfile.TemporaryDirectory()
        self.own, self.peer, self.tried = f"{self.room.name}/own.db", f"{self.room.name}/peer.db", f"{self.room.name}/tried.db"
        chosen = random.Random(1)
        for store in (self.own, self.peer):
            rows = [(f"k{key}", f"v{chosen.randrange(9)}") for key in sorted(chosen.sample(range(70), 60))]
            self.make(store, rows)
            if store == self.own:
                self.lines = "".join(f"put {key} {value}\n" for key, value in rows).encode() + b"del k45\n"
        self.questions, self.replies = self.recorded()
        self.rows = self.well(["export", self.peer])
        self.log = self.well(["export", self.peer, "--log"])
        self.entries = self.entries_of(self.own)
        self.least = {}
        self.take_recorded()

    def run(self, words, put=b""):
        done = subprocess.run([self.path, *words], input=put, capture_output=True, timeout=SECONDS)
        return done.returncode, done.stdout, done.stderr

    def well(self, words, put=b""):
        """What a run has written that has to succeed."""
        status, written, said = self.run(words, put)
        assert status == 0, f"{words}: status {status}, {said}"
        return written

    def make(self, store, rows):
        """Makes a store of these rows, each a millisecond behind the one before, and a removal."""
        name = os.path.basename(store)
        entries = [(key, BEGUN + number, name, "put", value) for number, (key, value) in enumerate(rows)]
        log = io.StringIO(newline="")
        csv.writer(log).writerows([["key", "time", "writer", "change", "value"], *entries, ("k45", BEGUN + len(rows), name, "del", "")])
        self.well(["init", store, name, "--hash-key", HASH_KEY])
        self.well(["import", store, "--log"], log.getvalue().encode())

    def recorded(self):
        """The questions and the replies of a pull, as both sides sent them."""
        shutil.copyfile(self.own, self.tried)
        pull = subprocess.Popen([self.path, "pull", self.tried], stdin=subprocess.PIPE, stdout=subprocess.PIPE, stderr=subprocess.DEVNULL)
        serve = subprocess.Popen([self.path, "serve", self.peer], stdin=subprocess.PIPE, stdout=subprocess.PIPE)
        heard = {pull: [], serve: []}

        def carry(one, other):
            while len(length := one.stdout.read(8)) == 8:
                heard[one].append(one.stdout.read(struct.unpack("<Q", length)[0]))
                other.stdin.write(framed(heard[one][-1:]))
                other.stdin.flush()
            other.stdin.close()

        back = threading.Thread(target=carry, args=(serve, pull))
        back.start()
        carry(pull, serve)
        back.join()
        assert (pull.wait(), serve.wait()) == (0, 0), "a pull without a fault"
        assert len(heard[pull]) == len(heard[serve]) > 2, f"a pull of {len(heard[pull])} questions and {len(heard[serve])} replies"
        return heard[pull], heard[serve]

    def take_recorded(self):
        """The recorded messages are taken as they are: the questions are answered, and the replies bring and tell entries."""
        for kind, messages in [("questions", self.questions), ("replies", self.replies), ("differences", self.replies)]:
            self.fresh()
            shutil.copyfile(self.own, self.tried)
            status, written, said = self.run([KINDS[kind][0], self.tried], framed(messages))
            brings = self.entries_of(self.tried) != self.entries
            assert status == 0 and written and brings == (kind == "replies"), f"{kind} as they were recorded: {status}, {said}"
            assert kind != "differences" or said.count(b"\n") > 2, f"a diff of recorded replies: {said}"

    def entries_of(self, store):
        """The entries of a store's log, or None where it isn't read."""
        status, written, _ = self.run(["export", store, "--log"])
        return sorted(map(tuple, list(csv.reader(io.StringIO(written.decode("utf-8", "surrogateescape"), newline="")))[1:])) if status == 0 else None

    def broken(self, chosen, given):
        given = bytearray(given)
        for _ in range(chosen.choice([1, 1, 3, 10])):
            break_once(chosen, given)
        return bytes(given)

    def input_of(self, chosen, kind):
        """Broken bytes of this kind: some lines or all; of messages one message, whole in its frame, or the stream."""
        if kind not in ("questions", "replies", "differences"):
            lines = {"rows": self.rows, "log": self.log, "lines": self.lines}[kind].splitlines(keepends=True)
            return self.broken(chosen, b"".join(lines[: chosen.choice([2, 4, len(lines)])]))
        messages = list(self.questions if kind == "questions" else self.replies)
        if not chosen.randrange(4):
            return self.broken(chosen, framed(messages))
        at = chosen.randrange(len(messages))
        messages[at] = self.broken(chosen, messages[at])
        return framed(messages)

    def fault_of_file(self, chosen):
        """Runs a command on a broken file: how many bytes it has, and what is wrong."""
        self.fresh()
        with open(self.own, "rb") as file:
            given = self.broken(chosen, file.read())
        with open(self.tried, "wb") as file:
            file.write(given)
        words = chosen.choice([["get", self.tried, "k7"], ["put", self.tried, "k7", "v"], ["list", self.tried], ["root", self.tried], ["compact", self.tried]])
        status, _, said = self.run(words)
        with open(self.tried, "rb") as file:
            left = file.read()
        if status not in range(10) or status and (said.count(b"\n") != 1 or left != given):
            return len(given), f"{words}: status {status}, {said}, and the file is {'as it was' if left == given else 'another'}"
        return len(given), None

    def note(self, kind, given, said):
        """Notes an input that is less than those which were answered so before."""
        for way in {(kind, re.sub(rb"\d+", b"N", line)) for line in said.splitlines() or [b""]}:
            if len(given) <= SMALL and (way not in self.least or (len(given), given) < (len(self.least[way]), self.least[way])):
                self.least[way] = given

    def keep(self):
        """Writes down the noted inputs, and says how many they are."""
        kept = sorted({(kind, given.hex()) for (kind, _), given in self.least.items()})
        with open(CORPUS, "w") as file:
            file.write("# Inputs of `mst` from which tests/fuzz begins: the kind, and hexadecimal digits. Made by tests/fuzz --keep.\n")
            file.writelines(f"{kind} {given}\n" for kind, given in kept)
        return len(kept)

    def idle(self, kept):
        """How many of the kept inputs are answered as lesser ones are, so that they reach nothing of their own."""
        return len(set(kept) - {(kind, given) for (kind, _), given in self.least.items()})

    def fresh(self):
        """Takes away what the run before has left."""
        for left in (self.tried, f"{self.tried}-wal", f"{self.tried}-shm"):
            if os.path.exists(left):
                os.remove(left)

    def fault_of_input(self, kind, given):
        """Runs a command on broken input: how many bytes it has, and what is wrong."""
        self.fresh()
        shutil.copyfile(self.own, self.tried)
        words = [KINDS[kind][0], self.tried, *KINDS[kind][1:]]
        status, _, said = self.run(words, given)
        self.note(kind, given, said)
        after = self.entries_of(self.tried)
        keeps = after is not None and not set(self.entries) - set(after)
        may_add = kind == "lines" or status == 0 and kind in ("replies", "rows", "log")
        if status not in range(10) or not keeps or after != self.entries and not may_add or status and kind != "lines" and said.count(b"\n") != 1:
            return len(given), f"{words}: status {status}, {said[-300:]}, {'no entry is lost' if keeps else 'entries are lost'}; input {given[:2000].hex()}"
        return len(given), None

    def in_time(self, fault_of, *given):
        """What this finds, or that a run took too long."""
        try:
            return fault_of(*given)
        except subprocess.TimeoutExpired as late:
            return 0, f"{late.cmd[1:]}: it has not ended in {SECONDS} seconds"

    def soak(self, seed):
        """Runs the input of a seed: how many bytes it has, and, if it fails, what is to be shown."""
        chosen = random.Random(f"store {seed}")
        kind = chosen.choice(list(KINDS))
        if kind == "file":
            return self.in_time(self.fault_of_file, chosen)
        return self.in_time(self.fault_of_input, kind, self.input_of(chosen, kind))
