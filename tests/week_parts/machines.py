"""The machines of tests/week, each with a store, a clock and a disk; the commands that run there; and the model of what they hold."""
import collections
import os
import random
import shutil
import signal
import sqlite3
import subprocess
import sys
import tempfile
import time

TOP = os.path.dirname(os.path.dirname(os.path.dirname(os.path.realpath(__file__))))
MST = os.path.realpath(sys.argv[1]) if len(sys.argv) > 1 else f"{TOP}/crates/mst/out/mst"
DAYS = float(sys.argv[2]) if len(sys.argv) > 2 else 7
SEED = int(sys.argv[3]) if len(sys.argv) > 3 else 1
CHANCE = random.Random(SEED)
DAY, WAIT = 86_400_000, 60
# The statuses, as docs/OPERATING.md lists them; the last is that of a script one of whose programs was killed.
NO_KEY, BUSY, NO_ROOM, PEER, AHEAD, OTHER, KILLED, SIDE_KILLED = 1, 3, 6, 7, 8, 9, -9, 137
# In memory, where a sync of the disk takes no time.
ROOM = tempfile.mkdtemp(prefix="week.", dir="/dev/shm" if os.access("/dev/shm", os.W_OK) else None)
PROGRAM = f"{ROOM}/mst"
# The program, under the clock and the limit on the length of files of the machine that has the file. It tells the number of its process.
WRAPPER = f"""#!/bin/sh
for word; do case $word in {ROOM}/*/*) folder=${{word#{ROOM}/}}; folder={ROOM}/${{folder%%/*}} ;; esac; done
read -r CLOCK_SHIFT blocks <"$folder/faults"
echo $$ >"$folder/process"
ulimit -f "$blocks"
export CLOCK_SHIFT LD_PRELOAD={ROOM}/clock.so
exec '{MST}' "$@"
"""
COUNT, SECONDS, MODEL = collections.Counter(), {}, set()


def fail(text):
    sys.exit(f"tests/week: {text}\nthe files are in {ROOM}\nagain: tests/week {MST} {DAYS:g} {SEED}")


def now():
    return int(time.time() * 1000)


class Machine:
    """A folder with a store, a clock and a disk. A row is a key, a time, a writer, and () or (text,): so rows of a key compare as they are."""

    def __init__(self, name):
        self.writer, self.folder, self.path = name, f"{ROOM}/{name}", f"{ROOM}/{name}/notes.db"
        self.error, self.blocks, self.backup, self.last = 0, None, None, {}
        os.mkdir(self.folder)

    def set(self, right):
        self.shift = right + self.error - now()
        with open(f"{self.folder}/faults", "w") as file:
            file.write(f"{self.shift} {self.blocks or 'unlimited'}\n")

    def clock(self):
        return now() + self.shift


def rows_of(path):
    """The rows of a store, as SQLite reads them of a copy of the file and its log."""
    look = f"{ROOM}/look.db"
    shutil.copy(path, look)
    shutil.copy(f"{path}-wal" if os.path.exists(f"{path}-wal") else "/dev/null", f"{look}-wal")
    base = sqlite3.connect(look)
    said = base.execute("PRAGMA integrity_check").fetchall()
    rows = base.execute("SELECT key, time, writer, value FROM entry").fetchall()
    base.close()
    if said != [("ok",)]:
        fail(f"{path}: {said[:5]}")
    return {(*row, () if text == 0 else (text,)) for *row, text in rows}


def last_of(rows):
    return {key: entry for key, *entry in sorted(rows)}


def look():
    """Reads all copies: each row is one that a machine wrote, and no key has an earlier one than before."""
    for machine in MACHINES:
        machine.rows = rows_of(machine.path)
        machine.landed = [row for row in machine.rows - MODEL if row[2] == machine.writer]
        MODEL.update(machine.landed)
    for machine in MACHINES:
        before, machine.last = machine.last, last_of(machine.rows)
        lost = [(key, entry, machine.last.get(key)) for key, entry in before.items() if machine.last.get(key, []) < entry]
        if lost or not machine.rows <= MODEL:
            fail(f"{machine.writer} lost {lost[:3]} and has what nobody wrote: {sorted(machine.rows - MODEL)[:3]}")


class Command:
    """A command at work, in a process group of its own."""

    def __init__(self, *words, put=""):
        self.words, self.began = words, time.monotonic()
        self.leash, held = os.pipe()
        with tempfile.TemporaryFile() as file:
            file.write(put.encode())
            file.seek(0)
            self.process = subprocess.Popen(words, stdin=file, stdout=subprocess.DEVNULL, stderr=held, start_new_session=True, pass_fds=[held],
                                            env=dict(os.environ, MST=PROGRAM, TMPDIR=f"{ROOM}/tmp"))
        os.close(held)

    def end(self, kind=None, kills=0.0, side=None):
        """Waits until all processes are gone, each of which holds the leash. With this chance kills them, or the one on a side's file."""
        is_killed, self.allowed = CHANCE.random() < kills, []
        if is_killed:
            time.sleep(CHANCE.random() * SECONDS.get(kind, 0.1))
            self.allowed = self.kill(side)
        self.status = self.process.wait(timeout=1000)
        with open(self.leash, encoding="utf-8") as leash:
            self.said = leash.read()
        self.seconds = time.monotonic() - self.began
        if not is_killed:
            SECONDS[kind] = self.seconds
        return self

    def kill(self, side):
        """The statuses that are allowed behind a kill."""
        if not side:
            os.killpg(self.process.pid, signal.SIGKILL)
            return [KILLED]
        with open(f"{side.folder}/process") as file:
            process = int(file.read() or "0")
        try:
            if process and os.getpgid(process) == self.process.pid:
                os.kill(process, signal.SIGKILL)
        except ProcessLookupError:
            pass
        return [PEER, SIDE_KILLED]

    def expect(self, *allowed):
        COUNT[self.status] += 1
        if self.status not in (*allowed, *self.allowed) or (0 < self.status <= OTHER and not self.said):
            fail(f"{' '.join(self.words)[:300]}: status {self.status} after {self.seconds:.1f} s, which can't be: {self.said[-500:]}")
        return self.status


def mst(verb, path, *words, put=""):
    return Command(PROGRAM, verb, path, *words, "--wait", str(WAIT), put=put)


def script(name, *words):
    return Command(f"{TOP}/scripts/{name}", "--wait", str(WAIT), *words)


def full(*machines):
    return [NO_ROOM] if any(machine.blocks for machine in machines) else []


def refused(entries, clock):
    """What ends otherwise than by 0 where entries are more than a day ahead of the clock."""
    return [AHEAD] if any(entry[0] > clock + DAY for entry in entries) else []


def prepare():
    """Three copies of a store, which is larger than the log has to be: so a disk is sometimes full at the file alone."""
    subprocess.run(["cc", "-O1", "-shared", "-fPIC", "-o", f"{ROOM}/clock.so", f"{TOP}/tests/clock.c"], check=True)
    os.mkdir(f"{ROOM}/tmp")
    with open(PROGRAM, "w") as file:
        file.write(WRAPPER)
    os.chmod(PROGRAM, 0o755)
    for machine in MACHINES:
        machine.set(now())
    alice, *others = MACHINES
    Command(PROGRAM, "init", alice.path, alice.writer).end().expect(0)
    mst("import", alice.path, put="key,value\n" + "".join(f"long{number},{'.' * 5000}\n" for number in range(60))).end().expect(0)
    for other in others:
        script("mst-clone", alice.path, other.path, other.writer).end().expect(0)
    look()


MACHINES = [Machine(name) for name in ("alice", "bob", "carol")]
