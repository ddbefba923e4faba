#!/usr/bin/env python3
"""A small service over the registers of an example, for tests/databases: `notes_service.py EXAMPLE WHERE HASH_KEY`, where the example is
postgres_registers, redis_registers or store_peer. It carries out lines of standard input: `put KEY VALUE`, `del KEY`, `verify`, `rescan FIRST LAST`, `root`;
`pull COMMAND..`, which brings what the peer has that the command runs, such as `mst serve --both FILE`, and then answers it; and `answer COMMAND..`, which
answers first, as for `mst pull --both FILE`."""
import base64
import importlib
import subprocess
import sys

from rows_service import tried
from store_peer import over

from mst import Register, RegisterTree


class Service:
    def __init__(self, notes, hash_key):
        self.notes, self.tree = notes, RegisterTree(notes, hash_key=hash_key)

    def write(self, key, value):
        self.tree.join(self.notes, [(key, Register.over(self.notes.get(key), "service", value))])

    def meet(self, command, *calls):
        """What calls return that are made over the pipes of a command."""
        with subprocess.Popen(command, stdin=subprocess.PIPE, stdout=subprocess.PIPE, stderr=subprocess.DEVNULL) as peer:
            read, write = over(peer.stdout, peer.stdin)
            returned = [call(self.notes, read, write) for call in calls]
        if peer.returncode:
            raise OSError(f"the peer ended with status {peer.returncode}")
        return returned

    def carry_out(self, line):
        word, *words = line.split()
        if word == "pull":
            return f"came: {self.meet(words, self.tree.catch_up, self.tree.serve)[0]}"
        if word == "answer":
            return f"came: {self.meet(words, self.tree.serve, self.tree.catch_up)[1]}"
        if word == "root":
            return base64.b64encode(self.tree.root_hash()).decode()
        if word == "verify":
            return " ".join(["differ:", *self.tree.verify(self.notes)])
        if word == "put":
            self.write(words[0], words[1].encode())
        elif word == "del":
            self.write(words[0], None)
        elif word == "rescan":
            self.tree.rescan(self.notes, words[0], words[1] + "\0")
        return "ok"


def main(example, where, hash_key):
    service = Service(importlib.import_module(example).Notes(where), bytes.fromhex(hash_key))
    print("ready", flush=True)
    for line in sys.stdin:
        print(tried(service.carry_out, line), flush=True)


if __name__ == "__main__":
    main(*sys.argv[1:])
