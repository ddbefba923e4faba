#!/usr/bin/env python3
"""A small service over the rows of an example, for tests/databases: `rows_service.py EXAMPLE WHERE HOST:PORT`, where the example is postgres_rows,
redis_rows or sqlite_rows. It serves each peer that connects to HOST:PORT and then catches up with it, and carries out lines of standard input:
`put KEY VALUE`, `sync HOST:PORT`, `rescan FIRST LAST`, `reload`, `root`. The variable MOST says how many bytes of rows go into a reply."""
import importlib
import os
import socket
import sys
import threading

import mst._sync_tree
from mst import SyncTree

WAIT = 30
"""How many seconds a peer may be silent."""


class Service:
    def __init__(self, rows):
        self.rows, self.tree, self.turn = rows, SyncTree(rows), threading.Lock()

    def catch_up(self, peer):
        with self.turn:    # a tree is in one catch-up at a time
            return self.tree.catch_up(self.rows, peer.recv, peer.sendall)

    def serve(self, peer):
        return self.tree.serve(self.rows, peer.recv, peer.sendall)

    def answer_peers(self, listener):
        while True:
            peer = listener.accept()[0]
            threading.Thread(target=tried, args=(self.answer_peer, peer), daemon=True).start()

    def answer_peer(self, peer):
        with peer:
            peer.settimeout(WAIT)
            self.serve(peer)
            self.catch_up(peer)

    def sync(self, address):
        with socket.create_connection(address, WAIT) as peer:
            came = self.catch_up(peer)
            self.serve(peer)
        return f"came: {came}"

    def carry_out(self, line):
        word, *words = line.split()
        if word == "sync":
            return self.sync(tcp(words[0]))
        if word == "root":
            return self.tree.root_hash().hex()
        if word == "put":
            key, value = map(str.encode, words)
            self.tree.join(self.rows, [(key, value)])
        elif word == "rescan":
            first, last = map(str.encode, words)
            self.tree.rescan(self.rows, first, last + b"\0")
        elif word == "reload":
            self.tree.load(self.rows)
        return "ok"


def tcp(word):
    host, port = word.rsplit(":", 1)
    return host, int(port)


def tried(call, *words):
    try:
        return call(*words)
    except Exception as fault:
        return f"error: {type(fault).__name__}: {fault}".replace("\n", " ")


def main(example, where, here):
    mst._sync_tree._MOST = int(os.environ.get("MOST", mst._sync_tree._MOST))
    service = Service(importlib.import_module(example).Rows(where))
    listener = socket.create_server(tcp(here))
    threading.Thread(target=service.answer_peers, args=(listener,), daemon=True).start()
    print("ready", flush=True)
    for line in sys.stdin:
        print(tried(service.carry_out, line), flush=True)


if __name__ == "__main__":
    main(*sys.argv[1:])
