"""The table of cells of a store's file, compared with the tree of the last rows of its log, by the model of trees and docs/STORE.md."""
import os
import shutil
import sqlite3
import struct

from .trees import Settings

ROWS = "select key, time, writer, value from entry order by key, time, writer, value"
CELLS = "select level, front, digest, count from cell order by level, front"


def copy_for_sqlite(path):
    """A copy of a file and its log, which SQLite may take away."""
    look = f"{path}.look"
    for end in ("", "-wal", "-shm"):
        if os.path.exists(look + end):
            os.remove(look + end)
        if os.path.exists(path + end):
            shutil.copyfile(path + end, look + end)
    return look


def digest_of(settings, when, writer, value):
    """The digest of a register."""
    said = b"\0" if value == 0 else b"\2" + value if isinstance(value, bytes) else b"\1" + value.encode()
    return settings.digest(struct.pack("<QQ", when, len(writer.encode())) + writer.encode() + said)


class Tree:
    """The tree of rows, each a key with its register."""

    def __init__(self, hash_key, rows):
        self.settings, self.rows, self.keys = Settings(hash_key, 16, 2), rows, sorted(rows)
        self.levels = [self.settings.level(key) for key in self.keys]

    def cells(self):
        """The level and the front of each cell, and the places of the keys in its gap, from one up to another."""
        for level in range(1, max(self.levels, default=-1) + 2):
            places = [place for place, other in enumerate(self.levels) if other >= level]
            for front, end in zip([-1, *places], [*places, len(self.keys)]):
                yield level, None if front < 0 else self.keys[front], front + 1, end

    def page(self, start, end):
        """The digest and the number of the keys from one place up to another, of which both are 0 where there is none."""
        rows = [(key, digest_of(self.settings, *self.rows[key])) for key in self.keys[start:end]]
        return (self.settings.page(rows, self.levels[start:end])[0] if rows else 0), len(rows)

    def root(self):
        """The root hash, or that of no rows."""
        return self.settings.page([(key, digest_of(self.settings, *self.rows[key])) for key in self.keys], self.levels)[0]


def read(path):
    """The hash key, the last row of each key and the cells of a store, and what SQLite says of its pages."""
    base = sqlite3.connect(copy_for_sqlite(path))
    said = base.execute("pragma integrity_check").fetchall()
    ((hash_key,),) = base.execute("select hash_key from about")
    rows = {key.encode(): row for key, *row in base.execute(ROWS)}
    cells = [(level, front.encode() if isinstance(front, str) else None, digest, count) for level, front, digest, count in base.execute(CELLS)]
    base.close()
    return said, Tree(hash_key, rows), cells


def fault_in(path):
    """What is wrong with the cells of a store, or nothing: they have to be the gaps of the tree, each with what is known of it or with nothing."""
    said, tree, cells = read(path)
    if said != [("ok",)]:
        return f"SQLite says {said[:3]}"
    wanted = list(tree.cells())
    if not wanted:
        cells = [cell for cell in cells if cell not in ((1, None, None, None), (1, None, 0, 0))]
    if [cell[:2] for cell in cells] != [cell[:2] for cell in wanted]:
        return f"{len(cells)} cells, not the {len(wanted)} of the tree: {str(cells)[:200]}"
    for cell, (_, _, start, end) in zip(cells, wanted):
        if cell[2:] not in ((None, None), tree.page(start, end) if cell[2] is not None else None):
            return f"the cell {cell}, not {tree.page(start, end)}"
    return None
