"""The examples of the documentation and of the folder examples, the version, and interpreters without a lock."""
import doctest
import glob
import importlib
import os
import subprocess
import sys
import tempfile
import unittest
import zipfile

import mst

HERE = os.path.dirname(os.path.abspath(__file__))
TOP = os.path.join(HERE, "..", "..")
# as `python -c`: an interpreter that says it has no lock, whose threads fill one tree and one replica, and one tree of rows that are elsewhere
WITHOUT_A_LOCK = """
import sys, threading
sys._is_gil_enabled = lambda: False
from mst import Replica, SyncTree, Tree
from mst._library import library
assert hasattr(library.mst_tree_upsert, "__wrapped__") and hasattr(library.mst_replica_put, "__wrapped__")
tree, replica, digests = Tree(), Replica(), SyncTree()
threads = [threading.Thread(target=tree.update, args=([(b"%d" % i, b"") for i in range(5000)],)) for _ in range(4)]
threads += [threading.Thread(target=lambda: [replica.put(b"%d" % i, b"") for i in range(2000)]) for _ in range(4)]
threads += [threading.Thread(target=lambda: [digests.__setitem__(b"%d" % i, b"") for i in range(2000)]) for _ in range(4)]
[thread.start() for thread in threads]
[thread.join() for thread in threads]
print(len(tree), len(replica), len(digests))
"""


def python(*words):
    path = os.pathsep.join(sys.path)
    done = subprocess.run([sys.executable, "-B", *words], env={**os.environ, "PYTHONPATH": path}, capture_output=True, text=True, timeout=60)
    if done.returncode:
        raise AssertionError(done.stderr)
    return done.stdout


class Package(unittest.TestCase):
    def test_version(self):
        with open(os.path.join(TOP, "VERSION"), encoding="ascii") as file:
            self.assertEqual(mst.__version__, file.read().strip())

    def test_examples(self):
        written = python(os.path.join(HERE, "..", "examples", "asyncio_replicas.py")).splitlines()
        self.assertEqual(written, ["0 rows came", "1000 rows came", "20 rows came", "1010 1010 True"])
        written = python(os.path.join(HERE, "..", "examples", "sqlite_rows.py"))
        self.assertEqual(written, "2 rows came\n{'apple': '1132 red', 'kiwi': '1207 brown', 'melon': '1131 ripe'}\n")
        # redis_rows.py, redis_registers.py, postgres_rows.py and postgres_registers.py are run by tests/databases, replica_over_pipes.py and
        # sync_over_pipes.py by tests/packages, and store_peer.py by tests/store_peers
        self.assertEqual(len(glob.glob(os.path.join(HERE, "..", "examples", "*.py"))), 9)

    def test_a_library_that_is_not_there(self):
        env = {**os.environ, "PYTHONPATH": os.pathsep.join(sys.path), "MST_LIBRARY": "/nowhere"}
        done = subprocess.run([sys.executable, "-B", "-c", "import mst"], env=env, capture_output=True, text=True, timeout=60, check=False)
        self.assertIn("ImportError: MST_LIBRARY names /nowhere, which isn't a file", done.stderr)

    def test_the_wheel_has_no_link_out_of_it(self):
        with tempfile.TemporaryDirectory() as folder:
            sys.path.insert(0, os.path.join(HERE, ".."))
            self.addCleanup(sys.path.remove, sys.path[0])
            wheel = importlib.import_module("backend").build_wheel(folder)
            with zipfile.ZipFile(os.path.join(folder, wheel)) as files:
                metadata = [files.read(name).decode() for name in files.namelist() if name.endswith("METADATA")]
        self.assertEqual(len(metadata), 1)
        self.assertIn("This one is for SQLite (the whole example):", metadata[0])
        self.assertNotIn("](", metadata[0])

    def test_an_interpreter_without_a_lock(self):
        self.assertEqual(python("-c", WITHOUT_A_LOCK), "5000 2000 2000\n")


def load_tests(_loader, tests, _pattern):
    for name in ["mst", "mst._tree", "mst._ranges", "mst._replica", "mst._sync_tree", "mst._register", "mst._register_tree"]:
        tests.addTests(doctest.DocTestSuite(importlib.import_module(name)))
    tests.addTests(doctest.DocFileSuite(os.path.join(HERE, "..", "README.md"), module_relative=False))
    return tests


if __name__ == "__main__":
    unittest.main()
