"""Memory that the library asks for and isn't given: each request of each call is refused in turn. The call raises MemoryError, and rows and tree go
on.

The calls are made in a program of its own, whose `malloc` and `realloc` are those below. So this needs a C compiler."""
import ctypes
import itertools
import os
import shutil
import subprocess
import sys
import tempfile
import unittest

PYTHON = os.path.dirname(os.path.dirname(os.path.abspath(__file__)))
COMPILER = os.environ.get("CC") or shutil.which("cc") or shutil.which("clang")
REFUSING = """
#define _GNU_SOURCE
#include <dlfcn.h>
#include <stddef.h>
#include <string.h>
void *__libc_malloc(size_t);
void *__libc_realloc(void *, size_t);
static long granted = -1;
/* How many requests of the library are granted before one is refused; none is refused if the number is negative, as it is after that one. */
void refuse_after(long number) { granted = number; }
long are_granted(void) { return granted; }
static int is_refused(void *caller) {
    Dl_info at;
    return granted >= 0 && dladdr(caller, &at) && strstr(at.dli_fname, "libmst") && granted-- == 0;
}
void *malloc(size_t size) { return is_refused(__builtin_return_address(0)) ? NULL : __libc_malloc(size); }
void *realloc(void *old, size_t size) { return is_refused(__builtin_return_address(0)) ? NULL : __libc_realloc(old, size); }
"""


class Refused(unittest.TestCase):
    @unittest.skipUnless(COMPILER, "there is no C compiler")
    def test_each_request_is_refused_in_turn(self):
        with tempfile.TemporaryDirectory() as folder:
            library = os.path.join(folder, "refusing.so")
            with open(os.path.join(folder, "refusing.c"), "w", encoding="ascii") as source:
                source.write(REFUSING)
            subprocess.run([COMPILER, "-O1", "-shared", "-fPIC", source.name, "-o", library, "-ldl"], check=True)
            words = [sys.executable, "-B", "-m", "tests.test_refused_memory"]
            done = subprocess.run(words, cwd=PYTHON, env={**os.environ, "LD_PRELOAD": library}, capture_output=True, text=True, timeout=300, check=False)
        self.assertEqual(done.returncode, 0, done.stderr)
        for name in ["set", "load", "verify", "rescan", "answer", "catch_up"]:
            self.assertRegex(done.stdout, f"(?m)^{name}: [1-9][0-9]* of [0-9]+ refused$")


def sweep(name, call, check):
    """Makes a call with its first request refused, with its second, and so on, until it makes no more. It fails by MemoryError alone, or does
    without what it asked for; then `check` is given what it returns, and else None."""
    refusing, errors = ctypes.CDLL(None), 0
    for granted in itertools.count():
        refusing.refuse_after(ctypes.c_long(granted))
        returned = None
        try:
            returned = call()
        except MemoryError:
            errors += 1
        is_done = refusing.are_granted() >= 0
        refusing.refuse_after(ctypes.c_long(-1))
        check(returned)
        if is_done:
            print(f"{name}: {errors} of {granted} refused")
            return


def main():
    from mst import Tree

    from .common import Side, joined, rows_of, said_by
    from .test_sync_tree import asks_at, asks_in

    left, right = [{b"%d" % i: b"%d" % step * 20 for i in range(0, 120, step)} for step in (2, 3)]
    side, theirs, refusing, said = Side(left), Side(right), ctypes.CDLL(None), []

    def in_step(_):
        side.tree.refresh(side.rows)
        assert side.root_hash() == Tree(rows_of(side)).root_hash()

    def as_before(returned):
        assert returned in (None, wanted) and side.root_hash() == before

    def set_key():
        side.tree[b"key"] = bytes(5000)

    def write(message):
        granted = refusing.are_granted()
        refusing.refuse_after(ctypes.c_long(-1))
        said[:] = [said_by(theirs.answer(message[8:]))]
        refusing.refuse_after(ctypes.c_long(granted))

    def catch_up():
        side.catch_up(lambda size: said[0](size), write)

    sweep("set", set_key, lambda _: None)
    side.tree.discard(b"key")
    before, wanted = side.root_hash(), []
    sweep("load", lambda: side.tree.load(side.rows), as_before)
    sweep("verify", lambda: side.tree.verify(side.rows), as_before)
    sweep("rescan", lambda: side.tree.rescan(side.rows), as_before)
    question = next(theirs.tree.catch_up_steps())
    for asked in [question, b"\1\2\x10\1\0\0", b"\1\3\x10\1\0\0", asks_at([b"0", b"2"]), asks_in([(None, None)])]:
        wanted = side.answer(asked)
        sweep("answer", lambda asked=asked: side.answer(asked), as_before)
    sweep("catch_up", catch_up, in_step)
    assert rows_of(side) == joined(left, right)


if __name__ == "__main__":
    main()
