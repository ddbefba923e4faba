"""The same of the package for Python, whose `load` takes the place of inserts into an empty tree."""
import sys
import time

from mst import Tree, diff


def keys(state):
    while True:
        state ^= state << 13 & (1 << 64) - 1
        state ^= state >> 7
        state ^= state << 17 & (1 << 64) - 1
        yield b"k%016x" % state


LOCAL, PEER = 88172645463325252, 362436069
ONE, TWO, THREE = (number.to_bytes(8, "little") for number in (1, 2, 3))


def rows(size, seed, tenth=ONE):
    return [(key, ONE if at % 10 else tenth) for at, key in zip(range(size), keys(seed))]


def memory():
    with open("/proc/self/statm", encoding="ascii") as pages:
        return int(pages.read().split()[1]) * 4096


size = int(sys.argv[1])
own = sorted(rows(size, LOCAL))
before = memory()
held = Tree()
held.update(rows(size, LOCAL))
held.root_hash()
held_bytes = memory() - before
others = [held.page_ranges(), Tree(rows(size, PEER)).page_ranges(), Tree(rows(size, LOCAL, TWO)).page_ranges()]
best = [1e9] * 7
for _ in range(min(max(100000 // size, 3), 50)):
    made = Tree()
    calls = [lambda: made.load(own), made.root_hash, made.page_ranges, lambda: made.update((key, THREE) for key, _ in own)]
    calls += [lambda other=other: diff(others[0], other) for other in others]
    for at, call in enumerate(calls):
        begin = time.perf_counter()
        call()
        best[at] = min(best[at], (time.perf_counter() - begin) / size * 1e9)
print(*(f"{figure:.1f}" for figure in best), f"{held_bytes / size:.0f}")
