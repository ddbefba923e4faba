"""What the models answer, compared with answers from outside that stand in the repository, before anything is judged by them.

These are the published vectors of SipHash, the Rust crate's root hashes and differences, those of a second program, the example of
docs/PROGRAM.md and the stored run of the program.
"""
import os
import re

from soak_parts import differences, pairs
from soak_parts.trees import Settings, number, siphash128

TOP = os.path.dirname(os.path.dirname(os.path.dirname(os.path.realpath(__file__))))


def text_of(path):
    with open(f"{TOP}/{path}", encoding="utf-8") as file:
        return file.read()


def check(what, seen, wanted):
    if seen != wanted:
        raise AssertionError(f"the models are wrong about {what}: {seen}, not {wanted}")


def vectors():
    """SipHash under the key 00 01 .. 0f of so many bytes 00 01 .., as merkle_digest_tests lists it."""
    listed = re.findall(r"^    0x([0-9a-f]{32}),$", text_of("crates/merkle_digest_tests/src/siphash.rt"), re.M)
    for count, digest in enumerate(listed):
        check(f"SipHash of {count} bytes", siphash128(bytes(range(16)), bytes(range(count))).hex(), digest)
    return len(listed)


def roots():
    """Root hashes and counts of page ranges of the squares, by the tables of c/tests.c."""
    text, count = text_of("c/tests.c"), 0
    sizes = [(bytes(16), 16, *row) for row in re.findall(r'\{(\d+), (\d+), "(\w{32})", "(\w{32})"\}', text.split("BASES[]")[0])]
    bases = re.findall(r'\{(\d+), (\d+), "(\w{32})", "(\w{32})"\}', text.split("BASES[]")[1])
    for key, base, size, ranges, *hashes in sizes + [(bytes(range(16)), int(base), 500, *row) for base, *row in bases]:
        for form in (1, 2):
            settings = Settings(key, base, form)
            root, listed = settings.tree({b"k%04d" % i: settings.digest(number(i * i)) for i in range(int(size))})
            check(f"{size} squares in base {base} and format {form}", (root.hex(), len(listed)), (hashes[form - 1], int(ranges)))
            count += 1
    return count


def spans(text):
    return [tuple(map(int, re.split("[-:]", span))) for span in text.split()]


def rust_differences():
    """The Rust crate's answers on random lists, as merkle_diff_tests lists them."""
    lines = re.findall(r"^(.*\|.*\|[^\\\n]*)\\n", text_of("crates/merkle_diff_tests/src/rust_answers.rt"), re.M)
    for line in lines:
        local, peer, wanted = map(spans, line.split("|"))
        found = differences.difference(local, peer)
        check(f"diff of {line}", (found, differences.broken_law(local, peer, found)), (wanted, None))
    return len(lines)


def runs():
    """The example of docs/PROGRAM.md, and the stored run."""
    asked, shown = re.search(r"^    \$ printf '(.*)' \| \./mst_pair\n(.*?)\n\n", text_of("docs/PROGRAM.md"), re.M | re.S).groups()
    lines = asked.replace("\\n", "\n").encode().splitlines()
    replies = [re.split("  +", line.strip())[0].encode() + b"\n" for line in shown.split("\n")]
    check("the example of docs/PROGRAM.md", pairs.output(lines), (b"".join(replies), None))
    stored = text_of("crates/mst_pair_cli/stdin").encode().split(b"\n")
    check("the stored run", pairs.output(stored), (text_of("crates/mst_pair_cli/stdout").encode(), None))
    return 2


def compare():
    """Fails at the first answer that differs, and tells how many there are."""
    counts = vectors(), roots(), rust_differences(), runs()
    if not all(counts):
        raise AssertionError(f"an answer from outside is no longer found: {counts}")
    return sum(counts)
