"""diff.svg: two trees of names by what the program `mst_pair` returns of them, and the range of keys that one asks the other for.

Each key has a column of its own, the same in both trees. The nodes of a page are the keys of its range that are in no range of a page below
it. Pages that the other tree doesn't have are marked: the values are equal, so these are pages with other keys at them or below them.
"""
import subprocess

from picture_parts.svg import LEFT, TOP, WIDTH, Picture

LOCAL = "fig grape huckleberry jackfruit jujube kiwi lemon mango melon nectarine olive pear".split()
PEER = "fig grape huckleberry jackfruit jujube kiwi lychee mango melon nectarine olive pear".split()
CHARACTER, GAP, LINE, FALL = 7.83, 13, 28, 34


class Page:
    """A page: its range, its nodes, and the pages below it."""

    def __init__(self, first, last):
        self.first, self.last, self.keys, self.nodes, self.below = first, last, [], [], []

    def holds(self, key):
        return self.first <= key <= self.last

    def pages(self):
        yield self
        for page in self.below:
            yield from page.pages()

    def depth(self):
        return 1 + max((page.depth() for page in self.below), default=0)


def replies(requests):
    """What the program answers to requests, line by line."""
    done = subprocess.run([f"{TOP}/mst_pair", "--unproved"], input="\n".join(requests) + "\n", capture_output=True, text=True, check=True)
    return done.stdout.splitlines()


def lists_of(lines):
    """The lists among replies, each of which ends with a line `end`."""
    lists, at = [], []
    for line in lines:
        if line == "end":
            lists.append(at)
            at = []
        else:
            at.append(line.split())
    return lists


def tree_of(ranges, keys):
    """The root page of a list of page ranges, each before those of the pages below it."""
    root, path = None, []
    for first, last in ranges:
        page = Page(first, last)
        while path and not path[-1].holds(first):
            path.pop()
        if path:
            path[-1].below.append(page)
        root = root or page
        path.append(page)
    for page in root.pages():
        page.keys = [key for key in keys if page.holds(key)]
        page.nodes = [key for key in page.keys if not any(below.holds(key) for below in page.below)]
    return root


def columns():
    """Of each key of either tree where its column begins and ends."""
    keys = sorted({*LOCAL, *PEER})
    widths = [CHARACTER * len(key) + GAP for key in keys]
    at, found = (WIDTH - sum(widths)) / 2, {}
    for key, width in zip(keys, widths):
        found[key] = at, at + width
        at += width
    return found


def drawn(picture, page, y, known, places):
    """Draws the pages below a page, and then the page over the lines to them; marks those that aren't known. Where its frame's middle is."""
    left, right = places[page.nodes[0]][0], places[page.nodes[-1]][1]
    for below in page.below:
        middle = drawn(picture, below, y + LINE + FALL, known, places)
        picture.line("rule", (min(max(middle, left), right), y + LINE), (middle, y + LINE + FALL))
    kind = "page" if page.keys in known else "marked"
    picture.add("rect", kind, x=left + 2, y=y, width=right - left - 4, height=LINE, rx=4)
    for node in page.nodes:
        picture.text(sum(places[node]) / 2, y + LINE - 9, node, "key words", "middle")
    return (left + right) / 2


def height(root):
    return root.depth() * (LINE + FALL) - FALL


def range_frames(ranges, y, root, places):
    """The frame of each range round a tree."""
    for first, last in ranges:
        left, right = places[first][0], places[last][1]
        yield {"x": left, "y": y - 34, "width": right - left, "height": height(root) + 46, "rx": 6}


def draw_peer(picture, root, y, known, ranges, places):
    """The peer's tree between the ground of each range that it is asked for and the frame of the same, with what is asked for."""
    for frame in range_frames(ranges, y, root, places):
        picture.add("rect", "asked", **frame)
    drawn(picture, root, y, known, places)
    for frame, (first, last) in zip(range_frames(ranges, y, root, places), ranges):
        picture.add("rect", "range", **frame)
        asked = sum(first <= key <= last for key in PEER)
        picture.text(frame["x"] + 10, y - 14, f"asked for: {first} to {last}, {asked} of {len(PEER)} rows")


def legend(picture):
    picture.add("rect", "marked", x=LEFT + 1, y=47, width=30, height=16, rx=3)
    picture.text(LEFT + 40, 60, "a page that the other tree doesn't have", "aside")
    for kind in ("asked", "range"):
        picture.add("rect", kind, x=366, y=47, width=30, height=16, rx=3)
    picture.text(405, 60, "the keys that the local side asks the peer for", "aside")


def described(local, peer, known, ranges):
    """What the picture shows, in words."""
    own, others = (" ".join(sorted(keys)) for keys in (set(LOCAL) - set(PEER), set(PEER) - set(LOCAL)))
    counts = [sum(page.keys not in known[root] for page in root.pages()) for root in (local, peer)]
    spans = ", ".join(f"{first} to {last}" for first, last in ranges)
    return (f"Two trees of {len(LOCAL)} names. The local one has {own} where the peer has {others}, so {counts[0]} pages of the local tree and"
            f" {counts[1]} of the peer's aren't in the other. The local side asks the peer for the keys from {spans}.")


def draw():
    puts = [f"put {name} {key} 1" for name, keys in (("a", LOCAL), ("b", PEER)) for key in keys]
    local, peer, ranges = lists_of(replies([*puts, "pages a", "pages b", "diff a"])[len(puts):])
    local, peer, places = tree_of(local, LOCAL), tree_of(peer, PEER), columns()
    known = {root: [page.keys for page in other.pages()] for root, other in ((local, peer), (peer, local))}
    picture = Picture("diff", "What diff asks for, where two trees differ in one name", described(local, peer, known, ranges))
    legend(picture)
    picture.text(LEFT, 96, "local", "head words")
    drawn(picture, local, 110, known[local], places)
    y = 110 + height(local) + 86
    picture.text(LEFT, y - 46, "peer", "head words")
    draw_peer(picture, peer, y, known[peer], ranges, places)
    picture.write(y + height(peer) + 28)
