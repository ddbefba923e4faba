"""A model of `diff`, written from its definition: the walk over two lists of page ranges, the merge, the cut, and the laws.

A span is a pair of keys, first and last; an entry has its digest as a third part.
"""


def is_within(inner, outer):
    return outer[0] <= inner[0] and inner[1] <= outer[1]


def span_of(entry):
    return entry[0], entry[1]


def merged(spans):
    """Spans that meet made one, ascending."""
    merge = []
    for first, last in sorted(spans):
        if merge and first <= merge[-1][1]:
            merge[-1] = merge[-1][0], max(merge[-1][1], last)
        else:
            merge.append((first, last))
    return merge


def cut(bad, good):
    """What is left of the bad spans where each of the good ones is cut out of them."""
    for first, last in good:
        left = []
        for span in bad:
            if first <= span[1] and span[0] <= last:
                left += [piece for piece in ((span[0], first), (last, span[1])) if piece[0] < piece[1]]
            else:
                left.append(span)
        bad = left
    return merged(bad)


class Walk:
    """The walk over a local and a peer list, and the spans that it marks."""

    def __init__(self, local, peer):
        self.local, self.peer, self.bad, self.good = local, peer, [], []

    def pass_within(self, at, span):
        """The place behind the peer entries from here on that are within the span."""
        while at < len(self.peer) and is_within(self.peer[at], span):
            at += 1
        return at

    def pass_holders(self, at, span):
        """The place behind this local entry and those after it that hold the span."""
        at += 1
        while at < len(self.local) and is_within(span, self.local[at]):
            at += 1
        return at

    def gap(self, whole, before, entry, at):
        """Marks the gap before a peer entry that stands between local ones, or behind them."""
        start, end = before[1] if before else whole[0], entry[1]
        if at < len(self.local):
            end = min(end, self.local[at][0])
        if start <= end:
            self.bad.append((start, end))

    def step(self, whole, at, to):
        """Walks a span from these places of the peer's and the local list on, and answers how far it went."""
        before = None
        while at < len(self.peer) and is_within(self.peer[at], whole):
            entry, span = self.peer[at], span_of(self.peer[at])
            if to == len(self.local) or not is_within(self.local[to], span):
                if to == len(self.local) or not is_within(span, self.local[to]):
                    self.gap(whole, before, entry, to)
                return at + 1, to
            behind = self.pass_holders(to, span)
            agrees = self.local[behind - 1][2] == entry[2]
            (self.good if agrees else self.bad).append(span)
            rest, to = self.step(span, self.pass_within(at + 1, span) if agrees else at + 1, behind)
            at = self.pass_within(rest, span)
            self.bad += [span_of(left) for left in self.peer[rest:at]]
            before = span
        return at, to


def difference(local, peer):
    """What `diff` answers on two lists of entries."""
    if not peer:
        return []
    walk = Walk(local, peer)
    walk.step(span_of(peer[0]), 0, 0)
    return cut(merged(walk.bad), merged(walk.good))


def broken_law(local, peer, found):
    """The first of the interval laws that the answer breaks on two lists; none where it holds to all."""
    bounds = {key for entry in local + peer for key in span_of(entry)}
    if any(one[1] >= other[0] for one, other in zip(found, found[1:])):
        return "two ranges meet, or don't ascend"
    if any(first > last for first, last in found):
        return "a range begins above its end"
    if any(not peer or not is_within(span, peer[0]) for span in found):
        return "a range isn't within the peer's first entry"
    if any(first not in bounds or last not in bounds for first, last in found):
        return "a bound is no bound of an entry"
    return broken_case(local, peer, found) if peer else None


def broken_case(local, peer, found):
    """The case over the first entries that the answer breaks."""
    first = span_of(peer[0])
    if not local:
        return None if found == [first] else "local has no entry, and the answer isn't the peer's first"
    own = span_of(local[0])
    if first[0] < own[0] and first[1] < own[1]:
        return None if found == [(first[0], min(own[0], first[1]))] else "the peer's first is before local's"
    if own[0] < first[0] and own[1] < first[1] or is_within(first, own) and first != own:
        return "the peer's first is behind local's, or within it" if found else None
    agreed = {entry[2] for entry in local}
    keys = {key for entry in local + peer for key in span_of(entry) if first[0] <= key <= first[1]}
    spared = [entry for entry in peer if entry[2] in agreed]
    uncovered = [key for key in keys if not any(a <= key <= b for a, b in found) and not any(e[0] <= key <= e[1] for e in spared)]
    return "a key is neither in the answer nor in an entry that agrees" if uncovered else None


def broken_law_of_trees(local, peer, found):
    """The law on two lists in the shape of trees that the answer breaks."""
    if not local or not peer:
        return None
    if local[0] == peer[0]:
        return "the first entries agree, and a range is asked for" if found else None
    seen = []
    for own, other in zip(local[1:], peer[1:]):
        if span_of(own) != span_of(other) or any(own[0] <= last and first <= own[1] for first, last in seen):
            return None
        seen.append(span_of(own))
        if own[2] == other[2] and any(has_key_inside(span, other) for span in found):
            return "a key within an entry that agrees is asked for"
    return None


def has_key_inside(span, entry):
    """Whether a byte string is in the span, and strictly between the bounds of the entry."""
    least = max(span[0], entry[0] + b"\0")
    return least <= span[1] and least < entry[1]
