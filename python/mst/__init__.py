"""Merkle search trees: two stores learn by one root hash whether they agree, and by `diff` which ranges of keys to fetch.

    >>> from mst import Tree, diff
    >>> ours, theirs = Tree({b"kiwi": b"1"}), Tree({b"apple": b"1", b"melon": b"2"})
    >>> ours.root_hash() == theirs.root_hash()
    False
    >>> list(diff(ours.page_ranges(), theirs.page_ranges()))
    [KeyRange(first=b'apple', last=b'melon')]
"""
from ._library import MalformedError, version
from ._ranges import KeyRange, KeyRanges, PageRange, PageRanges, diff, unshared
from ._register import MOST_TEXT, Register, UntakenError
from ._register_tree import RegisterRows, RegisterTree
from ._replica import Replica
from ._sync_tree import Rows, SyncTree, UnreadError
from ._tree import Page, Tree
from ._wire import LIMIT, MESSAGES, REFUSAL, SESSION_BYTES, SESSION_ROWS, RefusedError

__version__ = version()
__all__ = ["KeyRange", "KeyRanges", "LIMIT", "MESSAGES", "MOST_TEXT", "MalformedError", "Page", "PageRange", "PageRanges", "REFUSAL", "RefusedError",
           "Register", "RegisterRows", "RegisterTree", "Replica", "Rows", "SESSION_BYTES", "SESSION_ROWS", "SyncTree", "Tree", "UnreadError", "UntakenError",
           "diff", "unshared", "version"]
