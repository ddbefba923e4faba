"""rounds.svg: the messages of the first session of docs/WIRE.md, by their bytes, as tests/wire_reader reads them."""
import importlib.machinery
import importlib.util
import re

from picture_parts.documents import text_of
from picture_parts.svg import TOP, Picture

ASKING, ANSWERING, FIRST, STEP = 130, 670, 146, 50


def wire_reader():
    """The test's reader, as a module."""
    loader = importlib.machinery.SourceFileLoader("wire_reader", f"{TOP}/tests/wire_reader")
    module = importlib.util.module_from_spec(importlib.util.spec_from_loader("wire_reader", loader))
    loader.exec_module(module)
    return module


def keys_over(gap):
    """The keys of a gap, in words."""
    above, below = gap
    bounds = [f"{word} {key}" for word, key in (("above", above), ("below", below)) if key is not None]
    return "the keys " + " and ".join(bounds) if bounds else "all keys"


def listed(rows):
    return ", ".join(f"{key} {value}" for key, value in rows)


def outline(entry):
    """What an outline says: a page with pages below it by keys and digests, or rows."""
    if entry[0] == "rows":
        return listed(entry[1])
    _, _, keys, pages = entry
    below = sum(page is not None for page in pages)
    return f"a page with the key {', '.join(keys)}, and {below} page{'s' * (below > 1)} below it, by digests"


WORDS = {
    "root?": lambda parts: "how many rows, and which root page?",
    "root": lambda parts: f"{parts[0]} rows, and the digest of the root page",
    "outlines?": lambda parts: f"the page over {'; '.join(map(keys_over, parts[1]))}?",
    "outlines": lambda parts: "; ".join(map(outline, parts)),
    "nodes?": lambda parts: f"the rows in the page over {'; '.join(map(keys_over, parts[1]))}?",
    "nodes": lambda parts: "; ".join(map(outline, parts)),
}


def rows_of_sides():
    """The rows of the asking side and of the peer, as the document says them before its first session."""
    return re.search(r"The\s+asking side has ([^.]*)\. The\s+peer has ([^.]*)\.", text_of("docs/WIRE.md")).groups()


def joined(said, own):
    """The rows that come and that the asking side doesn't have."""
    came = [row for _, parts in said[3::2] for entry in parts if entry[0] == "rows" for row in entry[1]]
    return sorted(row for row in came if f"{row[0]} {row[1]}" not in own.split(", "))


def arrow(picture, is_asked, y, words, count):
    """A message from one side to the other, with what it says over it and its bytes below; a reply's line is dashed."""
    start, end, kind = (ASKING, ANSWERING, "one") if is_asked else (ANSWERING, ASKING, "two")
    back = -11 if is_asked else 11
    picture.line(f"line {kind}", (start, y), (end + back, y))
    picture.add("path", f"{kind} mark", d=f"M{end - (2 if is_asked else -2)} {y}l{back} -5v10z")
    middle = (ASKING + ANSWERING) / 2
    picture.text(middle, y - 7, words, "words", "middle")
    picture.text(middle, y + 17, f"{count} bytes", "aside", "middle")


def draw():
    reader = wire_reader()
    messages = reader.sessions()[0]
    said = reader.said_in(messages, reader.Reader.count)
    words = [WORDS[name](parts) for name, parts in said]
    rows, result = rows_of_sides(), f"joins {listed(joined(said, rows_of_sides()[0]))}"
    asked, came = (sum(map(len, messages[at::2])) for at in (0, 1))
    told = " ".join(f"{('Question', 'Reply')[at % 2]}, {len(messages[at])} bytes: {word.rstrip('?')}." for at, word in enumerate(words))
    description = f"The asking side has {rows[0]}; the answering side has {rows[1]}. {told} At the end the asking side {result}."
    picture = Picture("rounds", f"A catch-up by {len(messages)} messages: {asked} bytes of questions, {came} of replies", description)
    bottom = FIRST + STEP * (len(messages) - 1) + 36
    for x, name, held in zip((ASKING, ANSWERING), ("the side that asks", "the side that answers"), rows):
        picture.line("rule", (x, 100), (x, bottom))
        picture.text(x, 70, name, "head words", "middle")
        picture.text(x, 90, held, "words", "middle")
    for at, (message, word) in enumerate(zip(messages, words)):
        arrow(picture, at % 2 == 0, FIRST + STEP * at, word, len(message))
    picture.text(ASKING, bottom + 20, result, "words", "middle")
    picture.write(bottom + 36)
