"""Reads what the pictures show from the documents."""
import itertools
import sys

from picture_parts.svg import TOP


def text_of(path):
    with open(f"{TOP}/{path}", encoding="utf-8") as file:
        return file.read()


def table(path, column):
    """The lines of the document's first table that has a column of this name, each by the names of its columns."""
    lines = [[cell.strip().strip("`") for cell in line.split("|")[1:-1]] for line in text_of(path).splitlines()]
    start = next((at for at, line in enumerate(lines) if column in line), None)
    if start is None:
        sys.exit(f"scripts/pictures: {path} has no table with a column {column}")
    return [dict(zip(lines[start], line)) for line in itertools.takewhile(bool, lines[start + 2:])]


def number(text):
    return float(text.replace(",", ""))
