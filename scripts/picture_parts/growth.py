"""scale.svg: what a tree costs as it grows, by the table of docs/SCALE.md: a plot for each unit."""
import math

from picture_parts.documents import number, table
from picture_parts.plots import KINDS, Axis, Plot
from picture_parts.svg import LEFT, Picture

FIRST, LAST, NEXT_TICK = 100, 520, 40
# Of each plot what it shows, in which unit, how many of the table's units that is, whether by logarithms, and its lines by the table's names.
PLOTS = [
    ("The whole tree", "nanoseconds a key", 1, True,
     ["upsert keys in random order", "first root hash", "load rows in key order", "list the page ranges", "compare two equal lists"]),
    ("One call", "microseconds a call", 1000, False, ["root hash after an upsert", "upsert one key"]),
    ("Memory", "bytes a key", 1, False, ["tree made by upserts", "tree made by a load", "list of page ranges"]),
]


def figures():
    """The counts of keys that were measured, and each line of the table by its name: its figures at these counts."""
    rows = table("docs/SCALE.md", "What")
    columns = list(rows[0])[2:-1]
    return [int(number(column)) for column in columns], {row["What"]: [number(row[column]) for column in columns] for row in rows}


def ticks_of(values, by_logarithm):
    """Numbers from below all values to above them: powers of ten, or multiples of 1, 2 or 5 times one."""
    if by_logarithm:
        return [10**power for power in range(math.floor(math.log10(min(values))), math.ceil(math.log10(max(values))) + 1)]
    power = 10 ** math.floor(math.log10(max(values)))
    step = next(step for step in (power // 2, power, 2 * power, 5 * power) if max(values) <= 4 * step)
    return list(range(0, math.ceil(max(values) / step) * step + 1, step))


def draw_plot(picture, top, counts, found, shown):
    """One plot, below `top`; where it ends, and what it shows in words."""
    head, unit, many, by_logarithm, names = shown
    lines = [(kind, name, [(count, figure / many) for count, figure in zip(counts, found[name])]) for kind, name in zip(KINDS, names)]
    ticks = ticks_of([value for _, _, points in lines for _, value in points], by_logarithm)
    bottom = top + 24 + NEXT_TICK * (len(ticks) - 1)
    picture.text(LEFT, top, f"{head}: {unit}", "head words")
    plot = Plot(picture, Axis(counts[0], counts[-1], FIRST, LAST, True), Axis(ticks[0], ticks[-1], bottom, top + 24, by_logarithm))
    plot.grid([(tick, f"{tick:,}") for tick in ticks])
    plot.feet(counts)
    for kind, _, points in lines:
        plot.line(kind, points)
    plot.names(lines)
    told = "; ".join(f"{name} {points[0][1]:,.1f} to {points[-1][1]:,.1f}" for _, name, points in lines)
    return bottom, f"{head}, {unit}: {told}."


def draw():
    counts, found = figures()
    described = f"Plots of figures measured from {counts[0]:,} keys to {counts[-1]:,}, over a logarithmic axis."
    picture, bottom = Picture("scale", "What a tree costs as it grows", described), 40
    picture.text(LEFT, 56, "measured; each step across is four times the keys, and each step up in the first plot ten times the time", "aside")
    for shown in PLOTS:
        bottom, told = draw_plot(picture, bottom + 56, counts, found, shown)
        picture.description += f" {told}"
    picture.text((FIRST + LAST) / 2, bottom + 46, "keys in the tree", "words", "middle")
    picture.write(bottom + 62)
