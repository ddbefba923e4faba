"""Lines over two axes, each of one unit, told apart by colour, dashes and marks, with their names beside them."""
import math

KINDS = ("one", "two", "three", "four", "five")
NEXT_NAME = 18
# The mark at each point of a line of a kind, around the point.
MARKS = {"one": "M-4 -4h8v8h-8z", "two": "M0 -5l5 9h-10z", "three": "M-5 0l5 -5l5 5l-5 5z", "four": "M0 5l5 -9h-10z", "five": "M-5 -2h10v4h-10z"}


class Axis:
    """Where numbers from `low` to `high` stand between two places, by themselves or by their logarithms."""

    def __init__(self, low, high, start, end, by_logarithm=False):
        self.scale = math.log10 if by_logarithm else float
        self.low, self.high, self.start, self.end = self.scale(low), self.scale(high), start, end

    def at(self, value):
        return self.start + (self.scale(value) - self.low) / (self.high - self.low) * (self.end - self.start)


class Plot:
    """A plot in a picture, over an axis across and one upwards."""

    def __init__(self, picture, across, upwards):
        self.picture, self.across, self.upwards = picture, across, upwards

    def grid(self, ticks):
        """A line for each number of the axis upwards, with the words that name it before the line."""
        for value, words in ticks:
            y = self.upwards.at(value)
            self.picture.line("grid", (self.across.start, y), (self.across.end, y))
            self.picture.text(self.across.start - 10, y + 5, words, "aside", "end")

    def feet(self, values, words=None):
        """The numbers of the axis across, each in the middle below its place, and what they count."""
        y = self.upwards.start
        for value in values:
            x = self.across.at(value)
            self.picture.line("rule", (x, y), (x, y + 6))
            self.picture.text(x, y + 23, f"{value:,}", "aside", "middle")
        if words:
            self.picture.text((self.across.start + self.across.end) / 2, y + 45, words, "words", "middle")

    def spot(self, point):
        return self.across.at(point[0]), self.upwards.at(point[1])

    def line(self, kind, points):
        """A line through points, with its mark at each."""
        spots = [self.spot(point) for point in points]
        self.picture.add("polyline", f"line {kind}", points=" ".join(f"{x:.1f},{y:.1f}" for x, y in spots))
        for x, y in spots:
            self.picture.add("path", f"{kind} mark", d=MARKS[kind], transform=f"translate({x:.1f} {y:.1f})")

    def names(self, lines):
        """The name of each line behind its last point, from above to below, so far from one another that each can be read."""
        least = -math.inf
        for kind, name, points in sorted(lines, key=lambda line: self.spot(line[2][-1])[1]):
            x, y = self.spot(points[-1])
            least = max(y, least)
            self.picture.line(f"{kind} leader", (x + 7, y), (x + 22, least))
            self.picture.text(x + 28, least + 5, name, "words name")
            least += NEXT_NAME
