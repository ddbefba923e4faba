"""bytes.svg: what syncs send by how many rows differ, by the table of bench/README.md."""
from picture_parts.documents import number, table
from picture_parts.plots import Axis, Plot
from picture_parts.svg import LEFT, Picture

# The rows of the plot.
ROWS = "100,000"
TICKS = [(10**3, "1 kB"), (10**4, "10 kB"), (10**5, "100 kB"), (10**6, "1 MB"), (10**7, "10 MB")]
# Each line by its column, its name, and where that stands: by the point of this number, so far to the right and down.
LINES = [
    ("one", "bytes", "catch-up, plain", 2, -14, -6, "end"),
    ("two", "delta_bytes", "catch-up by deltas", 2, 16, 14, "start"),
    ("four", "pull_bytes", "pull by page ranges, of nearly all rows", 1, 0, -14, "start"),
    ("five", "all", "all rows, sent at once", 1, 0, 24, "start"),
]


def measured():
    """The lines of the table for rows with other values, each with the bytes of all rows to a side without any."""
    rows = [row for row in table("bench/README.md", "pull_bytes") if row["Rows"] == ROWS]
    whole = next(row["bytes"] for row in rows if row["Way"] == "missing" and row["Differing"] == ROWS)
    return [{**row, "all": whole} for row in rows if row["Way"] == "changed" and row["Differing"] != "0"]


def described(rows):
    """What the lines show, in words."""
    told = [", ".join(f"{row[column]} bytes for {row['Differing']}" for row in rows) for _, column, *_ in LINES[:2]]
    pulls = [row["pull_bytes"] for row in rows]
    return (f"A plot with logarithmic axes, by how many rows differ. A plain catch-up sends {told[0]}; by deltas {told[1]}. All rows at once are"
            f" {rows[0]['all']} bytes. A pull by page ranges sends {min(pulls, key=number)} to {max(pulls, key=number)} bytes, however few differ,"
            " since it has only the list of the peer's page ranges to go by, and asks for nearly all rows.")


def draw():
    rows = measured()
    picture = Picture("bytes", f"Bytes of a sync of {ROWS} rows, by how many rows differ", described(rows))
    picture.text(LEFT, 56, "sent by both sides together; each step of an axis is ten times the one before", "aside")
    plot = Plot(picture, Axis(1, 10**5, 90, 740, True), Axis(10**3, 10**7, 420, 84, True))
    plot.grid(TICKS)
    plot.feet([10**power for power in range(6)], "rows that differ")
    for kind, column, name, at, right, down, anchor in LINES:
        points = [(number(row["Differing"]), number(row[column])) for row in rows]
        plot.line(kind, points)
        x, y = plot.spot(points[at])
        picture.text(x + right, y + down, name, "words name", anchor)
    picture.write(482)
