"""Writes pictures as SVG, each with a title and a description for screen readers, and on a ground of its own: light or dark, as the reader's
screen is."""
import html
import os

TOP = os.path.dirname(os.path.dirname(os.path.dirname(os.path.abspath(__file__))))
WIDTH, LEFT = 800, 16
# Of each class what is coloured, its colour on a light ground, and on a dark one.
COLOURS = [
    ("ground", "fill", "#ffffff", "#0d1117"), ("ground", "stroke", "#d0d7de", "#30363d"),
    ("words", "fill", "#1f2328", "#e6edf3"), ("aside", "fill", "#4d5560", "#adb6c0"),
    ("mark", "fill", "#ffffff", "#0d1117"), ("name", "stroke", "#ffffff", "#0d1117"),
    ("grid", "stroke", "#d0d7de", "#3d444d"), ("rule", "stroke", "#6e7781", "#8b949e"),
    ("page", "fill", "#ffffff", "#0d1117"), ("page", "stroke", "#6e7781", "#8b949e"),
    ("marked", "fill", "#fff3d6", "#3d2a05"), ("marked", "stroke", "#9a5700", "#f0a83a"),
    ("asked", "fill", "#dbeafe", "#12315c"), ("range", "stroke", "#0055a5", "#6cb6ff"),
    ("one", "stroke", "#0055a5", "#6cb6ff"), ("two", "stroke", "#b34700", "#ff9d5c"), ("three", "stroke", "#00735c", "#4ed1a9"),
    ("four", "stroke", "#8a2f86", "#e79be4"), ("five", "stroke", "#4d5560", "#c5cdd5"),
]
SHAPES = """text { font: 14px sans-serif }
.title { font: bold 18px sans-serif }
.head { font: bold 14px sans-serif }
.key { font: 13px monospace }
.page { stroke-width: 1 }
.marked { stroke-width: 3 }
.range { fill: none; stroke-width: 2; stroke-dasharray: 7 4 }
.line { fill: none; stroke-width: 2 }
.two { stroke-dasharray: 9 4 }
.three { stroke-dasharray: 2 4 }
.four { stroke-dasharray: 12 4 2 4 }
.five { stroke-dasharray: 5 5 }
.mark { stroke-width: 2; stroke-dasharray: none }
.name { stroke-width: 5; paint-order: stroke }
.leader { stroke-width: 1; stroke-dasharray: none }"""


def style():
    """The rules of all pictures: shapes, and colours for a light ground and a dark one. Names have a rim of the ground's colour."""
    light = [f".{kind} {{ {what}: {colour} }}" for kind, what, colour, _ in COLOURS]
    dark = [f".{kind} {{ {what}: {colour} }}" for kind, what, _, colour in COLOURS]
    return "\n".join(["<style>", SHAPES, *light, "@media (prefers-color-scheme: dark) {", *dark, "}", "</style>"])


class Picture:
    """A picture whose parts are added one by one, each over those before it, and which is written at the end."""

    def __init__(self, name, title, description):
        self.name, self.title, self.description, self.parts = name, title, description, []
        self.text(LEFT, 32, title, "title words")

    def add(self, tag, kind, **attributes):
        """A part without words; the name of an attribute that has a hyphen is written with an underscore."""
        words = "".join(f' {name.replace("_", "-")}="{rounded(value)}"' for name, value in attributes.items())
        self.parts.append(f'<{tag} class="{kind}"{words}/>')

    def text(self, x, y, words, kind="words", anchor="start"):
        place = f'x="{rounded(x)}" y="{rounded(y)}"' + ("" if anchor == "start" else f' text-anchor="{anchor}"')
        self.parts.append(f'<text class="{kind}" {place}>{html.escape(words, quote=False)}</text>')

    def line(self, kind, start, end):
        self.add("line", kind, x1=start[0], y1=start[1], x2=end[0], y2=end[1])

    def write(self, height):
        size = f'width="{WIDTH}" height="{height}" viewBox="0 0 {WIDTH} {height}"'
        head = [f'<svg xmlns="http://www.w3.org/2000/svg" {size} role="img" aria-labelledby="title description">',
                f'<title id="title">{html.escape(self.title, quote=False)}</title>',
                f'<desc id="description">{html.escape(self.description, quote=False)}</desc>', style()]
        ground = f'<rect class="ground" x="0.5" y="0.5" width="{WIDTH - 1}" height="{height - 1}" rx="6"/>'
        os.makedirs(f"{TOP}/docs/pictures", exist_ok=True)
        with open(f"{TOP}/docs/pictures/{self.name}.svg", "w", encoding="utf-8") as file:
            file.write("\n".join([*head, ground, *self.parts, "</svg>"]) + "\n")


def rounded(value):
    """A number to the tenth of a pixel, and a text as it is."""
    return value if isinstance(value, str) else f"{value:.1f}".removesuffix(".0")
