"""Pictures as SVG, of boxes, lines and words, in colours for light and for dark pages.

What is drawn has a kind, a class of the style below. Words are set in a font whose characters all
have one width, so a picture knows how much room they take.
"""
import html

WIDTH = 0.62        # of a character, in parts of its height: no common font of the list is wider
FONTS = "'DejaVu Sans Mono', 'Liberation Mono', Menlo, Consolas, monospace"
COLOURS = {         # of a light and of a dark page
    "page": ("#ffffff", "#14181d"),
    "panel": ("#f5f7f9", "#1d232a"),
    "ink": ("#1c2128", "#e6ebf0"),
    "muted": ("#56606b", "#a3adb8"),
    "line": ("#7d8793", "#7d8793"),
    "good": ("#1f6b36", "#8bd6a0"),
    "good-back": ("#e6f4e9", "#17301f"),
    "bad": ("#b3201a", "#ff938a"),
    "bad-back": ("#fdebea", "#3b1c1b"),
    "own": ("#ffffff", "#2a323b"),
}
FILLED = {          # kinds of words and of shapes with their colour, and that of their edge
    "text": ("ink", None), ".muted": ("muted", None), ".bad-words": ("bad", None),
    ".good-words": ("good", None), ".page": ("page", None), ".panel": ("panel", None),
    ".box": ("own", "ink"), ".again": ("own", "ink"), ".raw": ("own", "ink"),
    ".good": ("good-back", "good"), ".bad": ("bad-back", "bad"), ".tip": ("ink", None),
    ".wire": (None, "ink"), ".wire-again": (None, "ink"), ".wire-raw": (None, "ink"),
    ".good-mark": (None, "good"), ".bad-mark": (None, "bad"), ".rule": (None, "line"),
    ".grid": (None, "line"),
}
SHAPES = {          # of the same the other properties, in all colours
    "text": f"font-family: {FONTS}; font-size: 11px",
    ".title": "font-size: 14px; font-weight: bold", ".head": "font-size: 12px; font-weight: bold",
    ".strong": "font-weight: bold", ".small": "font-size: 9.5px",
    ".box": "stroke-width: 1.2", ".good": "stroke-width: 1.2", ".bad": "stroke-width: 2.4",
    ".again": "stroke-width: 1.2; stroke-dasharray: 5 3",
    ".raw": "stroke-width: 1.2; stroke-dasharray: 1.5 2.5",
    ".wire": "stroke-width: 1.4", ".wire-again": "stroke-width: 1.4; stroke-dasharray: 5 3",
    ".wire-raw": "stroke-width: 1.6; stroke-dasharray: 1.5 3",
    ".good-mark": "stroke-width: 2", ".bad-mark": "stroke-width: 2.2", ".rule": "stroke-width: 0.8",
    ".grid": "stroke-width: 0.5; stroke-dasharray: 1 3",
}
SIZES = {"title": 14, "head": 12, "small": 9.5}


def coloured(place):
    """The colours of all kinds, on a light page or on a dark one."""
    for kind, (fill, edge) in FILLED.items():
        fill, edge = (COLOURS[it][place] if it else "none" for it in (fill, edge))
        yield f"{kind} {{ fill: {fill}; stroke: {edge} }}"


def style():
    lines = [*coloured(0), *(f"{kind} {{ {rules} }}" for kind, rules in SHAPES.items()),
             "@media (prefers-color-scheme: dark) {", *coloured(1), "}"]
    return "\n".join(["", *lines, ""])


def width_of(words, kind=""):
    """The room that words take, in pixels."""
    return len(words) * WIDTH * next((SIZES[it] for it in kind.split() if it in SIZES), 11)


def fitted(words, room, kind=""):
    """The words, cut to the room if they are longer."""
    most = int(room / width_of(".", kind))
    return words if len(words) <= most else words[:most - 2] + ".."


def number(value):
    """A coordinate, with as few digits as it needs."""
    return f"{value:.1f}".rstrip("0").rstrip(".")


class Picture:
    """What is drawn, in the order in which it is drawn."""

    def __init__(self, width, height, title, about):
        self.width, self.height = width, height
        self.parts = [f"<title>{html.escape(title)}</title>", f"<desc>{html.escape(about)}</desc>",
                      f"<style>{style()}</style>"]
        self.rect(0, 0, width, height, "page", 6)

    def rect(self, x, y, width, height, kind, corner=3):
        place = " ".join(f'{name}="{number(value)}"' for name, value in
                         (("x", x), ("y", y), ("width", width), ("height", height), ("rx", corner)))
        self.parts.append(f'<rect class="{kind}" {place}/>')

    def text(self, x, y, words, kind="", anchor="start"):
        """Words on the line y, which begin at x, or have their middle or end there."""
        kinds = f' class="{kind}"' if kind else ""
        where = "" if anchor == "start" else f' text-anchor="{anchor}"'
        self.parts.append(f'<text x="{number(x)}" y="{number(y)}"{kinds}{where}>'
                          f"{html.escape(words, quote=False)}</text>")

    def path(self, kind, *points, closed=False):
        """Straight lines from point to point."""
        places = " L ".join(f"{number(x)} {number(y)}" for x, y in points)
        self.parts.append(f'<path class="{kind}" d="M {places}{" Z" if closed else ""}"/>')

    def whole(self):
        size = f'width="{self.width}" height="{self.height}"'
        head = (f'<svg xmlns="http://www.w3.org/2000/svg" {size}'
                f' viewBox="0 0 {self.width} {self.height}" role="img">')
        return "\n".join([head, *self.parts, "</svg>", ""])
