"""Draws in SVG: elements one after another, in colours that are legible in light and in dark.

Each colour is a class of the style below, whose inks turn with the reader's scheme. Letters are of the reader's own
monospaced font, whose width is known well enough to lay out by. The same calls make the same bytes.
"""
import os
from xml.sax.saxutils import escape

# What turns with the scheme: paper, ink, faint ink, lines and boxes.
LIGHT = {"paper": "#ffffff", "ink": "#1f2328", "faint": "#59636e", "line": "#afb8c1", "box": "#f6f8fa"}
DARK = {"paper": "#0d1117", "ink": "#e6edf3", "faint": "#9da7b1", "line": "#57606a", "box": "#161b22"}
# What does not, each legible on both papers, with dark letters upon it.
FILLS = {"good": "#2fae84", "near": "#6cb6ec", "far": "#e9a820", "bad": "#e0692e", "grey": "#9aa3ad"}
LETTER = 0.61
# How wide and how high a drawing may be within its margin: 1,560 by 2,400 with it.
MARGIN, MOST_WIDE, MOST_HIGH = 12, 1536, 2376


def rules(inks):
    """The rules of what turns with the scheme."""
    found = [f".paper{{fill:{inks['paper']}}}.ink{{fill:{inks['ink']}}}.faint{{fill:{inks['faint']}}}"]
    found.append(f".box{{fill:{inks['box']};stroke:{inks['line']}}}.line{{stroke:{inks['line']};fill:none}}")
    found.append(f".mark{{stroke:{inks['ink']};fill:none}}.hollow{{stroke:{inks['faint']};fill:{inks['paper']}}}")
    return "".join(found)


def number(value):
    return f"{value:.1f}".replace(".0", "")


def cut(names, most):
    """Each name with a form of it of at most so many letters. A long name loses some in its middle, or where most names
    then differ, and where that helps the end that all of them share."""
    most = max(most, 2)
    long = [name for name in dict.fromkeys(names) if len(name) > most]
    shared = len(os.path.commonprefix([name[::-1] for name in long])) if len(long) > 1 else 0

    def short(name, front, end):
        name, room = name[: len(name) - end], most - 1 - bool(end)
        name = name if len(name) <= room else f"{name[:front]}\u2026{name[len(name) - room + front:]}"
        return f"{name}\u2026" if end else name

    ways = [(front, end) for end in {0, shared} for front in range(most - 1 - bool(end))]
    told_apart = lambda front, end: (len({short(name, front, end) for name in long}), -end, -abs(front - most // 2))
    front, end = max(ways, key=lambda it: told_apart(*it)) if long and ways else (0, 0)
    return {name: name if len(name) <= most else short(name, front, end) for name in names}


def width_of(letters, size):
    return letters * size * LETTER


class Drawing:
    """What was drawn, with its width and height; each call adds an element."""

    def __init__(self, title):
        self.title, self.width, self.height, self.parts = title, 0, 0, []

    def room(self, x, y):
        self.width, self.height = max(self.width, x), max(self.height, y)

    def text(self, x, y, words, size=12, kind="ink", anchor="start"):
        place = "" if anchor == "start" else f' text-anchor="{anchor}"'
        self.parts.append(f'<text class="{kind}" x="{number(x)}" y="{number(y)}" font-size="{number(size)}"{place}>'
                          f"{escape(words)}</text>")
        beyond = {"start": 1, "middle": 0.5, "end": 0}[anchor]
        self.room(x + beyond * width_of(len(words), size), y + size / 3)

    def box(self, x, y, width, height, kind, says="", corner=0, more=""):
        """A rectangle; what it says is shown by readers that show titles."""
        round_ = f' rx="{number(corner)}"' if corner else ""
        head = f'<rect class="{kind}" x="{number(x)}" y="{number(y)}" width="{number(width)}" height="{number(height)}"'
        self.parts.append(f"{head}{round_}{more}" + (f"><title>{escape(says)}</title></rect>" if says else "/>"))
        self.room(x + width, y + height)

    def path(self, steps, kind="mark", width=1.0, more=""):
        self.parts.append(f'<path class="{kind}" d="{steps}" stroke-width="{number(width)}"{more}/>')

    def line(self, x1, y1, x2, y2, kind="line", width=1.0, more=""):
        self.path(f"M{number(x1)} {number(y1)}L{number(x2)} {number(y2)}", kind, width, more)

    def svg(self, margin=MARGIN):
        """The whole picture."""
        width, height = number(self.width + 2 * margin), number(self.height + 2 * margin)
        fills = "".join(f".{name}{{fill:{colour}}}" for name, colour in FILLS.items())
        hatch = f'<pattern id="hatch" width="4" height="4" patternUnits="userSpaceOnUse"><rect width="4" height="4" ' \
                f'class="paper"/><path d="M0 4L4 0" stroke="{FILLS["bad"]}" stroke-width="1.6"/></pattern>'
        return "\n".join([
            f'<svg xmlns="http://www.w3.org/2000/svg" viewBox="0 0 {width} {height}" width="{width}" height="{height}" '
            'font-family="monospace" role="img">',
            f"<title>{escape(self.title)}</title>",
            f"<style>{rules(LIGHT)}{fills}.dark{{fill:#111111}}.hatch{{fill:url(#hatch);stroke:{FILLS['bad']}}}",
            f"@media (prefers-color-scheme:dark){{{rules(DARK)}}}</style>",
            f"<defs>{hatch}</defs>",
            f'<rect class="paper" width="{width}" height="{height}"/>',
            f'<g transform="translate({margin} {margin})">',
            *self.parts,
            "</g>",
            "</svg>",
            "",
        ])
