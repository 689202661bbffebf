"""A sheet of SVG, by the library svgwrite: its colours, light and dark, and the few forms that the pictures are made of.

The same drawing has the same bytes, so that pictures in the documents can be compared with ones made anew.
"""
import math
import string

import svgwrite

LIGHT = {
    "paper": "#ffffff", "panel": "#f6f8fa", "ink": "#1f2328", "quiet": "#59636e", "faint": "#d1d9e0",
    "blue": "#0969da", "amber": "#bf7d00", "red": "#c2410c", "green": "#117a37", "band": "#dff5e3", "purple": "#7b3fa8",
}
DARK = {
    "paper": "#0d1117", "panel": "#171c23", "ink": "#f0f6fc", "quiet": "#9aa5b1", "faint": "#3d444d",
    "blue": "#6cb0ff", "amber": "#e0a526", "red": "#ff8a5c", "green": "#5fd37a", "band": "#14341f", "purple": "#c9a0f0",
}
FONT = "-apple-system, 'Segoe UI', 'DejaVu Sans', Arial, sans-serif"

PAPER = """
.paper { fill: $paper; stroke: $faint }
text { fill: $ink; font: 12px $font }
.quiet { fill: $quiet }
.small { font-size: 11px }
.strong { font-weight: 700 }
.middle { text-anchor: middle }
.end { text-anchor: end }
.line { stroke: $faint; fill: none }
"""


def style(rules):
    """The style sheet of these rules, in which `$ink` and the like are colours: light ones, and dark ones where wanted."""
    def filled(palette):
        return string.Template(rules).substitute(palette, font=FONT).strip()

    return f"\n{filled(LIGHT)}\n@media (prefers-color-scheme: dark) {{\n{filled(DARK)}\n}}\n"


def short(text, most):
    """The text, cut where it is longer than so many characters."""
    return text if len(text) <= most else f"{text[:most - 1]}…"


class Sheet:
    """An SVG of this size in pixels. Its title and text are what a screen reader reads of the whole."""

    def __init__(self, width, height, title, text, rules, has_paper=True):
        self.width, self.height = width, height
        # (the library knows no attributes for screen readers, and its check would refuse them)
        self.drawing = svgwrite.Drawing(size=(width, height), viewBox=f"0 0 {width} {height}", debug=False)
        self.drawing.set_desc(title=title, desc=text)
        self.drawing["role"] = "graphics-document document"
        self.drawing.add(self.drawing.style(style(PAPER + rules)))
        self.groups = [self.drawing]
        if has_paper:
            self.box(0.5, 0.5, width - 1, height - 1, "paper", rounded=8)

    def add(self, element, kind=""):
        if kind:
            element["class"] = kind
        return self.groups[-1].add(element)

    def group(self, title="", kind=""):
        """A context in which what is drawn is one thing, which a screen reader reads as the title."""
        group = self.add(self.drawing.g(), kind)
        if title:
            group.set_desc(title=title)
            group["role"] = "graphics-symbol img"
        return Within(self, group)

    def text(self, x, y, text, kind=""):
        self.add(self.drawing.text(text, insert=(x, y)), kind)

    def line(self, x, y, to_x, to_y, kind="line"):
        self.add(self.drawing.line((x, y), (to_x, to_y)), kind)

    def box(self, x, y, width, height, kind, rounded=0):
        corners = {"rx": rounded} if rounded else {}
        self.add(self.drawing.rect((x, y), (width, height), **corners), kind)

    def circle(self, x, y, radius, kind):
        self.add(self.drawing.circle((x, y), radius), kind)

    def polygon(self, points, kind):
        self.add(self.drawing.polygon([(round(x, 1), round(y, 1)) for x, y in points]), kind)

    def path(self, words, kind):
        self.add(self.drawing.path(words), kind)

    def star(self, x, y, points, outer, inner, kind):
        """A star with so many points, or a regular polygon where both radii agree."""
        turns = [(math.pi * at / points, inner if at % 2 else outer) for at in range(2 * points)]
        self.polygon([(x + radius * math.sin(turn), y - radius * math.cos(turn)) for turn, radius in turns], kind)

    def diamond(self, x, y, radius, kind):
        self.polygon([(x, y - radius), (x + radius, y), (x, y + radius), (x - radius, y)], kind)

    def xml(self):
        """The element, a line for each tag."""
        return self.drawing.tostring().replace("><", ">\n<") + "\n"

    def file(self):
        """The text of a file of its own."""
        return f'<?xml version="1.0" encoding="utf-8"?>\n{self.xml()}'


class Within:
    def __init__(self, sheet, group):
        self.sheet, self.group = sheet, group

    def __enter__(self):
        self.sheet.groups.append(self.group)

    def __exit__(self, *_):
        self.sheet.groups.pop()
