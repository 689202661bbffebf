"""The marks of a schedule's events: a form for each kind with its letter in it, and the legend that explains them."""

RULES = """
.mark { fill: $paper; stroke: $blue; stroke-width: 1.6 }
.mark-end { fill: $panel; stroke: $quiet; stroke-width: 1.6 }
.mark-lock { fill: $amber; stroke: $amber; stroke-width: 1.6 }
.mark-free { fill: $paper; stroke: $amber; stroke-width: 2.4 }
.mark-make { fill: $paper; stroke: $purple; stroke-width: 1.6 }
.mark-write { fill: $purple; stroke: $purple; stroke-width: 1.6 }
.mark-gone { fill: $quiet; stroke: $quiet; stroke-width: 1.6 }
.mark-bad { fill: $paper; stroke: $red; stroke-width: 1.8; stroke-dasharray: 3 2 }
.mark-torn { fill: $red; stroke: $red }
.mark-none { fill: $paper; stroke: $quiet; stroke-dasharray: 1 3; stroke-width: 1.6 }
.strike { stroke: $red; stroke-width: 1.8; fill: none }
.ring { fill: none; stroke: $green; stroke-width: 2.6 }
.ring-pair { fill: none; stroke: $green; stroke-width: 1.6; stroke-dasharray: 4 2 }
.letter { font-weight: 700; font-size: 11px; text-anchor: middle }
.on { fill: $paper }
.on-lock { fill: #1f2328 }
.over { paint-order: stroke; stroke: $paper; stroke-width: 4; stroke-linejoin: round }
.bar { fill: $amber }
.held { stroke: $amber; stroke-width: 1.2 }
.lane { stroke: $blue; stroke-width: 3; fill: none }
.lane-private { stroke: $purple; stroke-width: 2; stroke-dasharray: 3 3; fill: none }
.lane-retired { stroke: $quiet; stroke-width: 3; stroke-dasharray: 1 4; fill: none }
.cross { stroke: $quiet; stroke-width: 2.2; fill: none }
"""

# What a mark is by its name, in the order of the legend.
LEGEND = {
    "read": "T Take, R Read, C Check",
    "changed": "locked, or changed",
    "torn": "torn read",
    "slot": "beside a mark: its slot",
    "U": "U Upgrade: locks",
    "failed": "failed upgrade",
    "L": "L Unlock",
    "locked": "a node is locked",
    "A": "A Make: a private node",
    "W": "W Write: one entry",
    "O": "O Obsolete: retires",
    "X": "X Reclaim",
    "private": "a private node",
    "retired": "a retired node",
    "S": "S Start, F Finish",
    "Q": "Q Answer of a closure",
    "skipped": "skipped",
    "decided": "decides its call",
    "pair": "gives a pair",
}


def name_of(course, place):
    """The mark of the event at the place."""
    event = course.events[place]
    if event.is_skipped:
        return "skipped"
    if event.kind in "TRC":
        return "torn" if place in course.torn else "changed" if event.has_failed else "read"
    if event.kind == "U" and event.has_failed:
        return "failed"
    return "S" if event.kind == "F" else event.kind


def draw(sheet, name, letter, x, y):
    """The form of this name around the place, with the letter in it."""
    if name in BOXES:
        kind, width, height, rounded = BOXES[name]
        sheet.box(x - width / 2, y - height / 2, width, height, kind, rounded)
    elif name in CIRCLES:
        sheet.circle(x, y, 9, CIRCLES[name])
    elif name in STARS:
        kind, points, outer, inner = STARS[name]
        sheet.star(x, y, points, outer, inner, kind)
    elif name in DIAMONDS:
        sheet.diamond(x, y, 11.5, DIAMONDS[name])
    if name == "changed":
        sheet.line(x - 12, y + 7, x + 12, y - 7, "strike")
    if name == "failed":
        cross(sheet, x, y, 12.5, "strike")
    if name == "X":
        cross(sheet, x, y, 5, "cross")
    elif letter:
        sheet.text(x, y + 4, letter, f"letter{LETTERS.get(name, '')}")


BOXES = {
    "U": ("mark-lock", 17, 17, 0), "failed": ("mark-bad", 17, 17, 0), "L": ("mark-free", 16, 16, 0), "Q": ("mark", 24, 16, 8),
    "S": ("mark-end", 20, 16, 3),
}
CIRCLES = {"read": "mark", "changed": "mark-bad", "skipped": "mark-none"}
STARS = {"torn": ("mark-torn", 9, 12.5, 8.5), "O": ("mark-gone", 6, 10, 9.2)}
DIAMONDS = {"A": "mark-make", "W": "mark-write"}
LETTERS = {"torn": " on", "W": " on", "O": " on", "U": " on-lock", "changed": " over", "failed": " over"}


def cross(sheet, x, y, arm, kind):
    sheet.path(f"M{x - arm} {y - arm}L{x + arm} {y + arm}M{x - arm} {y + arm}L{x + arm} {y - arm}", kind)


def sign(sheet, kind, x, y):
    """A small mark in a node's lane, where an event of this kind changed its life."""
    if kind in DIAMONDS:
        sheet.diamond(x, y, 5.5, DIAMONDS[kind])
    elif kind == "O":
        sheet.star(x, y, 6, 5.5, 5, "mark-gone")
    else:
        cross(sheet, x, y, 5, "cross")


def outcome(sheet, name, x, y):
    """The ring round the mark of an event that decides its call, or gives a pair."""
    if name == "decided":
        sheet.circle(x, y, 14.5, "ring")
    if name == "pair":
        sheet.circle(x, y, 13.5, "ring-pair")


def explain(sheet, name, x, y):
    """A line of the legend."""
    if name == "locked":
        sheet.box(x - 3, y - 9, 7, 18, "bar", rounded=2)
    elif name in ("private", "retired"):
        sheet.line(x, y - 10, x, y + 10, f"lane-{name}")
    elif name in ("decided", "pair"):
        sheet.circle(x, y, 9, "ring" if name == "decided" else "ring-pair")
    elif name == "slot":
        sheet.text(x, y + 4, "0", "slot middle")
    else:
        draw(sheet, name, {"read": "T", "changed": "C", "torn": "R", "failed": "U", "skipped": ""}.get(name, name), x, y)
    sheet.text(x + 19, y + 4, LEGEND[name], "small")
