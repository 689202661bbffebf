"""The plots of docs/SPEED.md and SPEED-THREADS.md: nanoseconds a call on a scale by powers, since calls differ by a factor of a thousand."""
import math

from draw.sheet import Sheet

RULES = """
.grid { stroke: $faint; stroke-width: 1 }
.grid-fine { stroke: $faint; stroke-width: 1; stroke-dasharray: 1 5 }
.span { stroke: $faint; stroke-width: 3 }
.own { fill: $blue; stroke: $blue; stroke-width: 2 }
.own-line { stroke: $blue; stroke-width: 2.2; fill: none }
.second { fill: $purple; stroke: $purple; stroke-width: 2 }
.second-line { stroke: $purple; stroke-width: 2.2; fill: none }
.crate { fill: $paper; stroke: $red; stroke-width: 2.2 }
.crate-line { stroke: $red; stroke-width: 1.8; fill: none }
.tree { fill: $paper; stroke: $green; stroke-width: 2.2 }
.tree-line { stroke: $green; stroke-width: 1.8; fill: none; stroke-dasharray: 6 3 }
.hand { fill: $quiet; stroke: $quiet; stroke-width: 1.6 }
.hand-line { stroke: $quiet; stroke-width: 1.8; fill: none; stroke-dasharray: 2 3 }
"""

# A series' form, distinguished by shape as well as colour.
FORMS = {
    "own": lambda sheet, x, y: sheet.circle(x, y, 5, "own"),
    "second": lambda sheet, x, y: sheet.diamond(x, y, 6.5, "second"),
    "crate": lambda sheet, x, y: sheet.box(x - 4.5, y - 4.5, 9, 9, "crate"),
    "tree": lambda sheet, x, y: sheet.star(x, y, 3, 7, 3.5, "tree"),
    "hand": lambda sheet, x, y: sheet.path(f"M{x - 4} {y - 4}L{x + 4} {y + 4}M{x - 4} {y + 4}L{x + 4} {y - 4}", "hand"),
}
OWNED = {"this map": "own", "congee 0.4.1": "crate", "BTreeMap": "tree"}
THREADS = {
    "shared": ("congee::shared", "second"), "locked": ("congee::locked", "own"),
    "hand": ("the owned map in a mutex", "hand"),
}
CALLS = {"new": "a new key", "get": "get", "overwrite": "overwrite"}
BESIDE = {
    "live": ("LiveMap", "own"), "congee": ("the crate congee", "crate"), "shards": ("SharedMap in 64 shards", "second"),
    "dashmap": ("dashmap", "hand"), "btree": ("Mutex<BTreeMap>", "tree"),
}
BESIDE_CALLS = {"new": "a new key", "get": "look-up", "overwrite": "overwrite"}


def steps(numbers):
    """The powers of ten, and twice and five times these, from the last one that isn't above a number to the first not below one."""
    tens = range(math.floor(math.log10(min(numbers))), math.ceil(math.log10(max(numbers))) + 1)
    every = [times * 10**ten for ten in tens for times in (1, 2, 5)]
    least, most = max(it for it in every if it <= min(numbers)), min(it for it in every if it >= max(numbers))
    return [it for it in every if least <= it <= most]


class Scale:
    """From a number to a place between two, by powers."""

    def __init__(self, marks, start, end):
        self.marks, self.least, self.most, self.start, self.end = marks, marks[0], marks[-1], start, end

    def at(self, number):
        share = math.log(number / self.least) / math.log(self.most / self.least)
        return round(self.start + share * (self.end - self.start), 1)


def is_ten(number):
    return str(number).strip("0") == "1"


def legend(sheet, names, x, y):
    for words, form in names:
        FORMS[form](sheet, x, y)
        sheet.text(x + 12, y + 4, words)
        x += 40 + round(7.2 * len(words))


def owned(data):
    """A row for each call, and on it a form for each map, in a panel for dense keys and one for random ones."""
    panels = [row for row in data["rows"] if row["keys"].endswith("10^6")]
    calls = [call for call in panels[0] if call != "keys"]
    height = 92 + 30 * len(calls)
    title = "Nanoseconds a call of the map with one owner"
    listed = {row["keys"]: ", ".join(f"{call} {'/'.join(map(str, row[call]))}" for call in calls) for row in panels}
    text = "; ".join(f"{keys}: {times}" for keys, times in listed.items())
    sheet = Sheet(860, height, title, f"Of {', '.join(data['maps'])}. {text}", RULES)
    legend(sheet, [(name, OWNED[name]) for name in data["maps"]], 130, 24)
    sheet.text(846, 28, "nanoseconds a call, by powers of ten", "quiet small end")
    for call, words in enumerate(calls):
        sheet.text(106, 74 + 30 * call + 4, words, "end")
    marks = steps([number for row in panels for call in calls for number in row[call]])
    for at, row in enumerate(panels):
        owned_panel(sheet, data["maps"], row, calls, Scale(marks, 124 + 370 * at, 470 + 370 * at))
    return sheet


def owned_panel(sheet, maps, row, calls, scale):
    bottom = 66 + 30 * len(calls)
    sheet.text(scale.start, 50, f"{row['keys'].replace('10^6', 'keys, a million')}", "strong")
    for number in scale.marks:
        x = scale.at(number)
        sheet.line(x, 58, x, bottom, "grid" if is_ten(number) else "grid-fine")
        if is_ten(number):
            sheet.text(x, bottom + 16, f"{number:,}", "quiet small middle")
    for place, call in enumerate(calls):
        y = 74 + 30 * place
        with sheet.group(f"{call}: " + ", ".join(f"{name} {it} ns" for name, it in zip(maps, row[call]))):
            sheet.line(scale.at(min(row[call])), y, scale.at(max(row[call])), y, "span")
            for name, number in reversed([*zip(maps, row[call])]):
                FORMS[OWNED[name]](sheet, scale.at(number), y)


def numbers(row, call):
    """The times of a call, by how many threads make it."""
    return {count: row[f"{call} {count}"] for count in (1, 2, 4)}


def threads(data):
    """A panel for each kind of keys and each call; in it a line for each form, by one, two and four threads."""
    title = "Nanoseconds a call of the forms that threads share, by one, two and four threads"
    return by_threads(data, title, THREADS, CALLS, "nanoseconds a call of a thread, by powers of ten")


def beside(data):
    """A panel for each kind of keys and each call; in it a line for each map, of others, too."""
    title = "Nanoseconds a call of maps that threads share, by one, two and four threads"
    return by_threads(data, title, BESIDE, BESIDE_CALLS, "nanoseconds a call of all threads together, by powers of ten")


def by_threads(data, title, forms, calls, unit, kinds=("dense", "random")):
    rows = {(row["keys"], row["form"]): row for row in data["rows"] if row["form"] in forms}
    forms = {form: words for form, words in forms.items() if (kinds[0], form) in rows}
    listed = {it: ", ".join(f"{words} {'/'.join(map(str, numbers(row, call).values()))}" for call, words in calls.items())
            for it, row in rows.items()}
    text = "; ".join(f"{keys} keys, {forms[form][0]}: {times}" for (keys, form), times in listed.items())
    height = 80 + 244 * len(kinds)
    sheet = Sheet(860, height, title, text, RULES)
    legend(sheet, forms.values(), 60, 24)
    sheet.text(846, height - 12, unit, "quiet small end")
    marks = steps([number for row in rows.values() for call in calls for number in numbers(row, call).values()])
    for down, keys in enumerate(kinds):
        for across, (call, words) in enumerate(calls.items()):
            left, top = 60 + 264 * across, 66 + 244 * down
            lines = {form: numbers(rows[keys, form], call) for form in forms}
            sheet.text(left, top - 12, f"{words}, {keys if keys.endswith('s') else f'{keys} keys'}", "strong")
            threads_panel(sheet, forms, lines, left, Scale(marks, top + 196, top), across == 0)
    return sheet


def threads_panel(sheet, forms, lines, left, scale, has_marks):
    xs = {it: left + 20 + 96 * place for place, it in enumerate((1, 2, 4))}
    for number in scale.marks:
        y = scale.at(number)
        sheet.line(left, y, left + 232, y, "grid" if is_ten(number) else "grid-fine")
        if is_ten(number) and has_marks:
            sheet.text(left - 8, y + 4, f"{number:,}", "quiet small end")
    for it, x in xs.items():
        sheet.text(x, scale.start + 18, "1 thread" if it == 1 else it, "quiet small middle")
    for form, times in lines.items():
        words, kind = forms[form]
        with sheet.group(f"{words}: " + ", ".join(f"{number} ns by {count}" for count, number in times.items())):
            sheet.path("M" + "L".join(f"{xs[count]} {scale.at(number)}" for count, number in times.items()), f"{kind}-line")
            for count, number in times.items():
                FORMS[kind](sheet, xs[count], scale.at(number))
