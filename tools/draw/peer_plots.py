"""The plots of tools/dev/compare-peers: ratios of the map with one owner, and times of the maps that threads share."""
import statistics

from draw import peers
from draw.plots import FORMS, RULES, Scale, by_threads, legend, steps
from draw.sheet import Sheet

PEERS = {"JudyL": ("JudyL", "crate"), "absl::btree_map": ("absl::btree_map", "second"), "BTreeMap": ("BTreeMap", "tree")}
MAPS = {
    "live": ("LiveMap", "own"), "shards": ("SharedMap in 64 shards", "second"), "lock": ("SharedMap, one lock", "hand"),
    "tbb": ("tbb::concurrent_map", "crate"), "judy": ("JudyL in 64 mutexes", "tree"),
}
LOADS = {"new": "a new key", "get": "look-up", "overwrite": "overwrite"}
EVEN = "\n.even { stroke: $ink; stroke-width: 1.2 }\n"
LABELS = (0.01, 0.1, 0.5, 1, 2, 10, 100)
ROW = 38
# Where a map's line is in the row of its call.
DOWN = {"JudyL": -10, "absl::btree_map": 0, "BTreeMap": 10}


def owned(data):
    """A panel for each number of keys, a row for each call, and in it a line for each other map with a tick for each set of keys."""
    rows = peers.Rows("owned", data["rows"])
    calls = {call: words.replace("`", "") for call, words in rows.columns().items() if call != "lent"}
    forms = {peer: PEERS[peer] for peer in rows.peers}
    strips = {(keys, call, peer): found for keys in rows.sizes for call in calls for peer in forms if (found := ratios(rows, keys, call, peer))}
    height = 92 + ROW * len(calls)
    sheet = Sheet(860, height, "Time of the map with one owner, as a ratio to the time of other maps", described(rows, calls, forms, strips),
                  RULES + EVEN)
    legend(sheet, forms.values(), 130, 24)
    sheet.text(846, 28, "below 1 this map is faster. A tick for each set of keys", "quiet small end")
    for place, words in enumerate(calls.values()):
        sheet.text(106, 78 + ROW * place + 4, words, "end")
    marks = steps([it for found in strips.values() for it in found])
    width = 736 / len(rows.sizes)
    for at, keys in enumerate(rows.sizes):
        scale = Scale(marks, round(124 + width * at), round(124 + width * at + width - 26))
        panel(sheet, f"{peers.power(keys)} keys", calls, {it[1:]: found for it, found in strips.items() if it[0] == keys}, scale)
    return sheet


def ratios(rows, keys, call, peer):
    return [it for name in rows.sets if (it := rows.ratio(name, keys, peer, call))]


def described(rows, calls, forms, strips):
    """The medians, for a screen reader."""
    return "; ".join(f"{words}: " + ", ".join(
        f"{forms[peer][0]} " + "/".join(f"{statistics.median(strips[keys, call, peer]):.2f}" for keys in rows.sizes
                                        if (keys, call, peer) in strips) for peer in forms) for call, words in calls.items())


def panel(sheet, title, calls, strips, scale):
    bottom = 62 + ROW * len(calls)
    sheet.text(scale.start, 50, title, "strong")
    for number in scale.marks:
        x = scale.at(number)
        sheet.line(x, 58, x, bottom, "even" if number == 1 else "grid-fine")
        if number in LABELS:
            sheet.text(x, bottom + 16, f"{number:g}", "quiet small middle")
    for place, (call, words) in enumerate(calls.items()):
        here = {peer: strips[call, peer] for peer in PEERS if (call, peer) in strips}
        shown = ", ".join(f"{peer} {min(it):.2f} to {max(it):.2f}" for peer, it in here.items())
        with sheet.group(f"{words}: {shown}"):
            for peer, found in here.items():
                strip(sheet, PEERS[peer][1], found, scale, 78 + ROW * place + DOWN[peer])


def strip(sheet, kind, found, scale, y):
    """A line from the least to the greatest ratio, a tick for each, and a mark at the median."""
    xs = sorted({scale.at(it) for it in found})
    sheet.path(f"M{xs[0]} {y}H{xs[-1]}", "span")
    sheet.path("".join(f"M{x} {y - 4}v8" for x in xs), f"{kind}-line")
    FORMS[kind](sheet, scale.at(statistics.median(found)), y)


def threads(data):
    """A panel for each set of keys and each load; in it a line for each map, by one, two and four threads."""
    largest = max(row["keys"] for row in data["rows"])
    rows = [{**row, "keys": row["set"], "form": row["map"]} for row in data["rows"] if row["keys"] == largest]
    title = f"Nanoseconds a call of maps that threads share, over {peers.power(largest)} keys, by one, two and four threads"
    kinds = [name for name in peers.SETS["threads"] if any(row["keys"] == name for row in rows)]
    return by_threads({"rows": rows}, title, MAPS, LOADS, "nanoseconds a call of all threads together, by powers of ten", kinds)
