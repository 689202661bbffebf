"""The times of tools/dev/compare-peers: its tables, and the parts of docs/pictures/speed.json and of the pages that are made of them."""
import json
import math
import re

OWN = {"owned": "congee", "threads": "live"}
SETS = {
    "owned": ["dense", "random", "clustered", "timestamps", "snowflakes", "addresses"],
    "threads": ["dense", "random", "clustered", "timestamps"],
}
CALLS = {
    "insert": "insert", "get": "`get`", "waiting": "`get`, waiting", "overwrite": "overwrite", "remove": "remove",
    "floor": "floor", "ceiling": "ceiling", "range10": "range of 10", "range100": "range of 100", "iterate": "iteration",
    "pop_first": "`pop_first`", "pop_last": "`pop_last`", "resident": "bytes, resident", "lent": "bytes, by `malloc`",
}
LOADS = {
    "new": "new key", "get": "look-up", "zipf": "look-up by Zipf", "overwrite": "overwrite", "tenth": "a tenth writes",
    "half": "half writes", "range": "range of 100", "remove": "remove",
}
PEERS = {
    "owned": {"JudyL": "`JudyL`", "absl::btree_map": "`absl::btree_map`", "BTreeMap": "`BTreeMap`"},
    "threads": {
        "lock": "one lock", "shards": "64 shards", "tbb": "`tbb::concurrent_map`", "judy": "`JudyL` in 64 mutexes",
    },
}
THREADS = (1, 2, 4)
# The part of speed.json, and the page with its tables.
PARTS = {"owned": "peers", "threads": "peers-threads"}
PAGES = {"owned": "SPEED.md", "threads": "SPEED-THREADS.md"}
SLOWER = "another is faster"
ALONE = "this map alone"


def read(path):
    with open(path, encoding="utf-8") as file:
        return json.load(file)


def text_of(data):
    """What --json writes: a line for each row."""
    rows = ",\n".join(f"  {json.dumps(row)}" for row in data["rows"])
    rest = "".join(f" {json.dumps(key)}: {json.dumps(value)},\n" for key, value in data.items() if key != "rows")
    return f'{{\n{rest} "rows": [\n{rows}\n ]\n}}'


def place_of(row):
    return row["set"], row["keys"], row["map"]


def least_of(one, other):
    """A row with the least of two rows' numbers."""
    both = dict(one)
    for name, it in other.items():
        if isinstance(it, dict):
            both[name] = least_of(both.get(name, {}), it)
        elif name in both and name not in ("set", "keys", "map"):
            both[name] = min(both[name], it)
        else:
            both[name] = it
    return both


def merged(files):
    """One of each kind, with the least of their times."""
    found = {}
    for data in files:
        into = found.setdefault(data["of"], {**data, "rows": []})
        rows = {place_of(row): row for row in into["rows"]}
        for row in data["rows"]:
            rows[place_of(row)] = least_of(rows.get(place_of(row), {}), row)
        into["rows"] = [*rows.values()]
    return [*found.values()]


def power(number):
    """10^4 of 10,000."""
    exponent = round(math.log10(number))
    return f"10^{exponent}" if number == 10**exponent else f"{number:,}"


class Rows:
    """The rows of one kind by their places."""

    def __init__(self, of, rows):
        self.of, self.by_place = of, {place_of(row): row for row in rows}
        self.sizes = sorted({row["keys"] for row in rows})
        self.sets = [name for name in SETS[of] if any(row["set"] == name for row in rows)]
        self.peers = {it: words for it, words in PEERS[of].items() if any(row["map"] == it for row in rows)}

    def number(self, name, keys, form, column):
        return self.by_place.get((name, keys, form), {}).get(column)

    def ratio(self, name, keys, peer, column):
        """This map's time to another one's, in hundredths. None where one of them wasn't measured."""
        own, other = (self.number(name, keys, form, column) for form in (OWN[self.of], peer))
        return round(own / other, 2) if own is not None and other else None

    def columns(self):
        """The numbers of a row, and what the tables call each."""
        if self.of == "owned":
            return {call: words for call, words in CALLS.items() if self.has(call)}
        return {f"{load} {count}": words for load, words in LOADS.items() for count in self.threads() if self.has(f"{load} {count}")}

    def has(self, column):
        return any(column in row for row in self.by_place.values())

    def threads(self):
        return [count for count in range(1, 65) if self.has(f"get {count}")]


def table(head, rows):
    lines = [head, ["---"] * len(head), *rows]
    return "".join(f"| {' | '.join(line)} |\n" if line[0] != "---" else f"|{'---|' * len(head)}\n" for line in lines)


def cell(ratios):
    """The ratios, in bold where this map is ahead. Empty where none was measured."""
    words = ["–" if it is None else f"**{it:.2f}**" if it < 1 else f"{it:.2f}" for it in ratios]
    return " / ".join(words) if any(it is not None for it in ratios) else ""


def whole(numbers):
    """Nanoseconds, with a decimal where there are few."""
    words = ["–" if it is None else f"{it:.1f}" if it < 10 else f"{it:,.0f}" for it in numbers]
    return " / ".join(words) if any(it is not None for it in numbers) else ""


def owned_table(rows, keys):
    """The ratios to each other map, by call and set."""
    head = [f"{power(keys)} keys", *rows.sets]
    return table(head, [[words, *(cell([rows.ratio(name, keys, peer, call) for peer in rows.peers]) for name in rows.sets)]
                        for call, words in rows.columns().items()])


def alone_table(rows):
    """This map's own times and bytes, by each number of keys."""
    return table([ALONE, *rows.sets], [
        [words, *(whole([rows.number(name, keys, OWN["owned"], call) for keys in rows.sizes]) for name in rows.sets)]
        for call, words in rows.columns().items()])


def threads_table(rows, keys):
    """This map's times and the ratios to each other map, by load and by how many threads."""
    loads = [load for load in LOADS if any(f"{load} {count}" in rows.columns() for count in rows.threads())]
    lines = []
    for name in rows.sets:
        own = [whole([rows.number(name, keys, OWN["threads"], f"{load} {count}") for count in rows.threads()]) for load in loads]
        lines.append([f"{name}: this map, ns", *own])
        for peer, words in rows.peers.items():
            lines.append([f"{name}: {words}", *(cell([rows.ratio(name, keys, peer, f"{load} {count}") for count in rows.threads()])
                                               for load in loads)])
    return table([f"{power(keys)} keys", *(LOADS[load] for load in loads)], lines)


def slower_cell(rows, peer, columns):
    """In how many rows another map is faster, and where it is most of all."""
    ratios = [(rows.ratio(name, keys, peer, column), name, keys) for column in columns for name in rows.sets for keys in rows.sizes]
    ratios = [it for it in ratios if it[0] is not None]
    slower = [it for it in ratios if it[0] > 1]
    if not ratios:
        return ""
    if not slower:
        return f"**0 of {len(ratios)}**"
    most, name, keys = max(slower)
    return f"{len(slower)} of {len(ratios)}, at most {most:.2f} times ({name} {power(keys)})"


def slower_table(rows):
    columns = {}
    for column, words in rows.columns().items():
        columns.setdefault(words, []).append(column)
    return table([SLOWER, *rows.peers.values()],
                 [[words, *(slower_cell(rows, peer, every) for peer in rows.peers)] for words, every in columns.items()])


def all_tables(of, data_rows):
    """The tables by their first cell."""
    rows = Rows(of, data_rows)
    made = [alone_table(rows)] if of == "owned" else []
    if rows.peers:
        made += [slower_table(rows), *((owned_table if of == "owned" else threads_table)(rows, keys) for keys in rows.sizes)]
    return {it.split("|")[1].strip(): it for it in made}


def tables_of(data, by_processor=False):
    """What compare-peers prints."""
    rows = data["rows"]
    if by_processor and data["of"] == "threads":
        rows = [{**{name: row[name] for name in ("set", "keys", "map")}, **row["processor"]} for row in rows]
    return f"{data['date']}, {data['machine']}, load {data['load']}\n\n" + "\n".join(all_tables(data["of"], rows).values())


def with_peers(speed, data):
    """The parts of speed.json with these times."""
    of, rows = data["of"], [{name: it for name, it in row.items() if name != "processor"} for row in data["rows"]]
    unit = "nanoseconds of processor time a call, and bytes a key" if of == "owned" else "nanoseconds of wall time for each call of all threads together"
    speed[PARTS[of]] = {
        "source": f"docs/{PAGES[of]}: {unit}, in the columns of tools/dev/compare-peers --json",
        "measured": f"{data['date']}, {data['machine']}", "rows": rows,
    }
    return speed


def filled(page, speed, of):
    """The page with the tables of its part, each in the place of the table that begins with the same cell."""
    for first, text in all_tables(of, speed[PARTS[of]]["rows"]).items():
        page = re.sub(rf"^\| {re.escape(first)} \|.*\n(?:\|.*\n)*", lambda _, text=text: text, page, flags=re.M)
    return page


def differences(speed, pages):
    """Which tables of the pages aren't those of speed.json."""
    return [f"{PARTS[of]}, {first}" for of, page in pages.items() if PARTS[of] in speed
            for first, text in all_tables(of, speed[PARTS[of]]["rows"]).items() if text not in page]
