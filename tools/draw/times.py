"""The times that the plots show: docs/pictures/speed.json, whose figures are those of the tables in docs/SPEED.md and SPEED-THREADS.md."""
import json
import re

CALLS = ("new", "get", "overwrite")
THREADS = (1, 2, 4)
# The loads and the maps of tools/dev/compare-crates, and what its tables call them.
LOADS = {
    "new": "new key", "get": "look-up", "overwrite": "overwrite", "tenth": "a tenth writes", "half": "half writes",
    "range": "range of 100", "remove": "remove", "hot": "look-up of one key",
}
BESIDE = {
    "live": "this map (`LiveMap`)", "shards": "`SharedMap`, in 64 shards", "lock": "`SharedMap`, under one lock",
    "congee": "the crate `congee`", "skiplist": "`crossbeam-skiplist`", "dashmap": "`dashmap`, which has no order",
    "btree": "`Mutex<BTreeMap>`",
}
OWNERS = {
    "lent": "`LiveArcMap`, by loans", "counted": "`LiveArcMap`, by a further `Arc`", "congee-arc": "`CongeeArc` of the crate `congee`",
    "btree-arc": "`Mutex<BTreeMap<u64, Arc<u64>>>`",
}
SECTION = "## Threads, beside other maps"
# The forms of the plots, by their names in the tables.
FORMS = {
    "`congee::locked`": "locked", "`congee::shared`": "shared", "the owned map in a mutex, by hand": "hand",
}


def rows_of(text):
    """The cells of each row of a table."""
    return [[cell.strip() for cell in line.strip("|").split("|")] for line in text.splitlines() if line.startswith("|")]


def numbers_of(cell):
    return [int(it) for it in re.findall(r"\d+", cell)]


def owned_of(page):
    section = page.split("## Calls, beside")[1].split("\n## ")[0]
    head, _, *rows = rows_of(section)
    return [{"keys": row[0], **{call: numbers_of(cell) for call, cell in zip(head[1:], row[1:])}} for row in rows]


def threads_of(page):
    return by_threads_of(page.split("## The forms that threads share")[1], FORMS, CALLS)


def beside_of(page):
    return by_threads_of(page.split(SECTION)[1], {words: form for form, words in BESIDE.items()}, LOADS)


def by_threads_of(section, forms, calls):
    found = []
    for keys in ("dense", "random"):
        table = re.search(rf"^\| {keys} keys \|.*\n(?:\|.*\n)+", section, re.M)[0]
        for row in rows_of(table):
            if row[0] in forms:
                cells = {call: numbers_of(cell) for call, cell in zip(calls, row[1:])}
                flat = {f"{call} {count}": number for call in cells for count, number in zip(THREADS, cells[call])}
                found.append({"keys": keys, "form": forms[row[0]], **flat})
    return found


def differences(data, page, threads_page):
    """What the file and the tables don't agree in."""
    wrong = [f"owned, {row['keys']}" for row in data["owned"]["rows"] if row not in owned_of(page)]
    for part, of in (("threads", threads_of), ("beside", beside_of)):
        wrong += [f"{part}, {row['keys']}, {row['form']}" for row in data[part]["rows"] if row not in of(threads_page)]
    return wrong


def with_bench(data, bench):
    """The times with those of `tools/dev/bench-threads --json` in the place of the same form's."""
    names = [f"{call} {count}" for call in CALLS for count in THREADS]
    new = {(row["keys"], row["form"]): {name: round(row[name]) for name in names} for row in bench}
    for row in data["threads"]["rows"]:
        row.update(new.get((row["keys"], row["form"]), {}))
    return data


def beside_table(rows, keys, threads=THREADS, forms=None):
    """The table of what tools/dev/compare-crates measured over such keys: a line for each map."""
    by_form = {row["form"]: row for row in rows if row["keys"] == keys}
    loads = [load for load in LOADS if any(f"{load} {threads[0]}" in row for row in by_form.values())]
    lines = [f"| {keys} keys | " + " | ".join(LOADS[load] for load in loads) + " |", "|---" * (len(loads) + 1) + "|"]
    forms = forms or BESIDE
    for form in (it for it in forms if it in by_form):
        times = [[by_form[form].get(f"{load} {count}") for count in threads] for load in loads]
        cells = [" / ".join(f"{time:.0f}" for time in it if time is not None) for it in times]
        lines.append(f"| {forms[form]} | " + " | ".join(cells) + " |")
    return "\n".join(lines) + "\n"


def page_with_beside(page, rows):
    """The page with these tables."""
    before, _, section = page.partition(SECTION)
    for keys in ("dense", "random"):
        section = re.sub(rf"^\| {keys} keys \|.*\n(?:\|.*\n)+", lambda _, keys=keys: beside_table(rows, keys), section, count=1, flags=re.M)
    return before + SECTION + section


def with_beside(data, rows):
    """The times with those of `tools/dev/compare-crates --json`."""
    names = [f"{load} {count}" for load in LOADS for count in THREADS]
    data["beside"]["rows"] = [
        {"keys": row["keys"], "form": row["form"], **{name: round(row[name]) for name in names if name in row}} for row in rows
    ]
    return data


def text_of(data):
    """The file's text: a line for each row."""
    parts = []
    for name, part in data.items():
        rows = ",\n".join(f"   {json.dumps(row)}" for row in part["rows"])
        rest = "".join(f"  {json.dumps(key)}: {json.dumps(value)},\n" for key, value in part.items() if key != "rows")
        parts.append(f' "{name}": {{\n{rest}  "rows": [\n{rows}\n  ]\n }}')
    return "{\n" + ",\n".join(parts) + "\n}\n"
