"""The calls that each form has, as the pages by language list them, beside the headers, the Rust crate and the crates."""
import collections
import re

from calls import of_class
from sources import files, named, text_of


def calls_of_header(name, prefix):
    """The functions of a header, without the prefix. Those of readers are in congee.h, too."""
    names = re.findall(r"(?m)^static inline .*?\b(congee_\w+)\(", text_of(f"include/{name}.h"))
    return {it.removeprefix(prefix) for it in names if it.startswith("congee_frozen_") == (prefix == "congee_frozen_")}


def methods(file, kind):
    """The public functions of a Rust type."""
    blocks = re.findall(rf"(?ms)^impl {kind} \{{$(.*?)^\}}$", text_of(f"rust/src/{file}.rs"))
    return {name for it in blocks for name in re.findall(r"(?m)^    pub (?:const )?fn (\w+)", it)}


# For each page the forms, by the head of their column.
FORMS = {
    "docs/C.md": {
        "Map": lambda: calls_of_header("congee", "congee_"),
        "Reader": lambda: calls_of_header("congee", "congee_frozen_"),
        "Shared": lambda: calls_of_header("congee_shared", "congee_shared_"),
        "Live": lambda: calls_of_header("congee_live", "congee_live_"),
    },
    "docs/RUST.md": {
        "`Map`": lambda: methods("map", "Map"),
        "`Frozen`": lambda: methods("frozen", "Frozen"),
        "`Guard`": lambda: methods("shared", "Guard"),
        "`LiveGuard`": lambda: methods("live", "LiveGuard"),
    },
}
MAKERS = {"Map": ("map", "Map"), "SharedMap": ("shared", "SharedMap"), "LiveMap": ("live", "LiveMap"), "Readers": ("frozen", "Readers")}


def cells_of(page, head):
    """The cells of each row of the table whose first line begins so, and of that line."""
    part = text_of(page).partition(f"\n{head}")
    lines = (part[1] + part[2]).strip().partition("\n\n")[0].splitlines()
    return [[cell.strip() for cell in it.strip().strip("|").split("|")] for it in lines if not re.fullmatch(r"[-:| ]+", it)]


def called(cell):
    """The calls that a cell names, some with their arguments."""
    return [it.partition("(")[0] for it in named(cell)]


def arguments():
    """The calls of docs/C.md with the names of their arguments, each beside those of the header, without the map."""
    declared = {}
    for path in files("include", ".h"):
        for name, found in re.findall(r"(?ms)^static inline [^;{]*?\b(congee_\w+)\(([^{]*?)\)\s*\{", text_of(path)):
            of = [it for it in " ".join(found.split()).split(", ") if it != "void"]
            of = of[1:] if of and re.fullmatch(r"(const )?struct congee\w* \*\w+", of[0]) else of
            declared[name] = ", ".join(re.search(r"\w+$", it)[0] for it in of)
    heads, *rows = cells_of("docs/C.md", "| Call | ")
    prefixes = {"Map": "congee_", "Reader": "congee_frozen_", "Shared": "congee_shared_", "Live": "congee_live_"}
    for row in rows:
        form = next(it for it in prefixes if row[heads.index(it)])
        for it in named(row[0]):
            name = prefixes[form] + it.partition("(")[0]
            yield it, f"{it.partition('(')[0]}({declared.get(name)})"


def listed(page, head, form):
    """The calls that a form has by the table of a page."""
    heads, *rows = cells_of(page, head)
    for row in rows:
        for name in called(row[0]):
            marked = row[heads.index(form)]
            yield from {"yes": [name], "try": [name, f"try_{name}"], "": []}[marked]


def made_by():
    """The functions that make maps and guards, as docs/RUST.md has them."""
    return {(kind, name) for row in cells_of("docs/RUST.md", "| Makes |")[1:] for kind in named(row[1]) for name in named(row[0])}


def differences(page, here, there):
    faults = [f"{it} is there, and not on the page" for it in sorted(there - here)]
    return faults + [f"{it} is on the page, and not there" for it in sorted(here - there)]


def live_calls():
    """The functions of congee_live.h that LIVE's table names: `.._x` is one of the same prefix, `.._try_..` those before with `try`."""
    found = set()
    for row in cells_of("docs/LIVE.md", "| Rattle | C | Rust |")[1:]:
        names = [it.removeprefix("congee_live_").removeprefix(".._") for it in named(row[1])]
        plain = [it for it in names if it != "try_.."]
        found |= {*plain, *(f"try_{it}" for it in plain if "try_.." in names)}
    return found


# The tables of docs/RATTLE.md by their headings, and the crates that have their calls.
FACES = {
    "### `Congee<K, V, A, D>`": ("face_typed",),
    "### `U64Congee<V, A>`": ("face_u64",),
    "### `CongeeArc<K, V, A>`": ("face_payloads",),
    "## The maps for threads": ("share_faces", "share_guards", "share_state", "share_maps"),
    "## A table with a second index": ("congee_table",),
}


def owned_calls():
    """The public calls of the owned map, but laws."""
    paths = ["crates/face_typed/src/typed_congee.rt", *files("crates/face_typed/src/typed_congee", ".rt")]
    blocks = [it for path in paths for it in re.findall(r"(?ms)^impl<[^\n]*> Congee<.*?^\}$", text_of(path))]
    names = {name for it in blocks for name in re.findall(r"(?m)^    pub fn (\w+)", it)}
    return {it for it in names if not it.startswith("law_")}


# Errors in whose type it is that there was no memory.
OUT_OF_MEMORY = ("OutOfMemory", "TryError", "ExtendError", "FreezeError", "Self::Error")
# Calls with `try_` of one owner alone, which nobody keeps waiting, or that make a guard or an owner and never wait.
NEVER_WAIT = "try_append try_clone try_extend try_from_iter try_split_off".split()


def rust_signatures():
    """Each public function of the Rust crate: its file and name, its documentation without the example, and its signature."""
    item = re.compile(r"((?:^ *///.*\n)+)((?:^ *#\[(?:(?!\]\n)[\s\S])*\]\n)*)^ *pub (?:const )?fn (\w+)((?:(?!\{\n)[\s\S])*)\{$", re.M)
    for path in files("rust/src", ".rs"):
        for comment, attributes, name, rest in item.findall(text_of(path)):
            text = " ".join(it.strip().removeprefix("///").strip() for it in comment.partition("/// ```")[0].splitlines())
            if "deprecated" not in attributes:
                yield f"{path}, {name}", name, text, rest.partition("->")[2]


def rust_faults():
    """Calls with `try_` that wait, or whose error isn't one of those that don't, and calls that lack memory by another type."""
    for where, name, text, returned in rust_signatures():
        if name.startswith("try_"):
            if re.search(r"\byields\b|(?<!n't )\b[Ww]aits? (?!for nobody)", text):
                yield f"{where} waits"
            if name not in NEVER_WAIT and not re.search(r"\b(?:Busy|TryError)>", returned):
                yield f"{where} has an error without Busy"
        if re.search(r"\[`(?:TryError::)?OutOfMemory`\]", text) and not any(it in returned for it in OUT_OF_MEMORY):
            yield f"{where} may lack memory, and its type hasn't that"


def owner_calls(page, head):
    """The calls of a map of objects by the table of a page."""
    for row in cells_of(page, head)[1:]:
        for name in called(row[0]):
            yield from [name, f"try_{name}"] if row[1] == "try" else [name]


def owner_functions():
    """The public functions of the classes of maps of objects in C++."""
    made = {"constructor", "copy constructor"}
    return (of_class("owner_handle") | of_class("live_owners") | of_class("live_boxes")) - made


def owner_methods():
    """The public functions of a guard of objects."""
    blocks = re.findall(r"(?ms)^impl<[^\n]*> LiveOwnerGuard<[^\n]*\{$(.*?)^\}$", text_of("rust/src/live_owners.rs") + text_of("rust/src/live_owners/in_order.rs"))
    return {name for it in blocks for name in re.findall(r"(?m)^    pub fn (\w+)", it)}


def faults(defined):
    """What the pages list otherwise than the sources. `defined` decides whether a crate has a name."""
    for page, forms in FORMS.items():
        for form, there in forms.items():
            here = [*listed(page, "| Call | ", form)]
            if page == "docs/RUST.md":
                here += [name for kind, name in made_by() if f"`{kind}`" == form]
            twice = [f"{it} is in two rows" for it, count in collections.Counter(here).items() if count > 1]
            yield f"{page}, calls of {form}", twice + differences(page, {*here}, there())
    for kind, (file, name) in MAKERS.items():
        if kind != "Map":
            here = {name for of, name in made_by() if of == kind}
            yield f"docs/RUST.md, {kind}", differences("docs/RUST.md", here, methods(file, name))
    yield "rust/src, calls with try_ and errors", [*rust_faults()]
    yield "docs/LIVE.md, calls of congee_live.h", differences("docs/LIVE.md", live_calls(), calls_of_header("congee_live", "congee_live_"))
    here = {*owner_calls("docs/C.md", "| Call of a map of objects |")}
    yield "docs/C.md, maps of objects", differences("docs/C.md", here, calls_of_header("congee_owners", "congee_live_owners_"))
    here = {it for row in cells_of("docs/CPP.md", "| Call of a map of objects in C++ |")[1:] for it in called(row[0])}
    yield "docs/CPP.md, maps of objects", differences("docs/CPP.md", here, owner_functions())
    here = {*owner_calls("docs/RUST.md", "| Call of a guard of objects |")}
    yield "docs/RUST.md, maps of objects", differences("docs/RUST.md", here, owner_methods())
    yield "docs/C.md, arguments", [f"{it} is {there} in the header" for it, there in arguments() if it != there]
    codes = set(re.findall(r"(?m)^#define (CONGEE_\w+) \(?(-?\d+)\)?$", text_of("include/congee.h")))
    codes = {it for it in codes if "VERSION" not in it[0]}
    page = set(re.findall(r"(?m)^\| `(CONGEE_\w+)` \| (-?\d+) \|", text_of("docs/C.md")))
    yield "docs/C.md, codes", [f"{name} is {number} on one side alone" for name, number in sorted(codes ^ page)]
    for head, of in FACES.items():
        part = re.split(r"(?m)^#+ ", text_of("docs/RATTLE.md").partition(f"\n{head}")[2])[0]
        names = [it for row in re.findall(r"(?m)^\| (`.*?) \| ", part) for it in re.findall(r"`(?:\w+::)?(\w+)\(", row)]
        yield f"docs/RATTLE.md, {head}", [f"no {it}" for it in names if not any(defined(crate, it) for crate in of)] + ["no calls"] * (not names)
        if of == ("face_typed",):
            lost = owned_calls() - {*re.findall(r"\w+", part)}
            yield f"docs/RATTLE.md, {head}, all", [f"{it} isn't on the page" for it in sorted(lost)]
