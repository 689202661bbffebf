"""Facts that several pages and headers repeat. Each has one place that decides: code, or a page."""
import re

from believed import THEOREMS, lines_of
from sources import PAGES, crates, edges, files, text_of


def words_of(path):
    """A text without line breaks, and without the stars and slashes at the beginning of a comment's lines."""
    return re.sub(r"\s+", " ", re.sub(r"(?m)^\s*(?:\*|//[/!])( |$)", " ", text_of(path)))


def number(text):
    return float(text.replace(",", ""))


def found(path, pattern):
    """The groups of each place of a text that fits."""
    return [it if isinstance(it, tuple) else (it,) for it in re.findall(pattern, words_of(path))]


def the(path, pattern):
    """The numbers of the one place that decides."""
    [groups] = found(path, pattern)
    return [number(it) for it in groups]


def is_rounded(stated, of):
    """Whether a number is another one, rounded as the page has it."""
    digits = len(stated.partition(".")[2])
    return f"{of:.{digits}f}" == f"{number(stated):.{digits}f}"


def sizes():
    """The stated sizes of the four forms."""
    return the("crates/node_base/src/base_node.rt", r"NodeType::N4 => (\d+), NodeType::N16 => (\d+), NodeType::N48 => (\d+), NodeType::N256 => (\d+)")


def segments():
    """The bytes of a live map's first segment and of the largest."""
    return [8 * it for it in the("crates/word_segments/src/place.rt", r"(\d+) << \(number / 32\)\s*\} else \{\s*(\d+)")]


def few():
    """With how many children at most a node is moved to the next smaller form."""
    return the("crates/node_base/specs/Form.antt", r"few_in N16 = (\d+) few_in N48 = (\d+) few_in N256 = (\d+)")


def window():
    """The megabytes that a live map holds under a window of dense keys, at first and at the end."""
    return [it / 10**6 for it in the("docs/SPEED-THREADS.md", r"at the end \|[-| ]+\| dense \| ([\d,]+) \| ([\d,]+) \|")]


def cell(page, row, column, at=0):
    """A figure of the first table that has this row and this column: of several that slashes part, one."""
    heads = []
    for line in text_of(page).splitlines():
        cells = [it.strip().replace("*", "") for it in line.strip().strip("|").split(" | ")] if line.startswith("|") else []
        if column in cells:
            heads = cells
        if heads and cells and cells[0] == row:
            return number(cells[heads.index(column)].split(" / ")[at])
        heads = heads if cells else []
    raise LookupError(f"{page} has no {row}, {column}")


def charged():
    return the("docs/SPEED.md", r"is charged, which is ([\d.]+) bytes a key over 10\^6 dense keys and ([\d.]+) over random ones")


def lent():
    return [cell("docs/SPEED.md", f"{it} 10^6", "this map", 1) for it in ("dense", "random")]


def of_threads(name, call, at):
    """Nanoseconds of a map beside others, over dense and over random keys."""
    parts = text_of("docs/SPEED-THREADS.md").partition("\n## Threads, beside other maps\n")[2].split("| random keys |")
    rows = [re.search(rf"(?m)^\| {re.escape(name)} \|.*$", it)[0].split(" | ") for it in parts[:2]]
    column = ["", "new key", "look-up", "overwrite"].index(call)
    return [number(it[column].split(" / ")[at]) for it in rows]


def ratio(name, call, at):
    """How often this map's time goes into another map's, over dense and over random keys."""
    pairs = zip(of_threads(name, call, at), of_threads("this map (`LiveMap`)", call, at))
    return [them / us for them, us in pairs]


def first_proof():
    return the("docs/SPEED.md", r"`\./congee run`, the first time \| (\d+) minutes, \d+ processor minutes")


def archive():
    after = the("docs/SPEED.md", r"`tools/c-library --build`, after that \| (\d+) processor minutes")
    return after + the("docs/SPEED.md", r"`tools/c-library --build` alone \| about (\d+) processor minutes")


def in_another_repository(crate):
    return the("docs/SPEED.md", rf"`{crate}` in another repository, with all below \| (\d+) processor minutes")


def crates_of(*names):
    """How many crates these need."""
    left, needed, uses = [*names], set(), edges()
    while left:
        it = left.pop()
        if it in uses and it not in needed:
            needed.add(it)
            left += uses[it]
    return len(needed)


# A name, what decides, and a pattern whose groups are the numbers, with the files that have to have it. Wherever else on a page or
# in a header it fits, it has to agree, too.
FACTS = (
    ("sizes of nodes", sizes, r"(\d+), (\d+), (\d+) (?:or|and) ([\d,]+) bytes", ("docs/C.md", "docs/RUST.md", "docs/RATTLE.md", "include/congee.h", "include/congee_shared.h")),
    ("the first node", lambda: sizes()[3:], r"(?:limit|budget) below ([\d,]+) bytes(?:,| no map| fails)", ("docs/C.md", "docs/RUST.md", "docs/RATTLE.md")),
    ("sizes of segments", segments, r"first 32 have ([\d,]+) bytes each, the next 32 twice as many, and so on up to ([\d,]+)", ("include/congee_live.h", "rust/src/live.rs")),
    ("sizes of segments in KB", lambda: [it / 1024 for it in segments()], r"first 32 have (\d+) KB each, the next 32 twice as many, and so on up to (\d+) KB", ("docs/LIVE.md",)),
    ("a handle's segment", lambda: [it / 1024 for it in segments()], r"a segment\s+of (\d+) KB, and in a large map of up to (\d+) KB", ("docs/C.md", "docs/RUST.md", "rust-drop-in/README.md")),
    ("when a node shrinks", few, r"at most (\d+), (\d+) or (\d+) (?:children|entries)", ("docs/LIVE.md", "docs/DIFFERENCES.md", "docs/TEXTS.md")),
    ("when a node shrinks, for C", few, r"at most (\d+) in a node for 16, (\d+) in a node for 48, and (\d+) in a node for 256", ("docs/C.md",)),
    ("the worst ratio of lent to charged", lambda: the("docs/C.md", r"worst ratio that was measured is (\d+\.\d+)"), r"lends(?: is more)?\W+up to (\d+\.\d+) times", ("docs/RUST.md", "docs/RATTLE.md")),
    ("what a small map holds", lambda: the("docs/C.md", r"A small map holds ([\d.]+) KB"), r"[Aa] small map holds ([\d.]+) KB", ("docs/RATTLE.md",)),
    ("a window in a live map", window, r"held ([\d.]+) MB at first and ([\d.]+) MB at the end", ("docs/LIVE.md",)),
    ("what an insertion takes", lambda: segments()[:1], r"With ([\d,]+) bytes the first handle can insert", ("docs/LIVE.md",)),
    ("charged and lent, random keys", lambda: [charged()[1], lent()[1]], r"random keys,? ([\d.]+)(?: bytes a key)? are charged,? and ([\d.]+) lent", ("include/congee.h",)),
    ("the time of a first proof", first_proof, r"in (\d+) minutes on four threads", ("README.md",)),
    ("the time of the archive", archive, r"(\d+) processor minutes after `?\./congee run`?, else (?:in )?some (\d+)", ("docs/C.md", "docs/RUST.md", "tools/install", "tools/package")),
    ("the time of congee_owned", lambda: in_another_repository("congee_owned"), r"proves them once, in some (\d+) processor minutes", ("docs/RATTLE.md",)),
    ("the time of congee_live", lambda: in_another_repository("congee_live"), r"`congee_live` takes some (\d+) processor minutes", ("docs/RATTLE.md",)),
    ("the time of congee", lambda: in_another_repository("congee"), r"first check takes some (\d+) processor minutes", ("docs/RATTLE.md",)),
    ("crates of the archive", lambda: [crates_of("congee_c", "congee_shared_c", "congee_live_c")], r"by the lines of its (\d+) crates", ("docs/SPEED.md",)),
    ("definitions of a live map", lambda: lines_of("live"), r"prints the definitions in reading order, (\d+) lines of (\d+) files", ("docs/LIVE.md",)),
    *((f"definitions of {it}", lambda it=it: lines_of(it), rf"`tools/dev/show-believed {it}` \| (\d+) lines of (\d+) files", ("docs/BELIEVE.md",)) for it in THEOREMS),
    ("look-ups beside the crate", lambda: [1 / it for it in reversed(ratio("the crate `congee`", "look-up", 2))],
     r"takes ([\d.]+) of the time of the crate `congee` over random keys, and ([\d.]+) over dense", ("README.md",)),
    ("look-ups beside a lock", lambda: [*reversed(ratio("`Mutex<BTreeMap>`", "look-up", 2))], r"`Mutex<BTreeMap>` takes (\d+) times and (\d+) times", ("README.md",)),
    ("one look-up beside the crate", lambda: [1 / it for it in ratio("the crate `congee`", "look-up", 0)],
     r"takes ([\d.]+) of the crate's time\W* over dense keys, and ([\d.]+) over random", ("docs/LIVE.md",)),
)


def faults():
    """Each fact's name, and where a file has another one."""
    places = [*PAGES, *files("include", ".h"), *files("rust/src", ".rs"), "rust/README.md", "rust-drop-in/README.md", "tools/install", "tools/package"]
    for name, decides, pattern, needed in FACTS:
        try:
            wanted, lost = decides(), []
        except (AttributeError, LookupError, ValueError) as it:
            yield name, [f"what decides isn't where it was: {it}"]
            continue
        for path in places:
            here = found(path, pattern)
            lost += [f"{path} has no such place"] * (path in needed and not here)
            for groups in here:
                lost += [f"{path} has {it}, in place of {of:g}" for it, of in zip(groups, wanted) if not is_rounded(it, of)]
        yield name, lost
    yield "DECISIONS, crates", [f"there are {len(crates())} crates"] * (not 95 <= len(crates()) < 105 or "About a hundred small crates" not in text_of("docs/DECISIONS.md"))
