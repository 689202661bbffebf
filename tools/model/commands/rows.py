"""Rows worked out by hand: lines with their answers, and what is charged after each, by the sizes 64, 168, 672 and 2104."""

from .answers import GREATEST

FAR = 1 << 56


def puts(first, last, charged):
    """Insertions of the keys in between that leave the same charge."""
    return [(f"insert {key} {key}", "ok none", charged) for key in range(first, last + 1)]


def takes(first, last, charged):
    """Removals of the keys in between, descending, that leave the same charge."""
    return [(f"remove {key}", str(key), charged) for key in range(first, last - 1, -1)]


# A leaf that grows from 4 places to 16 and to 48.
TO_17 = [*puts(0, 3, 2168), *puts(4, 15, 2272), *puts(16, 16, 2776)]
# The rows, each with a limit or none.
ROWS = {
    "the first key has a leaf": (2168, [("empty", "true", 2104), ("insert 0 0", "ok none", 2168), ("empty", "false", 2168)]),
    "the first key has none": (2167, [("insert 0 0", "oom", 2104), ("get 0", "none", 2104), ("empty", "true", 2104)]),
    "a split takes two nodes": (2296, [("insert 0 0", "ok none", 2168), ("insert 256 7", "ok none", 2296)]),
    "a split finds memory for one": (
        2295,
        [("insert 0 0", "ok none", 2168), ("insert 256 7", "oom", 2168), ("get 256", "none", 2168), ("get 0", "0", 2168)]
        + [("insert 2 2", "ok none", 2168), (f"insert {FAR} 3", "ok none", 2232)],
    ),
    "a leaf grows to 16": (2336, [*puts(0, 3, 2168), ("insert 4 7", "ok none", 2272)]),
    "a leaf doesn't grow to 16": (2335, [*puts(0, 3, 2168), ("insert 4 7", "oom", 2168), ("keys", "4 0 1 2 3", 2168)]),
    "another key takes the place of one that went": (
        2335,
        [*puts(0, 3, 2168), ("insert 4 4", "oom", 2168), ("insert 3 9", "ok 3", 2168), ("remove 0", "0", 2168)]
        + [("insert 4 4", "ok none", 2168), ("get 3", "9", 2168)],
    ),
    "an inner node grows to 16": (
        2656,
        [("insert 0 0", "ok none", 2168), ("insert 256 1", "ok none", 2296), ("insert 512 2", "ok none", 2360)]
        + [("insert 768 3", "ok none", 2424), ("insert 1024 7", "ok none", 2592)],
    ),
    "an inner node doesn't grow to 16": (
        2655,
        [("insert 0 0", "ok none", 2168), ("insert 256 1", "ok none", 2296), ("insert 512 2", "ok none", 2360)]
        + [("insert 768 3", "ok none", 2424), ("insert 1024 7", "oom", 2424), ("keys", "4 0 256 512 768", 2424)],
    ),
    "a leaf grows to 48": (2944, [*puts(0, 3, 2168), *puts(4, 15, 2272), ("insert 16 7", "ok none", 2776)]),
    "a leaf doesn't grow to 48": (2943, [*puts(0, 3, 2168), *puts(4, 15, 2272), ("insert 16 7", "oom", 2272), ("count", "16", 2272)]),
    "a leaf grows to 256": (4880, [*TO_17, *puts(17, 47, 2776), ("insert 48 7", "ok none", 4208)]),
    "a leaf doesn't grow to 256": (4879, [*TO_17, *puts(17, 47, 2776), ("insert 48 7", "oom", 2776), ("count", "48", 2776)]),
    "no memory for a second path": (
        2168,
        [("insert 0 100", "ok none", 2168), (f"insert {GREATEST} 100", "oom", 2168), ("get 0", "100", 2168)]
        + [("insert 0 7", "ok 100", 2168), ("put 5 1", "ok none", 2168)],
    ),
    "a put finds no memory": (2104, [("put 100 100", "oom", 2104), ("add 100 1", "none", 2104), ("empty", "true", 2104)]),
    "a leaf's memory is used again": (
        2168,
        [("insert 0 1", "ok none", 2168), ("insert 1 2", "ok none", 2168), ("remove 0", "1", 2168)]
        + [(f"add 1 {GREATEST}", "2 none", 2104), (f"insert {GREATEST} 3", "ok none", 2168)],
    ),
    "two leaves and the node above them go": (
        None,
        [("insert 1 1", "ok none", 2168), ("insert 256 256", "ok none", 2296), ("remove 1", "1", 2232)]
        + [("remove 256", "256", 2104), ("empty", "true", 2104)],
    ),
    "a leaf shrinks": (
        None,
        [*TO_17, *takes(16, 13, 2776), ("remove 12", "12", 2272), ("insert 12 12", "ok none", 2272), ("remove 12", "12", 2272)]
        + [*takes(11, 4, 2272), ("remove 3", "3", 2168), ("insert 3 3", "ok none", 2168), *takes(3, 1, 2168)]
        + [("remove 0", "0", 2104)],
    ),
    "a smaller leaf is refused": (2944, [*TO_17, ("insert 256 256", "ok none", 2904), *takes(16, 12, 2904), ("count", "13", 2904)]),
    "what goes is uncharged first": (
        2656,
        [("insert 0 0", "ok none", 2168), ("insert 256 1", "ok none", 2296), ("insert 512 2", "ok none", 2360)]
        + [("insert 768 3", "ok none", 2424), ("insert 1024 4", "ok none", 2592), (f"insert {FAR} 5", "ok none", 2656)]
        + [("remove 1024", "4", 2592), (f"insert {2 * FAR} 6", "ok none", 2656), ("remove 768", "3", 2488)],
    ),
    "one form at a time": (
        4880,
        [*TO_17, *puts(17, 47, 2776), ("insert 48 48", "ok none", 4208), (f"insert {FAR} 1", "ok none", 4272)]
        + [*takes(48, 5, 4272), (f"remove {FAR}", "1", 4208), *takes(4, 4, 2776), *takes(3, 3, 2272), *takes(2, 2, 2168)],
    ),
    "a chain of six nodes goes": (
        None,
        [(f"insert {key} 1", "ok none", 2168 + 128 * place) for place, key in enumerate((0, *(1 << 8 * it for it in range(1, 6))))]
        + [(f"remove {1 << 8 * it}", "1", 2808 - 64 * it) for it in range(1, 6)]
        + [("remove 0", "1", 2104)],
    ),
    "a key comes again in a leaf of 48": (
        None,
        [*TO_17, ("range 15 17 8", "2 15=15 16=16", 2776), ("remove 5", "5", 2776), ("get 5", "none", 2776)]
        + [("insert 5 50", "ok none", 2776), ("keys", " ".join(map(str, (17, *range(17)))), 2776), ("get 5", "50", 2776)],
    ),
    "closures see the current value": (
        None,
        [("add 7 1", "none", 2104), ("insert 7 70", "ok none", 2168), ("add 7 1", "70 71", 2168), ("get 7", "71", 2168)]
        + [("count", "1", 2168), (f"add 7 {GREATEST}", "71 none", 2104), ("get 7", "none", 2104), ("empty", "true", 2104)]
        + [("put 7 70", "ok none", 2168), ("put 7 1", "ok 70", 2168), ("get 7", "71", 2168), (f"put 7 {GREATEST}", "ok 71", 2168)]
        + [("get 7", str(GREATEST), 2168)],
    ),
    "exchanges": (
        None,
        [("cas 1 42 43", "err none", 2104), ("insert 1 42", "ok none", 2168), ("cas 1 41 43", "err 42", 2168)]
        + [("cas 1 42 43", "ok 43", 2168), ("get 1", "43", 2168), ("cas 1 43 none", "ok none", 2104), ("get 1", "none", 2104)],
    ),
    "no range has the greatest key": (
        None,
        [(f"insert {GREATEST} 7", "ok none", 2168), (f"range 0 {GREATEST} 8", "0", 2168), (f"get {GREATEST}", "7", 2168)]
        + [("last", f"{GREATEST}=7", 2168), (f"floor {GREATEST}", f"{GREATEST}=7", 2168), ("keys", f"1 {GREATEST}", 2168)],
    ),
}
