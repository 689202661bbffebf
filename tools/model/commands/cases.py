"""Tables of inputs. Each is a function of a source of numbers, and gives a name and the lines of one input after another."""

from .answers import GREATEST

# Keys at which lines go wrong first.
BORDERS = [0, 1, 255, 256, 1 << 32, (1 << 56) - 1, 1 << 56, 1 << 63, GREATEST - 1, GREATEST]
# How many bits the keys of a node may lie from the end: those of a leaf, of the node above it, and so on to the root.
SHIFTS = range(0, 64, 8)
# So many entries change a node's form, as it grows or as it shrinks.
TURNS = {1, 3, 4, 5, 12, 13, 16, 17, 36, 37, 48, 49, 255, 256}


def around(key):
    """Questions at a key and at those beside it."""
    for near in (key - 1, key, key + 1):
        if 0 <= near <= GREATEST:
            yield from (f"floor {near}", f"ceiling {near}", f"get {near}")


def whole():
    return [f"range 0 {GREATEST} 4096", "keys", "count", "empty", "first", "last"]


def borders(numbers):
    """Each choice of keys at the borders: what is around them, and the ranges between two of them."""
    lines = []
    for chosen in range(1024):
        keys = [key for place, key in enumerate(BORDERS) if chosen >> place & 1]
        lines += [f"insert {key} {key ^ 9}" for key in keys]
        lines += ["first", "last", "count", *around(numbers.choice(BORDERS)), *around(numbers.choice(BORDERS))]
        start, end = numbers.choice(BORDERS), numbers.choice(BORDERS)
        lines += [f"range {start} {end} {most}" for most in (0, 1, 3, 40)]
        lines += [f"remove {key}" for key in numbers.sample(keys, len(keys))] + ["empty"]
        if chosen % 256 == 255:
            yield f"choices to {chosen}", lines
            lines = []


def forms(numbers):
    """A node on each level grows through all forms, and shrinks again: what is around each of its keys where the form changes."""
    for shift in SHIFTS:
        keys, lines = [byte << shift for byte in range(256)], []
        asked = [line for key in keys for line in around(key)]
        for verb, counts in (("insert {0} 1", range(1, 257)), ("remove {0}", range(255, -1, -1))):
            for key, count in zip(numbers.sample(keys, 256), counts):
                lines.append(verb.format(key))
                if count in TURNS:
                    lines += [*numbers.sample(asked, 200), "keys", "first", "last", "count", "empty"]
        yield f"{shift} bits", lines


def turns(numbers):
    """To and fro at each number of entries, on each level; 300 keys, so that the last leaf has few."""
    for shift in SHIFTS:
        keys = [key << shift for key in range(300 if shift < 56 else 256)]
        lines = [f"insert {key} 1" for key in keys]
        for key in reversed(keys):
            lines += [f"remove {key}", f"insert {key} 2", f"remove {key}"]
        yield f"{shift} bits", lines + whole()


def chains(numbers):
    """A key below so many nodes that each have one other child. Those children go, and then the key."""
    for length in range(8):
        keys = [1 << 8 * place for place in range(1, length + 1)]
        lines = [f"insert {key} 1" for key in (0, *keys)]
        for order in (keys, keys[::-1], numbers.sample(keys, length)):
            lines += [f"remove {key}" for key in (*order, 0)] + ["empty"]
            lines += [f"insert {key} 2" for key in (0, *order)] + ["keys"]
        yield f"{length} nodes", lines


def key_of(kind, numbers):
    if kind == "dense":
        return numbers.randrange(3000)
    if kind == "far":
        return numbers.getrandbits(64)
    if kind == "few and far":
        return numbers.randrange(1, 60) * 0x9E3779B97F4A7C15 % 2**64
    if kind == "powers":
        return min(max(2 ** numbers.randrange(65) + numbers.randrange(-2, 3), 0), GREATEST)
    if kind == "crowded":
        return numbers.randrange(6) << 8 * numbers.randrange(8)
    if kind == "below nodes of all forms":
        return numbers.randrange(64) << numbers.choice((0, 8, 16, 32, 56))
    return 0x0123456789ABCDEF ^ numbers.getrandbits(16) << kind


KINDS = ["dense", "far", "few and far", "powers", "crowded", "below nodes of all forms", *range(0, 56, 8)]


def change(numbers, key, filling):
    """A line that puts a value at the key, takes it out, or changes one."""
    if numbers.random() < filling:
        return numbers.choice((f"insert {key} {numbers.randrange(9)}", f"put {key} {numbers.choice((0, 1, GREATEST))}"))
    old, new, more = numbers.randrange(9), numbers.choice((3, "none")), numbers.choice((1, GREATEST))
    return numbers.choice((f"remove {key}", f"remove {key}", f"cas {key} {old} {new}", f"add {key} {more}"))


def question(numbers, key, other):
    name = numbers.choice(("get", "floor", "ceiling", "range", "first", "last", "count", "empty"))
    if name == "range":
        return f"range {min(key, other)} {max(key, other)} {numbers.choice((0, 1, 3, 40))}"
    return f"{name} {key}" if name in ("get", "floor", "ceiling") else name


def mixed(numbers):
    """Lines of all kinds, at times more that fill the map and at times more that empty it, at keys of each kind."""
    while True:
        for kind in KINDS:
            lines = []
            for place in range(6000):
                key, other = key_of(kind, numbers), key_of(kind, numbers)
                lines.append(change(numbers, key, (0.75, 0.5, 0.25)[place // 600 % 3]))
                lines.append(question(numbers, key, other))
                if place % 600 == 599:
                    lines += whole()
            yield f"keys {kind}", lines


def scans(numbers):
    """Ranges of all sizes over keys in a row and over keys far from one another, and again once most of them are gone."""
    for name, keys in (("in a row", list(range(10_000))), ("far", [numbers.getrandbits(64) for _ in range(2000)])):
        lines = [f"insert {key} {key ^ 5}" for key in keys]
        for left in (len(keys), 400, 10):
            if left < len(keys):
                keys, gone = keys[:left], keys[left:]
                lines += [f"remove {key}" for key in numbers.sample(gone, len(gone))]
            for most in (0, 1, 63, 257, 4096):
                for size in (1, 13, 257, 2000, 2**58):
                    start = numbers.choice(keys)
                    end = min(start + size, GREATEST)
                    lines += [f"range {start} {end} {most}", f"range {end} {start} {most}"]
        yield name, lines


def windows(numbers):
    """A window of a thousand keys moves on. What its first turns are charged at most is enough for all."""
    for shift in (0, 8, 24):
        lines = []
        for place in range(8000):
            lines.append(f"insert {place << shift} 1")
            if place >= 1024:
                lines.append(f"remove {place - 1024 << shift}")
        yield f"{shift} bits", lines


def spoilt(numbers, line):
    """A line with one byte more, less or another one."""
    place, byte = numbers.randrange(len(line) + 1), numbers.choice("0 1x-\tnone9.")
    before, behind = line[:place], line[place:]
    return numbers.choice((before + byte + behind, before + behind[1:], before + byte + behind[1:]))


def lines(numbers):
    """Lines with a fault, between ones that have none."""
    made = []
    for _ in range(8000):
        key, other = key_of("crowded", numbers), numbers.choice((0, 9, GREATEST, GREATEST + 1, 4096, 4097))
        line = numbers.choice((change(numbers, key, 0.5), question(numbers, key, other), "keys", f"range 0 {key} {other}"))
        made.append(spoilt(numbers, line) if numbers.random() < 0.6 else line)
    yield "spoilt", made + ["", " ", "get 0" + " " * 252, "get " + "0" * 300, "first" + "x" * 251, *whole()]
