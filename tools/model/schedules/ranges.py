"""Ranges that are stopped at their places while other calls are made whole beside them, or are stopped, too."""
from .machine import LAST_NUMBER, Op
from .replay import number_or_none
from .scenes import keys, on_tree
from .schedule import remove

ALL = f"0 {LAST_NUMBER} 99"

# Leaves of few keys, and keys that share no byte to seven, so prefixes of each length.
FEW = "0=0 1=1 2=2 3=3 256=4 65536=5"
FAR_KEYS = (
    [0x0102030405060708, 0x0102030405060709, 0x0102030405060808, 0x0102030405070708, 0x0102030406060708]
    + [0x0102030505060708, 0x0102040405060708, 0x0103030405060708, 0x0202030405060708]
)
FAR = " ".join(f"{key}={value}" for value, key in enumerate(FAR_KEYS))

# A tree, the calls beside (with what a closure answers behind a colon), the range's bounds and limit, and after how many of its
# events it is stopped.
BESIDE = [
    # a leaf grows, is overwritten, emptied and made anew
    (FEW, "insert 4 9", ALL, range(90)),
    (FEW, "insert 257 9", "1 70000 2", range(90)),
    (FEW, "insert 256 9", ALL, range(90)),
    (FEW, "remove 2", ALL, range(90)),
    (FEW, "remove 256", ALL, range(90)),
    (FEW, "remove 256, insert 256 7", "0 70000 5", range(90)),
    (FEW, f"insert {2**40} 9", ALL, range(90)),
    (FEW, "present 3: 8, cas 1 1 none", "0 3 99", range(90)),
    (FEW, "insert 512 9", "2 65536 1", range(90)),
    (FEW, "remove 0, remove 1, remove 2", "0 99 3", range(90)),
    # prefixes of each length
    (FAR, f"insert {0x0102030405060600} 9", ALL, range(0, 160, 4)),
    (FAR, f"remove {0x0102030505060708}", ALL, range(0, 160, 4)),
    (FAR, f"insert {0x0102030505060808} 9", f"{0x0102030405060709} {0x0202030405060708} 4", range(0, 160, 4)),
    (FAR, f"insert {0x0103030405060708} 9", ALL, range(0, 160, 4)),
    (
        FAR,
        f"remove {0x0102030405060708}, remove {0x0102030405060709}, insert {0x0102030405060709} 3",
        f"{0x0102030405060709} {LAST_NUMBER} 99",
        range(0, 160, 4),
    ),
    (FAR, f"insert {LAST_NUMBER} 9, remove {0x0202030405060708}", ALL, range(0, 160, 4)),
    # leaves and inner nodes that are full, in the second and third form, and one key more; and a removal there
    (keys(16, 16, 1), "insert 16 9", ALL, range(30)),
    (keys(48, 48, 1), "insert 48 9", "2 49 99", range(30)),
    (keys(16, 16, 256), "insert 4096 9", ALL, range(30)),
    (keys(48, 48, 256), "insert 12288 9, remove 256", f"1 {LAST_NUMBER} 47", range(30)),
    (f"{keys(49, 49, 1)} {2**32}=7", "remove 48, insert 70 9", ALL, range(30)),
    # leaves and inner nodes of all 256 children, with pairs below them that come and go, and a key above
    (keys(256, 256, 1), "remove 252, insert 253 9", "250 600 99", range(12)),
    (keys(256, 256, 1), "insert 256 9", f"0 {LAST_NUMBER} 300", range(12)),
    (keys(256, 256, 256), "remove 64512, insert 64513 9", f"64000 {LAST_NUMBER} 99", range(12)),
    (keys(256, 256, 256), "insert 65536 9, remove 512", "256 70000 3", range(12)),
    # nodes that shrink, one that is filled again; nodes that go, one below the other, and come back
    (keys(5, 5, 1), "remove 4, remove 0", ALL, range(60)),
    (keys(17, 17, 1), "remove 0, remove 2, remove 4, cas 6 6 none, present 8, insert 8 9", ALL, range(60)),
    (f"{keys(5, 5, 256)} 1=9", "remove 512, remove 256, insert 512 8", ALL, range(60)),
    ("256=1 512=2 65536=3 131072=4", "remove 256, remove 512", ALL, range(60)),
    ("256=1 512=2 65536=3 131072=4", "remove 512, remove 256, insert 256 9", "0 70000 2", range(60)),
    (f"0=0 256=1 65536=2 {2**24}=3 {2**40}=4", f"remove 256, remove 65536, remove {2**24}, remove 0", ALL, range(60)),
    (f"{keys(5, 5, 65536)} 256=9", "remove 262144, remove 0, remove 256", "0 1000000 99", range(60)),
]

# A tree, and the key that is removed beside a range of all keys: leaves of 1, 2, 4, 13 and 37 entries, of which the last three
# shrink then; and a leaf whose removal is followed by two cleanups.
REMOVALS = [
    (keys(1, 1, 1), 0),
    (keys(2, 2, 1), 1),
    (keys(5, 4, 1), 3),
    (keys(17, 13, 1), 12),
    (keys(49, 37, 1), 36),
    ("0=0 256=1 65536=2 131072=3 196608=4 262144=5 -262144 -256", 0),
]
# The first of these trees are small enough that both calls are stopped at each place.
SMALL = 3
# The number of the first range; the calls beside have smaller ones.
FIRST = 10


def call_of(text):
    """A call, and what its closure answers."""
    words, _, answer = text.partition(": ")
    kind, *numbers = words.split()
    names = {"insert": ("key", "value"), "present": ("key",), "remove": ("key",), "cas": ("key", "old", "new")}[kind]
    return Op(kind, **dict(zip(names, map(number_or_none, numbers)))), number_or_none(answer) if answer else None


def range_of(text):
    key, end, limit = map(int, text.split())
    return Op("range", key, end=end, limit=limit)


def stopped(made, op, places):
    """Ranges that are each stopped after another count of events, as far as they have so many: their numbers."""
    ids = []
    for id, stop in enumerate(places, FIRST):
        made.start(id, op)
        made.steps(id, stop)
        if made.next(id) is None:
            break
        ids.append(id)
    return ids


def ended(made, ranges):
    for id in ranges:
        made.end(id)
    made.reclaim_all()
    return made


def beside(tree, calls, bounds, places):
    """Ranges stopped at their places, the calls one after another, and the end of the ranges."""
    made = on_tree(tree)
    ranges = stopped(made, range_of(bounds), places)
    for call in calls.split(", "):
        op, answer = call_of(call)
        made.whole(2, op, answer)
        made.reclaim_all()
    return ended(made, ranges)


def beside_removal(tree, key, stop, places):
    """Ranges stopped at their places, and a removal that is stopped; the ranges go on, then the removal ends, then they end."""
    made = on_tree(tree)
    ranges = stopped(made, range_of(ALL), places)
    made.start(2, remove(key))
    made.steps(2, stop)
    for id in ranges:
        # (a range may wait for the removal's locks)
        made.steps(id, 45)
    made.end(2)
    made.reclaim_all()
    return ended(made, ranges)


def length(tree, key):
    """How many steps the removal of a key has alone."""
    made = on_tree(tree)
    made.start(2, remove(key))
    count = 0
    while made.next(2) is not None:
        made.step(2)
        count += 1
    return count


def schedules():
    """Each schedule by its name."""
    for tree, calls, bounds, places in BESIDE:
        yield f"{calls} beside {bounds}", beside(tree, calls, bounds, places)
    for at, (tree, key) in enumerate(REMOVALS):
        steps = length(tree, key)
        yield f"the removal of {key}", beside_removal(tree, key, steps, range(95))
        for stop in range(steps):
            places = range(95 if at < SMALL else 1)
            yield f"the removal of {key}, stopped after {stop}", beside_removal(tree, key, stop, places)
