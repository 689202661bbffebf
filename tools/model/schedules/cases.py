"""Cases on trees that need each tail: calls alone, upgrades that fail, reads that are torn, reclaims beside two calls."""
import functools
import itertools

from .machine import LAST_NUMBER, Env, Op, Slot, Value, first_key
from .schedule import Schedule, insert, remove

# Keys of which each has one byte more in common with 0 than the next one.
SEVEN = [2 ** (8 * it) for it in range(1, 7)]

# The tails: the keys that are inserted before, those of them that are then removed, and the key of the call. All are relative to
# a place below the root.
TAILS = {
    "below the root": ([], [], 1),
    "a leaf with room": ([1], [], 2),
    "a full leaf of 4": (range(4), [], 4),
    "a full leaf of 16": (range(16), [], 16),
    "a full leaf of 48": (range(48), [], 48),
    "an inner node with room": ([1, 256], [], 512),
    "a full inner node of 4": (range(0, 1024, 256), [], 1024),
    "a full inner node of 16": (range(0, 4096, 256), [], 4096),
    "a full inner node of 48": (range(0, 48 * 256, 256), [], 48 * 256),
    "a split of a leaf": ([1], [], 256),
    "a split of an inner node": ([1, 256], [], 65536),
    "a split far up": ([1, 256], [], 2**48),
    "a pair of two": ([1, 2], [], 1),
    "the pair of a leaf below the root": ([1], [], 1),
    "the pair of a leaf": ([1, 256], [], 1),
    "the last pair below a node": ([1, 256], [256], 1),
    "an emptied node": ([1, 256], [256], 256),
    "a leaf of 16 with few": (range(5), [4], 3),
    "a leaf of 48 with few": (range(17), range(13, 17), 12),
    "a leaf of 256 with few": (range(49), range(37, 49), 36),
    "an inner node of 16 with few": (range(0, 1280, 256), [1024], 0),
    "an inner node of 48 with few": (range(0, 17 * 256, 256), range(13 * 256, 17 * 256, 256), 0),
    "two cleanups": ([1, 256, *range(65536, 6 * 65536, 65536)], [256, 4 * 65536, 5 * 65536], 1),
    "two cleanups and never a third": (
        [1, 256, 65536, *range(2**24, 6 * 2**24, 2**24)],
        [256, 65536, 4 * 2**24, 5 * 2**24],
        1,
    ),
    # (with the root there are eight nodes on the way)
    "a full leaf below seven nodes": ([0, 1, 2, 3, *SEVEN], [], 4),
    "two cleanups below seven nodes": ([0, *SEVEN, 2 * 2**16, 3 * 2**16, 4 * 2**16], [4 * 2**16, 2**8], 0),
}


def calls_on(key):
    """Each kind of call on a key, with what its closure answers."""
    # (the value of each pair that is inserted before is its key's last byte and 100)
    value = 100 + key % 256
    yield Op("get", key), None
    yield insert(key, value), None
    yield insert(key, 7), None
    yield remove(key), None
    for answer in (None, value, 9):
        yield Op("present", key), answer
        yield Op("orinsert", key, value if answer is None else 8), answer
    yield Op("cas", key, old=value, new=value), None
    yield Op("cas", key, old=value, new=11), None
    yield Op("cas", key, old=value, new=None), None
    yield Op("cas", key, old=1, new=11), None
    base = key - key % 2**56
    yield Op("range", base, end=min(base + 2**56, LAST_NUMBER), limit=3), None
    yield Op("range", key, end=min(key + 2, LAST_NUMBER), limit=9), None


def elsewhere(key):
    """Calls on other keys near a key: they fill its leaf or the nodes above it, empty them, or put a node between or beside."""
    base = key - key % 2**56
    yield Op("orinsert", base + 256, 99), 98
    for other in (0, 40, 1280, 262144, 2**24, 2**48):
        yield insert(base + other, 99), None
    for other in (0, 65536):
        yield remove(base + other), None


def calls_near(key):
    """Each kind of call on a key and on the next one, and those elsewhere."""
    return [*calls_on(key), *calls_on(key + 1), *elsewhere(key)]


class Places:
    """Trees side by side in one schedule, each below an own byte of the root."""

    def __init__(self):
        self.schedule = Schedule()
        self.place = 0
        self.slots = None

    def has_room(self):
        return self.place < 250 and self.schedule.has_room()

    def tree(self, tail):
        """A new tree for a tail: the key of its call."""
        put, taken, key = TAILS[tail]
        base = self.place << 56
        self.place += 1
        for it in put:
            self.schedule.whole(1, insert(base + it, 100 + it % 256))
        for it in taken:
            self.schedule.whole(1, remove(base + it))
        self.schedule.reclaim_all()
        return base + key

    def nameable(self):
        """Slots of each kind are made, so that a torn read may name them."""
        self.slots = self.slots or Slots(self.schedule)
        self.slots.prepare()


CALLS = len(list(calls_on(0)))
NEAR = len(calls_near(0))


@functools.lru_cache(maxsize=None)
def course_and_reply(tail, at):
    """What a call alone does on a tree: the kinds of its events, and its replies. The calls are numbered as in `calls_near`."""
    places = Places()
    op, answer = calls_near(places.tree(tail))[at]
    schedule, kinds, replies = places.schedule, [], []
    schedule.start(2, op)
    while schedule.next(2) is not None:
        kinds.append(schedule.next(2)[0])
        report = schedule.step(2, Env(answer=answer))
        replies += [report.outcome[1]] if report.outcome is not None and report.outcome[0] == "decided" else []
    return kinds, replies


def course(tail, at):
    return course_and_reply(tail, at)[0]


def each_event(kind):
    """Each place of this kind of event, in each call on each tail: the tail, the call's number and the place."""
    calls = itertools.product(TAILS, range(CALLS))
    return [(tail, at, place) for tail, at in calls for place, it in enumerate(course(tail, at)) if it == kind]


def with_own_courses(tail, calls):
    """Of these calls the first of each kind with its course and its replies."""

    def told(at):
        kinds, replies = course_and_reply(tail, at)
        return calls_near(0)[at][0].kind, *kinds, *replies

    return sorted({told(at): at for at in reversed(calls)}.values())


def stored_below(machine, slot):
    """The keys below a node."""
    node = machine.nodes[slot]
    for byte, child in sorted(node.children.items()):
        if isinstance(child, Slot):
            yield from stored_below(machine, child.slot)
        else:
            yield first_key(node.prefix + bytes([byte]))


def disturbances(machine, slot):
    """Calls that may change the word of the node in a slot."""
    node = machine.nodes[slot]
    if len(node.prefix) == 0:
        # (a byte of the root below which there is no tree)
        yield insert(first_key(bytes([255])), 55)
        yield remove(first_key(bytes([255])))
        return
    free = [byte for byte in range(255, -1, -1) if byte not in node.children]
    for key in list(stored_below(machine, slot))[:2]:
        yield insert(key, 56)
        yield remove(key)
    if free:
        yield insert(first_key(node.prefix + bytes([free[0]])), 57)


def disturb(schedule, slot, which, stop):
    """Call 3 changes the word of the node in the slot, and ends; or stops so many events later, if it has not ended by then."""
    machine = schedule.machine
    ways = list(disturbances(machine, slot))
    word = machine.nodes[slot].word
    for op in [*ways[which % len(ways) :], *ways]:
        schedule.start(3, op)
        while schedule.next(3) is not None and machine.nodes[slot].word == word:
            schedule.step(3)
        if stop is None:
            schedule.end(3)
        elif machine.nodes[slot].word != word:
            schedule.steps(3, stop)
        if slot not in machine.nodes or machine.nodes[slot].word != word:
            return


def about_to_lock(schedule, slot, which):
    """Call 3 is started and goes on until it is about to lock this node, before any other: whether there is such a call."""
    ways = list(disturbances(schedule.machine, slot))
    for op in [*ways[which % len(ways) :], *ways]:
        schedule.start(3, op)
        while schedule.next(3) is not None and schedule.next(3)[0] != "U":
            schedule.step(3)
        if schedule.next(3) == ("U", slot):
            return True
        schedule.end(3)
    return False


# How an upgrade fails: by the schedule (None); or since another call, one of several, has changed the word, and has ended (None)
# or still holds the node so many events later.
UPGRADES = [None] + list(itertools.product(range(3), (None, 0, 1, 2)))


def failed_upgrade(places, tail, at, place, how):
    """A call, an upgrade of which fails."""
    schedule = places.schedule
    op, answer = list(calls_on(places.tree(tail)))[at]
    schedule.start(2, op)
    is_second = course(tail, at)[place - 1] == "U"
    schedule.steps(2, place - is_second, answer)
    if how is None:
        schedule.steps(2, is_second)
        schedule.step(2, Env(fail=True))
    elif is_second:
        # (the node below the one that this upgrade locks)
        above = schedule.next(2)[1]
        below = next(it for it in reversed(schedule.machine.calls[2].words) if it != above)
        if about_to_lock(schedule, below, how[0]):
            schedule.step(2)
            schedule.step(3)
            schedule.steps(3, 2 if how[1] is None else how[1])
    else:
        disturb(schedule, schedule.next(2)[1], *how)
    # (so that the call meets one that still holds the node)
    schedule.steps(2, 30, answer)
    schedule.end(3)
    schedule.end(2, answer)
    schedule.reclaim_all()


class Slots:
    """Slots of each kind that a torn read may name."""

    KINDS = ("none", "value", "free", "retired", "private", "itself", "above", "root", "absent", "anew", "huge")

    def __init__(self, schedule):
        self.schedule = schedule
        # a tree in which call 4 stops before it links its leaf, and one of which leaves are retired
        self.private = (254 << 56) + 2**41
        self.retired = (253 << 56) + 2**41
        for key in (254 << 56, (254 << 56) + 2**40, 253 << 56, (253 << 56) + 2**40):
            schedule.whole(4, insert(key, 1))

    def prepare(self):
        """Of two retired slots one may be reclaimed once call 2 has started, the other not before call 4 has ended."""
        schedule = self.schedule
        schedule.end(4)
        for key in (self.private, self.retired, self.retired + 2**41):
            schedule.whole(4, remove(key))
        schedule.reclaim_all()
        for key in (self.retired, self.retired + 2**41):
            schedule.whole(5, insert(key, 1))
        schedule.whole(5, remove(self.retired))
        self.first = schedule.retired()[0]
        schedule.start(4, insert(self.private, 1))
        while schedule.next(4)[0] != "W":
            schedule.step(4)
        schedule.whole(5, remove(self.retired + 2**41))

    def make_anew(self):
        """A slot that was retired before call 2 started is reclaimed, and is then a new node's."""
        self.schedule.reclaim(self.first)
        self.schedule.whole(5, insert(self.retired, 1))
        return Slot(self.first)

    def child(self, kind, slot, above):
        """The child that a torn read of the node in this slot reports."""
        machine = self.schedule.machine
        having = {it.lifetime: slot for slot, it in machine.nodes.items()}
        return {
            "none": lambda: None,
            "value": lambda: Value(999),
            "free": lambda: Slot(machine.free[-1] if machine.free else machine.fresh),
            "retired": lambda: Slot(having["retired"]),
            "private": lambda: Slot(having["private"]),
            "itself": lambda: Slot(slot),
            "above": lambda: Slot(above),
            "root": lambda: Slot(machine.root),
            "absent": lambda: Slot(machine.fresh + 77),
            "anew": self.make_anew,
            "huge": lambda: Slot(LAST_NUMBER),
        }[kind]()


TORN = list(itertools.product(range(3), (None, 0, 1, 2)))


def torn_read(places, tail, at, place, kind, how):
    """A call, a read of which is torn by another call, and reports a slot of this kind."""
    schedule = places.schedule
    op, answer = list(calls_on(places.tree(tail)))[at]
    places.nameable()
    schedule.start(2, op)
    schedule.steps(2, place, answer)
    slot = schedule.next(2)[1]
    disturb(schedule, slot, *how)
    above = [*schedule.machine.calls[2].words][-2:][0]
    schedule.step(2, Env(torn=places.slots.child(kind, slot, above)))
    schedule.steps(2, 12, answer)
    schedule.end(3)
    schedule.end(2, answer)
    # (the calls of `places.slots`, of which the second one may have waited for call 3)
    schedule.end(4)
    schedule.end(5)
    schedule.reclaim_all()


# The trees on which every two calls are stopped in one another: leaves of one and of two pairs, on which that is tried whole, and
# others.
SMALL = ("the pair of a leaf below the root", "a pair of two")
BESIDE = (
    *SMALL,
    "below the root",
    "a leaf with room",
    "the pair of a leaf",
    "a full leaf of 4",
    "a full inner node of 4",
    "a split of a leaf",
    "the last pair below a node",
    "a leaf of 16 with few",
    "a leaf of 48 with few",
    "a leaf of 256 with few",
    "two cleanups",
)
# More events than a call has.
WHOLE = 150


def two_calls(places, tail, first, stop, second, other_stop, reclaims):
    """
    A call stops, then another one stops, then both end. Where it `reclaims`, each retired slot is reclaimed after each of their
    events, as soon as it may be.
    """
    schedule = places.schedule
    calls = calls_near(places.tree(tail))

    def go_on(id, answer, count):
        for _ in range(count):
            if schedule.next(id) is None:
                return
            schedule.step(id, Env(answer=answer))
            if reclaims:
                schedule.reclaim_all()

    (op, answer), (other, other_answer) = calls[first], calls[second]
    schedule.start(1, op)
    go_on(1, answer, stop)
    schedule.start(2, other)
    go_on(2, other_answer, other_stop)
    go_on(1, answer, 60)
    # (the first call may have waited for the second one's lock)
    go_on(2, other_answer, WHOLE)
    schedule.end(1, answer)
    schedule.end(2, other_answer)
    schedule.reclaim_all()


def call_alone(places, tail, at):
    op, answer = list(calls_on(places.tree(tail)))[at]
    places.schedule.whole(2, op, answer)


def drawn(rng, *lists):
    """One of each list: all choices in order, or, by a random number generator, choices without end."""
    if rng is None:
        return itertools.product(*lists)
    return ([rng.choice(it) for it in lists] for _ in itertools.count())


def alone(rng):
    """Each course that a call may take alone, on each tail: always all of them."""
    for tail in TAILS:
        for at in with_own_courses(tail, range(CALLS)):
            yield call_alone, (tail, at)


def upgrades(rng):
    """Each upgrade fails: by the schedule always all of them, and by other calls."""
    events = each_event("U")
    yield from ((failed_upgrade, (*event, None)) for event in events)
    for event, how in drawn(rng, events, UPGRADES[1:]):
        yield failed_upgrade, (*event, how)


def torn(rng):
    for event, kind, how in drawn(rng, each_event("R"), Slots.KINDS, TORN):
        yield torn_read, (*event, kind, how)


def stops(tail, calls):
    """Each place of each of these calls."""
    return [(tail, at, stop) for at in calls for stop in range(len(course(tail, at)))]


# Some calls by their numbers on a key, as `calls_on` has them, and how many numbers further they are on the next key.
GET, STORE, REMOVE, TAKE, KEEP, FILL, CHANGE, ADD, SWAP_OUT, MISS = 0, 2, 3, 4, 6, 5, 8, 9, 12, 13
ON_NEXT = CALLS
REMOVALS = (REMOVE, TAKE, SWAP_OUT)
INSERTIONS = [at for at, (op, _) in enumerate(calls_near(0)) if op.kind == "insert"]
# Two calls of which each changes what the other has read, or takes its node away.
RIVALS = [
    (REMOVE, STORE),
    (REMOVE, ON_NEXT + ADD),
    (TAKE, ON_NEXT + STORE),
    (CHANGE, KEEP),
    (SWAP_OUT, REMOVE),
    (FILL, TAKE),
]
# Calls that are made whole at each place of calls, on trees where that is always tried for all of them.
WHOLE_AT_EACH = [
    *((tail, with_own_courses(tail, range(CALLS)), with_own_courses(tail, range(2 * CALLS))) for tail in SMALL),
    ("below the root", [STORE], INSERTIONS),
    ("a leaf with room", [STORE], INSERTIONS),
    ("a full leaf of 4", [STORE], INSERTIONS),
    ("a full inner node of 4", [STORE], INSERTIONS),
    ("a split of a leaf", [STORE], INSERTIONS),
    ("a leaf of 16 with few", REMOVALS, [*REMOVALS, NEAR - 2]),
]
# Calls at whose places others retire a leaf, which is reclaimed as soon as it may be.
RETIRING = [
    ("the pair of a leaf below the root", [GET, ON_NEXT + GET, MISS], REMOVALS),
    ("a full leaf of 4", [GET, ON_NEXT + GET, MISS], [STORE, ADD]),
]


def beside(rng):
    """A call is made whole at each place of another one, or both are stopped."""
    for tail, firsts, seconds in WHOLE_AT_EACH:
        for event, other in itertools.product(stops(tail, firsts), seconds):
            yield two_calls, (*event, other, WHOLE, False)
    for first, second in RIVALS:
        for event, stop in itertools.product(stops(SMALL[0], [first]), range(len(course(SMALL[0], second)))):
            yield two_calls, (*event, second, stop, False)
    events = [event for tail in BESIDE for event in stops(tail, range(NEAR))]
    for event, other in drawn(rng, events, range(NEAR)):
        yield two_calls, (*event, other, WHOLE, False)


def reclaims(rng):
    """Two calls, both stopped; after each of their events each retired slot is reclaimed, where it may be."""
    for tail, firsts, seconds in RETIRING:
        for event, other in itertools.product(stops(tail, firsts), seconds):
            yield two_calls, (*event, other, WHOLE, True)
    events = [event for tail in BESIDE for event in stops(tail, range(NEAR))]
    for event, other, stop in drawn(rng, events, range(NEAR), range(40)):
        yield two_calls, (*event, other, stop, True)
