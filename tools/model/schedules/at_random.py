"""Random schedules, each by a seed."""
import random

from .machine import LAST_NUMBER, PLAIN, Env, Op, Slot, Value
from .schedule import NOBODY, Schedule, insert, remove


def keys_few(rng):
    """A few keys in one leaf or two."""
    base = rng.choice((0, 2**56, 2**64 - 2**56)) + rng.choice((0, 256, 2**40))
    return [base + it for it in rng.sample((0, 1, 2, 3, 4, 5, 255, 256, 511, 65536), rng.randint(2, 6))]


def keys_deep(rng):
    """Keys that part at all places."""
    bytes_ = rng.sample(range(256), 2) + [0, 255]
    return [int.from_bytes(bytes(rng.choice(bytes_) for _ in range(8)), "big") for _ in range(rng.randint(4, 24))]


def keys_wide(rng):
    """Keys of one large leaf, or of one large inner node."""
    by = rng.choice((1, 256, 2**16, 2**48))
    return [it * by for it in rng.sample(range(256), rng.choice((6, 20, 60, 200)))]


def keys_ends(rng):
    """The least and the greatest keys."""
    return [0, 1, 255, 256, LAST_NUMBER, LAST_NUMBER - 1, LAST_NUMBER - 255, LAST_NUMBER - 256, 2**63, 2**63 - 1]


def keys_levels(rng):
    """36 keys in leaves and nodes on several levels."""
    return [base + by * it for base, by in ((0, 1), (256, 1), (2**16, 1), (2**40, 1), (2**40, 256), (0, 2**56)) for it in range(6)]


KEYS = (keys_few, keys_few, keys_deep, keys_wide, keys_ends, keys_levels)


def random_op(rng, keys, values, ranges):
    key, value = rng.choice(keys), rng.choice(values)
    kind = rng.choices(("get", "insert", "remove", "present", "orinsert", "cas", "range"), (2, 5, 5, 2, 2, 3, ranges))[0]
    if kind == "cas":
        return Op(kind, key, old=rng.choice(values), new=rng.choice([*values, None, None]))
    if kind == "range":
        end = rng.choice([rng.choice(keys), min(rng.choice(keys) + 1, LAST_NUMBER), LAST_NUMBER])
        return Op(kind, rng.choice([0, key, max(key - 1, 0)]), end=end, limit=rng.choice((0, 1, 2, 9, 1000, LAST_NUMBER)))
    return Op(kind, key, value if kind in ("insert", "orinsert") else None)


def random_torn(rng, machine):
    kind = rng.randrange(5)
    if kind == 0:
        return Value(rng.randrange(5))
    if kind == 1:
        return Slot(rng.randrange(machine.fresh + 3))
    if kind == 2:
        return Slot(rng.choice([0, LAST_NUMBER, 2**32, 2**63]))
    if kind == 3 and machine.free:
        return Slot(rng.choice(machine.free))
    return None


def random_env(rng, schedule, id, odds, values):
    """What the next event of a call brings: mostly what its kind uses."""
    kind = schedule.next(id)[0]
    if rng.random() < odds["strange"]:
        kind = rng.choice("RUQ")
    if kind == "U" and rng.random() < odds["fail"]:
        return Env(fail=True)
    if kind == "R" and rng.random() < odds["torn"]:
        return Env(torn=random_torn(rng, schedule.machine))
    if kind == "Q":
        return Env(answer=rng.choice([*values, None]))
    return PLAIN


def random_other(rng, schedule, ids):
    """An event that mostly isn't enabled."""
    kind = rng.randrange(4)
    if kind == 0:
        schedule.reclaim(rng.choice([0, rng.randrange(schedule.machine.fresh + 2), LAST_NUMBER]))
    elif kind == 1:
        schedule.step(rng.choice([NOBODY, *ids]))
    else:
        schedule.reclaim_all()


def schedule(seed, events):
    """A schedule of at least so many events: calls start, go on for a while each, and meet."""
    rng = random.Random(seed)
    made = Schedule()
    keys = rng.choice(KEYS)(rng)
    values = [1, 2, rng.choice((3, LAST_NUMBER))]
    ids = rng.sample((0, 1, 2, 3, 4, 5, 2**32, LAST_NUMBER - 1), rng.choice((1, 2, 2, 3, 3, 4, 6)))
    odds = {
        "strange": rng.choice((0, 0.02)),
        "fail": rng.choice((0, 0.05, 0.3)),
        "torn": rng.choice((0, 0.2, 1)),
        "other": rng.choice((0.005, 0.05, 0.2)),
    }
    # of 19 calls and so many ranges each is as likely
    ranges = rng.choice((2, 2, 20))
    # how long a call goes on, and how long calls mostly come and mostly go
    burst, tide = rng.choice((1, 3, 10, 40)), rng.choice((50, 300, 2000))
    while made.events < events:
        if rng.random() < odds["other"]:
            random_other(rng, made, ids)
            continue
        id = rng.choice(ids)
        if made.next(id) is None:
            op = random_op(rng, keys, values, ranges)
            # (in turn few pairs are left, and many)
            if op.kind in ("insert", "remove") and rng.random() < 0.7:
                op = remove(op.key) if made.events // tide % 2 else insert(op.key, rng.choice(values))
            made.start(id, op)
        for _ in range(1 + int(rng.expovariate(1 / burst))):
            if made.next(id) is None:
                break
            made.step(id, random_env(rng, made, id, odds, values))
    # (one after another, since a call may wait for another one's lock)
    while any(made.next(id) is not None for id in ids):
        for id in ids:
            made.steps(id, 50, rng.choice(values))
    made.reclaim_all()
    return made
