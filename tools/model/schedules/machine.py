"""The protocol's machine once more, slow and plain.

Written from docs/TEXTS.md and from the definitions in crates/spec_olc/specs, and from none of the crates' code. A call is a
generator: each `yield` names the event that comes next, and waits for it; what follows, up to the next `yield`, is done by that
event. So the functions below read as the calls go. No budget refuses a node here, as in `congee schedule`.
"""
from collections import namedtuple

LAST_NUMBER = 2**64 - 1
LAST_VERSION = 2**62 - 1
# The forms by their places, and with how few entries each of them is due.
FORMS = (4, 16, 48, 256)
FEW = {4: 0, 16: 3, 48: 12, 256: 36}

# A child: a value, or the node in a slot.
Value = namedtuple("Value", "value")
Slot = namedtuple("Slot", "slot")
# What a read reports.
Seen = namedtuple("Seen", "child count full")
# What an event brings: the child of a torn read, whether an upgrade fails, and a closure's answer.
Env = namedtuple("Env", "torn fail answer", defaults=(None, False, None))
PLAIN = Env()
# A call: of a range the key is its start.
Op = namedtuple("Op", "kind key value old new end limit", defaults=(None,) * 5)
# What an event did: the letter of its kind, the slot that it touched, whether it was ok, its outcome as (word, what), and what it
# read. The word is None, "ask", "pair", "decided" or "done".
Report = namedtuple("Report", "kind slot word ok outcome seen")


class Back(Exception):
    """The call goes back to the root, or, where it cleans up, ends that."""


def bytes_of(key):
    return key.to_bytes(8, "big")


def first_key(prefix):
    return int.from_bytes(prefix.ljust(8, b"\0"), "big")


def last_key(prefix):
    return int.from_bytes(prefix.ljust(8, b"\xff"), "big")


def number(value):
    return "none" if value is None else str(value)


def asks(op, current):
    return op.kind == "orinsert" or op.kind == "present" and current is not None


def applied(op, current, answer=None):
    """The reply of a call, as it is written, and the value after it, where the key has this value, or None."""
    if op.kind == "get":
        return number(current), current
    if op.kind == "insert":
        return f"ok {number(current)}", op.value
    if op.kind == "remove":
        return number(current), None
    if op.kind == "present":
        return ("none", None) if current is None else (f"{current} {number(answer)}", answer)
    if op.kind == "orinsert":
        return f"ok {number(current)}", op.value if answer is None else answer
    if current is None or current != op.old:
        return f"err {number(current)}", current
    return f"ok {number(op.new)}", op.new


class Node:
    def __init__(self, form, prefix, children):
        self.word = 0
        # "private", "published" or "retired"
        self.lifetime = "private"
        self.stamp = None
        self.form = form
        self.prefix = prefix
        self.children = children

    def is_full(self):
        # (the largest form never is)
        return len(self.children) == self.form < FORMS[-1]

    def is_due(self):
        return len(self.prefix) > 0 and len(self.children) <= FEW[self.form]


class Call:
    def __init__(self, op, pin):
        self.op = op
        self.pin = pin
        # the words that it remembers, and what it last read, since it was last at the root
        self.words = {}
        self.seen = None
        self.held = []
        # the length of the prefix of the node for which it has to clean up
        self.cleaning = None
        # of a range: the least key that it may still give, and how many pairs it has given
        self.cursor = op.key
        self.given = 0
        self.course = None
        # the event that comes next, as its kind and its slot
        self.next = None


class Way:
    """Where a call's way down ended: at the node, below its parent, in a case; and what it read there."""

    def __init__(self, case, above, node, prefix, seen):
        self.case = case
        self.above = above
        self.node = node
        self.prefix = prefix
        self.seen = seen


class Machine:
    def __init__(self):
        self.root = 0
        self.nodes = {0: Node(256, b"", {})}
        self.nodes[0].lifetime = "published"
        # slots that were freed, the next one to be taken last; the first one that never was taken
        self.free = []
        self.fresh = 1
        self.retirements = 0
        self.calls = {}
        self.report = None
        self.outcome = None

    # The events of a schedule: each returns a report, or None where it isn't enabled.

    def start(self, id, op):
        if id in self.calls:
            return None
        call = Call(op, self.retirements)
        self.calls[id] = call
        call.course = self.range_course(id, call) if op.kind == "range" else self.point_course(id, call)
        call.next = next(call.course)
        return Report("S", None, 0, True, None, None)

    def step(self, id, env=PLAIN):
        call = self.calls.get(id)
        if call is None:
            return None
        self.report = self.outcome = None
        call.next = call.course.send(env)
        kind, slot, word, ok = self.report
        return Report(kind, slot, word, ok, self.outcome, call.seen if kind == "R" else None)

    def reclaim(self, slot):
        node = self.nodes.get(slot)
        if node is None or node.lifetime != "retired" or node.stamp is None:
            return None
        if any(call.pin <= node.stamp for call in self.calls.values()):
            return None
        del self.nodes[slot]
        self.free.append(slot)
        return Report("X", slot, 0, True, None, None)

    def content(self):
        """The pairs of all reachable leaves, keys ascending."""
        pairs = []

        def walk(slot):
            node = self.nodes[slot]
            for byte in sorted(node.children):
                child = node.children[byte]
                if isinstance(child, Value):
                    pairs.append((first_key(node.prefix + bytes([byte])), child.value))
                else:
                    walk(child.slot)

        walk(self.root)
        return pairs

    # The kinds of events.

    def did(self, kind, slot, word=0, ok=True):
        self.report = (kind, slot, word, ok)

    def take(self, call, slot):
        yield "T", slot
        node = self.nodes[slot]
        ok = node.word % 4 == 0
        self.did("T", slot, node.word, ok)
        if not ok:
            raise Back
        call.words[slot] = node.word
        return node.prefix

    def check(self, call, slot):
        yield "C", slot
        ok = self.nodes[slot].word == call.words[slot]
        self.did("C", slot, ok=ok)
        if not ok:
            raise Back

    def read(self, call, slot, child_in):
        env = yield "R", slot
        node = self.nodes[slot]
        self.did("R", slot)
        if node.word != call.words[slot]:
            # (torn: the check that follows fails, since words never fall)
            call.seen = Seen(env.torn, 0, False)
            return None
        byte, child = child_in(node)
        call.seen = Seen(child, len(node.children), node.is_full())
        return byte

    def upgrade(self, call, slot):
        env = yield "U", slot
        node = self.nodes[slot]
        ok = node.word == call.words[slot] and node.word // 4 != LAST_VERSION and not env.fail
        self.did("U", slot, ok=ok)
        if ok:
            node.word += 2
            call.held.append(slot)
        return ok

    def make(self, call, form, prefix, children):
        yield "A", None
        if self.free:
            slot = self.free.pop()
        else:
            slot = self.fresh
            self.fresh += 1
        self.nodes[slot] = Node(form, prefix, children)
        self.did("A", slot)
        return slot

    def write(self, call, slot, child, made=()):
        yield "W", slot
        node = self.nodes[slot]
        byte = bytes_of(call.op.key)[len(node.prefix)]
        if child is None:
            del node.children[byte]
        else:
            node.children[byte] = child
        for it in made:
            self.nodes[it].lifetime = "published"
        self.did("W", slot)

    def obsolete(self, call, slot):
        yield "O", slot
        node = self.nodes[slot]
        node.word += 1
        node.lifetime = "retired"
        if self.retirements < LAST_NUMBER:
            node.stamp = self.retirements
            self.retirements += 1
        call.held.remove(slot)
        self.did("O", slot)

    def unlock(self, call, slot):
        yield "L", slot
        self.nodes[slot].word += 2
        call.held.remove(slot)
        self.did("L", slot)

    def ask(self, call, current):
        """The outcome of the check before, and then the answer."""
        self.outcome = ("ask", current)
        env = yield "Q", None
        self.did("Q", None)
        return env.answer

    def finish(self, id):
        yield "F", None
        del self.calls[id]
        self.did("F", None)
        self.outcome = ("done", None)
        yield None

    # What calls are made of.

    def forget(self, call):
        call.words = {}
        call.seen = None

    def way_down(self, call, length=None):
        """From the root along the key; where a length is given, to the node whose prefix has it."""
        key = bytes_of(call.op.key)
        above, node = None, self.root
        prefix = yield from self.take(call, node)
        while True:
            byte = key[len(prefix)]
            yield from self.read(call, node, lambda it: (byte, it.children.get(byte)))
            yield from self.check(call, node)
            seen = call.seen
            if len(prefix) == length:
                return Way("found", above, node, prefix, seen)
            if seen.child is None:
                return Way("absent", above, node, prefix, seen)
            if isinstance(seen.child, Value):
                return Way("present", above, node, prefix, seen)
            below = seen.child.slot
            below_prefix = yield from self.take(call, below)
            yield from self.check(call, node)
            if not key.startswith(below_prefix):
                return Way("mismatch", node, below, below_prefix, None)
            if length is not None and len(below_prefix) > length:
                return Way("longer", node, below, below_prefix, None)
            above, node, prefix = node, below, below_prefix

    def lock(self, call, slot):
        if not (yield from self.upgrade(call, slot)):
            raise Back

    def lock_both(self, call, above, node):
        yield from self.lock(call, above)
        if not (yield from self.upgrade(call, node)):
            yield from self.unlock(call, above)
            raise Back

    def retire(self, call, way):
        yield from self.obsolete(call, way.node)
        yield from self.unlock(call, way.above)

    def leave_due(self, call, slot):
        if self.nodes[slot].is_due():
            call.cleaning = len(self.nodes[slot].prefix)

    def decide(self, reply):
        self.outcome = ("decided", reply)

    # Point calls.

    def point_course(self, id, call):
        while True:
            try:
                yield from self.attempt(call)
                break
            except Back:
                self.forget(call)
        for _ in range(2):
            if call.cleaning is not None:
                length, call.cleaning = call.cleaning, None
                self.forget(call)
                try:
                    yield from self.clean_up(call, length)
                except Back:
                    break
        yield from self.finish(id)

    def attempt(self, call):
        op = call.op
        way = yield from self.way_down(call)
        current = way.seen.child.value if way.case == "present" else None
        answer, asked = None, asks(op, current)
        if asked:
            answer = yield from self.ask(call, current)
        reply, after = applied(op, current, answer)
        if after == current:
            if asked:
                yield from self.check(call, way.node)
            self.decide(reply)
        elif after is None:
            yield from self.removal(call, way, reply)
        elif way.case == "mismatch":
            yield from self.split(call, way, after, reply)
        elif way.case == "present" or not way.seen.full:
            yield from self.entry(call, way, after, reply)
        else:
            yield from self.growth(call, way, after, reply)

    def removal(self, call, way, reply):
        if way.seen.count > 1:
            yield from self.lock(call, way.node)
            yield from self.write(call, way.node, None)
            self.decide(reply)
            self.leave_due(call, way.node)
            yield from self.unlock(call, way.node)
            return
        yield from self.lock_both(call, way.above, way.node)
        yield from self.write(call, way.above, None)
        self.decide(reply)
        self.leave_due(call, way.above)
        yield from self.retire(call, way)

    def leaf(self, call, value):
        key = bytes_of(call.op.key)
        return (yield from self.make(call, 4, key[:7], {key[7]: Value(value)}))

    def entry(self, call, way, value, reply):
        yield from self.lock(call, way.node)
        if len(way.prefix) == 7:
            yield from self.write(call, way.node, Value(value))
        else:
            leaf = yield from self.leaf(call, value)
            yield from self.write(call, way.node, Slot(leaf), [leaf])
        self.decide(reply)
        yield from self.unlock(call, way.node)

    def growth(self, call, way, value, reply):
        yield from self.lock_both(call, way.above, way.node)
        old = self.nodes[way.node]
        child, made = Value(value), []
        if len(way.prefix) < 7:
            leaf = yield from self.leaf(call, value)
            child, made = Slot(leaf), [leaf]
        children = {**old.children, bytes_of(call.op.key)[len(way.prefix)]: child}
        larger = yield from self.make(call, FORMS[FORMS.index(old.form) + 1], way.prefix, children)
        yield from self.write(call, way.above, Slot(larger), [*made, larger])
        self.decide(reply)
        yield from self.retire(call, way)

    def split(self, call, way, value, reply):
        yield from self.lock_both(call, way.above, way.node)
        key = bytes_of(call.op.key)
        leaf = yield from self.leaf(call, value)
        same = next(at for at in range(8) if key[at] != way.prefix[at])
        children = {way.prefix[same]: Slot(way.node), key[same]: Slot(leaf)}
        middle = yield from self.make(call, 4, key[:same], children)
        yield from self.write(call, way.above, Slot(middle), [leaf, middle])
        self.decide(reply)
        yield from self.unlock(call, way.node)
        yield from self.unlock(call, way.above)

    def clean_up(self, call, length):
        way = yield from self.way_down(call, length)
        if way.case != "found":
            return
        yield from self.lock_both(call, way.above, way.node)
        node = self.nodes[way.node]
        if way.seen.count == 0:
            yield from self.write(call, way.above, None)
            self.leave_due(call, way.above)
            yield from self.retire(call, way)
        elif node.is_due():
            form = FORMS[FORMS.index(node.form) - 1]
            smaller = yield from self.make(call, form, node.prefix, dict(node.children))
            yield from self.write(call, way.above, Slot(smaller), [smaller])
            yield from self.retire(call, way)
        else:
            yield from self.unlock(call, way.node)
            yield from self.unlock(call, way.above)

    # Ranges.

    def range_course(self, id, call):
        more = call.op.key < call.op.end and call.op.limit > 0
        while more:
            try:
                more = yield from self.search(call)
            except Back:
                pass
            self.forget(call)
        yield from self.finish(id)

    def search(self, call):
        """From the root to where the range begins again there (true), or has all its pairs (false)."""
        op, node = call.op, self.root
        prefix = yield from self.take(call, node)
        while True:
            inside = bytes_of(call.cursor).startswith(prefix)
            bound = bytes_of(call.cursor)[len(prefix)] if inside else 0
            byte = yield from self.read(call, node, lambda it: first_from(it, bound))
            yield from self.check(call, node)
            child = call.seen.child
            if child is None:
                return self.pass_over(call, prefix)
            here = prefix + bytes([byte])
            if isinstance(child, Value):
                key = first_key(here)
                if key >= op.end:
                    return False
                self.outcome = ("pair", (key, child.value))
                call.given += 1
                call.cursor = key + 1
                if call.given == op.limit or call.cursor >= op.end:
                    return False
                if not bytes_of(call.cursor).startswith(prefix):
                    return True
                continue
            below_prefix = yield from self.take(call, child.slot)
            yield from self.check(call, node)
            if call.cursor > last_key(below_prefix):
                return self.pass_over(call, here)
            node, prefix = child.slot, below_prefix

    def pass_over(self, call, prefix):
        """The range goes on above all keys with this prefix, if there it may."""
        above = last_key(prefix) + 1
        if above >= call.op.end:
            return False
        call.cursor = above
        return True


def first_from(node, bound):
    byte = min((it for it in node.children if it >= bound), default=None)
    return byte, node.children.get(byte)
