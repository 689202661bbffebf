"""The theorem on schedules, of a replay, tested event by event against a plain dict.

Each call is decided once between its start and its end, and replies as the dict does then; a closure is asked with the current
value; each range gives pairs that are stored, ascending, and leaves out none that was stored throughout; no step touches a node
that its call wasn't led to, or that was freed since; no node has two holders; a call alone ends within its bound.
"""
from .machine import Slot, Value, applied, asks

CLEANING = ("remove", "present", "cas")
# How many events a call alone takes at most: from its start on, and from anywhere; of one that may clean up the second ones.
FROM_ITS_START = (40, 100)
FROM_ANY_EVENT = (80, 200)
# Up to so many pairs and nodes the whole machine is compared after each write; above, after some.
FEW_PAIRS = 40
SOME = 61


class Broken(Exception):
    """A promise of the theorem that the replay doesn't keep."""


def need(holds, what):
    if not holds:
        raise Broken(what)


class Pending:
    def __init__(self, op, stored, others):
        self.op = op
        self.decided = False
        # the last question to its closure, and the answer to that, each in a list of one
        self.asked = None
        self.answer = None
        # the slots that it was led to
        self.live = set()
        # its events; those of others when it last had one; its own since it was alone, and whether it always was
        self.events = 1
        self.others = others
        self.run = 0
        self.always_alone = True
        # of a range: the keys that were stored throughout, and those that it gave
        self.throughout = {key for key in stored if op.kind == "range" and op.key <= key < op.end}
        self.given = []


class Watch:
    """Called after each event of a machine, with the event and its report."""

    def __init__(self):
        self.map = {}
        self.pending = {}
        self.steps = 0
        self.writes = 0

    def __call__(self, machine, event, report):
        if report is None:
            return
        if event[0] == "start":
            need(event[1] not in self.pending, "a call starts twice")
            self.pending[event[1]] = Pending(event[2], self.map, self.steps)
        elif event[0] == "step":
            self.step(machine, event[1], event[2], report)
        else:
            for it in self.pending.values():
                it.live.discard(event[1])

    def step(self, machine, id, env, report):
        call = self.pending[id]
        call.events += 1
        self.touched(machine, id, call, report)
        self.alone(machine, id, call, env, report)
        if report.outcome is not None:
            word, what = report.outcome
            getattr(self, word)(id, call, report, what)
        if report.kind == "Q":
            call.answer = [env.answer]
        if report.kind in "UAWOL":
            self.writes += 1
            if len(machine.nodes) <= FEW_PAIRS and len(self.map) <= FEW_PAIRS or self.writes % SOME == 0:
                self.whole(machine)

    def touched(self, machine, id, call, report):
        slot = report.slot
        need(slot is None or slot in machine.nodes, f"{report} touches a slot that is free")
        if report.kind == "A":
            call.live.add(slot)
        elif slot is not None:
            need(slot == machine.root or slot in call.live, f"{report} touches a slot that it wasn't led to")
        # (what a torn read reports leads nowhere)
        if report.kind == "R" and machine.nodes[slot].word == machine.calls[id].words.get(slot):
            if isinstance(report.seen.child, Slot):
                call.live.add(report.seen.child.slot)

    def alone(self, machine, id, call, env, report):
        self.steps += 1
        others = self.steps - call.events + 1
        held = any(other.held for number, other in machine.calls.items() if number != id)
        if call.others != others or held or report.kind == "U" and env.fail:
            call.run = 0
            call.always_alone = False
        call.others = others
        call.run += 1
        if call.op.kind != "range":
            cleans = call.op.kind in CLEANING
            ended = report.kind == "F"
            need(call.run + (not ended) <= FROM_ANY_EVENT[cleans], f"{call.op} alone doesn't end")
            if call.always_alone:
                need(call.events + (not ended) <= FROM_ITS_START[cleans], f"{call.op} alone from its start doesn't end")

    def ask(self, id, call, report, old):
        need(not call.decided, "a decided call asks its closure")
        need(old == self.map.get(call.op.key), "a closure is asked with a value that isn't current")
        call.asked, call.answer = [old], None

    def decided(self, id, call, report, reply):
        op = call.op
        need(op.kind != "range" and not call.decided, "a call is decided twice, or a range is")
        need(report.kind in "CW" and report.ok, "a call is decided by an event that decides none")
        current = self.map.get(op.key)
        if asks(op, current):
            need(call.asked == [current] and call.answer is not None, "a call is decided before its closure has answered")
        wanted, after = applied(op, current, call.answer[0] if call.answer else None)
        need(reply == wanted, f"{op} replies {reply}, and the map {wanted}")
        call.decided = True
        if after is not None:
            self.map[op.key] = after
            return
        self.map.pop(op.key, None)
        for it in self.pending.values():
            it.throughout.discard(op.key)

    def pair(self, id, call, report, pair):
        op, (key, value) = call.op, pair
        need(op.kind == "range" and report.kind == "C" and report.ok, "a pair is given by another event than a range's check")
        need(self.map.get(key) == value, "a pair is given that isn't stored")
        need(op.key <= key < op.end and (not call.given or call.given[-1] < key), "keys aren't in order or not in the range")
        need(len(call.given) < op.limit, "a range gives more than its limit")
        call.given.append(key)

    def done(self, id, call, report, what):
        del self.pending[id]
        if call.op.kind != "range":
            need(call.decided, "a call ends undecided")
            return
        # (all pairs given have smaller keys than one left out, or the range had to give that)
        left = call.throughout.difference(call.given)
        full = len(call.given) == call.op.limit
        need(not left or full and call.given[-1:] < [min(left)], "a range leaves out a key that was stored throughout")

    def whole(self, machine):
        """The content is the map, and words, lifetimes and holders agree."""
        need(machine.content() == sorted(self.map.items()), "the content isn't the map")
        holders = [slot for call in machine.calls.values() for slot in call.held]
        need(len(holders) == len(set(holders)), "a node has two holders")
        reached = [machine.root]
        for slot in reached:
            node = machine.nodes[slot]
            need(len(node.children) <= node.form, "a node has more children than places")
            for byte, child in node.children.items():
                need(isinstance(child, Value) == (len(node.prefix) == 7), "a leaf has a node, or an inner node a value")
                if isinstance(child, Slot):
                    reached.append(child.slot)
                    below = machine.nodes[child.slot].prefix
                    need(below.startswith(node.prefix + bytes([byte])), "a child's prefix doesn't begin with its place")
        need(len(reached) == len(set(reached)), "a node is reached in two ways")
        for slot, node in machine.nodes.items():
            locked, obsolete = node.word // 2 % 2 == 1, node.word % 2 == 1
            need(obsolete == (node.lifetime == "retired"), "an obsolete node isn't retired, or a retired one not obsolete")
            need(not obsolete or locked, "an obsolete node isn't locked")
            need((locked and not obsolete) == (slot in holders), "a locked node has no holder, or a free one has one")
            need((slot in reached) <= (node.lifetime == "published"), "a node is reached that isn't published")
            need(node.lifetime != "published" or locked or slot in reached, "a free published node isn't reached")
