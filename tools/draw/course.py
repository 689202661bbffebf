"""What follows from the events of a trace, by one walk: calls, what each holds, torn reads, and the life of each node.

A node's lock word is 0 when it is made; an Upgrade that succeeds and an Unlock add 2 to it, an Obsolete 1. So a Read is torn
where the word isn't the one that its call took last. An event's *place* is its number less 1.
"""
from dataclasses import dataclass, field
from typing import List, Optional

from draw.trace import BadTrace


@dataclass
class Hold:
    """A node that a call has locked, from one place to another; the last one is missing where the trace ends before."""
    slot: int
    first: int
    last: Optional[int] = None


@dataclass
class Call:
    number: int
    text: str
    first: int
    last: Optional[int] = None
    reply: Optional[str] = None
    holds: List[Hold] = field(default_factory=list)
    # the places at which it took the root's word: at first, where it began again, and for each cleanup
    descents: List[int] = field(default_factory=list)


@dataclass
class Life:
    """A node of a slot: the places at which it was made, published, retired, and reclaimed or dropped."""
    slot: int
    made: Optional[int] = None
    published: Optional[int] = None
    retired: Optional[int] = None
    ended: Optional[int] = None


class Course:
    def __init__(self, events):
        self.events, self.calls, self.lives = events, [], []
        self.torn, self.again, self.cleanups = set(), set(), set()
        self.root = next((event.slot for event in events if event.kind == "T"), 0)
        self.in_flight, self.nodes, self.private = {}, {}, {}
        self.words, self.taken = {}, {}
        self.live(Life(self.root))
        ways = {"S": self.start, "T": self.take, "R": self.read, "U": self.upgrade, "A": self.make, "W": self.write}
        ways.update({"O": self.obsolete, "L": self.release, "F": self.finish, "X": self.reclaim})
        for place, event in enumerate(events):
            if event.is_skipped:
                continue
            self.judge(event)
            if event.kind in ways:
                ways[event.kind](place, event)
            self.outcome(place, event)

    def judge(self, event):
        if event.kind == "S" and event.call in self.in_flight:
            raise BadTrace(event.line, f"call {event.call} starts, and hasn't ended")
        if event.kind not in "SX" and event.call not in self.in_flight:
            raise BadTrace(event.line, f"call {event.call} hasn't started")

    def live(self, life):
        self.lives.append(life)
        self.nodes[life.slot] = life
        self.words[life.slot] = 0

    def start(self, place, event):
        call = Call(event.call, event.text, place)
        self.calls.append(call)
        self.in_flight[event.call] = call

    def take(self, place, event):
        self.taken[event.call, event.slot] = event.word
        call = self.in_flight[event.call]
        if event.slot == self.root:
            if call.descents:
                (self.cleanups if call.reply else self.again).add(place)
            call.descents.append(place)

    def read(self, place, event):
        if self.taken.get((event.call, event.slot)) != self.words.get(event.slot):
            self.torn.add(place)

    def upgrade(self, place, event):
        if not event.has_failed:
            self.words[event.slot] = self.words.get(event.slot, 0) + 2
            self.in_flight[event.call].holds.append(Hold(event.slot, place))

    def release(self, place, event):
        self.words[event.slot] = self.words.get(event.slot, 0) + (1 if event.kind == "O" else 2)
        for hold in self.in_flight[event.call].holds:
            if hold.slot == event.slot and hold.last is None:
                hold.last = place

    def obsolete(self, place, event):
        self.release(place, event)
        if event.slot in self.nodes:
            self.nodes[event.slot].retired = place

    def make(self, place, event):
        if event.slot is not None:
            self.live(Life(event.slot, made=place))
            self.private.setdefault(event.call, []).append(self.nodes[event.slot])

    def write(self, place, event):
        for life in self.private.pop(event.call, []):
            life.published = place

    def outcome(self, place, event):
        if event.outcome == "decided":
            self.in_flight[event.call].reply = event.reply
        if event.outcome == "refused":
            for life in self.private.pop(event.call, []):
                life.ended = place

    def finish(self, place, event):
        self.in_flight.pop(event.call).last = place

    def reclaim(self, place, event):
        life = self.nodes.pop(event.slot, None)
        if life is None or life.retired is None:
            raise BadTrace(event.line, f"no node of slot {event.slot} is retired")
        life.ended = place
