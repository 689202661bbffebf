"""Lines of a run, and the answers to them."""

import bisect
import re

from . import statistics
from .nodes import Refused, Tree

GREATEST = 2**64 - 1
NUMBER = re.compile("0|[1-9][0-9]*")
# How many pairs a range may ask for, and how many bytes a line may have.
PAIRS = 4096
BYTES = 256
SMALL_LIMIT = "congee: LIMIT is at least 2104, the bytes of an empty map\n"


def number(word, most=GREATEST):
    if not NUMBER.fullmatch(word) or int(word) > most:
        raise ValueError(word)
    return int(word)


def limit(word):
    return number(word, PAIRS)


def value(word):
    return None if word == "none" else number(word)


# What the words behind each first word are.
SHAPES = {
    "get": (number,), "insert": (number, number), "remove": (number,), "cas": (number, number, value), "add": (number, number),
    "put": (number, number), "range": (number, number, limit), "keys": (), "empty": (), "count": (), "first": (), "last": (),
    "floor": (number,), "ceiling": (number,),
}


def shown(it):
    return "none" if it is None else str(it)


class Run:
    """One run's map: its pairs, their keys ascending, and the nodes of its tree."""

    def __init__(self, limit=None):
        self.pairs = {}
        self.sorted = []
        self.tree = Tree(limit)

    def answer(self, line):
        """The answer to a line, which is ASCII without its LF."""
        name, *words = line.split(" ")
        shape = SHAPES.get(name)
        if shape is None or len(words) != len(shape) or len(line) > BYTES:
            return "bad line"
        try:
            parts = [read(word) for read, word in zip(shape, words)]
        except ValueError:
            return "bad line"
        try:
            return getattr(self, name)(*parts)
        except Refused:
            return "oom"

    def set(self, key, new):
        """Puts a value at a key, or takes the key out for none. Answers the value before."""
        old = self.pairs.get(key)
        if new is not None and old is None:
            self.tree.insert(key.to_bytes(8, "big"), new)
            bisect.insort(self.sorted, key)
        if new is None and old is not None:
            self.tree.remove(key.to_bytes(8, "big"))
            del self.sorted[bisect.bisect_left(self.sorted, key)]
            del self.pairs[key]
        if new is not None:
            self.pairs[key] = new
        return old

    def get(self, key):
        return shown(self.pairs.get(key))

    def insert(self, key, new):
        return f"ok {shown(self.set(key, new))}"

    def remove(self, key):
        return shown(self.set(key, None))

    def cas(self, key, old, new):
        current = self.pairs.get(key)
        if current != old:
            return f"err {shown(current)}"
        self.set(key, new)
        return f"ok {shown(new)}"

    def add(self, key, more):
        old = self.pairs.get(key)
        if old is None:
            return "none"
        new = old + more if old + more <= GREATEST else None
        self.set(key, new)
        return f"{old} {shown(new)}"

    def put(self, key, more):
        return f"ok {shown(self.set(key, min(self.pairs.get(key, 0) + more, GREATEST)))}"

    def range(self, start, end, most):
        first = bisect.bisect_left(self.sorted, start)
        last = max(first, bisect.bisect_left(self.sorted, end))
        found = self.sorted[first:last][:most]
        return " ".join([str(len(found)), *(f"{key}={self.pairs[key]}" for key in found)])

    def keys(self):
        return " ".join(map(str, [len(self.sorted), *self.sorted]))

    def empty(self):
        return "false" if self.pairs else "true"

    def count(self):
        return str(len(self.pairs))

    def pair(self, place):
        if not 0 <= place < len(self.sorted):
            return "none"
        key = self.sorted[place]
        return f"{key}={self.pairs[key]}"

    def first(self):
        return self.pair(0)

    def last(self):
        return self.pair(len(self.sorted) - 1)

    def floor(self, key):
        return self.pair(bisect.bisect_right(self.sorted, key) - 1)

    def ceiling(self, key):
        return self.pair(bisect.bisect_left(self.sorted, key))


class Outcome:
    """How a run on these lines ends under a limit: answers, statistics, the most that was charged, and at which line first."""

    def __init__(self, lines, limit=None):
        self.answers, self.text = [], SMALL_LIMIT
        self.status, self.most, self.at = 3, 0, None
        try:
            run = Run(limit)
        except Refused:
            return
        self.status, most = 0, run.tree.most
        for number, line in enumerate(lines):
            self.answers.append(run.answer(line))
            if run.tree.most > most:
                most, self.at = run.tree.most, number
        self.most = most
        self.text = statistics.text(run.tree, len(run.pairs))

    def triple(self):
        """The status, and what is written to both outputs."""
        return self.status, "".join(f"{it}\n" for it in self.answers), self.text
