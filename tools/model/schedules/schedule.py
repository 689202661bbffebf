"""A schedule as it is written, line by line, beside the machine that decides what comes next in it, and what it has to write."""
import itertools

from .machine import LAST_NUMBER, PLAIN, Env, Machine, Op, Value
from .replay import MOST_EVENTS, MOST_STEPS, content_line, done, schedule_lines, trace_lines, words_of
from .theorem import Broken, Watch

# The number under which no call is ever started.
NOBODY = LAST_NUMBER
# The room in a schedule for what ends it: all calls, and the slots that are reclaimed then.
ENDING = 4_000
# More than any call takes that no other one disturbs.
LONGEST = 1_000


# The lines of a plain step, in turn.
PLAIN_LINES = ["step {}"] * 20 + ["torn {} none", "answer {} none", "step {} 1"]


def line_of(event, number=0):
    """The line of an event, by how many there were before."""
    if event[0] == "reclaim":
        return f"reclaim {event[1]}"
    id, it = event[1], event[2]
    if event[0] == "start":
        return f"start {id} {words_of(it)}"
    if it.torn is not None:
        return f"torn {id} " + (f"value {it.torn.value}" if isinstance(it.torn, Value) else f"node {it.torn.slot}")
    if it.fail:
        return f"fail {id}"
    return f"answer {id} {it.answer}" if it.answer is not None else PLAIN_LINES[number % len(PLAIN_LINES)].format(id)


def merged(lines):
    """The steps of one call one after another in one line."""
    for line, same in itertools.groupby(lines):
        count = len(list(same))
        while count > 0:
            many = min(count, MOST_STEPS) if line.startswith("step ") and line.count(" ") == 1 else 1
            yield line if many == 1 else f"{line} {many}"
            count -= many


def expanded(lines):
    """A line for each event."""
    for line in lines:
        words = line.split(" ")
        if words[0] == "step" and len(words) == 3:
            yield from [f"step {words[1]}"] * int(words[2])
        else:
            yield line


# What is written of a schedule that grows, by the words of the command.
WRITTEN = {("schedule",): schedule_lines, ("trace",): trace_lines}


class Schedule:
    """A schedule as it grows, with what the machine does and what of that is written; and how it breaks the theorem, if it does."""

    def __init__(self):
        self.machine = Machine()
        self.watch = Watch()
        self.broken = None
        self.lines = []
        self.events = 0
        self.written = {command: [] for command in WRITTEN}

    def add(self, event):
        self.lines.append(line_of(event, self.events))
        self.events += 1
        report = done(self.machine, event)
        if self.broken is None:
            try:
                self.watch(self.machine, event, report)
            except Broken as broken:
                self.broken = broken
        for command, lines in self.written.items():
            lines += WRITTEN[command](self.machine, self.events, event, report)
        return report

    def output(self, command):
        """What the program has to write, with these words."""
        return "".join(f"{it}\n" for it in [*self.written[command], content_line(self.machine)])

    def has_room(self):
        return self.events < MOST_EVENTS - ENDING

    def text(self):
        return "".join(f"{it}\n" for it in merged(self.lines)).encode()

    def start(self, id, op):
        return self.add(("start", id, op))

    def step(self, id, env=PLAIN):
        return self.add(("step", id, env))

    def reclaim(self, slot):
        return self.add(("reclaim", slot))

    def next(self, id):
        """The kind and the slot of the call's next event, or None."""
        call = self.machine.calls.get(id)
        return call and call.next

    def steps(self, id, count, answer=None):
        """So many steps, or up to the end; an Answer brings this."""
        for _ in range(count):
            if self.next(id) is None:
                return
            self.step(id, Env(answer=answer))

    def end(self, id, answer=None):
        """All steps to the call's end, and one more, which is skipped."""
        if self.next(id) is not None:
            self.steps(id, LONGEST, answer)
            self.step(id)

    def whole(self, id, op, answer=None):
        self.start(id, op)
        self.end(id, answer)

    def retired(self):
        return [slot for slot, node in self.machine.nodes.items() if node.lifetime == "retired"]

    def reclaim_all(self):
        for slot in self.retired():
            self.reclaim(slot)


def insert(key, value):
    return Op("insert", key, value)


def remove(key):
    return Op("remove", key)
