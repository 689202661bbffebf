"""The texts of `congee schedule` and `congee trace`, by the machine of machine.py."""
from .machine import LAST_NUMBER, PLAIN, Env, Machine, Op, Slot, Value, number

MOST_EVENTS = 100_000
LONGEST_LINE = 256
MOST_STEPS = 10_000


class Fault(Exception):
    """The text on standard error that a line of a schedule ends the program with."""


def a_number(word):
    if not (word.isascii() and word.isdigit()) or (word[0] == "0" and word != "0") or int(word) > LAST_NUMBER:
        raise ValueError
    return int(word)


def number_or_none(word):
    return None if word == "none" else a_number(word)


# The words after `start ID KIND`: which part of the call each is.
STARTS = {
    "get": ("key",),
    "insert": ("key", "value"),
    "remove": ("key",),
    "present": ("key",),
    "orinsert": ("key", "value"),
    "cas": ("key", "old", "new"),
    "range": ("key", "end", "limit"),
}


def event_of(line):
    """The event of a line and how often it comes, or a ValueError."""
    if len(line) > LONGEST_LINE:
        raise ValueError
    words = line.decode("ascii").split(" ")
    if words[0] == "start" and len(words) > 2 and words[2] in STARTS:
        names = STARTS[words[2]]
        if len(words) != 3 + len(names):
            raise ValueError
        read = {"new": number_or_none}
        parts = {name: read.get(name, a_number)(word) for name, word in zip(names, words[3:])}
        return ("start", a_number(words[1]), Op(words[2], **parts)), 1
    if words[0] == "step" and len(words) in (2, 3):
        count = a_number(words[2]) if len(words) == 3 else 1
        if not 1 <= count <= MOST_STEPS:
            raise ValueError
        return ("step", a_number(words[1]), PLAIN), count
    if words[0] == "torn" and len(words) == 3 and words[2] == "none":
        return ("step", a_number(words[1]), PLAIN), 1
    if words[0] == "torn" and len(words) == 4 and words[2] in ("value", "node"):
        child = {"value": Value, "node": Slot}[words[2]](a_number(words[3]))
        return ("step", a_number(words[1]), Env(torn=child)), 1
    if words[0] == "fail" and len(words) == 2:
        return ("step", a_number(words[1]), Env(fail=True)), 1
    if words[0] == "answer" and len(words) == 3:
        return ("step", a_number(words[1]), Env(answer=number_or_none(words[2]))), 1
    if words[0] == "reclaim" and len(words) == 2:
        return ("reclaim", a_number(words[1])), 1
    raise ValueError


def events_of(data):
    lines = data.split(b"\n")
    if not lines[-1]:
        del lines[-1]
    events = []
    for at, line in enumerate(lines, 1):
        try:
            event, count = event_of(line)
        except ValueError:
            raise Fault(f"congee: bad line {at}") from None
        if len(events) + count > MOST_EVENTS:
            raise Fault("congee: too many events")
        events += [event] * count
    return events


def done(machine, event):
    if event[0] == "start":
        return machine.start(event[1], event[2])
    if event[0] == "step":
        return machine.step(event[1], event[2])
    return machine.reclaim(event[1])


def words_of(op):
    """A call as a line has it."""
    parts = [it for it in (op.key, op.value, op.old, op.end, op.limit) if it is not None]
    return " ".join([op.kind, *map(str, parts), *([number(op.new)] if op.kind == "cas" else [])])


def schedule_lines(machine, at, event, report):
    """What an event writes."""
    if report is None:
        return ["skipped"]
    if event[0] == "reclaim":
        return [f"reclaimed {event[1]}"]
    word, what = report.outcome or (None, None)
    if word == "decided":
        return [f"{event[1]} {what}"]
    return [f"{event[1]} pair {what[0]} {what[1]}"] if word == "pair" else []


KINDS = {
    "S": "start",
    "T": "take",
    "C": "check",
    "R": "read",
    "U": "upgrade",
    "A": "make",
    "W": "write",
    "O": "obsolete",
    "L": "unlock",
    "Q": "answer",
    "F": "finish",
    "X": "reclaim",
}


def child_text(child):
    if child is None:
        return "none"
    return f"value {child.value}" if isinstance(child, Value) else f"node {child.slot}"


def outcome_text(outcome):
    word, what = outcome
    return {
        "ask": lambda: f"asks {number(what)}",
        "pair": lambda: f"pair {what[0]} {what[1]}",
        "decided": lambda: f"decided {what}",
        "done": lambda: "ended",
    }[word]()


def trace_lines(machine, at, event, report):
    """What an event writes in a trace."""
    id = "-" if event[0] == "reclaim" else event[1]
    words = [words_of(event[2])] if event[0] == "start" else []
    if report is None:
        done_as = {"start": "S start -", "step": "- step -", "reclaim": f"X reclaim {event[1]}"}[event[0]]
        return [" ".join([f"{at} {id} {done_as} skipped", *words])]
    slot = "-" if report.slot is None else report.slot
    result = "ok" if report.ok else "failed"
    if report.kind == "T":
        words.append(f"word {report.word}")
    elif report.kind == "R":
        seen = report.seen
        words.append(f"sees {child_text(seen.child)} count {seen.count}" + " full" * seen.full)
    elif report.kind == "Q":
        words.append(f"answer {number(event[2].answer)}")
    if report.outcome is not None:
        words.append(outcome_text(report.outcome))
    return [" ".join([f"{at} {id} {report.kind} {KINDS[report.kind]} {slot} {result}", *words])]


def trace_and_content(machine, at, event, report):
    lines = trace_lines(machine, at, event, report)
    if report is not None and report.outcome is not None and report.outcome[0] == "decided":
        lines.append(content_line(machine))
    return lines


COMMANDS = {("schedule",): schedule_lines, ("trace",): trace_lines, ("trace", "--content"): trace_and_content}


def content_line(machine):
    return "content" + "".join(f" {key}={value}" for key, value in machine.content())


def replayed(data, command=("schedule",), watch=None):
    """The status, the output and the text on standard error of the program with these words for this input."""
    try:
        events = events_of(data)
    except Fault as fault:
        return 4, "", f"{fault}\n"
    machine, lines = Machine(), []
    for at, event in enumerate(events, 1):
        report = done(machine, event)
        if watch is not None:
            watch(machine, event, report)
        lines += COMMANDS[command](machine, at, event, report)
    lines.append(content_line(machine))
    return 0, "".join(f"{it}\n" for it in lines), ""
