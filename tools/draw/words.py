"""The words of an event's row."""

# A summary lists at most so many calls, or events of a sort.
MOST = 40


def node_name(course, slot):
    return "the root" if slot == course.root else f"node {slot}"


def of(course, place):
    """What happened, without what it means for the call."""
    event = course.events[place]
    node = "a node" if event.slot is None else node_name(course, event.slot)
    if event.is_skipped:
        skipped = {"S": f"start {event.text}", "X": f"reclaim of {node}", "-": "a step of no call"}
        return f"skipped: {skipped[event.kind]}"
    if event.kind in "TRCU":
        return looking(course, place, node)
    return {
        "S": f"starts {event.text}", "A": f"makes {node}", "W": f"writes {node}", "O": f"marks {node} obsolete, retires it",
        "L": f"unlocks {node}", "Q": f"its closure answers {event.text}", "F": "ends", "X": f"{node} is reclaimed",
    }[event.kind]


def looking(course, place, node):
    event = course.events[place]
    if event.kind == "T":
        why = "cleans up: " if place in course.cleanups else "again from the root: " if place in course.again else ""
        return f"{why}finds {node} locked or obsolete" if event.has_failed else f"{why}takes the word of {node}, {event.word}"
    if event.kind == "R":
        seen = event.seen.replace("none", "no child")
        return f"torn read of {node}: {seen}" if place in course.torn else f"reads {node}: {seen}"
    if event.kind == "C":
        return f"finds {node} changed" if event.has_failed else f"{node} is unchanged"
    return f"can't lock {node}" if event.has_failed else f"locks {node}"


def outcome(event):
    """What the event means for its call, or nothing."""
    return {
        "decided": f"decided: {event.reply}", "pair": f"gives the pair {event.reply}", "refused": "refused: no memory",
        "asks": f"asks its closure with {event.reply}",
    }.get(event.outcome, "")


def said(course, place):
    """All of it but the content."""
    return "; ".join(part for part in (of(course, place), outcome(course.events[place])) if part)


def whole(course, place):
    """The row as a sentence, for a screen reader."""
    event = course.events[place]
    who = "" if event.call is None else f", call {event.call}"
    content = "" if event.content is None else f"; {content_of(event)}"
    return f"Event {event.number}{who}: {said(course, place)}{content}"


def content_of(event):
    return f"content {event.content}" if event.content else "content: empty"


def listed(parts, between):
    """The first parts, and how many more there are."""
    return between.join([*map(str, parts[:MOST]), *([f"{len(parts) - MOST} more"] if len(parts) > MOST else [])])


def summary(course):
    """The whole picture in a few sentences: calls with their replies, and what failed."""
    calls = [f"{call.number} {call.text}: {call.reply or 'no reply'}" for call in course.calls if call.text]
    numbers = {
        "Torn reads": sorted(course.torn),
        "Failed upgrades": [place for place, event in enumerate(course.events) if event.kind == "U" and event.has_failed],
        "Decided": [place for place, event in enumerate(course.events) if event.outcome == "decided"],
    }
    found = [f"{name}: events {listed([place + 1 for place in places], ', ')}." for name, places in numbers.items() if places]
    return " ".join([f"{len(course.events)} events. Calls: {listed(calls, '; ')}.", *found])
