"""The lines of `congee trace` as events, judged as they are read (docs/TEXTS.md has their text)."""
import re
from dataclasses import dataclass
from typing import Optional

KINDS = {
    "S": "start", "T": "take", "C": "check", "R": "read", "U": "upgrade", "A": "make", "W": "write", "O": "obsolete",
    "L": "unlock", "Q": "answer", "F": "finish", "X": "reclaim", "-": "step",
}
NUMBER = r"(?:0|[1-9][0-9]{0,19})"
VALUE = rf"(?:none|{NUMBER})"
LINE = re.compile(rf"({NUMBER}) ({NUMBER}|-) ([A-Z-]) ([a-z]+) ({NUMBER}|-) (ok|failed|skipped)(?: (.+))?")
CONTENT = re.compile(rf"content((?: {NUMBER}={NUMBER})*)")
CALL = re.compile(rf"get {NUMBER}|insert {NUMBER} {NUMBER}|remove {NUMBER}|present {NUMBER}|orinsert {NUMBER} {NUMBER}"
                  rf"|cas {NUMBER} {NUMBER} {VALUE}|range {NUMBER} {NUMBER} {NUMBER}")
# The details of a kind's line, and those of any step's line on its call.
OWN = {
    "T": rf"word (?P<word>{NUMBER})", "R": rf"sees (?P<seen>none|value {NUMBER}|node {NUMBER}) count {NUMBER}(?: full)?",
    "Q": rf"answer (?P<answer>{VALUE})",
}
OUTCOME = rf"(?P<outcome>asks|pair|decided|refused|ended)(?: (?P<text>{NUMBER}|{VALUE} {VALUE}|(?:ok|err) {VALUE}|none))?"
DETAILS = {kind: re.compile(rf"(?:{own})(?: {OUTCOME})?") for kind, own in OWN.items()}
PLAIN = re.compile(rf"(?:{OUTCOME})?")


class BadTrace(Exception):
    """Of which line, from 1 on, and why it is bad."""

    def __init__(self, line, why):
        super().__init__(f"line {line} of the trace: {why}")


@dataclass
class Event:
    line: int
    number: int
    call: Optional[int]
    kind: str
    slot: Optional[int]
    result: str
    # a start's call, or a closure's answer
    text: str = ""
    word: Optional[int] = None
    seen: str = ""
    outcome: str = ""
    reply: str = ""
    content: Optional[str] = None

    @property
    def is_skipped(self):
        return self.result == "skipped"

    @property
    def has_failed(self):
        return self.result == "failed"


def number_of(word):
    return None if word == "-" else int(word)


def quoted(text):
    return repr(text if len(text) <= 60 else f"{text[:57]}...")


def event_of(line, text):
    match = LINE.fullmatch(text)
    if not match:
        raise BadTrace(line, f"{quoted(text)} is no line of congee trace")
    number, call, kind, word, slot, result, details = match.groups("")
    if KINDS.get(kind) != word:
        raise BadTrace(line, f"no kind of event is {kind} {word}")
    if (call == "-") != (kind == "X"):
        raise BadTrace(line, "a reclaim has no call, and any other event has one")
    event = Event(line, int(number), number_of(call), kind, number_of(slot), result)
    judge(event)
    read_details(event, details)
    return event


def judge(event):
    """Refuses what no event of the kind has."""
    if (event.slot is None) != (event.kind in "SQF-") and event.kind != "A":
        raise BadTrace(event.line, f"a {KINDS[event.kind]} with{'out' if event.slot is None else ''} a slot")
    if event.has_failed and event.kind not in "TCU":
        raise BadTrace(event.line, f"a {KINDS[event.kind]} doesn't fail")
    if event.is_skipped != (event.kind == "-") and event.kind not in "SX":
        raise BadTrace(event.line, f"a {KINDS[event.kind]} that is {event.result}")


def read_details(event, details):
    if event.kind == "S":
        if not CALL.fullmatch(details):
            raise BadTrace(event.line, f"{quoted(details)} is no call")
        event.text = details
        return
    match = DETAILS.get(event.kind, PLAIN).fullmatch(details)
    if not match or ((event.is_skipped or event.kind == "X") and details):
        raise BadTrace(event.line, f"{quoted(details)} isn't what a {KINDS[event.kind]} reports")
    found = match.groupdict("")
    event.word = int(found["word"]) if found.get("word") else None
    event.seen, event.text = found.get("seen", ""), found.get("answer", "")
    event.outcome, event.reply = found["outcome"], found["text"]
    if (event.outcome in ("asks", "pair", "decided")) != bool(event.reply):
        raise BadTrace(event.line, f"{quoted(details)} isn't what a {KINDS[event.kind]} reports")


def read(lines):
    """All events of a trace; the content after each decided call where the trace has it, and that at the end."""
    events, content, line = [], None, 0
    for line, text in enumerate(lines, 1):
        match = CONTENT.fullmatch(text)
        if match:
            content = match[1].lstrip(" ")
            if events and events[-1].outcome == "decided" and events[-1].content is None:
                events[-1].content = content
                continue
            break
        event = event_of(line, text)
        if event.number != len(events) + 1:
            raise BadTrace(line, f"event {event.number}, where {len(events) + 1} comes next")
        events.append(event)
        content = None
    if content is None:
        raise BadTrace(line + 1, "it isn't there: the last line of a trace begins with content")
    if line < len(lines):
        raise BadTrace(line + 1, "it comes after the last one, which begins with content")
    return events, content
