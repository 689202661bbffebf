"""Rows worked out by hand: what a schedule writes, which events a call takes, and which lines are bad."""

GREATEST = "18446744073709551615"

# The steps of the insertions of 0 to 16: a leaf is made, and grows twice.
STEPS_TO_17 = [8, 11, 11, 11, 14, *[11] * 11, 14]

# An input and what is written, each by lines.
ROWS = {
    "a torn read names a slot that there never was": (
        ["start 0 insert 1 42", "step 0 8", "start 1 get 1", "step 1 5", "start 2 insert 1 43", "step 2 8", "torn 1 node 77"]
        + ["step 1 5", "step 2 3", "step 1 8"],
        ["0 ok none", "2 ok 42", "1 43", "content 1=43"],
    ),
    "events that aren't enabled": (
        ["reclaim 0", "step 5", "start 1 get 1", "start 1 get 2", "step 1 4"],
        ["skipped", "skipped", "skipped", "1 none", "content"],
    ),
    "steps of no call": (
        ["step 7 3", "torn 7 node 0", "torn 7 value 1", "torn 7 none", "fail 7", "answer 7 1", "answer 7 none", "reclaim 1"],
        ["skipped"] * 10 + ["content"],
    ),
    "a number is used again once its call has ended": (
        ["start 0 get 1", "start 0 get 2", "step 0 3", "start 0 get 3", "step 0", "start 0 get 4", "step 0 4", "step 0"],
        ["skipped", "0 none", "skipped", "0 none", "skipped", "content"],
    ),
    "the second upgrade of a removal fails": (
        ["start 0 insert 1 42", "step 0 8", "start 1 remove 1", "step 1 8", "fail 1", "step 1 14", "reclaim 1"],
        ["0 ok none", "1 42", "reclaimed 1", "content"],
    ),
    "an answer before a failed upgrade doesn't count": (
        ["start 0 insert 1 42", "step 0 8", "start 1 present 1", "step 1 7", "answer 1 50", "fail 1", "step 1 7", "answer 1 60"]
        + ["step 1 4"],
        ["0 ok none", "1 42 60", "content 1=60"],
    ),
    "a leaf that grows beside a reader is reclaimed after it": (
        ["start 0 insert 0 0", "step 0 8", "start 0 insert 1 1", "step 0 11", "start 0 insert 2 2", "step 0 11"]
        + ["start 0 insert 3 3", "step 0 11", "start 1 get 2", "step 1 5", "start 2 insert 4 4", "step 2 14", "reclaim 1"]
        + ["torn 1 none", "step 1 9", "reclaim 1", "reclaim 1"],
        ["0 ok none"] * 4 + ["2 ok none", "skipped", "1 2", "reclaimed 1", "skipped", "content 0=0 1=1 2=2 3=3 4=4"],
    ),
    "a range after two nodes were emptied": (
        ["start 0 insert 1 1", "step 0 8", "start 0 insert 256 2", "step 0 13", "start 0 insert 65536 3", "step 0 13"]
        + ["start 0 remove 1", "step 0 21", "start 0 remove 256", "step 0 37", "step 0", "start 1 range 0 131072 1", "step 1 12"]
        + ["step 1"],
        ["0 ok none"] * 3 + ["0 1", "0 2", "skipped", "1 pair 65536 3", "skipped", "content 65536=3"],
    ),
    "a leaf of 48 places gives way to one of 16": (
        [it for key in range(17) for it in (f"start 0 insert {key} {key}", f"step 0 {STEPS_TO_17[key]}")]
        + [it for key in (16, 15, 14, 13) for it in (f"start 0 remove {key}", "step 0 11")]
        + ["start 0 remove 12", "step 0 24", "step 0"],
        ["0 ok none"] * 17 + ["0 16", "0 15", "0 14", "0 13", "0 12", "skipped"]
        + ["content" + "".join(f" {key}={key}" for key in range(12))],
    ),
    # (another call has emptied that node again and taken it out, and then put a leaf in its place)
    "a cleanup finds a leaf where its node was": (
        ["start 0 insert 1 42", "step 0 8", "start 0 insert 256 43", "step 0 13", "start 0 remove 1", "step 0 17"]
        + ["start 1 remove 256", "step 1 16", "start 2 insert 256 5", "step 2 12", "start 2 remove 256", "step 2 29"]
        + ["start 2 insert 256 6", "step 2 8", "step 1 5", "start 1 get 0", "step 1", "start 1 get 0"],
        ["0 ok none", "0 ok none", "0 42", "1 43", "2 ok none", "2 5", "2 ok none", "skipped", "content 256=6"],
    ),
    "the greatest numbers": (
        [f"start {GREATEST} insert {GREATEST} {GREATEST}", f"step {GREATEST} 8", f"start {GREATEST} get {GREATEST}"]
        + [f"step {GREATEST} 8", f"start 1 range {GREATEST} {GREATEST} {GREATEST}", "step 1", "step 1"]
        + [f"start 1 cas {GREATEST} {GREATEST} none", f"torn 1 node {GREATEST}", "step 1 7", f"reclaim {GREATEST}", "step 1 5"]
        + ["step 1", f"start 1 orinsert {GREATEST} {GREATEST}", "step 1 3", f"answer 1 {GREATEST}", "step 1 5"],
        [f"{GREATEST} ok none", f"{GREATEST} {GREATEST}", "skipped", "skipped", "1 ok none", "skipped", "1 ok none"]
        + [f"content {GREATEST}={GREATEST}"],
    ),
    "ranges that have nothing to give": (
        ["start 0 insert 5 50", "step 0 8", "start 1 range 5 5 8", "step 1", "step 1", "start 1 range 9 3 8", "step 1", "step 1"]
        + ["start 1 range 0 9 0", "step 1", "step 1"]
        # (past the leaf, past all keys with its first byte, and at the root for the third time)
        + [f"start 1 range 6 {GREATEST} {GREATEST}", "step 1 7", "step 1 5", "step 1 3", "start 1 get 0", "step 1", "step 1"],
        ["0 ok none", *["skipped"] * 5, "content 5=50"],
    ),
}

# Trees, by the lines that make them and what those write.
TREES = {
    "nothing": ([], []),
    "1=42": (["start 0 insert 1 42", "step 0 8"], ["0 ok none"]),
    "1=42 2=43": (["start 0 insert 1 42", "step 0 8", "start 0 insert 2 43", "step 0 11"], ["0 ok none"] * 2),
    "1=42 256=43": (["start 0 insert 1 42", "step 0 8", "start 0 insert 256 43", "step 0 13"], ["0 ok none"] * 2),
    "0=0 1=1 2=2 3=3": (
        ["start 0 insert 0 0", "step 0 8", "start 0 insert 1 1", "step 0 11", "start 0 insert 2 2", "step 0 11"]
        + ["start 0 insert 3 3", "step 0 11"],
        ["0 ok none"] * 4,
    ),
    "256=43 alone below its node": (
        ["start 0 insert 1 42", "step 0 8", "start 0 insert 256 43", "step 0 13", "start 0 remove 1", "step 0 17"],
        ["0 ok none", "0 ok none", "0 42"],
    ),
}

# A tree, a call, what its closure answers, the kinds of its events when it is alone, and what it writes.
COURSES = [
    ("1=42", "get 1", None, "S T R C T C R C F", ["1 42"]),
    ("1=42", "get 72057594037927936", None, "S T R C F", ["1 none"]),
    ("1=42", "get 256", None, "S T R C T C F", ["1 none"]),
    ("1=42", "get 2", None, "S T R C T C R C F", ["1 none"]),
    ("nothing", "insert 1 42", None, "S T R C U A W L F", ["1 ok none"]),
    ("1=42", "insert 2 2", None, "S T R C T C R C U W L F", ["1 ok none"]),
    ("1=42", "insert 1 43", None, "S T R C T C R C U W L F", ["1 ok 42"]),
    ("1=42", "insert 1 42", None, "S T R C T C R C F", ["1 ok 42"]),
    ("0=0 1=1 2=2 3=3", "insert 4 4", None, "S T R C T C R C U U A W O L F", ["1 ok none"]),
    ("1=42", "insert 256 2", None, "S T R C T C U U A A W L L F", ["1 ok none"]),
    ("1=42 256=43", "insert 512 2", None, "S T R C T C R C U A W L F", ["1 ok none"]),
    ("1=42", "remove 1", None, "S T R C T C R C U U W O L F", ["1 42"]),
    ("1=42", "remove 2", None, "S T R C T C R C F", ["1 none"]),
    ("1=42 2=43", "remove 1", None, "S T R C T C R C U W L F", ["1 42"]),
    ("1=42 256=43", "remove 1", None, "S T R C T C R C T C R C U U W O L F", ["1 42"]),
    (
        "256=43 alone below its node",
        "remove 256",
        None,
        "S T R C T C R C T C R C U U W O L T R C T C R C U U W O L F",
        ["1 43"],
    ),
    ("1=42", "present 1", "43", "S T R C T C R C Q U W L F", ["1 42 43"]),
    ("1=42", "present 1", "42", "S T R C T C R C Q C F", ["1 42 42"]),
    ("1=42", "present 1", "none", "S T R C T C R C Q U U W O L F", ["1 42 none"]),
    ("1=42", "present 2", "43", "S T R C T C R C F", ["1 none"]),
    ("1=42", "orinsert 2 7", "43", "S T R C T C R C Q U W L F", ["1 ok none"]),
    ("1=42", "orinsert 1 42", "none", "S T R C T C R C Q C F", ["1 ok 42"]),
    ("nothing", "orinsert 1 7", "none", "S T R C Q U A W L F", ["1 ok none"]),
    ("0=0 1=1 2=2 3=3", "orinsert 4 7", "9", "S T R C T C R C Q U U A W O L F", ["1 ok none"]),
    ("1=42", "cas 1 41 43", None, "S T R C T C R C F", ["1 err 42"]),
    ("1=42", "cas 1 42 43", None, "S T R C T C R C U W L F", ["1 ok 43"]),
    ("1=42", "cas 1 42 42", None, "S T R C T C R C F", ["1 ok 42"]),
    ("1=42", "cas 1 42 none", None, "S T R C T C R C U U W O L F", ["1 ok none"]),
    ("1=42", "cas 2 42 none", None, "S T R C T C R C F", ["1 err none"]),
    ("1=42", "range 0 10 8", None, "S T R C T C R C R C F", ["1 pair 1 42"]),
    ("1=42", "range 0 10 1", None, "S T R C T C R C F", ["1 pair 1 42"]),
    ("1=42", "range 5 5 8", None, "S F", []),
    ("1=42", "range 9 3 8", None, "S F", []),
    ("1=42", "range 0 9 0", None, "S F", []),
]


def course_input(tree, call, answer, course):
    """The lines of a course: its number can't be started before its last event, and can be after it."""
    lines = [*TREES[tree][0], f"start 1 {call}"]
    for kind in course.split()[1:-1]:
        lines.append("step 1" if kind != "Q" else f"answer 1 {answer}")
    return [*lines, "start 1 get 0", "step 1", "start 1 get 0"]


# Lines that are fine, each alone: what they write before the content of the empty map.
GOOD_LINES = {
    "start 1 get 0": [],
    "start 0 insert 0 0": [],
    f"start {GREATEST} insert {GREATEST} {GREATEST}": [],
    "start 1 remove 1": [],
    "start 1 present 1": [],
    "start 1 orinsert 1 1": [],
    "start 1 cas 1 1 1": [],
    "start 1 cas 1 1 none": [],
    f"start 1 range 0 {GREATEST} {GREATEST}": [],
    "step 1": ["skipped"],
    "step 1 1": ["skipped"],
    "step 1 10000": ["skipped"] * 10000,
    "torn 1 none": ["skipped"],
    f"torn 1 value {GREATEST}": ["skipped"],
    f"torn 1 node {GREATEST}": ["skipped"],
    "fail 1": ["skipped"],
    "answer 1 0": ["skipped"],
    "answer 1 none": ["skipped"],
    "reclaim 0": ["skipped"],
    f"reclaim {GREATEST}": ["skipped"],
}

WORDS_OF_STARTS = ("get 1", "insert 1 2", "remove 1", "present 1", "orinsert 1 2", "cas 1 2 3", "range 1 2 3")
GOOD = [f"start 1 {it}" for it in WORDS_OF_STARTS]
GOOD += ["step 1", "step 1 2", "torn 1 none", "torn 1 value 2", "torn 1 node 2"]
GOOD += ["fail 1", "answer 1 2", "answer 1 none", "reclaim 1"]
BAD_NUMBERS = ["01", "00", "+1", "-1", "1.0", "1e3", "0x1", "1_0", "none1", "None"]
BAD_NUMBERS += ["18446744073709551616", "9" * 60, "\u0661", "\x001", ""]


# Lines that are fine though a word of a good line is missing, or one more is there.
STILL_GOOD = ("step 1", "step 2", "step 1 1")


OTHER_LINES = [" ", "#", "get 1", "keys", "start", "start 1", "start 1 walk 1", "step 1 0", "step 1 10001", "step 1 none"]
OTHER_LINES += ["torn 1", "torn 1 leaf 1", "torn 1 value none", "torn 1 node none", "torn none 1", "answer none", "reclaim none"]
OTHER_LINES += ["start 1 cas 1 none 1", "start 1 range 1 2 none", "start 1 insert 1 none", "x" * 256, "x" * 257, "0" * 100000]


def with_faults(line):
    """A good line with a fault in each of its places."""
    words = line.split(" ")
    for at, word in enumerate(words):
        others = [word, ""], [word.upper() if word.isalpha() else word + "s"], *([it] for it in BAD_NUMBERS), []
        for other in others:
            yield " ".join([*words[:at], *other, *words[at + 1 :]])
    yield from (line + it for it in (" ", "\t", "\r", "\0", " 1", " none", "#", " " * 256))
    yield from (it + line for it in (" ", "\t", "\ufeff"))
    yield line.replace(" ", "\t")


def bad_lines():
    """Lists of bad lines by their names."""
    lists = {line: [it for it in dict.fromkeys(with_faults(line)) if it not in STILL_GOOD] for line in GOOD}
    return {**lists, "other": OTHER_LINES}


# An input as it is, and the status, the output and the text on standard error.
TEN_THOUSANDS = "step 1 10000\n"
FAULTS = {
    "no line": ("", 0, "content\n", ""),
    "an empty line": ("\n", 4, "", "congee: bad line 1\n"),
    "an empty last line": ("step 1\n\n", 4, "", "congee: bad line 2\n"),
    "no LF at the end": ("step 1\nstep 1", 0, "skipped\nskipped\ncontent\n", ""),
    "a bad line without LF": ("step 1\nstep", 4, "", "congee: bad line 2\n"),
    "two bad lines": ("step 1\nstep 0 0\nstep 0 0\n", 4, "", "congee: bad line 2\n"),
    "two spaces": ("start 1 get 1\nstep  1\n", 4, "", "congee: bad line 2\n"),
    "as many events as there may be": (10 * TEN_THOUSANDS, 0, "skipped\n" * 100000 + "content\n", ""),
    "one more": (10 * TEN_THOUSANDS + "step 1\n", 4, "", "congee: too many events\n"),
    "many more": (11 * TEN_THOUSANDS, 4, "", "congee: too many events\n"),
    "too many events and then a bad line": (11 * TEN_THOUSANDS + "x\n", 4, "", "congee: too many events\n"),
    "a bad line and then too many events": (10 * TEN_THOUSANDS + "x\nstep 1\n", 4, "", "congee: bad line 11\n"),
    "a bad line past the last event": (10 * TEN_THOUSANDS + "step 1 10001\n", 4, "", "congee: bad line 11\n"),
    "a start past the last event": (10 * TEN_THOUSANDS + "start 1 get 1\n", 4, "", "congee: too many events\n"),
    "a reclaim past the last event": (10 * TEN_THOUSANDS + "reclaim 1\n", 4, "", "congee: too many events\n"),
}
