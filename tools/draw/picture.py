"""The picture of a schedule: a column a call, time downwards, nodes' lives beside them, and a row of words for each event."""
from draw import marks, words
from draw.sheet import Sheet, short

CALL, LANE, NOTES = 142, 34, 352
HEAD, ROW, LABEL, CONTENT, BEFORE = 40, 26, 20, 17, 32
MARK, SLOT, TRACK, ITEM = 70, 89, 14, 186

RULES = marks.RULES + """
.band { fill: $band }
.call { fill: $quiet; fill-opacity: 0.07; stroke: $quiet; stroke-opacity: 0.45; stroke-width: 1.2 }
.guide { stroke: $faint; stroke-dasharray: 1 5 }
.slot { font-size: 11px; font-weight: 700 }
.won { fill: $green; font-weight: 700 }
.lost { fill: $red }
"""


class Layout:
    """Where the events at the places from `first` on and below `last` are drawn, below a head of some height."""

    def __init__(self, course, first, last, head=HEAD):
        self.course, self.first, self.last = course, first, last
        shown = course.events[first:last]
        self.calls = [call for call in course.calls if self.shows(call)]
        numbers = [it.number for it in self.calls] + [it.call for it in shown if it.call is not None]
        self.gutter = 28 + 8 * max(3, len(str(last)))
        self.columns = {number: self.gutter + CALL * at for at, number in enumerate(sorted(set(numbers)))}
        side = self.gutter + CALL * len(self.columns) + 8 + LANE // 2
        slots = sorted({event.slot for event in shown if event.slot is not None})
        self.lanes = {slot: side + LANE * at for at, slot in enumerate(slots)}
        self.notes = side + LANE * len(slots)
        self.width = self.notes + NOTES
        self.top = head + (BEFORE if first else 4)
        self.rows, at = {}, self.top
        for place in range(first, last):
            event = course.events[place]
            at += LABEL if event.kind == "S" and not event.is_skipped else 0
            self.rows[place] = at + ROW // 2
            at += self.height(place)
        self.bottom = at + 4

    def shows(self, part):
        """Whether some of a call or a hold is among what is drawn."""
        return part.first < self.last and (part.last is None or part.last >= self.first)

    def height(self, place):
        return ROW + (CONTENT if self.course.events[place].content is not None else 0)

    def y(self, place, missing):
        """The height of a place's row, or of the border where it isn't drawn; what is given where there is no place."""
        if place is None:
            return missing
        return self.top if place < self.first else self.rows.get(place, self.bottom)


def svg(course, first, last, title):
    """The whole picture as one sheet."""
    at = Layout(course, first, last)
    legend = legend_of(at)
    sheet = Sheet(at.width, at.bottom + 16 + legend_height(legend, at.width), title, words.summary(course), RULES)
    draw_heads(sheet, at)
    draw_body(sheet, at)
    draw_legend(sheet, legend, at.bottom + 22)
    return sheet


def parts(course, first, last, title):
    """Its legend, heads and body as sheets of their own, for a page whose heads stay while the body moves."""
    at = Layout(course, first, last, head=0)
    names = legend_of(at)
    legend = Sheet(at.width, legend_height(names, at.width) + 8, "Legend", "What the marks mean", RULES, has_paper=False)
    draw_legend(legend, names, 16)
    heads = Sheet(at.width, HEAD, "Columns", "The calls, and the nodes by their slots", RULES, has_paper=False)
    draw_heads(heads, at)
    body = Sheet(at.width, at.bottom, title, words.summary(course), RULES, has_paper=False)
    draw_body(body, at)
    return legend, heads, body


def draw_heads(sheet, at):
    sheet.text(at.gutter - 8, 29, "event", "quiet small end")
    for number, x in at.columns.items():
        sheet.text(x + MARK, 29, f"call {number}", "strong middle")
    for slot, x in at.lanes.items():
        sheet.text(x, 29, "root" if slot == at.course.root else slot, "slot middle")
    if at.lanes:
        sheet.text(min(at.lanes.values()) - 12, 14, "nodes", "quiet small")
    sheet.line(8, HEAD - 4, at.width - 8, HEAD - 4)


def draw_body(sheet, at):
    places = range(at.first, at.last)
    if at.first:
        draw_before(sheet, at)
    for place in places:
        draw_band(sheet, at, place)
    for call in at.calls:
        draw_call(sheet, at, call)
    for life in at.course.lives:
        if life.slot in at.lanes:
            draw_life(sheet, at, life)
    for call in at.calls:
        for hold in call.holds:
            draw_hold(sheet, at, call, hold)
    for life in at.course.lives:
        draw_signs(sheet, at, life)
    for place in places:
        draw_event(sheet, at, place)


def draw_before(sheet, at):
    """The content that the events left which aren't drawn, or how many these are."""
    contents = [words.content_of(it) for it in at.course.events[:at.first] if it.content is not None]
    sheet.text(at.notes, at.top - 10, short([f"after {at.first} events", *contents][-1], 54), "quiet small")


def draw_band(sheet, at, place):
    """What is behind an event's row: a line to its words, and a band where it decides its call."""
    y, event = at.rows[place], at.course.events[place]
    if event.outcome == "decided":
        sheet.box(6, y - ROW // 2, at.width - 12, at.height(place), "band", rounded=4)
        sheet.path(f"M9 {y - 5}L16 {y}L9 {y + 5}Z", "won")
    start = at.gutter if event.call is None else at.columns[event.call] + SLOT + 24
    sheet.line(start, y, at.notes - 6, y, "guide")


def draw_call(sheet, at, call):
    """The box of a call from its start to its end, which goes on to the border where it has more events than are drawn."""
    top = at.top - LABEL - 6 if call.first < at.first else at.y(call.first, 0) - ROW // 2 - LABEL + 3
    goes_on = call.last is None or call.last >= at.last
    bottom = at.bottom if goes_on else at.y(call.last, 0) + ROW // 2 - 2
    x = at.columns[call.number] + 6
    with sheet.group(f"Call {call.number}: {call.text}; {'no reply' if call.reply is None else f'reply {call.reply}'}"):
        sheet.box(x, top, CALL - 12, bottom - top, "call", rounded=6)
        sheet.text(x + 8, top + 15, short(call.text, 17), "strong small")


def draw_life(sheet, at, life):
    """A node's lane: private, published, retired."""
    if (life.ended is not None and life.ended < at.first) or (life.made is not None and life.made >= at.last):
        return
    x, made, ended = at.lanes[life.slot], at.y(life.made, at.top), at.y(life.ended, at.bottom)
    retired = at.y(life.retired, ended)
    published = made if life.made is None else at.y(life.published, retired)
    with sheet.group(f"{words.node_name(at.course, life.slot).capitalize()}: {life_words(life)}"):
        for kind, top, bottom in (("-private", made, published), ("", published, retired), ("-retired", retired, ended)):
            if top < bottom:
                sheet.line(x, top, x, bottom, f"lane{kind}")


def draw_signs(sheet, at, life):
    """What made, published, retired and ended the node, on its lane and on the bars there."""
    for kind, place in {"A": life.made, "W": life.published, "O": life.retired, "X": life.ended}.items():
        if place in at.rows and life.slot in at.lanes:
            marks.sign(sheet, kind, at.lanes[life.slot], at.rows[place])


def life_words(life):
    ends = "reclaimed" if life.retired is not None else "dropped"
    places = {"made": life.made, "published": life.published, "retired": life.retired, ends: life.ended}
    events = [f"{word} by event {place + 1}" for word, place in places.items() if place is not None]
    return ", ".join(events) or "there from the start"


def draw_hold(sheet, at, call, hold):
    """A bar in the call's column, beside one that it held before, and one in the node's lane."""
    if not at.shows(hold):
        return
    top, bottom = at.y(hold.first, 0), at.y(hold.last, at.bottom)
    others = [it for it in call.holds if it.first < hold.first and (it.last is None or it.last > hold.first)]
    x = at.columns[call.number] + TRACK + 12 * len(others)
    with sheet.group(f"Call {call.number} holds {words.node_name(at.course, hold.slot)}"):
        sheet.box(x, top, 7, bottom - top, "bar", rounded=2)
        if hold.slot in at.lanes:
            sheet.box(at.lanes[hold.slot] - 4, top, 8, bottom - top, "bar", rounded=2)
        for place in (hold.first, hold.last):
            if place in at.rows:
                sheet.line(x + 7, at.rows[place], at.columns[call.number] + MARK - 10, at.rows[place], "held")


def draw_event(sheet, at, place):
    event, y = at.course.events[place], at.rows[place]
    name = marks.name_of(at.course, place)
    with sheet.group(words.whole(at.course, place)):
        kind = "strong" if event.outcome == "decided" else "quiet"
        sheet.text(at.gutter - 8, y + 4, event.number, f"{kind} small end")
        if event.call is not None:
            x = at.columns[event.call] + MARK
            marks.outcome(sheet, event.outcome, x, y)
            marks.draw(sheet, name, event.kind.strip("-"), x, y)
            if event.slot is not None:
                sheet.text(at.columns[event.call] + SLOT, y + 4, event.slot, "slot")
        elif event.is_skipped:
            marks.draw(sheet, name, "X", at.lanes[event.slot], y)
        draw_note(sheet, at, place, name)


def draw_note(sheet, at, place, name):
    event, y = at.course.events[place], at.rows[place]
    if event.outcome in ("decided", "pair"):
        sheet.text(at.notes, y + 4, short(words.outcome(event), 40), "won")
        sheet.text(at.width - 14, y + 4, words.of(at.course, place), "quiet small end")
    else:
        kind = "lost" if name in ("torn", "failed", "changed") else "quiet" if name == "skipped" else ""
        sheet.text(at.notes, y + 4, short(words.said(at.course, place), 54), kind)
    if event.content is not None:
        sheet.text(at.notes, y + 4 + CONTENT, short(words.content_of(event), 56), "small")


def legend_of(at):
    """The marks that occur, by their names."""
    places = range(at.first, at.last)
    names = {marks.name_of(at.course, place) for place in places} | {at.course.events[place].outcome for place in places}
    lives = [it for it in at.course.lives if it.slot in at.lanes]
    names |= {"locked"} if any(at.shows(hold) for call in at.calls for hold in call.holds) else set()
    names |= {"private"} if "A" in names else set()
    names |= {"retired"} if any(it.retired is not None and it.retired < at.last for it in lives) else set()
    return [name for name in marks.LEGEND if name in names or name == "slot"]


def legend_columns(width):
    return max(1, (width - 10) // ITEM)


def legend_height(names, width):
    return 24 * -(-len(names) // legend_columns(width)) + 6


def draw_legend(sheet, names, top):
    columns = legend_columns(sheet.width)
    for at, name in enumerate(names):
        marks.explain(sheet, name, 24 + ITEM * (at % columns), top + 24 * (at // columns))
