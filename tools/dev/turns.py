"""Which wrong bodies a run of the gate tries, where more are due than it has time for.

.ci/tried has lines up to its first empty one. The first is a commit at which the gate had tried each wrong body as it is
judged there, but those of crates that a line `COMMIT: CRATE..` names. These wait: they were last tried as they are judged
at that line's commit. Those that wait longest come first.

Crates are tried in the order of these lines, and then of crates.txt: at least one, and as many as half of the minutes last
for. A crate that becomes due later comes behind, so what is left is tried within as many landings as half of the minutes
each last for. Of the crates that are left, those wrong bodies are tried that the change itself is in. Where these leave
time, more crates are tried whole.
"""


class Tried:
    """What .ci/tried states."""

    def __init__(self, text):
        rows = [line.partition(":") for line in text.partition("\n\n")[0].split("\n") if line.strip()]
        self.at, self.prose = rows[0][0].strip(), text.partition("\n\n")[2]
        self.waits = [(commit.strip(), names.split()) for commit, _, names in rows[1:]]

    def text(self):
        rows = [self.at, *(f"{commit}: {' '.join(names)}" for commit, names in self.waits)]
        return "\n".join(rows) + f"\n\n{self.prose}"

    def commit_of(self, name):
        """At which commit all of a crate were tried, as they are judged there."""
        return next((commit for commit, names in self.waits if name in names), self.at)

    def order(self, due):
        """The crates that are due in the order of their turns."""
        waited = [name for _, names in self.waits for name in names if name in due]
        return [*waited, *(name for name in due if name not in waited)]

    def landed(self, commit, left):
        """What it states once a commit has landed, whose gate left crates."""
        waits = [(it, [name for name in names if name in left]) for it, names in self.waits]
        waited = [name for _, names in waits for name in names]
        waits.append((self.at, [name for name in left if name not in waited]))
        self.at, self.waits = commit, [(it, names) for it, names in waits if names]


class Turn:
    """What a run tries of the crates that are due, in their order, and what it leaves."""

    def __init__(self, crates, minutes):
        self.crates, self.seconds = crates, 60 * minutes
        whole = min(1, len(crates))
        while whole < len(crates) and self.has_room(whole + 1):
            whole += 1
        self.left = crates[whole:]
        self.tried = {it.name: it.edits for it in crates[:whole]}
        spent = sum(it.cost(it.edits) for it in crates[:whole])
        for it in self.left:
            count = int(max(0, self.seconds - spent) // it.seconds())
            self.tried[it.name] = it.own[:count]
            spent += it.cost(it.own)

    def has_room(self, count):
        """Whether so many of its crates can be tried whole."""
        whole = sum(it.cost(it.edits) for it in self.crates[:count])
        own = sum(it.cost(it.own) for it in self.crates[count:])
        return whole <= self.seconds / 2 or whole + own <= self.seconds

    def landings(self):
        """Within how many landings all is tried that is left."""
        count, spent = 0, self.seconds
        for it in self.left:
            spent += it.cost(it.edits)
            if spent > self.seconds / 2:
                count, spent = count + 1, it.cost(it.edits)
        return count
