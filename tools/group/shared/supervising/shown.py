"""Whether the consoles of a group contradict each other: of two of them one has to be the beginning
of the other. Where votes were lost that were promised to be kept, as by a disk that lies, two
nodes may show different texts, and who looks at one console does not see that.

Supervisors tell each other how long the consoles of their nodes are, and a checksum of all of that.
Each compares what it is told with as many bytes of its own console, now or once that has so many.
What a limit of the console has given back to the disk is not compared by a supervisor that has not
read it before."""

import collections
import contextlib
import hashlib
import os
import re

# How often something new is told, and how often the same again, in seconds.
NEWS, AGAIN = 2.0, 20.0
# How many bytes of a console are read in one look, and of how many lengths the state of the
# checksum is kept.
PIECE, MARKS = 1 << 20, 128
# How many digits of a checksum are told.
DIGITS = 16
SHOWN = re.compile(rb"shown (\d{1,19}) ([0-9a-f]{%d})" % DIGITS)

# A length of a console, and the checksum of so many bytes.
Told = collections.namedtuple("Told", "length sum")


def told_in(lines):
    """What these lines say of a console, or None."""
    found = next(filter(None, map(SHOWN.fullmatch, lines)), None)
    return found and Told(int(found[1]), found[2].decode("ascii"))


class Sums:
    """Checksums of the first bytes of a console, as it grows. `marks` has the state of the checksum
    at some lengths, from 0 on."""

    def __init__(self, console):
        self.console, self.of, self.length, self.marks = console, None, 0, []
        self.begin(None)

    def begin(self, of):
        self.of, self.length, self.marks = of, 0, [(0, hashlib.sha256())]

    def look(self):
        """Reads a piece of what has come. What was cut, or is another file, begins anew."""
        length = self.console.known_length()
        is_same = self.of is not None and self.of[1] == self.console.cuts
        if length is None or is_same and length == self.length == self.marks[-1][0]:
            return
        with contextlib.suppress(OSError), open(self.console.path, "rb") as file:
            of = os.fstat(file.fileno()).st_ino, self.console.cuts
            if of != self.of or length < self.marks[-1][0]:
                self.begin(of)
            self.length, last = length, self.marks[-1][0]
            if last < length:
                state = self.state_at(min(length, last + PIECE), file)
                self.marks += [state] if state else []
        if len(self.marks) > MARKS:
            self.marks = [*self.marks[:-1:2], self.marks[-1]]

    def state_at(self, length, file):
        """The state of the checksum at this length, or None where bytes are no longer there, or it
        would take long."""
        first, state = next(it for it in reversed(self.marks) if it[0] <= length)
        if length - first > PIECE:
            return None
        file.seek(first)
        data, state = file.read(length - first), state.copy()
        state.update(data)
        # A hole is noted before it is made.
        noted = self.console.noted
        is_there = len(data) == length - first and (not data or not noted or noted.first <= first)
        return (length, state) if is_there else None

    def at(self, length):
        """The checksum of so many bytes, or None where it is not known."""
        if length > self.length:
            return None
        with contextlib.suppress(OSError), open(self.console.path, "rb") as file:
            state = self.state_at(length, file)
            return state and state[1].hexdigest()[:DIGITS]

    def whole(self):
        """The length of the console and the checksum of all of it, or None where that is not known
        (yet)."""
        length, state = self.marks[-1]
        is_whole = length == self.length == self.console.known_length() and length > 0
        return Told(length, state.hexdigest()[:DIGITS]) if is_whole else None


class Shown:
    """What is told of the console of the supervisor's own node, and what of others is compared with
    it. `say` says what is found."""

    def __init__(self, console, say):
        self.sums, self.say = Sums(console), say
        self.told, self.due, self.again = None, 0.0, 0.0
        # What others have told and is not compared yet, the first of each; and with whom it was
        # found to disagree, within how many bytes.
        self.pending, self.disagrees = {}, {}

    def look(self):
        """Reads what the console has got, and compares what can be compared now."""
        self.sums.look()
        for node, told in list(self.pending.items()):
            if told.length <= self.sums.length:
                del self.pending[node]
                self.compare(node, told, self.sums.at(told.length))

    def compare(self, node, told, mine):
        path, before = self.sums.console.path, self.disagrees.get(node)
        if mine is None:
            return
        if mine == told.sum:
            if before is not None and told.length >= before:
                del self.disagrees[node]
                self.say(f"its console {path} agrees with that of node {node} again")
        elif before is None:
            self.disagrees[node] = told.length
            self.say(f"its console {path} contradicts that of node {node} within the first "
                     f"{told.length} bytes: a disk has lost votes, or a console was changed; keep "
                     "both, and compare them")

    def note(self, node, said):
        """What another supervisor has said, if anything."""
        if said is None:
            return
        if b"ask" in said.lines:
            self.again = 0.0
        told = told_in(said.lines)
        if told:
            self.pending.setdefault(node, told)

    def lines(self, now):
        """What is said beside the next heartbeat."""
        told = self.sums.whole() if now >= self.due else None
        if told is None or told == self.told and now < self.again:
            return []
        self.told, self.due, self.again = told, now + NEWS, now + AGAIN
        return [f"shown {told.length} {told.sum}"]
