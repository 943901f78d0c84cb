"""The steps of a replay, in a file of twelve bytes for each, and the scripts of `sim` that they
make."""

import array
import collections
import itertools
import struct
import tempfile

from .group import QUIET
from .script import SHOW, form_of

# A step: its kind, its node, what came of it, how many messages it sent, and the number of its
# event.
ENTRY = struct.Struct("<BBBBQ")
PIECE = 65536
KINDS = ("start", "crash", "campaign", "tick", "run", "release", "type", "deliver")
CODES = {
    (kind, outcome): code for code, (kind, outcome) in enumerate(
        (kind, outcome) for outcome in (None, "failold", "failnew") for kind in KINDS
    )
}
DONE = {kind: CODES[kind, None] for kind in KINDS}
DELIVERED = DONE["deliver"]
EVENTS = {code: it for it, code in CODES.items()}
LINES = {code: form_of(*it) + "\n" for it, code in CODES.items()}
# Of an event with these marks the node has changed; something came of it.
CHANGED, NEWS = 1, 2
# The most lines of a script of `sim`: it reads its script whole, and keeps some 270 bytes for each.
# Up to so many steps are done by it as they are.
MOST_LINES = 1000000
MOST_RUN = 1 << 31


class Steps:
    """The steps so far, in their order."""

    def __init__(self):
        self.file, self.rest, self.count = tempfile.TemporaryFile(), bytearray(), 0
        # For each message whether something came of it at a node that heard it.
        self.needed = bytearray()

    def take(self, steps, often, are_kept=True):
        """Takes these steps, which are only counted if they are not kept. Yields those at which
        something was learned, or a process has ended, and each one after so many."""
        pack, rest = ENTRY.pack, self.rest
        for self.count, step in enumerate(steps, 1):
            (kind, node, number, outcome), happened, call = step
            sends = marks = 0
            if happened is not QUIET:
                sends, marks = len(happened.sends), NEWS + CHANGED * happened.has_changed
            if are_kept:
                if marks:
                    self.note_news(kind, number, sends)
                code = DONE[kind] if outcome is None else CODES[kind, outcome]
                rest += pack(code, node, marks, sends, number or 0)
            if marks and happened.learned or call is None or not self.count % often:
                self.flush()
                yield step

    def note_news(self, kind, number, sends):
        """Notes that something has come of a message, and that nothing has of what was sent."""
        self.needed += bytes(sends)
        if kind == "deliver":
            self.needed[number] = 1

    def flush(self):
        self.file.write(self.rest)
        self.rest.clear()

    def entries(self, upto):
        """The first steps, each as an entry."""
        return itertools.chain.from_iterable(self.pieces(upto))

    def pieces(self, upto):
        """The same, many of them at once."""
        self.flush()
        self.file.seek(0)
        while upto > 0:
            data = self.file.read(min(upto, PIECE) * ENTRY.size)
            upto -= PIECE
            yield ENTRY.iter_unpack(data)
        self.file.seek(self.count * ENTRY.size)

    def whole(self, upto):
        """The first steps: for each its number, from 1 on, its line in a script, and how many
        messages it has sent."""
        for count, (code, node, _, sends, number) in enumerate(self.entries(upto), 1):
            yield count, LINES[code].format(node, number), sends

    def short(self, upto):
        """The same without what changed nothing: messages of which nothing came where they were
        heard, and ticks that have sent no others. The messages that are left are numbered anew, and
        runs of a node one after the other are one run."""
        anew, seen, left = array.array("I", bytes(4 * len(self.needed))), 0, 0
        runs = collections.Counter()
        for count, (code, node, marks, sends, number) in enumerate(self.entries(upto), 1):
            if code == DELIVERED and not marks:
                continue
            kind, _ = EVENTS[code]
            first, seen = seen, seen + sends
            if kind == "run" and runs[node] + number < MOST_RUN:
                runs[node] += number
                continue
            if kind == "tick" and not marks & CHANGED and not any(self.needed[first:seen]):
                continue
            if kind in ("deliver", "release", "crash", "run") and runs[node]:
                yield count, LINES[CODES["run", None]].format(node, runs.pop(node)), 0
            for message in range(first, seen):
                anew[message], left = left, left + 1
            number = anew[number] if kind == "deliver" else number
            yield count, LINES[code].format(node, number), sends

    def script(self, head, upto, looks, file):
        """Writes the script of the first steps into a file, with a `show` behind these steps, of
        which the last is the last. Returns how many messages were sent before each `show`: where
        the script would have too many lines it ends before the last ones."""
        looks, sent, counts = collections.deque(sorted(looks)), 0, []
        file.write(head)
        lines = self.whole(upto) if upto <= MOST_LINES else self.short(upto)
        for count, line, sends in itertools.islice(lines, MOST_LINES):
            while looks[0] < count:
                counts.append(sent)
                file.write(f"{SHOW}\n")
                looks.popleft()
            sent += sends
            file.write(line)
        for _ in looks if next(lines, None) is None else ():
            counts.append(sent)
            file.write(f"{SHOW}\n")
        return counts
