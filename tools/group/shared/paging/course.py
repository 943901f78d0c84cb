"""What becomes of a group as a whole, as events: that its program stands still and why, that a
majority runs again, and what to do if the program stands still for a minute."""

from .due import STOOD, late_of
from .heading import few_of, majority_of, runs
from .marks import now

# How long something has to last until it is told, until a person has to do something, and for that
# also its reason, in milliseconds.
LASTS, LATE, REASON = 700, 60000, 4000
# A loss that was at most so long before the program stands still is why it does, in milliseconds.
NEAR = 3000
IDLE = ("Nobody leads: the program stands still until a node does. What is typed meanwhile is "
        "kept.")


def was_few(word):
    return bool(word) and word.startswith("few")


class Course:
    """`clock` returns milliseconds."""

    def __init__(self, clock=now):
        self.clock = clock
        # What is so, since when, and whether that is told; what was told before it; and since when
        # the program stands still, since when for this reason, and whether it is told what to do.
        self.word, self.since, self.is_told, self.told = None, 0, True, None
        self.still, self.reason, self.is_late_told = None, (None, 0), False

    def look(self, nodes, size, leader, has_ended=False, lost=()):
        """`leader` is whoever leads, False if it is known that none does, or None. `lost` has who
        was lost last. What is new: each the time since which it is so, a kind and a sentence."""
        when, few = self.clock(), majority_of(nodes, size) is False
        word = "ended" if has_ended else f"few {len(runs(nodes))}" if few else (
            {None: None, False: "idle"}.get(leader, "goes"))
        if word != self.word:
            self.word, self.since, self.is_told = word, when, False
        is_still = word == "idle" or few and not has_ended
        self.still = (self.still or when) if is_still else None
        if few != self.reason[0]:
            self.reason = few, when
        self.is_late_told = self.is_late_told and is_still
        return [*self.new(nodes, size, when, lost), *self.late(nodes, size)]

    def is_late(self):
        """Whether the program has stood still for a minute."""
        when, (_, since) = self.clock(), self.reason
        return self.still is not None and when - self.still > LATE and when - since > REASON

    def cause(self, lost):
        """When the last node was lost by which the program stands still, or None. That it does is
        told at once then, behind the loss."""
        last = max((it[0] for it in lost), default=None)
        is_still = self.word == "idle" and not was_few(self.told) or was_few(self.word)
        return last if is_still and last and last > self.since - NEAR else None

    def new(self, nodes, size, when, lost):
        cause = self.cause(lost)
        if self.is_told or not cause and when - self.since < LASTS or not self.word:
            return
        self.is_told, before, self.told = True, self.told, self.word
        since = cause or self.since
        again = (f"{len(runs(nodes))} of {size} nodes run again, which is a majority: the program "
                 "continues")
        if was_few(self.word):
            yield (since, "still", f"{few_of(nodes, size)}: the program stands still. What is "
                   "typed meanwhile is kept.")
        elif self.word == "idle":
            text = f"{again} once one of them leads." if was_few(before) else IDLE
            yield since, "still", text
        elif self.word == "goes" and was_few(before):
            yield since, "again", f"{again}."

    def late(self, nodes, size):
        if self.is_late() and not self.is_late_told:
            self.is_late_told = True
            yield self.clock(), "late", f"{STOOD} {late_of(nodes, size)}"
