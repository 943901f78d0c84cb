"""What has happened to the nodes of a page, in order."""

import collections
import time

# How many marks are kept, and the most characters of one.
MARKS, TEXT = 4000, 200
# The kinds that tell a death: one by which the program stands still, and another one.
LOST = ("ended", "gone")


def now():
    return int(time.time() * 1000)


class Marks:
    """What has happened, in order: a count, a time, the lane, a kind and a text."""

    def __init__(self):
        self.kept, self.count, self.begun = collections.deque(maxlen=MARKS), 0, now()
        # Whether it is known that nobody leads; and while one leads the lanes of the nodes that
        # run, and how many nodes there are.
        self.is_still, self.running, self.size = False, set(), 0

    def others_of(self, lane):
        """How many other nodes run while one leads, and how many nodes there are."""
        return len(self.running - {lane}), self.size

    def add(self, lane, kind, text="", when=None):
        self.count += 1
        self.kept.append((self.count, when or now(), lane, kind, text[:TEXT]))

    def since(self, count):
        """The marks behind the one with this count."""
        new = min(self.count - count, len(self.kept))
        return [self.kept[it] for it in range(len(self.kept) - new, len(self.kept))]
