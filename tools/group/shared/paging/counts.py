"""How far each record of a group has come: at how many places it has voted, and which is the
last."""

from ..record import PLACES
from ..sitting.votes import Tally

# The most places of which it is told that they are new.
FRESH = 4096


class Counted(Tally):
    """The votes of a session, counted for each node."""

    def __init__(self, size):
        super().__init__(size)
        self.voted = {}
        # By the nodes: how many places, the last one, and those since somebody asked.
        self.taken, self.last, self.fresh = {}, {}, {}

    def note(self, voter, place, ballot, value):
        super().note(voter, place, ballot, value)
        voted = self.voted.setdefault(voter, bytearray(PLACES))
        if voted[place]:
            return
        voted[place] = 1
        self.taken[voter] = self.taken.get(voter, 0) + 1
        self.last[voter] = max(self.last.get(voter, -1), place)
        fresh = self.fresh.setdefault(voter, [])
        if len(fresh) < FRESH:
            fresh.append(place)

    def take_fresh(self, voter):
        return self.fresh.pop(voter, [])

    def used(self):
        """How many places of the session are used, by the last vote of any record."""
        return max(self.last.values(), default=-1) + 1
