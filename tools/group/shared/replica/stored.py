"""A node's record as a set of votes that grows by changes: what a store holds over restarts."""

import bisect
import collections

from ..record import PLACES

# The changes of a record: one more start; a promise; a vote, which is a promise too.
Start = collections.namedtuple("Start", "")
Promise = collections.namedtuple("Promise", "ballot")
Vote = collections.namedtuple("Vote", "place ballot value")


class Stored:
    """The record that a store has."""

    def __init__(self):
        self.starts, self.promised = 0, None
        self.votes, self.places = {}, []  # the places with a vote, ascending

    def take(self, record):
        """Takes over a record that was read (`record.py`)."""
        self.starts, self.promised = record.starts, record.promised
        self.votes, self.places = dict(record.votes), sorted(record.votes)

    def change(self, change):
        if isinstance(change, Start):
            self.starts += 1
            return
        self.promised = change.ballot
        if isinstance(change, Vote):
            if change.place not in self.votes:
                bisect.insort(self.places, change.place)
            self.votes[change.place] = (change.ballot, change.value)

    def votes_from(self, place, most):
        """The first votes from a place on, at most so many, and the place up to which these are
        all."""
        begin = bisect.bisect_left(self.places, place)
        there = self.places[begin : begin + most + 1]
        votes = [(it, *self.votes[it]) for it in there[:most]]
        return votes, there[most - 1] + 1 if len(there) > most else PLACES

    def equals(self, record):
        """Whether a record that was read (`record.py`) is this one."""
        mine = (self.starts, self.promised, self.votes)
        return mine == (record.starts, record.promised, record.votes)

    def equals_started(self, record, least, most):
        """Whether a record that was read is this one after so many more starts."""
        more = record.starts - self.starts
        return least <= more <= most and (self.promised, self.votes) == record[5:]

    def equals_changed(self, change, record, more):
        """Whether a record that was read is this one with the change and up to `more` starts."""
        least = self.starts + isinstance(change, Start)
        if not least <= record.starts <= least + more:
            return False
        if isinstance(change, Start):
            return (self.promised, self.votes) == record[5:]
        if change.ballot != record.promised:
            return False
        vote = record.votes.get(change.place) if isinstance(change, Vote) else None
        if not isinstance(change, Vote):
            return self.votes == record.votes
        mine = {**self.votes, change.place: (change.ballot, change.value)}
        return vote is not None and mine == record.votes
