"""Nodes with one rule changed. No change lets two nodes learn different values at a place. The text
of each class says what its nodes do otherwise than docs/FORMATS.md says."""

from shared.record import MOST_KEYS, PLACES
from shared.replica.protocol import ALL, Learner, Proposer, Protocol


class Unchanged(Protocol):
    """goes by the rules"""


class ChangedProposing(Protocol):
    """A node whose proposer is of the class `proposing`."""

    proposing = Proposer

    def campaign(self):
        called = super().campaign()
        it = self.proposer
        self.proposer = self.proposing(it.ballot, it.first, it.size)
        return called


# Asks.


class PassesOverAsks(Protocol):
    """passes over each Ask"""

    def on_ask(self, sender, fields):
        return None, []


class PassesOverLearned(PassesOverAsks):
    """passes over each Ask, and over each Accept at a place below its front"""

    def on_accept(self, sender, fields):
        if fields["place"] < self.learner.front:
            return None, []
        return super().on_accept(sender, fields)


# Promises.


class LeavesOneProposer(Proposer):
    def pump(self):
        if not self.kept:
            return []
        last, before = max(self.kept), self.last_kept
        vote = self.kept.pop(last)
        self.last_kept = max(self.kept, default=-1)
        made = super().pump()
        self.kept[last], self.last_kept = vote, before
        return made


class LeavesLastVote(ChangedProposing):
    """never proposes the last of the votes that it keeps"""

    proposing = LeavesOneProposer


class FirstPartProposer(Proposer):
    def keep(self, sender, fields):
        return fields["first"] == self.first and super().keep(sender, fields)


class TakesFirstParts(ChangedProposing):
    """takes only the first part of each promise"""

    proposing = FirstPartProposer


class AsksFromNought(TakesFirstParts):
    """takes only the first part of each promise, and campaigns from place 0 on"""

    def campaign(self):
        change, _ = super().campaign()
        ballot = self.proposer.ballot
        self.proposer = self.proposing(ballot, 0, self.size)
        return change, [(ALL, self.message("prepare", ballot=ballot, place=0))]


class VotesAloneProposer(Proposer):
    def keep(self, sender, fields):
        if fields["upto"] < PLACES:
            return super().keep(sender, fields)
        last = max((place for place, _, _ in fields["votes"]), default=fields["first"] - 1)
        if last < fields["first"]:
            return False
        return super().keep(sender, {**fields, "upto": last + 1})


class CoversVotesAlone(ChangedProposing):
    """takes a place for covered only up to the last vote of a promise"""

    proposing = VotesAloneProposer


class NoCoverageProposer(Proposer):
    def keep(self, sender, fields):
        covered, kept, before = dict(self.coverage), dict(self.kept), self.changes
        is_taken = super().keep(sender, fields)
        self.coverage = covered
        if self.kept == kept:
            self.changes = before
        return is_taken


class NeverCovers(ChangedProposing):
    """takes no place for covered"""

    proposing = NoCoverageProposer


# Ticks.


class SendsNothingAgain(Protocol):
    """sends no Prepare and no Accept again"""

    def repeats(self):
        return self.accepts(self.proposer.pump())


class SubmitsOnce(SendsNothingAgain):
    """sends no Prepare, Accept or Submit again"""

    def __init__(self, *words):
        super().__init__(*words)
        self.submitted = 0  # the last serial that was submitted

    def tick(self):
        change, sends = super().tick()
        last = self.first_waiting + len(self.waiting[:MOST_KEYS]) - 1
        if last <= self.submitted:
            sends = [it for it in sends if it[1].kind != "submit"]
        self.submitted = max(self.submitted, last)
        return change, sends


class SubmitsToFirst(Protocol):
    """submits its keys under the first ballot alone under which it has submitted any, and so none
    after a restart of the leader"""

    def __init__(self, *words):
        super().__init__(*words)
        self.submitted = None  # that ballot

    def tick(self):
        change, sends = super().tick()
        if self.submitted is None and self.waiting:
            self.submitted = self.record.promised
        if self.submitted != self.record.promised:
            sends = [it for it in sends if it[1].kind != "submit"]
        return change, sends


# Tallies.


class FirstTallies(Learner):
    def hear_accepted(self, sender, ballot, place, value):
        tally = self.tallies.get(place)
        if tally is None or tally[0] == ballot:
            super().hear_accepted(sender, ballot, place, value)


class CountsOldBallots(Protocol):
    """counts at each place the votes under the first ballot alone of which it hears"""

    def __init__(self, *words):
        super().__init__(*words)
        self.learner = FirstTallies(self.size)
