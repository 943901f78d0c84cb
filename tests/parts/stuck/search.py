"""Looks whether a majority of nodes with any rules is stuck: by what its nodes alone can do,
without `sim`. Many ways are tried, with none to many campaigns, and what is sent comes in order or
in any other."""

import collections
import pickle

from shared.replica.datagram import value_text

from .end import Going, candidate_of

# How a majority goes on: the nodes that campaign, one after the other, and the seed of the order in
# which messages come, or None where that is the order in which they were sent.
Way = collections.namedtuple("Way", "campaigns mixing")
# Whether all is read after one campaign of the node with the greatest promise, and otherwise
# after any other way; and whether in each way that was tried it came to where no tick and no
# message changes anything.
Verdict = collections.namedtuple("Verdict", "by_one by_any stands_still")

# How often a node campaigns in a row without anything learned by that, and how often at all.
IN_VAIN, MOST_CAMPAIGNS = 3, 60
# How many ways with messages in any order are tried.
MIXED = 4
# How many rounds are tried beyond those that the rules need.
MORE_ROUNDS = 10


def copied(play):
    """A play that goes on from where this one is. It does not have its lines."""
    copy = play.again()
    group = play.group
    copy.group.nodes, copy.group.stored = pickle.loads(pickle.dumps((group.nodes, group.stored)))
    copy.group.sent = list(group.sent)
    return copy


def state_of(group):
    """All that a tick or a message may change. The news of a call are none of it."""
    for node in group.nodes.values():
        if node:
            node.learner.news = []
    return pickle.dumps((group.nodes, group.stored))


class Attempt:
    """A majority that goes on in one way."""

    def __init__(self, play, members, keys, way, most):
        self.going, self.keys, self.most = Going(play, members, way.mixing), keys, most
        self.way, self.stands_still = way, False

    def is_read(self):
        return all(it.learner.read.has(*key[:3]) for it in self.going.nodes() for key in self.keys)

    def go(self):
        """Rounds, until all keys are read, or until one in which nothing changes. After that one
        no tick changes anything, nor a message that one causes, in whichever order they come."""
        self.stands_still = False
        for _ in range(self.most):
            before = state_of(self.going.group)
            self.going.round()
            if self.is_read():
                return
            if before == state_of(self.going.group):
                self.stands_still = True
                return

    def learned(self):
        return sum(len(it.learner.learned) for it in self.going.nodes())

    def campaigns_of(self, node):
        """The node campaigns as long as something is learned by that."""
        in_vain = 0
        for _ in range(MOST_CAMPAIGNS):
            before = self.learned()
            self.going.campaign(node)
            self.go()
            in_vain = 0 if self.learned() > before else in_vain + 1
            if self.is_read() or in_vain == IN_VAIN:
                return

    def is_over(self):
        """Whether all keys are read at last."""
        if not self.way.campaigns:
            self.go()
        for node in self.way.campaigns:
            if not self.is_read():
                self.campaigns_of(node)
        return self.is_read()


def once(play, members, keys, most):
    """Whether all is read after one campaign of the node with the greatest promise. The play goes
    on so."""
    attempt = Attempt(play, members, keys, Way((), None), most)
    attempt.going.campaign(candidate_of(play.group, members))
    return attempt.is_over()


def ways_of(members, chance):
    yield Way((), None)
    for node in members:
        yield Way((node,), None)
    for _ in range(MIXED):
        yield Way(chance.choices(members, k=3), chance.randrange(1, 1 << 32))


def search(play, members, keys, most, chance):
    """What becomes of a majority, and the plays of all ways that were tried."""
    most, keys = most + MORE_ROUNDS, set(keys)
    start = copied(play)
    plays = [copied(start)]
    if once(plays[0], members, keys, most):
        return Verdict(True, True, False), plays
    attempts = []
    for way in ways_of(members, chance):
        plays.append(copied(start))
        attempts.append(Attempt(plays[-1], members, keys, way, most))
        if attempts[-1].is_over():
            return Verdict(False, True, False), plays
    return Verdict(False, False, all(it.stands_still for it in attempts)), plays


# Values.


def chosen_in(group):
    """The values that a majority has accepted under one ballot, each with its place."""
    votes = collections.defaultdict(set)
    for it in group.sent:
        if it.message.kind == "accepted":
            fields = it.message.fields
            where = fields["place"], fields["ballot"], fields["value"]
            votes[where].add(it.message.sender)
    return [(at, it) for (at, _, it), nodes in votes.items() if 2 * len(nodes) > group.size]


def two_values_in(before, play):
    """A place at which two values were chosen, or other ones learned, or None: in a play that goes
    on from where the play `before` was."""
    values = collections.defaultdict(set)
    for place, value in chosen_in(play.group):
        values[place].add(value_text(value))
    for it in (*before.learned, *play.learned):
        values[it.place].add(it.value)
    return next((place for place, some in sorted(values.items()) if len(some) > 1), None)
