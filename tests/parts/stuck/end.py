"""How a script of tests/stuck ends: all that is on its way is lost, and nodes of a majority alone
go on, by what only they send from now on."""

import collections
import random

from ..endings import Finish, keys_known
from ..plays import End
from .costs import Cost, most_cost

# The nodes that go on; the one at which a key is typed, or None; the seed of the order in which
# messages come, or None where that is the order in which they were sent; and the order in which the
# nodes are taken down at last.
Ending = collections.namedtuple("Ending", "members typing mixing order")
# What the end of a play took, and the most that it may take. Only where messages come in order the
# number of them is bounded.
Took = collections.namedtuple("Took", "cost most is_mixed")

PRESSED = ord("z")


def ending_of(chance, size, is_minority=False):
    """An ending of a majority, or else of a minority with as many nodes as it may have, where a key
    is typed in each script."""
    nodes = list(range(1, size + 1))
    chance.shuffle(nodes)
    majority = size // 2 + 1
    count = chance.choice((majority, majority, size, chance.randint(majority, size)))
    members = nodes[: size - majority if is_minority else count]
    is_typing = members and (is_minority or chance.random() < 0.8)
    typing = chance.choice(members) if is_typing else None
    mixing = chance.randrange(1 << 32) if chance.random() < 0.5 else None
    return Ending(sorted(members), typing, mixing, chance.sample(members, len(members)))


def candidate_of(group, members):
    """The node with the greatest promised round."""
    def round_of(node):
        promised = group.stored[node].promised
        return promised.round if promised else 0

    return max(members, key=round_of)


class Going(Finish):
    """Nodes that go on alone."""

    def __init__(self, play, members, mixing=None):
        super().__init__(play, members)
        self.chance = None if mixing is None else random.Random(mixing)

    def set_up(self, typing):
        """Starts those that are down."""
        for node in self.members:
            self.play.do("start", node)
        if typing is not None:
            self.play.do("type", typing, PRESSED)

    def campaign(self, node):
        self.play.do("campaign", node)
        self.deliver()

    def round(self):
        """All tick. In order what one sends is delivered before the next one ticks."""
        if self.chance:
            self.tick()
            self.deliver()
            return
        for node in self.members:
            self.play.do("tick", node)
            self.deliver()

    def deliver(self):
        if self.chance:
            self.deliver_mixed()
        else:
            super().deliver()

    def deliver_mixed(self):
        """Messages come to each node in any order."""
        on_way, first = [], self.passed
        while True:
            for message in range(first, len(self.group.sent)):
                nodes = self.group.addressees(message)
                on_way += [(message, it) for it in nodes if it in self.members]
            first = self.passed = len(self.group.sent)
            if not on_way:
                return
            at = self.chance.randrange(len(on_way))
            on_way[at], on_way[-1] = on_way[-1], on_way[at]
            message, node = on_way.pop()
            self.play.do("deliver", node, message)

    def is_over(self):
        """Whether nothing waits, no vote is left that a leader has to propose, and all know the
        same places without a hole."""
        nodes = self.nodes()
        proposers = [it.proposer for it in nodes if it.leads()]
        is_left = any(it.waiting for it in nodes) or any(it.kept for it in proposers)
        fronts = {it.learner.front for it in nodes} | {len(it.learner.learned) for it in nodes}
        return not is_left and len(fronts) == 1

    def go(self, most):
        """Rounds until it is over, at most so many. How many there were."""
        rounds = 0
        while rounds < most and not self.is_over():
            self.round()
            rounds += 1
        return rounds

    def show_all(self, waiting, order):
        """Each node shows its output, and then alone, as the last of those that are up, what it has
        learned. The others of the group go down before, since a show does not say who knows a
        place."""
        self.show_output(max(map(keys_known, self.nodes()), key=len, default=[]))
        for node in self.group.up():
            if node not in self.members:
                self.play.do("crash", node)
        self.play.show()
        self.play.end = End(len(self.play.wanted) - 1, waiting, self.members)
        self.take_down(order)


def end_play(play, ending):
    """Ends a play."""
    going = Going(play, ending.members, ending.mixing)
    going.set_up(ending.typing)
    waiting, before = going.waiting(), len(play.group.sent)
    leader = candidate_of(play.group, ending.members)
    most = most_cost(play.group, ending.members, leader)
    play.show()
    going.campaign(leader)
    rounds = going.go(most.rounds)
    cost = Cost(rounds, len(play.group.sent) - before)
    play.took = Took(cost, most, going.chance is not None)
    going.show_all(waiting, ending.order)
