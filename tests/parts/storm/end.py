"""How a script of tests/storm ends: the faults stop, enough nodes are up, one is asked to campaign
until it leads, and all goes on until nothing waits."""

import collections

from shared.record import MOST_KEYS
from shared.replica.protocol import MOST_AGAIN, MOST_TOLD

from ..endings import Finish, keys_known, may_settle, places_of
from ..plays import End

# The nodes in the order in which they are chosen to be up, the leader first; how many are up;
# whether messages are delivered by `settle`, where it does not make too many deliveries, and not by
# lines of their own; and whether the last nodes are taken down from the first one on.
Ending = collections.namedtuple("Ending", "order count settles is_upward")

# A first campaign may be refused, by nodes that have promised more. Their answers say what, so the
# second is above all that they promised by then; and an old Prepare that is still on its way, or
# that a node with an older proposer sends again at its tick, may come before the second: three.
MOST_CAMPAIGNS = 3
# A campaign is a round, and before each one round may pass in which the node still led.
ROUNDS_OF_CAMPAIGNS = 2 * MOST_CAMPAIGNS
# The echo program takes at most 41 steps for a key (examples/echo.lst), so a settle, which runs
# 1,000, shows more than this many.
KEYS_OF_SETTLE = 20


def ending_of(chance, size):
    order = list(range(1, size + 1))
    chance.shuffle(order)
    majority = size // 2 + 1
    count = chance.choice((size, majority, chance.randint(majority, size)))
    return Ending(order, count, chance.random() < 0.5, chance.random() < 0.5)


class StormFinish(Finish):
    """The end of a play, without faults."""

    def __init__(self, play, ending):
        super().__init__(play, ending.order[: ending.count])
        self.ending, self.campaigns = ending, 0

    def set_up(self):
        """Starts the chosen nodes, and takes the others down: what waits there is lost."""
        for node in self.group.nodes:
            self.play.do("start" if node in self.members else "crash", node)
        # So something waits in each script, and nothing is learned where nobody leads.
        self.play.do("type", self.ending.order[0], ord("z"))

    def leader(self):
        return self.group.nodes[self.ending.order[0]]

    def most_rounds(self):
        """Within how many rounds all is learned: those of the campaigns; then the leader proposes
        what was voted for, 16 places with each tick; a node learns what others know, 16 places with
        each tick; and of the keys that wait at a node 32 are learned with each tick. One round more
        of each of these may be begun and not full."""
        places = places_of(self.group.stored.values())
        keys = max(len(it.waiting) for it in self.nodes())
        return (ROUNDS_OF_CAMPAIGNS + places // MOST_AGAIN + places // MOST_TOLD
                + keys // MOST_KEYS + 3)

    def is_over(self):
        """Whether the node leads, nothing waits, and all know the same places without a hole."""
        leader = self.leader()
        return leader.leads() and all(
            not it.waiting and it.learner.front == len(it.learner.learned) == leader.proposer.next()
            for it in self.nodes()
        )

    def round(self):
        """The node campaigns if it does not lead; otherwise all nodes tick. Then all messages are
        delivered."""
        if not self.leader().leads() and self.campaigns < MOST_CAMPAIGNS:
            self.campaigns += 1
            self.play.do("campaign", self.ending.order[0])
        else:
            self.tick()
        self.deliver()

    def settles(self):
        return self.ending.settles and may_settle(self.group)

    def deliver(self):
        """A settle also delivers what was lost."""
        if self.settles():
            self.play.settle()
            self.passed = len(self.group.sent)
        super().deliver()

    def show_output(self, keys):
        """All nodes show all that they have learned."""
        if not self.settles():
            super().show_output(keys)
            return
        for _ in range(2 + len(keys) // KEYS_OF_SETTLE):
            self.play.settle()


def end_play(play, ending):
    """Ends a play. How many rounds it took of those that it may take."""
    finish = StormFinish(play, ending)
    finish.set_up()
    waiting, most, rounds = finish.waiting(), finish.most_rounds(), 0
    while rounds < most and not finish.is_over():
        finish.round()
        rounds += 1
    finish.show_output(keys_known(finish.leader()))
    play.show()
    play.end = End(len(play.wanted) - 1, waiting, finish.members)
    finish.take_down(finish.members if ending.is_upward else finish.members[::-1])
    return rounds, most
