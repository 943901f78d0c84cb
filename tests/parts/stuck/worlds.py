"""Worlds whose cost is known to the message: they are made by a script, and then node 1 campaigns
and all nodes go on."""

import collections

from ..plays import Play
from .costs import batches_of, cost_of, cost_of_holes
from .end import Going

SESSION = 7
# How many nodes; how many open places; how many nodes, the first ones, have votes there; whether
# they have them at the last place alone; how many keys wait at each of the first nodes; and how
# many places node n lacks.
World = collections.namedtuple("World", "size opened voters has_holes waiting lacking")

# Around each number that is a limit of one message, tick or pump.
OPENED = (0, 1, 8, 9, 17, 33)
WAITING = ((1,), (32,), (33, 1), (0, 65), (200,))
LACKING = (1, 16, 17, 33)


def worlds():
    for size in (3, 5, 9):
        for opened in OPENED:
            yield World(size, opened, size, False, (0,), 0)
            yield World(size, opened, size // 2 + 1, False, (33, 2), 0)
        yield World(size, 33, 1, False, (0,), 0)
        for opened in (17, 33, 50):
            yield World(size, opened, size, True, (0,), 0)
        for waiting in WAITING:
            yield World(size, 0, size, False, waiting, 0)
        for lacking in LACKING:
            yield World(size, 0, size, False, (0,), lacking)
            yield World(size, 9, size, False, (40, 1), lacking)


def wanted_of(world):
    """What it takes by the rules."""
    if world.has_holes:
        return cost_of_holes(world.size, world.opened)
    return cost_of(world.size, world.opened, world.voters, world.waiting, world.lacking)


def places_in(world):
    """How many places are known at last: those that were, the open ones, and one for each batch."""
    return world.lacking + world.opened + batches_of(world.waiting)


class Making:
    """A world as it is made. Node 1 leads, and one key for each place is typed at the last node."""

    def __init__(self, world):
        self.world, self.play = world, Play(world.size, SESSION)
        self.nodes = range(1, world.size + 1)

    def make(self):
        world = self.world
        for node in self.nodes:
            self.play.do("start", node)
        self.deliver(self.play.do("campaign", 1).sends, self.nodes)
        for _ in range(world.lacking):
            self.deliver(self.propose(), self.nodes)
        for at in range(world.opened):
            self.vote(self.propose(), world.has_holes and at < world.opened - 1)
        self.restart_last()
        for node, count in enumerate(world.waiting, 1):
            for at in range(count):
                self.play.do("type", node, ord("a") + at % 26)
        return self.play

    def restart_last(self):
        """The last node forgets what it has learned, and what waits there."""
        self.play.do("crash", self.world.size)
        self.play.do("start", self.world.size)

    def propose(self):
        """The last node has one new key. The Accept of it."""
        last = self.world.size
        self.restart_last()
        self.play.do("type", last, ord("k"))
        submit = self.play.do("tick", last).sends[0]
        return self.play.do("deliver", 1, submit).sends

    def deliver(self, sends, nodes):
        """Delivers these messages, and all that they cause."""
        for message in sends:
            for node in nodes:
                if node in self.play.group.addressees(message):
                    self.deliver(self.play.do("deliver", node, message).sends, nodes)

    def vote(self, accepts, is_lost):
        """The voters vote, and no one hears it, or the Accept is lost."""
        for node in [] if is_lost else self.nodes[: self.world.voters]:
            self.play.do("deliver", node, accepts[0])


def gone_on(world):
    """The play of a world that is over, with shows before and after the campaign and after each of
    the rounds that it should take."""
    play = Making(world).make()
    going = Going(play, range(1, world.size + 1))
    waiting = going.waiting()
    play.show()
    going.campaign(1)
    play.show()
    for _ in range(wanted_of(world).rounds):
        going.round()
        play.show()
    going.show_all(waiting, going.members)
    return play
