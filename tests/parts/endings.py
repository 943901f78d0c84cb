"""What the ends of random scripts have in common: the faults stop, some nodes go on alone, and what
they then know is shown."""

from shared.replica.group import MOST_DELIVERIES

from .findings import output_on
from .group import keys_of

# The steps after which 256 bytes wait or the echo program waits for a key, and these bytes.
ENOUGH_STEPS, MOST_BYTES = 20000, 256


def places_of(stored):
    """Up to which place these records have votes."""
    return max((1 + it.places[-1] for it in stored if it.places), default=0)


def may_settle(group):
    """Whether a settle makes few enough deliveries: each message comes to each node that is up; an
    Accept or a Submit may cause an Accepted of each to all, an Ask 16 Tells of each, a Prepare an
    answer of each and a Prepare behind that; and a new leader may propose all places again. The
    half of what is allowed is left for what this leaves out."""
    up = len(group.up())
    proposed = up + up**2
    costs = {"accept": proposed, "submit": up + proposed, "ask": 17 * up, "prepare": 4 * up}
    waiting = group.sent[group.passed :]
    count = sum(costs.get(it.message.kind, up) for it in waiting)
    return 2 * (count + places_of(group.stored.values()) * proposed) < MOST_DELIVERIES


class Finish:
    """The end of a play, in which these nodes alone go on."""

    def __init__(self, play, members):
        self.play, self.group, self.members = play, play.group, sorted(members)
        # The messages before this one were delivered, or are lost.
        self.passed = len(play.group.sent)

    def nodes(self):
        return [self.group.nodes[it] for it in self.members]

    def waiting(self):
        """The keys that wait, each as node, start, serial and character."""
        return [
            (it.number, it.start, it.first_waiting + at, character)
            for it in self.nodes() for at, character in enumerate(it.waiting)
        ]

    def tick(self):
        for node in self.members:
            self.play.do("tick", node)

    def deliver(self):
        """All messages, with those that they cause, go to those whom they are for."""
        while self.passed < len(self.group.sent):
            self.passed += 1
            for node in self.group.addressees(self.passed - 1):
                if node in self.members:
                    self.play.do("deliver", node, self.passed - 1)

    def show_output(self, keys):
        """Each node shows its output on so many of these keys as it has."""
        size = len(output_on(it[3] for it in keys))
        for node in self.members:
            for done in range(0, size, MOST_BYTES):
                self.play.do("run", node, ENOUGH_STEPS)
                for _ in range(min(MOST_BYTES, size - done)):
                    self.play.do("release", node)

    def take_down(self, order):
        """Shows the nodes with ever fewer of them up: where several have learned a value at a
        place, only one of them is shown."""
        for node in order[:-1]:
            self.play.do("crash", node)
            self.play.show()


def keys_known(node):
    """The keys that a node has learned below its front, each once, in order."""
    return keys_of([node.learner.learned[it] for it in range(node.learner.front)])
