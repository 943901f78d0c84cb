"""A group of nodes and what each event of a script does to it, apart from the program: which
messages are sent, what is saved, and what is learned. It has no machines, so it knows no output."""

import collections

from .datagram import bytes_of
from .protocol import ALL, NodeRefused, Protocol
from .script import SETTLE, SHOW, Bad, Event
from .stored import Stored

# A message that was sent: to ALL or to a node, and as the bytes of its datagram.
Sent = collections.namedtuple("Sent", "to message data")
# What an event did: the change that was saved, or that could not be; the numbers of the messages
# sent; the places and values learned; what the node refused; whether the node has changed; and
# whether anything came of it at all.
Happened = collections.namedtuple("Happened", "saved sends learned refused has_changed is_news")
NONE = range(0)
NOTHING = Happened(None, NONE, (), None, True, True)
QUIET = NOTHING._replace(has_changed=False, is_news=False)
# The kinds of events that are those of the machine alone. Makes a tuple that has names, without a
# function of its class.
STILL = frozenset(("run", "release"))
new = tuple.__new__

MOST_DELIVERIES = 10000
RUN_STEPS = 1000


class GroupRefused(Exception):
    """The code of what the group refuses, V2 to V5."""


class Group:
    """A group of nodes that go by these rules, a class like Protocol. `sent` has the messages by
    their numbers: a list, if it is not given."""

    def __init__(self, size, session, rules=Protocol, sent=None):
        self.size, self.session, self.rules = size, session, rules
        self.stored = {it: Stored() for it in range(1, size + 1)}
        self.nodes = dict.fromkeys(self.stored)  # of each that is up its Protocol
        self.sent = [] if sent is None else sent
        self.passed = 0  # the messages before this one were passed by a settle

    def is_up(self, number):
        return self.nodes[number] is not None

    def check(self, event):
        """Refuses an event that cannot happen."""
        if event.node not in self.stored:
            raise GroupRefused("V2")
        if event.kind == "deliver" and event.number >= len(self.sent):
            raise GroupRefused("V3")
        if event.kind == "start":
            if self.nodes[event.node] is not None:
                raise GroupRefused("V5")
        elif self.nodes[event.node] is None:
            raise GroupRefused("V4")

    def apply(self, event):
        """Does an event, and returns what happened."""
        self.check(event)
        return self.do(event)

    def do(self, event):
        """Does an event that can happen."""
        return self.happen(*event)

    def happen(self, kind, number, of=None, outcome=None, message=None):
        """The same, by what an event has. `message` is the one that is delivered, if that is at
        hand."""
        if kind in STILL:
            return QUIET
        node = self.nodes[number]
        if kind == "crash":
            self.nodes[number] = None
            return NOTHING
        if kind == "start":
            node = self.rules(number, self.size, self.stored[number])
        before, learner = node.marked or node.mark(), node.learner
        if learner.news:
            learner.news = []
        try:
            if message is not None:
                change, sends = node.hear(message)
            else:
                change, sends = self.call(node, kind, number, of)
        except NodeRefused as refused:
            return NOTHING._replace(refused=str(refused))
        if change is None:
            after = node.marked = node.mark()
            has_changed = after != before
            if not (has_changed or sends or kind == "start"):
                return QUIET
        elif self.save(number, outcome, change):
            node.marked, has_changed = None, True
        else:
            return NOTHING._replace(saved=change)
        self.nodes[number] = node
        numbers = self.send(sends) if sends else NONE
        is_news = has_changed or bool(sends)
        return new(Happened, (change, numbers, learner.news or (), None, has_changed, is_news))

    def send(self, sends):
        """Sends these messages. Returns their numbers."""
        first, size, session = len(self.sent), self.size, self.session
        self.sent.extend([new(Sent, (to, it, bytes_of(it, size, session))) for to, it in sends])
        return range(first, first + len(sends))

    def call(self, node, kind, number, of):
        """What the node's call saves and sends."""
        if kind == "deliver":
            return node.hear(self.sent[of].message)
        if kind == "tick":
            return node.tick()
        if kind == "start":
            return self.rules.starting(self.stored[number]), []
        if kind == "campaign":
            return node.campaign()
        if kind == "type":
            node.type(of)
        return None, []

    def change_of(self, event):
        """What the node's call would save, or None. The node is of no further use."""
        kind, number, of, _ = event
        try:
            return self.call(self.nodes[number], kind, number, of)[0]
        except NodeRefused:
            return None

    def save(self, number, outcome, change):
        """Saves a change. Whether the save succeeded; otherwise the node is down, with the old or
        the changed record."""
        if outcome != "failold":
            self.stored[number].change(change)
        if outcome is not None:
            self.nodes[number] = None
        return outcome is None

    def addressees(self, number):
        """Whom a message is for."""
        to = self.sent[number].to
        return list(self.stored) if to == ALL else [to]

    def up(self):
        return [number for number, node in self.nodes.items() if node is not None]

    def settling(self):
        """The events of a settle, each once the one before it is done."""
        count = 0
        while self.passed < len(self.sent):
            self.passed += 1
            for node in self.addressees(self.passed - 1):
                if self.is_up(node):
                    count += 1
                    if count > MOST_DELIVERIES:
                        raise GroupRefused("settle")
                    yield Event("deliver", node, self.passed - 1)
        for node in self.up():
            yield Event("run", node, RUN_STEPS)

    def doing(self, lines):
        """Does the lines of a script. Yields for each event its line, itself, and what happened,
        and for each `settle` and `show` their line, and None twice, once they are done."""
        for line in lines:
            is_event = isinstance(line.event, Event)
            events = [line.event] if is_event else []
            try:
                for event in self.settling() if line.event == SETTLE else events:
                    yield line, event, self.apply(event)
            except GroupRefused as refused:
                raise Bad(f"line {line.number} refused {refused}")
            if line.event in (SETTLE, SHOW):
                yield line, None, None
