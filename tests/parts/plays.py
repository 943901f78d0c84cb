"""A group that follows a random script as it is made, line by line, and what is known of the script
by that: which keys were typed, what each node has learned, and what `sim` should print."""

import bisect
import collections

from shared.replica.consoles import texts_of
from shared.replica.datagram import value_text
from shared.replica.group import Group, GroupRefused
from shared.replica.protocol import Protocol
from shared.replica.script import SETTLE, SHOW, Event, Line, text_of_script
from shared.replica.shown import known_of

# What a node has learned: the line, the node and the number of its start, the place, and the value
# as it is shown.
Learned = collections.namedtuple("Learned", "line node start place value")
# Of the end of a script after its faults have stopped: which of the shows it is, by its index; the
# keys that waited as the faults stopped; and the nodes that should be up.
End = collections.namedtuple("End", "show waiting members")
# A line that may be left out: its index in the first script, its event, SETTLE or SHOW, and of a
# deliver the index of the line that sent the message, and the how manieth of that line it was.
Item = collections.namedtuple("Item", "index event origin")


class Play:
    """What happens to a group, as a script. `rules` are those of its nodes: a class like
    Protocol."""

    def __init__(self, size, session, rules=Protocol):
        self.group = Group(size, session, rules)
        self.lines = []  # each an event, SETTLE or SHOW
        self.firsts = []  # how many messages were sent before each line
        self.typed = {}  # the characters by node, start and serial
        self.serials = collections.Counter()  # the last serial by node and start
        self.learned, self.refused, self.wanted = [], [], []
        self.events = 0
        self.end = None
        self.took = None  # of tests/stuck: what the end took

    def again(self):
        """A play of such a group before its first line."""
        return Play(self.group.size, self.group.session, self.group.rules)

    # Lines.

    def do(self, *words):
        """Does an event. What happened, or None where it cannot happen and is left out."""
        event = Event(*words)
        try:
            self.group.check(event)
        except GroupRefused:
            return None
        self.begin(event)
        return self.apply(event)

    def settle(self):
        """Does a settle. GroupRefused where it makes too many deliveries."""
        self.begin(SETTLE)
        for event in self.group.settling():
            self.apply(event)

    def show(self):
        self.begin(SHOW)
        self.wanted.append(known_of(self.group, dict.fromkeys(self.group.nodes, b"")))

    def line(self, event):
        """Does any line. Whether it could happen."""
        if event == SETTLE:
            self.settle()
        elif event == SHOW:
            self.show()
        else:
            return self.do(*event) is not None
        return True

    def begin(self, line):
        self.lines.append(line)
        self.firsts.append(len(self.group.sent))

    def apply(self, event):
        happened = self.group.apply(event)
        self.events += 1
        if happened.refused:
            self.refused.append(f"line {len(self.lines) + 1} node {happened.refused}")
        elif event.kind == "type":
            self.note_typed(event)
        if happened.learned:
            where = len(self.lines) + 1, event.node, self.group.nodes[event.node].start
            for place, value in happened.learned:
                self.learned.append(Learned(*where, place, value_text(value)))
        return happened

    def note_typed(self, event):
        """A key has the next serial of its start; a refused one has none."""
        where = event.node, self.group.nodes[event.node].start
        self.serials[where] += 1
        self.typed[(*where, self.serials[where])] = event.number

    # The script.

    def text(self):
        lines = (Line(at, it) for at, it in enumerate(self.lines, 2))
        head = text_of_script(self.group.size, self.group.session, [])
        return head + "".join(it + "\n" for it in texts_of(lines))

    def items(self, count):
        """The first `count` lines as what may be left out."""
        return [Item(at, it, self.origin_of(it)) for at, it in enumerate(self.lines[:count])]

    def origin_of(self, event):
        if not isinstance(event, Event) or event.kind != "deliver":
            return None
        line = bisect.bisect_right(self.firsts, event.number) - 1
        return line, event.number - self.firsts[line]


def play_again(play, items):
    """Plays these items from a play's begin. Returns those of them that could happen. A deliver is
    of the message that its line sends now; without that message it is left out too."""
    sent, done = {}, []
    for it in items:
        event, first = it.event, len(play.group.sent)
        if it.origin is not None:
            line, index = it.origin
            numbers = sent.get(line, range(0))
            if index >= len(numbers):
                continue
            event = event._replace(number=numbers[index])
        if play.line(event):
            sent[it.index] = range(first, len(play.group.sent))
            done.append(it)
    return done
