"""Makes random scripts. Each seed has faults of its own: it leaves some kinds of them out, and has
much of others."""

import heapq

from shared.replica.protocol import Protocol
from shared.replica.script import FAILURES

from .endings import may_settle
from .plays import Play

SIZES, SHARES = (1, 3, 5, 7, 9), (1, 5, 2, 1, 1)
# A node that waits for nothing else gets so many keys that it refuses some.
FLOOD = (200, 280)
# How many shows a script has about, and the least number of events between two.
SHOWS, BETWEEN = 40, 100
FOREVER = 1 << 40
# For how many turns, for each node, one that campaigns is let alone.
WAITS = (1, 5, 20)
TEXTS = (b"abcdefgh\n", b"ab", bytes(it for it in range(256) if it != ord(".")))


class Bias:
    """What is frequent in a script, and what is not at all."""

    def __init__(self, chance, size, count):
        def some(*values):
            """In half of all seeds none."""
            return chance.choice(values) if chance.random() < 0.5 else 0

        nodes = range(1, size + 1)
        self.lost, self.again = some(0.01, 0.1, 0.3, 0.5), some(0.05, 0.3)
        self.lost_of_kind = some(0.5, 0.9)  # of messages of one kind
        self.kind = chance.choice(("accept", "accepted", "accepted", "promise", "tell"))
        self.astray = some(0.02, 0.2)  # goes to any node besides
        self.spread = chance.choice((1, 5, 20, 20, 200))
        self.late, self.latest = some(0.01, 0.1), max(1, count // chance.choice((2, 10)))
        self.most_on_way = chance.choice((50, 500, FOREVER))
        self.failing = some(0.01, 0.05, 0.2)
        self.most_down = chance.choice((size // 2, size // 2, size))
        self.typing = chance.sample(nodes, chance.randint(1, size))
        self.burst = chance.choice((1, 1, 3, 30))
        self.text, self.stop = chance.choice(TEXTS), some(0.02) * some(1)
        self.steps = chance.choice(((1000,), (0, 1, 7, 33, 257, 1000, 5000)))
        self.act = chance.choice((0.01, 0.05, 0.2, 0.5))
        self.weights = {
            "type": chance.choice((1, 5, 15)), "tick": chance.choice((5, 20, 60)),
            "output": chance.choice((1, 5, 10)), "lead": chance.choice((2, 10, 30)),
            "start": chance.choice((2, 10)), "campaign": some(1, 5, 20), "crash": some(1, 5),
            "cut": some(3, 20, 60), "old": some(2, 10), "settle": some(3), "flood": some(0.1),
            "power": some(0.3),
        }


class Storm:
    """A script as it is made. `ending_of` draws how it ends."""

    def __init__(self, chance, count, ending_of, rules=Protocol):
        size = chance.choices(SIZES, SHARES)[0]
        self.chance, self.count = chance, count
        self.bias, self.ending = Bias(chance, size, count), ending_of(chance, size)
        self.play = Play(size, chance.randrange(1 << 32), rules)
        self.group = self.play.group
        # What is on its way: when it comes, in which order it was sent, and message and node.
        self.on_way, self.order, self.now = [], 0, 0
        self.cut, self.cut_until = set(), 0
        self.next_show = self.next_campaign = 0
        self.items = []  # its lines, as what may be left out

    def make(self):
        for node in self.chance.sample(list(self.group.nodes), self.group.size):
            self.do("start", node)
        while self.play.events < self.count:
            if self.play.events >= self.next_show:
                self.play.show()
                self.next_show = self.play.events + max(BETWEEN, self.count // SHOWS)
            self.turn()
        self.items = self.play.items(len(self.play.lines))
        return self

    def turn(self):
        self.now += 1
        if self.on_way and self.chance.random() >= self.bias.act:
            self.deliver()
            return
        weights = self.bias.weights
        kind = self.chance.choices(list(weights), list(weights.values()))[0]
        up = self.group.up()
        if up:
            getattr(self, f"do_{kind}")(self.chance.choice(up))
        else:
            self.do_start(None)

    def do(self, kind, node, number=None):
        """An event, whose save may fail. What it sends is on its way."""
        is_failing = self.chance.random() < self.bias.failing
        outcome = self.chance.choice(FAILURES) if is_failing else None
        happened = self.play.do(kind, node, number, outcome)
        for message in happened.sends if happened else ():
            self.send(message)

    # The network.

    def send(self, message):
        if self.play.events >= self.cut_until:
            self.cut = set()
        is_of_kind = self.group.sent[message].message.kind == self.bias.kind
        lost = self.bias.lost_of_kind if is_of_kind else self.bias.lost
        for node in self.group.addressees(message):
            if self.chance.random() >= lost:
                self.put(message, node)
            if self.chance.random() < self.bias.again:
                self.put(message, node)
            if self.chance.random() < self.bias.astray:
                self.put(message, self.chance.choice(list(self.group.nodes)))

    def put(self, message, node):
        """Where the way is cut, or too much is on its way, a message is lost."""
        way = self.group.sent[message].message.sender, node
        if way in self.cut or len(self.on_way) >= self.bias.most_on_way:
            return
        is_late = self.chance.random() < self.bias.late
        most = self.bias.latest if is_late else self.bias.spread
        self.order += 1
        due = self.now + self.chance.randint(1, most)
        heapq.heappush(self.on_way, (due, self.order, message, node))

    def deliver(self):
        """What is due next comes; at a node that is down it is lost."""
        due, _, message, node = heapq.heappop(self.on_way)
        self.now = max(self.now, due)
        self.do("deliver", node, message)

    # What else happens. `node` is one that is up.

    def do_type(self, node):
        if node not in self.bias.typing:
            return
        for _ in range(self.chance.randint(1, self.bias.burst)):
            is_stop = self.chance.random() < self.bias.stop
            self.do("type", node, ord(".") if is_stop else self.chance.choice(self.bias.text))
        if self.chance.random() < 0.8:
            self.do("tick", node)

    def do_flood(self, node):
        for _ in range(self.chance.randint(*FLOOD)):
            self.do("type", node, self.chance.choice(self.bias.text))

    def do_tick(self, node):
        self.do("tick", node)

    def do_output(self, node):
        self.do("run", node, self.chance.choice(self.bias.steps))
        for _ in range(self.chance.choice((0, 1, 3, 20))):
            self.do("release", node)

    def do_lead(self, node):
        """A node that no leader is heard by campaigns, and is let alone for a while."""
        leaders = (it for it in self.group.up() if self.group.nodes[it].leads())
        is_led = any((it, node) not in self.cut and (node, it) not in self.cut for it in leaders)
        if self.now >= self.next_campaign and not is_led:
            self.do("campaign", node)
            self.next_campaign = self.now + self.chance.choice(WAITS) * self.group.size

    def do_campaign(self, node):
        self.do("campaign", node)

    def do_crash(self, node):
        if self.group.size - len(self.group.up()) < self.bias.most_down:
            self.do("crash", node)

    def do_start(self, _):
        down = [it for it in self.group.nodes if not self.group.is_up(it)]
        if down:
            self.do("start", self.chance.choice(down))

    def do_cut(self, node):
        """For a while nothing gets from some nodes, of which `node` or a leader is one, to the
        others, in one direction or both. Often keys are typed on both sides, and one on the other
        side campaigns."""
        nodes = list(self.group.nodes)
        leaders = [it for it in self.group.up() if self.group.nodes[it].leads()]
        if not leaders and self.chance.random() < 0.8:
            self.do_lead(node)
            return
        some = set(self.chance.sample(nodes, self.chance.randint(0, len(nodes) // 2)))
        some.add(self.chance.choice([node, *leaders]))
        others = set(nodes) - some
        self.cut = {(one, other) for one in some for other in others}
        if self.chance.random() < 0.7:
            self.cut |= {way[::-1] for way in self.cut}
        self.cut_until = self.play.events + self.chance.choice((20, 50, 100, 300))
        for side in (some, others) if self.chance.random() < 0.7 else ():
            self.press(self.chance.choice(sorted(side) or [node]))
        if others and self.chance.random() < 0.5:
            self.do("campaign", self.chance.choice(sorted(others)))

    def press(self, node):
        """Types a key, and has the node say so."""
        self.do("type", node, self.chance.choice(self.bias.text))
        self.do("tick", node)

    def do_old(self, node):
        """Any message comes to any node, most often one of the last."""
        count = len(self.group.sent)
        if count:
            back = self.chance.choice((10, 100, count))
            self.do("deliver", node, max(0, count - 1 - self.chance.randrange(back)))

    def do_settle(self, _):
        if may_settle(self.group):
            self.play.settle()
            self.on_way = []

    def do_power(self, _):
        """All nodes go down. A settle then passes all that is on its way, and delivers nothing."""
        for node in self.group.up():
            self.do("crash", node)
        self.do_settle(None)
        for node in self.group.nodes:
            self.do("start", node)
