"""Scripts of tests/stuck with more places than a node may have open."""

from ..storms import Storm

# How many places a script has about: few, and around the 1,024 that may be open.
PLACES = (60, 300, 1000, 1100, 1500)
# Of how many keys in a row the messages are lost sometimes, and how often; and of how many none.
LOST_OF, LOST, WHOLE = 45, 0.02, 5
DOWN = 0.4


class LongStorm(Storm):
    """One node leads, and puts each key at a place. Some nodes hear nothing, so that they lack all
    places. Some messages are lost. At last some nodes go down."""

    def make(self):
        nodes = self.chance.sample(list(self.group.nodes), self.group.size)
        for node in nodes:
            self.play.do("start", node)
        self.hearing = nodes[: self.chance.randint(len(nodes) // 2 + 1, len(nodes))]
        self.passed = 0
        self.play.do("campaign", nodes[0])
        self.hear(0)
        self.lead(nodes[0], self.chance.choice(PLACES))
        for node in nodes:
            if self.chance.random() < DOWN:
                self.play.do("crash", node)
        self.items = self.play.items(len(self.play.lines))
        return self

    def lead(self, leader, places):
        proposer = self.group.nodes[leader].proposer
        for at in range(2 * places):
            if proposer.next() >= places:
                return
            self.play.do("type", leader, ord("a") + at % 26)
            self.play.do("tick", leader)
            self.hear(LOST if at % (LOST_OF + WHOLE) < LOST_OF else 0)

    def hear(self, lost):
        while self.passed < len(self.group.sent):
            self.passed += 1
            for node in self.group.addressees(self.passed - 1):
                if node in self.hearing and self.chance.random() >= lost:
                    self.play.do("deliver", node, self.passed - 1)
