"""What a page says of what has happened to a group, for tests/page: while its program stands still,
after a loss, and after somebody has asked a node to lead."""

from shared.paging.asks import Asks
from shared.paging.course import IDLE, Course
from shared.paging.marks import Marks
from shared.paging.recovery import Recovery
from shared.record import Ballot

from ..checks import expect

KILLED = "was killed (SIGKILL), and its supervisor starts it again"
KEPT = " Nothing was typed here meanwhile."


def nodes_of(*states):
    return [{"at": at, "node": at + 1, "state": it} for at, it in enumerate(states)]


class Clock:
    """A time that a test sets, in milliseconds."""

    def __init__(self):
        self.now = 100000

    def __call__(self):
        return self.now


class Group:
    """Three nodes, of which the test says in each second what they are and which one leads."""

    def __init__(self):
        self.clock, self.marks, self.said = Clock(), Marks(), []
        self.recovery = Recovery(clock=self.clock)
        self.live("uuu", 1)

    def live(self, states, leader, seconds=1, fate="kept", keys=(0, 0)):
        """`states` has a u for each node that runs, and a d for each that does not. `keys` says how
        many keys were typed here, and how many of them wait."""
        nodes = nodes_of(*({"u": "up", "d": "down"}[it] for it in states))
        for _ in range(seconds):
            self.recovery.note(nodes, 3, leader, *keys)
            self.said.append(self.recovery.look(self.marks, nodes, 3, leader, fate))
            self.clock.now += 1000

    def lose(self, *numbers, text=KILLED):
        """The nodes are lost now, in this order."""
        for place, it in enumerate(numbers):
            self.marks.add(it - 1, "ended", text, self.clock.now + place)

    def rise(self, *numbers):
        """The nodes are up again."""
        for it in numbers:
            self.marks.add(it - 1, "start", "is up again", self.clock.now)

    def told(self):
        """What was said, each with the seconds since the test began at which its event began."""
        said, self.said = [it for it in self.said if it], []
        return [((since - Clock().now) / 1000, text) for since, text in said]


def check_recovery(_):
    """After a loss it is told who was lost and who leads, and once all nodes run all of the event,
    each once. The next loss is another event."""
    check_one_lost()
    check_followers()
    check_two_lost()
    check_events()
    check_often()
    check_fates()


def check_one_lost():
    group = Group()
    group.lose(1)
    group.live("duu", False, 3)
    group.live("duu", 2, 5)
    part = ("node 1 was killed, and node 2 took over after about 3 seconds." + KEPT +
            " Node 1 is missing.")
    found = group.told()
    expect("after the loss of a leader", found == [(1.0, part)], found)
    group.live("uuu", 2, 5)
    whole = ("node 1 was killed. Nobody led, so the program stood still for about 3 seconds. Node "
             "1 came up again, node 2 took the lead, and the program went on." + KEPT)
    found = group.told()
    expect("once it runs again", found == [(1.0, whole)], found)
    group.live("uuu", 2, 5)
    expect("it is told once", group.told() == [])
    group = Group()
    group.lose(2)
    group.live("udu", None, 9)
    expect("where it is unknown who leads nothing is told", group.told() == [])
    group.live("uuu", 1, 4)
    whole = "node 2 was killed. Node 2 came up again, node 1 led again, and the program went on."
    found = group.told()
    expect("and then nothing of what was unknown", found == [(1.0, whole + KEPT)], found)
    group = Group()
    group.lose(1)
    group.live("uuu", 2, 5)
    whole = ("node 1 was killed. The program stood still for less than a second. Node 1 came up "
             "again, node 2 took the lead, and the program went on.")
    found = group.told()
    expect("a leader whose loss was hardly seen", found == [(1.0, whole + KEPT)], found)


def check_followers():
    """By the loss of nodes that do not lead the program does not stand still."""
    group = Group()
    group.lose(3)
    group.live("uud", 1)
    group.rise(3)
    group.live("uuu", 1, 5)
    one = ("node 3 was killed; it did not lead and the other two ran, so the program went on. It "
           "came up again.")
    found = group.told()
    expect("a node that did not lead", found == [(1.0, one + KEPT)], found)
    group.lose(3)
    group.live("uud", 1)
    group.rise(3)
    group.live("uuu", 1)
    group.lose(2)
    group.live("udu", 1)
    group.rise(2)
    group.live("uuu", 1, 5)
    two = ("node 3 was killed, then node 2 was killed. They did not lead and enough others ran, so "
           "the program went on. Both came up again.")
    found = group.told()
    expect("two that did not lead, one after the other", found == [(7.0, two + KEPT)], found)


def check_two_lost():
    group = Group()
    group.lose(2, 1)
    group.live("ddu", False, 4)
    group.live("udu", False, 2)
    group.live("udu", 3, 3)
    group.live("uuu", 3, 3)
    part = ("nodes 1 and 2 were killed at the same time, and node 3 took over after about 6 "
            "seconds." + KEPT + " Node 2 is missing.")
    whole = ("nodes 1 and 2 were killed at the same time. 2 of 3 nodes are needed and only 1 ran, "
             "and then a node had to take the lead: the program stood still for about 6 seconds in "
             "all. Both came up again, node 3 took the lead, and the program went on." + KEPT)
    found = group.told()
    expect("after the loss of two, and once all run again", found == [(1.0, part), (1.0, whole)],
           found)
    check_many_lost()


def check_many_lost():
    group = Group()
    group.lose(1)
    group.lose(2, text="has ended with status 1")
    group.live("ddu", False, 2)
    group.live("udu", 1, 3)
    part = ("node 1 was killed and node 2 has ended, both at the same time, and node 1 led again "
            "after about 2 seconds." + KEPT + " Node 2 is missing.")
    found = group.told()
    expect("two that are lost in two ways", found == [(1.0, part)], found)
    group = Group()
    group.lose(1, text="has ended")
    group.live("dud", False, 2)
    group.lose(1)
    group.live("dud", False, 2)
    group.rise(1)
    group.live("uud", 1, 3)
    part = ("node 1 was killed, and it led again after about 4 seconds." + KEPT +
            " Node 3 is missing.")
    found = group.told()
    expect("a death that is told twice is one", found == [(1.0, part)], found)
    group = Group()
    group.lose(1, 2, 3)
    group.live("ddd", False, 2)
    group.live("uuu", 2, 3)
    whole = ("nodes 1, 2 and 3 were killed at the same time. 2 of 3 nodes are needed and none ran, "
             "so the program stood still for about 2 seconds. All came up again, node 2 took the "
             "lead, and the program went on." + KEPT)
    found = group.told()
    expect("the loss of all", found == [(1.0, whole)], found)


def check_events():
    """The four kills of a demo: a leader, two at once, the same two, and one that does not lead.
    Each is an event of its own, with its own times."""
    group = Group()
    group.lose(1)
    group.live("duu", False, 1)
    group.rise(1)
    group.live("uuu", 2, 13)
    for leader in (3, 1):
        group.lose(2, 3)
        group.live("udd", False, 1)
        group.rise(2, 3)
        group.live("uuu", leader, 6)
    group.lose(2)
    group.live("udu", 1, 1)
    group.rise(2)
    group.live("uuu", 1, 4)
    goes = "and the program went on."
    two = ("nodes 2 and 3 were killed at the same time. 2 of 3 nodes are needed and only 1 ran, so "
           f"the program stood still for about a second. Both came up again, node {{}} took the "
           f"lead, {goes}")
    wanted = [
        (1.0, "node 1 was killed. Nobody led, so the program stood still for about a second. Node "
         f"1 came up again, node 2 took the lead, {goes}"),
        (15.0, two.format(3)), (22.0, two.format(1)),
        (29.0, "node 2 was killed; it did not lead and the other two ran, so the program went on. "
         "It came up again."),
    ]
    found = group.told()
    expect("each event is told alone", found == [(at, text + KEPT) for at, text in wanted], *found)
    group.live("uuu", False, 7)
    group.lose(2)
    group.live("udu", False, 1)
    group.rise(2)
    group.live("uuu", 1, 4)
    found = group.told()
    expect("nobody led before, which is no part of it", [it[1] for it in found] == [
        "node 2 was killed. Nobody led, so the program stood still for about a second. Node 2 came "
        "up again, node 1 led again, and the program went on." + KEPT], found)


def check_often():
    """Two nodes that are killed again and again before the group is whole are counted."""
    group = Group()
    for _ in range(3):
        group.lose(1, 2)
        group.live("ddu", False, 2)
        group.rise(1, 2)
        group.live("uuu", 3, 1)
    group.lose(1)
    group.live("duu", 3, 1)
    group.rise(1)
    group.lose(1)
    group.live("duu", 3, 1)
    group.rise(1)
    group.live("uuu", 3, 5)
    whole = ("node 1 was killed 5 times and node 2 was killed 3 times. 2 of 3 nodes are needed and "
             "only 1 ran, so the program stood still for about 6 seconds. Both came up again, node "
             "3 took the lead, and the program went on." + KEPT)
    found = group.told()
    expect("two that are killed again and again", found == [(1.0, whole)], found)
    with_three = group.recovery.lost_with(3)
    expect("nobody was lost with a node that runs", with_three is None, with_three)


def check_fates():
    """What is told of keys."""
    for fate, wanted in (("lost", " Some typed keys are lost: a sentence names them."),
                         ("kept", KEPT), ("none", KEPT), ("unseen", "")):
        group = Group()
        group.lose(3)
        group.live("uud", 1, 5, fate)
        found = group.told()
        said = f"node 3 was killed, and node 1 led as before.{wanted} Node 3 is missing."
        expect(f"keys that are {fate}", found == [(1.0, said)], found)
    group = Group()
    group.lose(3)
    group.live("uud", 1, 4, "unknown")
    expect("it is waited for what becomes of keys", group.told() == [])
    group.live("uud", 1, 4, "unknown")
    found = group.told()
    expect("but not for ever", found == [(1.0, "node 3 was killed, and node 1 led as before. "
                                          "Node 3 is missing.")], found)
    check_typed()


def check_typed():
    """How many keys went in: those that waited, and if the program did not stand still all."""
    for what, leader, keys, wanted in (
        ("none", False, (7, 0), KEPT), ("one waited", False, (8, 1), " The key went in."),
        ("two waited", False, (9, 2), " Both keys went in."),
        ("some waited", False, (18, 11), " All 11 keys went in."),
        ("typed while the program went on", 1, (10, 0), " All 3 keys went in."),
        ("nothing typed while it went on", 1, (7, 0), KEPT),
    ):
        group = Group()
        group.live("uuu", 1, 2, keys=(7, 0))
        group.lose(1 if leader is False else 3)
        group.live("duu" if leader is False else "uud", leader, 2, keys=keys)
        group.rise(1, 3)
        group.live("uuu", leader or 2, 5, keys=(keys[0], 0))
        found = group.told()
        expect(f"keys of which {what}", found[-1][1].endswith(f"again.{wanted}")
               or found[-1][1].endswith(f"the program went on.{wanted}"), found)


class Story:
    """The events of a group as a whole, in each half of a second."""

    def __init__(self):
        self.clock = Clock()
        self.course, self.begun, self.said = Course(self.clock), self.clock.now, []

    def live(self, states, leader, seconds, lost=()):
        words = {"u": "up", "d": "down", "k": "down"}
        nodes = nodes_of(*(words[it] for it in states))
        for it, was in zip(nodes, states):
            it.update(supervised=was == "k", log=f"/log{it['node']}" if was == "k" else None,
                      can_lead=it["state"] == "up", bytes=1)
        for _ in range(2 * seconds):
            for when, kind, text in self.course.look(nodes, 3, leader, lost=lost):
                self.said.append(((when - self.begun) / 1000, kind, text))
            self.clock.now += 500


FEW = ("Only 1 of 3 nodes runs, and 2 are needed: the program stands still. What is typed "
       "meanwhile is kept.")
STOOD = "The program has stood still for a minute."
AGAIN = "2 of 3 nodes run again, which is a majority: the program"


def check_course(_):
    """That the program stands still and goes on is told as it was, and after a minute what to do is
    told once."""
    story = Story()
    story.live("uuu", 1, 2)
    story.live("duu", False, 2)
    story.live("duu", 2, 2)
    story.live("duk", False, 4)
    story.live("uuk", False, 2)
    story.live("uuk", 2, 2)
    wanted = [(2.0, "still", IDLE), (6.0, "still", FEW),
              (10.0, "still", f"{AGAIN} continues once one of them leads.")]
    expect("what becomes of a group, by seconds", story.said == wanted, *story.said)
    story = Story()
    story.live("uuu", 1, 2)
    died = story.clock.now - 40
    story.live("uuu", False, 1, [[died, 1, "was killed"]])
    expect("behind the death of a leader it is told at once that nobody leads, and not moved",
           story.said == [(1.96, "still", IDLE)], story.said)
    story.live("uuu", False, 3, [[died - 9000, 3, "was killed"]])
    expect("and once", len(story.said) == 1, story.said)
    story = Story()
    story.live("uuu", 1, 20)
    story.live("uuu", False, 2, [[story.clock.now - 9000, 3, "was killed"]])
    expect("a loss long before is no reason", story.said == [(20.0, "still", IDLE)], story.said)
    story = Story()
    story.live("duk", False, 3)
    story.live("uuk", 1, 3)
    expect("it goes on at once", story.said == [
        (0.0, "still", FEW), (3.0, "again", f"{AGAIN} continues.")], story.said)
    check_late()


def check_late():
    story = Story()
    story.live("udk", False, 60)
    expect("before the minute is over nothing is to be done", [it[1] for it in story.said] == [
        "still"], story.said)
    story.live("udk", False, 60)
    late = (f"{STOOD} Node 3 does not stay up, though supervised: look "
            "why, in /log3. Start node 2 again: by systemctl start pgroup@NAME, or "
            "as before but without --new. If the nodes are on several machines, do so on each. "
            "docs/NIGHT.md says more under \"What was lost\".")
    expect("then it is said once what to do", story.said[1:] == [(60.5, "late", late)],
           *story.said[1:])
    story.live("uuk", 1, 5)
    story.live("uuk", False, 70)
    late = (f"{STOOD} Press the button that asks a node to lead, and once "
            "more if it is refused. If nobody leads then, look in journalctl -u pgroup@NAME. "
            "Otherwise nodes do not hear each other: look at the network between their machines. "
            "docs/NIGHT.md says more under \"Quick answers\".")
    found = [it[2] for it in story.said if it[1] == "late"][1:]
    expect("and once more in the next one", found == [late], *found)


class Asked:
    """A session of three nodes, as far as requests to lead see it."""

    class Seat:
        def __init__(self, node, promised):
            self.node, self.promised, self.process, self.is_there = node, promised, (node, 1), True

        def record(self):
            return self

        def may_lead(self):
            return self.promised if self.promised.node == self.node else None

        def is_gone(self):
            return not self.is_there

        def is_up(self):
            return self.is_there

    def __init__(self, *promised):
        self.clock, self.tally = Clock(), None
        self.seats = [self.Seat(at, Ballot(*it)) for at, it in enumerate(promised, 1)]
        self.asks = Asks(self.clock)

    def name(self, at):
        return f"node {at + 1}"

    def live(self, seconds, leader=False, **promised):
        """What is said in so many seconds. `promised` has ballots by n1, n2, n3."""
        for name, it in promised.items():
            self.seats[int(name[1]) - 1].promised = Ballot(*it)
        said = []
        for _ in range(2 * seconds):
            said += self.asks.look(self, leader and Ballot(*leader))
            self.clock.now += 500
        return said


def check_asks(_):
    """One sentence says what has come of it that a node was asked to lead."""
    asked = Asked((3, 2), (3, 2), (3, 2))
    asked.asks.add(0, asked.seats[0])
    expect("at once nothing is said", asked.live(1) == [])
    said = asked.live(1, (4, 1), n1=(4, 1), n2=(4, 1))
    expect("it leads", said == [("led", "Node 1 leads now.")] and not asked.live(60, (4, 1)), said)
    asked.asks.add(0, asked.seats[0])
    said = asked.live(1, (4, 1))
    expect("it leads already", said == [("led", "Node 1 leads already.")], said)
    check_refused()
    asked = Asked((3, 2), (3, 2), (3, 2))
    asked.asks.add(0, asked.seats[0])
    said = asked.live(9)
    expect("it does nothing", said == [("bad", "Nothing has come of it that node 1 was asked to "
           "lead: it has not asked the others. Ask it once more, or another node.")], said)
    asked.asks.add(0, asked.seats[0])
    said = asked.live(9, n1=(4, 1))
    expect("nobody answers it", said == [("bad", "Node 1 has asked the others and does not lead: "
           "too few of them have answered. Look whether they hear each other, and ask it again.")],
           said)
    asked.asks.add(2, asked.seats[2])
    asked.seats[2].is_there = False
    said = asked.live(9)
    expect("it has ended", said == [("bad", "Node 3 has ended since it was asked to lead. Ask "
           "another node.")], said)
    asked.seats[1].is_there = False
    asked.asks.add(0, asked.seats[0])
    said = asked.live(9, n1=(5, 1))
    expect("no majority runs", said == [("bad", "Node 1 cannot lead: 1 of 3 nodes run, which is no "
           "majority. Start others first.")], said)


def check_refused():
    refused = ("bad", "Node 1 was refused: node 3 has promised a greater ballot, 7.3. If node 1 "
               "does not lead within seconds, ask it once more, or ask node 3, which knows it.")
    asked = Asked((2, 1), (2, 1), (7, 3))
    asked.asks.add(0, asked.seats[0])
    said = asked.live(9, n1=(3, 1))
    expect("it is refused", said == [refused], said)
    said = asked.live(1, (8, 1), n1=(8, 1), n3=(8, 1))
    expect("it has asked once more by itself", said == [("led", "Node 1 leads now after all.")]
           and asked.live(60, (8, 1)) == [], said)
    asked = Asked((2, 1), (2, 1), (7, 3))
    asked.asks.add(0, asked.seats[0])
    said = asked.live(1, n1=(3, 1)) + asked.live(2, (8, 1), n1=(8, 1), n3=(8, 1))
    expect("it asks once more at once, and leads", said == [("led", "Node 1 leads now.")], said)
    asked = Asked((2, 1), (2, 1), (2, 1))
    asked.asks.add(1, asked.seats[1])
    said = asked.live(9, (3, 3), n3=(3, 3), n1=(3, 3))
    expect("another one leads", said == [("bad", "Node 2 does not lead: node 3 does, under ballot "
           "3.3. So nothing is to be done.")], said)
