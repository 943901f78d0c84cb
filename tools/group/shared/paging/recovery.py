"""What has happened since nodes were lost, in some sentences: once the program goes on without
them, and once all nodes run again. Then the event is told: who was lost and which of them at the
same time, for how long the program stood still, and what became of typed keys. The next loss begins
a new event."""

import collections

from .heading import majority_of, missing_of, runs
from .marks import LOST, now
from .sentences import about, groups_of, lower, together, upper, verb_of, who_was_lost
from .typed import Typed

# How long it is waited for to know what became of the keys, and for the last loss to be over; in
# milliseconds.
PATIENCE, SETTLED = 5000, 1500


def is_loss(kind, text):
    """Whether a mark tells that a node is lost."""
    is_stop = kind == "held" and text.startswith("is stopped")
    return kind in LOST or is_stop or kind == "crash" and bool(text)


class Standing:
    """When nobody led, as spans of time: each with its begin and end, what is known of it, and how
    many nodes ran at least, if too few did."""

    def __init__(self):
        self.spans = collections.deque(maxlen=1000)

    def add(self, begin, end, what, up):
        if self.spans and self.spans[-1][1:3] == [begin, what]:
            last = self.spans[-1]
            last[1], last[3] = end, min(last[3], up)
        elif what != "goes":
            self.spans.append([begin, end, what, up])

    def lasted(self, since, *what):
        """For how long that was so since then, or None if it was not."""
        found = [end - max(begin, since) for begin, end, it, _ in self.spans
                 if it in what and end > since]
        return sum(found) if found else None

    def least(self, since):
        """How many nodes ran at least since then, while they were too few."""
        return min(up for _, end, it, up in self.spans if it == "few" and end > since)

    def told(self, since, size):
        """Why the program has stood still since then and for how long, or an empty text."""
        few, idle = self.lasted(since, "few"), self.lasted(since, "few", "idle")
        if few is not None:
            up = self.least(since)
            up = f"only {up}" if up else "none"
            need = f"{size // 2 + 1} of {size} nodes are needed and {up} ran"
            if idle - few < 500:
                return f"{need}, so the program stood still for {about(idle)}."
            return (f"{need}, and then a node had to take the lead: the program stood still for "
                    f"{about(idle)} in all.")
        return "" if idle is None else f"Nobody led, so the program stood still for {about(idle)}."


class Recovery:
    """Notes who is lost, from the first loss until all nodes run and one leads. `clock` returns
    milliseconds."""

    def __init__(self, settled=SETTLED, clock=now):
        self.settled, self.clock = settled, clock
        # How many marks were looked at; who led before what is not told yet, and before the event;
        # and when it was looked last, with what was so then and how many nodes ran.
        self.count, self.leader, self.first, self.looked = 0, None, None, (None, "goes", 0)
        self.standing, self.typed = Standing(), Typed()
        self.begin()

    def begin(self):
        """Nobody is lost."""
        # Each loss: when it was, the node, and how it was lost. When the last one was seen.
        self.lost, self.seen = [], 0
        # Who led since then, and those that were not up again: of them a death may be told twice.
        self.leaders, self.down = set(), set()
        self.typed = self.typed.anew()
        self.tell_anew()

    def tell_anew(self):
        """What was lost so far is told. What was lost since then; when a node led again, and
        whether none did meanwhile."""
        self.untold, self.back, self.has_stood, self.typed_anew = (
            [], None, False, self.typed.anew())

    def begun(self):
        """When the first node was lost, or None."""
        return min((it[0] for it in self.lost), default=None)

    def note(self, nodes, size, leader, count=0, waiting=0):
        """Notes for how long nobody leads, also while a death is not told yet; and that `count`
        keys were typed here, of which so many wait."""
        when, (before, *was) = self.clock(), self.looked
        words = {None: "unknown", False: "idle"}
        what = "few" if majority_of(nodes, size) is False else words.get(leader, "goes")
        self.looked = when, what, len(runs(nodes))
        self.standing.add(before or when, when, *was)
        self.has_stood = self.has_stood or leader is False
        for it in (self.typed, self.typed_anew):
            it.note(count, waiting, what in ("few", "idle"))

    def note_losses(self, marks, nodes):
        names, new = {it["at"]: it["node"] for it in nodes}, marks.since(self.count)
        self.count = marks.count
        for _, when, at, kind, text in sorted(new, key=lambda it: it[1]):
            if kind == "start":
                self.down.discard(at)
            elif is_loss(kind, text) and at in names:
                self.note_loss(at, names[at], when, verb_of(text))

    def note_loss(self, at, node, when, verb):
        # A node that is stopped was stopped, once it is told of.
        verb = verb.replace("is", "was", 1) if verb.startswith("is ") else verb
        if at in self.down:
            for lost in (self.lost, self.untold):
                mine = [it for it in lost if it[1] == node]
                if mine:
                    mine[-1][2] = verb
            return
        self.down.add(at)
        self.first = self.first if self.lost else self.leader
        self.leaders.add(self.leader)
        self.back, self.seen = None, self.clock()
        self.lost.append([when, node, verb])
        self.untold.append([when, node, verb])

    def look(self, marks, nodes, size, leader, fate, has_ended=False):
        """`leader` is the number of the node that leads, False if it is known that none does, or
        None. `fate` is what has become of typed keys since the first loss: they are `lost`, `kept`,
        `unknown` or `unseen`, or there are `none`. What is to be said, and when that began; or
        None."""
        self.note_losses(marks, nodes)
        if not leader:
            self.back = None
            return None
        if not self.lost:
            # A node leads, and nothing is to be told.
            self.leader, self.has_stood, self.standing = leader, False, Standing()
            self.typed, self.typed_anew = self.typed.anew(), self.typed.anew()
            return None
        self.leaders.add(leader)
        self.back = self.back or self.clock()
        are_all = len(runs(nodes)) == size
        if not self.is_due(fate, max(self.seen, self.back) if are_all else self.seen):
            return None
        if are_all:
            since, said = self.begun(), self.whole(size, leader, has_ended, fate)
            self.leader = leader
            self.begin()
            return since, said
        return self.part(nodes, leader, fate) if self.untold else None

    def is_due(self, fate, since):
        """Whether nothing has changed since then, and it is known what became of keys."""
        when = self.clock()
        is_known = fate != "unknown" or when - self.back >= PATIENCE
        return is_known and when - since >= self.settled

    def part(self, nodes, leader, fate):
        """What has happened since it was told last, while nodes are missing."""
        since = min(it[0] for it in self.untold)
        after = f"after {about(self.back - since)}"
        who = "it" if {it[1] for it in self.untold} == {leader} else f"node {leader}"
        if leader != self.leader:
            then = f"{who} took over {after}"
        else:
            then = f"{who} led again {after}" if self.has_stood else f"{who} led as before"
        missing = missing_of(nodes)
        more = f" {upper(missing)}." if missing else ""
        keys = self.typed_anew.told(fate, self.has_stood)
        said = f"{lower(who_was_lost(self.untold))}, and {then}.{keys}{more}"
        self.tell_anew()
        self.leader = leader
        return since, said

    def whole(self, size, leader, has_ended, fate):
        """All of the event, once all nodes run."""
        since, who = self.begun(), lower(who_was_lost(self.lost))
        nodes = {it[1] for it in self.lost}
        told = self.standing.told(since, size)
        keys = self.typed.told(fate, bool(told))
        is_known = self.standing.lasted(since, "unknown") is None and None not in self.leaders
        has_led = bool(nodes & self.leaders)
        up = {1: f"Node {min(nodes)} came up again", 2: "Both came up again"}.get(
            len(nodes), "All came up again")
        led = "led again" if leader == self.first else "took the lead" if self.first else "led"
        led = f"{'it' if nodes == {leader} else f'node {leader}'} {led}"
        if has_ended:
            return f"{who}. {up}, and {led}.{keys if fate == 'lost' else ''}"
        if has_led and is_known:
            told = told or "The program stood still for less than a second."
        if told or not is_known:
            then = f"{up}, {led}, and the program went on."
            return " ".join(filter(None, [f"{who}.", told, then])) + keys
        others = "the other two" if size == 3 else "enough others"
        if len(self.lost) == 1:
            return (f"{who}; it did not lead and {others} ran, so the program went on. It came up "
                    f"again.{keys}")
        they = "It" if len(nodes) == 1 else "They"
        return (f"{who}. {they} did not lead and enough others ran, so the program went on. {up}."
                f"{keys}")

    def lost_with(self, node):
        """A node that was lost, with those that were lost at the same moment, as a sentence without
        its full stop; or None."""
        found = [it for it in groups_of(self.lost) if node in [one[1] for one in it]]
        return together(found[-1]) if found else None
