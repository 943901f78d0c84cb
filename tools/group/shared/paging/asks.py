"""What has come of it that somebody has asked a node to lead: one sentence closes each such
request."""

from ..record import text_of_ballot
from .marks import now
from .sentences import upper

# How long a node has to lead, since it was asked or has asked the others last; in any case; and how
# long it is looked for after it was said that it does not, in milliseconds.
LED, LONGEST, AFTER = 2500, 10000, 30000


def promised_by(seat):
    it = seat.record()
    return it and it.promised


class Ask:
    """A request to the node of a seat."""

    def __init__(self, seat, when):
        self.seat, self.begun, self.since = seat, when, when
        self.process, self.before = seat.process, promised_by(seat)
        # The greatest ballot under which it has asked the others since then.
        self.own, self.is_told = None, False

    def look(self, when):
        """Notes that the node has asked the others, once more too."""
        promised = promised_by(self.seat)
        is_own = promised and promised.node == self.seat.record().node
        if is_own and promised != self.before and promised != self.own:
            self.own, self.since = promised, when

    def is_over(self, when):
        return when - self.since > LED or when - self.begun > LONGEST


class Asks:
    """The requests of which it is not told yet what has come of them. By the lanes of the nodes."""

    def __init__(self, clock=now):
        self.clock, self.open = clock, {}

    def add(self, at, seat):
        self.open[at] = Ask(seat, self.clock())

    def look(self, session, leader):
        """What is to be said, each a kind and a sentence. `leader` is the ballot that leads, False
        if it is known that none does, or None."""
        said, when = [], self.clock()
        for at, it in list(self.open.items()):
            it.look(when)
            kind, text = self.told(it, at, session, leader, when)
            if kind == "led" or it.is_told and when - it.begun > AFTER:
                del self.open[at]
            if text and not (it.is_told and kind != "led"):
                it.is_told = True
                said.append((kind, upper(text)))
        return said

    def told(self, it, at, session, leader, when):
        """A kind and a sentence, or two times None."""
        name = session.name(at)
        if leader and leader == it.seat.may_lead():
            if leader == it.before:
                return "led", f"{name} leads already."
            return "led", f"{name} leads now{' after all' if it.is_told else ''}."
        if it.seat.is_gone() or it.process and it.seat.process != it.process:
            return "bad", f"{name} has ended since it was asked to lead. Ask another node."
        if it.is_over(when):
            return "bad", why_not_led(it, at, session, leader)
        return None, None


def why_not_led(it, at, session, leader):
    """Why a node that was asked some time ago does not lead."""
    name, seats = session.name(at), session.seats
    if leader:
        return (f"{name} does not lead: node {leader.node} does, under ballot "
                f"{text_of_ballot(leader)}. So nothing is to be done.")
    size = session.tally.size if session.tally else len(seats)
    up = sum(one.is_up() for one in seats)
    if 2 * up <= size and size == len(seats):
        return (f"{name} cannot lead: {up} of {size} nodes run, which is no majority. Start others "
                "first.")
    if it.own is None:
        return (f"Nothing has come of it that {name} was asked to lead: it has not asked the "
                "others. Ask it once more, or another node.")
    greater = greater_than(promised_by(it.seat), at, seats)
    if greater:
        ballot, place = greater
        other = session.name(place)
        best = f", or ask {other}, which knows it" if seats[place].is_up() else ""
        return (f"{name} was refused: {other} has promised a greater ballot, "
                f"{text_of_ballot(ballot)}. If {name} does not lead within seconds, ask it once "
                f"more{best}.")
    return (f"{name} has asked the others and does not lead: too few of them have answered. Look "
            "whether they hear each other, and ask it again.")


def greater_than(own, at, seats):
    """The greatest ballot that another node has promised, and who, if it is above its own one."""
    found = [(promised_by(it), place) for place, it in enumerate(seats) if place != at]
    found = [it for it in found if it[0] and (own is None or it[0] > own)]
    return max(found, default=None)
