"""What a node does at each call, by the table "What a node does" of docs/FORMATS.md and apart from
the program: all of it but the machine. Each call returns the change that it saves, or None, and the
messages that it sends, each with whom it is for."""

from ..record import LAST_SERIAL, LAST_START, MOST_KEYS, NOOP, PLACES, Ballot, Batch
from .datagram import MOST_VOTES, Message
from .keys import Keys
from .stored import Promise, Start, Vote

# Whom a message to all is for.
ALL = 0
# How far above the front a place is open; how many keys wait at most; and of one call the most
# proposals of a pump, Accepts that are sent again, and Tells.
WINDOW, MOST_WAITING, MOST_PUMPED, MOST_AGAIN, MOST_TOLD = 1024, 256, 16, 16, 16


class NodeRefused(Exception):
    """The code of what a node refuses. Nothing has changed then."""


class Proposer:
    """What a node proposes under its ballot."""

    def __init__(self, ballot, front, size):
        self.ballot, self.first, self.size = ballot, front, size
        self.coverage = {it: front for it in range(1, size + 1)}
        self.kept, self.last_kept = {}, -1  # the last place at which a vote was ever kept
        self.proposed = []
        self.changes = 0  # how often any of this has changed

    def next(self):
        return self.first + len(self.proposed)

    def covers(self, place):
        return 2 * len([it for it in self.coverage.values() if it > place]) > self.size

    def leads(self):
        return self.covers(self.next())

    def keeps_above(self, place):
        """Whether a vote is kept at the place or above it. None is kept below the next place."""
        return self.last_kept >= place

    def propose(self, value):
        place = self.next()
        self.proposed.append(value)
        self.kept.pop(place, None)
        self.changes += 1
        return {"ballot": self.ballot, "place": place, "value": value}

    def pump(self):
        """The proposals that have to be made before any new one: their fields."""
        made = []
        while len(made) < MOST_PUMPED and self.leads():
            place = self.next()
            if not self.keeps_above(place):
                break
            made.append(self.propose(self.kept[place][1] if place in self.kept else NOOP))
        return made

    def keep(self, sender, fields):
        """Takes a part of a promise. Whether it was taken."""
        covered = self.coverage[sender]
        if not fields["first"] <= covered < fields["upto"]:
            return False
        for place, ballot, value in fields["votes"]:
            is_old = place in self.kept and self.kept[place][0] >= ballot
            if place >= covered and place >= self.next() and not is_old:
                self.kept[place] = (ballot, value)
                self.last_kept = max(self.last_kept, place)
        self.coverage[sender] = fields["upto"]
        self.changes += 1
        return True


class Learner:
    """What a node has learned, and the input, which is the keys below the front, each once."""

    def __init__(self, size):
        self.size = size
        self.learned, self.front, self.tallies = {}, 0, {}
        self.known, self.read = Keys(), Keys()
        self.news = []  # what the last call has learned
        self.changes = 0  # how often a value was learned, or a tally has changed

    def is_open(self, place):
        return place not in self.learned and self.front <= place < self.front + WINDOW

    def learn(self, place, value):
        self.learned[place] = value
        self.tallies.pop(place, None)
        self.known.add(value)
        self.news.append((place, value))
        self.changes += 1
        while self.front in self.learned:
            self.read.add(self.learned[self.front])
            self.front += 1

    def hear_accepted(self, sender, ballot, place, value):
        if not self.is_open(place):
            return
        tally = self.tallies.get(place)
        if tally is None or tally[0] < ballot:
            self.tallies[place] = tally = (ballot, value, set())
        if tally[:2] != (ballot, value) or sender in tally[2]:
            return
        tally[2].add(sender)
        self.changes += 1
        if 2 * len(tally[2]) > self.size:
            self.learn(place, value)

    def hear_tell(self, place, value):
        if self.is_open(place):
            self.learn(place, value)


class Protocol:
    """A node that is up: what it knows besides its record, which is a `Stored` and is not changed
    here."""

    def __init__(self, number, size, record):
        self.number, self.size, self.record = number, size, record
        self.start = record.starts + 1
        self.learner = Learner(size)
        self.proposer = None
        self.remembered = None
        self.offered = Keys()
        self.waiting, self.first_waiting = [], 1
        self.marked = None  # its mark, if that is known

    def leads(self):
        return self.proposer is not None and self.proposer.leads()

    def mark(self):
        """What differs after a message that was news."""
        asked = self.proposer
        return self.learner.changes, self.remembered, asked, asked and asked.changes

    def message(self, kind, **fields):
        return Message(kind, self.number, fields)

    def accepts(self, made):
        return [(ALL, self.message("accept", **it)) for it in made]

    # The calls of its holder.

    @staticmethod
    def starting(record):
        """The change that a start saves."""
        if record.starts == LAST_START:
            raise NodeRefused("D10")
        return Start()

    def type(self, character):
        if len(self.waiting) >= MOST_WAITING:
            raise NodeRefused("D4")
        if self.first_waiting + len(self.waiting) > LAST_SERIAL:
            raise NodeRefused("D5")
        self.waiting.append(character)

    def campaign(self):
        rounds = [it.round for it in (self.record.promised, self.remembered) if it is not None]
        if max(rounds, default=0) == LAST_SERIAL:
            raise NodeRefused("D11")
        if self.learner.front == PLACES:
            raise NodeRefused("D12")
        ballot = Ballot(max(rounds, default=0) + 1, self.number)
        self.proposer = Proposer(ballot, self.learner.front, self.size)
        self.offered = Keys()
        prepare = self.message("prepare", ballot=ballot, place=self.learner.front)
        return Promise(ballot), [(ALL, prepare)]

    def tick(self):
        sends = self.repeats() if self.proposer else []
        if self.waiting:
            sends.append((ALL, self.message("submit", value=self.batch())))
        return None, sends + [(ALL, self.message("ask", place=self.learner.front))]

    def repeats(self):
        """What a tick of a node with a proposer sends again, and what it then proposes."""
        it, sends = self.proposer, []
        if not it.covers(PLACES - 1):
            for node, covered in sorted(it.coverage.items()):
                if covered < PLACES:
                    prepare = self.message("prepare", ballot=it.ballot, place=covered)
                    sends.append((node, prepare))
        again = []
        for place in range(max(self.learner.front, it.first), it.next()):
            if place not in self.learner.learned and len(again) < MOST_AGAIN:
                value = it.proposed[place - it.first]
                again.append({"ballot": it.ballot, "place": place, "value": value})
        return sends + self.accepts(again) + self.accepts(it.pump())

    def batch(self):
        characters = bytes(self.waiting[:MOST_KEYS])
        return Batch(self.number, self.start, self.first_waiting, characters)

    def hear(self, message):
        kind, sender, fields = message
        saved = getattr(self, HEARING[kind])(sender, fields)
        if self.waiting:
            self.forget_read()
        return saved

    def forget_read(self):
        """The first waiting keys that are in the input wait no more."""
        read = self.learner.read.first_missing(self.number, self.start, self.first_waiting)
        count = min(read - self.first_waiting, len(self.waiting))
        del self.waiting[:count]
        self.first_waiting += count

    # The messages.

    def refusal(self, ballot):
        """The Refused that answers a ballot below the promised one, or None."""
        promised = self.record.promised
        if promised is None or promised <= ballot:
            return None
        return [(ballot.node, self.message("refused", ballot=ballot, promised=promised))]

    def drop_proposer_below(self, ballot):
        if self.proposer and self.proposer.ballot < ballot:
            self.proposer = None

    def on_prepare(self, sender, fields):
        ballot, place = fields["ballot"], fields["place"]
        refusal = self.refusal(ballot)
        if refusal:
            return None, refusal
        change = None if self.record.promised == ballot else Promise(ballot)
        votes, upto = self.record.votes_from(place, MOST_VOTES)
        self.drop_proposer_below(ballot)
        promise = self.message("promise", ballot=ballot, first=place, upto=upto, votes=votes)
        return change, [(ballot.node, promise)]

    def on_promise(self, sender, fields):
        it, sends = self.proposer, []
        if it is None or it.ballot != fields["ballot"]:
            return None, []
        if it.keep(sender, fields) and fields["upto"] < PLACES:
            prepare = self.message("prepare", ballot=it.ballot, place=fields["upto"])
            sends.append((sender, prepare))
        return None, sends + self.accepts(it.pump())

    def on_accept(self, sender, fields):
        ballot, place, value = fields["ballot"], fields["place"], fields["value"]
        refusal = self.refusal(ballot)
        if refusal:
            return None, refusal
        change, vote = None, self.record.votes.get(place)
        if vote is not None and vote[0] == ballot:
            value = vote[1]
        else:
            change = Vote(place, ballot, value)
        self.drop_proposer_below(ballot)
        accepted = self.message("accepted", ballot=ballot, place=place, value=value)
        return change, [(ALL, accepted)]

    def on_accepted(self, sender, fields):
        self.learner.hear_accepted(sender, fields["ballot"], fields["place"], fields["value"])
        return None, []

    def on_tell(self, sender, fields):
        self.learner.hear_tell(fields["place"], fields["value"])
        return None, []

    def on_refused(self, sender, fields):
        if self.remembered is None or self.remembered < fields["promised"]:
            self.remembered = fields["promised"]
        if self.proposer and self.proposer.ballot == fields["ballot"]:
            self.proposer = None
        return None, []

    def on_submit(self, sender, fields):
        if not self.leads() or self.learner.known.have(fields["value"], self.offered):
            return None, []
        it = self.proposer
        made = it.pump()
        place = it.next()
        has_room = len(made) < MOST_PUMPED and place < PLACES and not it.keeps_above(place)
        if has_room and it.covers(place):
            made.append(it.propose(fields["value"]))
            self.offered.add(fields["value"])
        return None, self.accepts(made)

    def on_ask(self, sender, fields):
        learner, begin = self.learner, fields["place"]
        if begin >= learner.front:
            return None, []
        end = min(begin + MOST_TOLD, learner.front)
        tells = [(it, learner.learned[it]) for it in range(begin, end)]
        return None, [(sender, self.message("tell", place=at, value=it)) for at, it in tells]


# What a node does with a message, by its kind: the name of the call.
HEARING = {name[len("on_") :]: name for name in vars(Protocol) if name.startswith("on_")}
