"""What is told of keys that were typed at a node which the session has left: which of them no
record has, so that they are lost, and which may still come."""

import time

from .stay import ABSENT, CHOSEN, VOTED

# How long after a move it is told, and how long keys that were called lost are looked for, in
# seconds.
TELL, KEPT = 1.5, 600.0
# How long it is waited for the other nodes to be at rest, and how long what is typed waits for
# earlier keys that may still come, once a node leads, in seconds.
REST, HOLD = 10.0, 10.0
SIGNS = {9: "<Tab>", 10: "<Enter>", 13: "<Enter>"}


def shown_as(keys):
    """Keys in a sentence."""
    signs = (chr(it) if 32 <= it < 127 else SIGNS.get(it) or f"\\{it:02x}" for it in keys)
    return '"' + "".join(signs) + '"'


def counted(keys):
    return "a key" if len(keys) == 1 else f"{len(keys)} keys"


class Losses:
    """The stays that the session has left, with keys that are not known to be chosen."""

    def __init__(self, session):
        self.session, self.left = session, []
        # Who leads, and since when that is so.
        self.leader, self.led = None, time.monotonic()

    def add(self, stay):
        stay.left, stay.told = time.monotonic(), None
        self.left.append(stay)

    def back_at(self, process):
        """The stay of this process, to which the session comes back, or None."""
        for it in self.left:
            if process and it.process == process:
                self.left.remove(it)
                return it
        return None

    def waiting(self):
        return sum(
            fate != CHOSEN and number not in it.named
            for it in self.left
            for number, fate in zip(it.numbers, it.fates(self.session.tally))
        )

    def has_ended(self, stay):
        """Whether the process has ended at which these keys were typed."""
        seat = self.session.seats[stay.at]
        if stay.process:
            return not seat.is_running(stay.process)
        record = seat.record()
        return seat.is_gone() or bool(record and record.starts > stay.high)

    def tell(self):
        """Says what is new of the keys that were left."""
        now, tally = time.monotonic(), self.session.tally
        for it in list(self.left):
            self.note_rested(it)
            if now - it.left >= TELL:
                self.tell_of(it, now)
            it.settle(tally)
            unknown = [
                number for number, fate in zip(it.numbers, it.fates(tally))
                if fate != CHOSEN and number not in it.named
            ]
            if not unknown and (not it.named or now - it.left > KEPT):
                self.left.remove(it)

    def note_rested(self, stay):
        """Notes which other nodes have done all that they had heard when the stay was left."""
        for at, it in enumerate(self.session.seats):
            if at != stay.at and at not in stay.rested and (it.is_gone() or it.is_at_rest()):
                stay.rested.add(at)

    def unsure(self, stay, now):
        """The other nodes that may have heard of these keys and have not done anything about it:
        their names, or None where that will soon be known."""
        seats, names = self.session.seats, self.unrested(stay)
        if now - stay.left < REST and any(seats[at].process and seats[at].is_up() for at in names):
            return None
        return [self.session.name(at) for at in names]

    def holds(self):
        """Whether what is typed now has to wait, since earlier keys of a node that was left may
        still come, and would come behind it: a leader puts votes of which it hears late at later
        places."""
        now, leader = time.monotonic(), self.session.leader()
        if leader != self.leader:
            self.leader, self.led = leader, now
        return any(self.is_open(it, leader, now) for it in self.left)

    def is_open(self, stay, leader, now):
        is_over = leader is not False and now - max(stay.left, self.led) > HOLD
        fates, seats = stay.fates(self.session.tally), self.session.seats
        if is_over or VOTED in fates or ABSENT not in fates:
            return not is_over and VOTED in fates
        # Of a node whose process is not seen it is never known whether it was at rest.
        are_busy = any(seats[at].process for at in self.unrested(stay))
        return are_busy or not self.has_ended(stay)

    def unrested(self, stay):
        """The other nodes that may have heard of these keys, and have not done all of it."""
        seats = self.session.seats
        return [at for at in range(len(seats)) if at != stay.at and at not in stay.rested]

    def tell_of(self, stay, now):
        fates, name = stay.fates(self.session.tally), self.session.name(stay.at)
        has_ended = self.has_ended(stay)
        of = {kind: [] for kind in (CHOSEN, VOTED, ABSENT)}
        for at, fate in enumerate(fates):
            of[fate].append(at)
        came = [at for at in of[CHOSEN] if stay.numbers[at] in stay.named]
        lost = [at for at in of[ABSENT] if stay.numbers[at] not in stay.named]
        unsure = self.unsure(stay, now) if lost and has_ended else []
        if unsure is None:
            return
        if came:
            self.say(stay, came, "came", "{keys} that {were} called lost {have} come after all: "
                     "{text}. Do not type {them} again.")
        if lost and has_ended:
            self.say(stay, lost, "lost", self.sentence_of_loss(name, unsure))
            stay.named.update(stay.numbers[at] for at in lost)
        elif lost and stay.told is None:
            self.say(stay, lost + of[VOTED], "kept", f"{name} still runs, and has {{keys}} that "
                     "{were} typed there: {text}. Do not type {them} again as long as it runs: "
                     "{they} may come.")
        if of[VOTED] and has_ended and stay.told != "ended":
            self.say(stay, of[VOTED], "voted", f"{{keys}} that {{were}} typed at {name} {{are}} "
                     "chosen by no majority yet, and may be: {text}. Do not type {them} again "
                     "unless a line says that {they} {are} lost.")
        stay.told = "ended" if has_ended else "kept"

    def sentence_of_loss(self, name, unsure):
        """No record has these keys. Their node may have sent them to others."""
        session = self.session
        are_all = session.tally.size == sum(it.record() is not None for it in session.seats)
        begin = f"{{keys}} that {{were}} typed at {name}, which has ended, {{are}} lost"
        if unsure:
            return begin + (f", unless {' or '.join(unsure)} has heard of {{them}}, which is "
                            "stopped, does not move, or is not seen here: {text}.")
        if not are_all:
            return begin + ", unless a record has {them} that is not seen here: {text}."
        return begin + ": {text}."

    def say(self, stay, places, kind, form):
        """Says a sentence of the keys at these places of a stay."""
        keys = bytes(stay.keys[at] for at in places)
        is_one = len(keys) == 1
        words = {
            "keys": counted(keys), "text": shown_as(keys), "were": "was" if is_one else "were",
            "have": "has" if is_one else "have", "are": "is" if is_one else "are",
            "them": "it" if is_one else "them", "they": "it" if is_one else "they",
        }
        self.session.say(kind, form.format(**words))

    def say_blind(self, name, keys):
        """The node is left, and its record cannot be read."""
        self.session.say("blind", f"The last keys that were typed at {name} may be lost, and its "
                         f"record cannot be read here: {shown_as(keys)}. Look whether they are "
                         "shown before you type them again.")

    def renew(self):
        """The session was renewed, for which all nodes had ended."""
        for it in self.left:
            rest = [at for at, number in enumerate(it.numbers) if number not in it.named]
            fates = it.fates(self.session.tally)
            rest = [at for at in rest if fates[at] != CHOSEN]
            if rest:
                self.say(it, rest, "lost", "the session was renewed, and {keys} of the one before "
                         "{are} lost unless {they} {are} shown: {text}.")
        self.left.clear()
