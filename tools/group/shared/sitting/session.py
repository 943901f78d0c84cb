"""The session: keys that are typed once, and the console of the node at which they are typed. When
that node is lost the session continues at the next one whose console agrees with what was shown."""

import collections
import time

from ..watch import node_processes
from ..words import text_of_address
from .losses import Losses
from .post import SENT, Post
from .stay import ABSENT, CHOSEN, Stay
from .votes import Tally

# How many bytes a datagram of keys has at most; how many keys may be at a node that no record has:
# all others wait here, where no crash of a node loses them.
KEYS, WINDOW = 64, 128
# How much of what was shown a console has to agree with; how much is read at once, and at first.
TAIL, PIECE, FIRST = 4096, 1 << 16, 1 << 18
# How long a node is stopped until the session goes on elsewhere; how often processes are looked
# for while one is missing; how long a send may take, in seconds.
PATIENCE, SCAN, SLOW = 2.0, 0.25, 0.05
# How long a node is left alone whose port has refused a key, and how long keys that no record can
# tell of may be on their way, in seconds.
AGAIN, BLIND = 0.2, 2.0


class Session:
    """`output` has what the console has shown and nobody has taken yet, and `said` the sentences:
    each a kind and a text."""

    def __init__(self, seats, at=0, tally=Tally):
        self.seats, self.at = seats, at
        self.tally, self.number, self.new_tally = None, None, tally
        self.shown, self.tail, self.output = None, b"", bytearray()
        # Keys that are not sent yet, each with its number, and how many were typed.
        self.held, self.count = collections.deque(), 0
        self.stay, self.said, self.post = None, [], Post()
        self.losses = Losses(self)
        # Why no node has the session, and since when its node is stopped.
        self.away, self.stopped = None, None
        # The last keys that were sent to a node whose record cannot be read: when, and which.
        self.blind = collections.deque(maxlen=KEYS)
        self.scanned = -SCAN

    def seat(self):
        return self.seats[self.at]

    def name(self, at=None):
        at = self.at if at is None else at
        return self.seats[at].name(at)

    def say(self, kind, text):
        self.said.append((kind, text[0].upper() + text[1:]))

    def type(self, keys):
        """Takes keys. They are sent once there is a node and room."""
        for it in keys:
            self.count += 1
            self.held.append((self.count, it))

    def step(self):
        """Does what is due. Whether something new was shown."""
        self.look()
        before = self.shown
        self.show()
        self.judge()
        self.push()
        self.losses.tell()
        return self.shown != before

    # What is seen.

    def look(self):
        now = time.monotonic()
        for it in self.seats:
            it.look_at_state()
        is_missing = any(it.state is None for it in self.seats)
        if is_missing and now - self.scanned >= SCAN:
            self.scanned, processes = now, node_processes()
            for it in self.seats:
                it.find(processes)
        self.look_at_records()
        for it in filter(None, [self.stay, *self.losses.left]):
            self.narrow(it)
        if self.stay and self.tally:
            self.stay.settle(self.tally)

    def look_at_records(self):
        for it in self.seats:
            if it.votes:
                it.votes.look()
        records = [it.record() for it in (self.seat(), *self.seats)]
        first = next(filter(None, records), None)
        if first and first.session != self.number:
            self.begin(first)
        for it in self.seats:
            record = it.record()
            if record and record.session == self.number:
                fresh, it.votes.fresh = it.votes.fresh, []
                for place, (ballot, value) in fresh:
                    self.tally.note(record.node, place, ballot, value)

    def begin(self, record):
        """The records are of another session than before, or the first ones. What was typed and is
        not known to be chosen then is lost, as all nodes have ended."""
        if self.tally:
            self.leave()
            self.losses.renew()
        self.number, self.tally = record.session, self.new_tally(record.size)
        for it in self.seats:
            if it.votes:
                it.votes.forget()
                it.votes.look()

    def narrow(self, stay):
        seat = self.seats[stay.at]
        if stay.process is None or seat.record() is None or stay.low == stay.high:
            return
        is_running = seat.is_running(stay.process)
        if not is_running:
            # The record that was read may be one from before the end.
            seat.votes.look()
        if seat.record():
            stay.narrow(seat.record().starts, is_running)

    # The console.

    def show(self):
        """Takes a piece of what the console has beyond what was shown, if it goes on there."""
        seat = self.seat()
        size = seat.size()
        if self.away or size is None:
            return
        if self.shown is None:
            self.shown = max(0, size - FIRST, seat.kept_from())
        if size <= self.shown:
            return
        data = seat.read(self.shown - len(self.tail), len(self.tail) + PIECE) or b""
        if len(data) <= len(self.tail):
            return  # It was cut.
        if not data.startswith(self.tail):
            if not self.pass_over(seat.kept_from()):
                self.move(f"the console of {self.name()} is another one than was shown")
            return
        new = data[len(self.tail) :]
        self.shown += len(new)
        self.output += new
        self.tail = data[-TAIL:]

    def pass_over(self, first):
        """Looks no more at bytes before this one, if there are any, since they are not kept."""
        begin = self.shown - len(self.tail)
        if first <= begin:
            return False
        self.tail = self.tail[first - begin :]
        if first > self.shown:
            self.shown = first
            self.say("kept", f"of the console of {self.name()} the bytes up to {first} are no "
                     "longer kept.")
        return True

    def agrees(self, seat):
        """Whether a console agrees with the end of what was shown, as far as it goes and is kept.
        None where it has nothing of it."""
        shown = self.shown or 0
        begin = max(shown - len(self.tail), seat.kept_from())
        tail = self.tail[len(self.tail) - max(0, shown - begin) :]
        data = seat.read(begin, len(tail))
        if data is None or self.tail and not data:
            return None
        return data == tail[: len(data)]

    def rank(self, at):
        """Whether the session can go on at a node: 2 where its console has all that was shown, 1
        where it agrees as far as it goes, None where it cannot."""
        seat, shown, record = self.seats[at], self.shown or 0, self.seats[at].record()
        size = seat.size()
        if not seat.is_up() or seat.keys is None or size is None:
            return None
        if seat.was_refused(AGAIN) or not seat.has_port():
            return None
        if record and self.number is not None and record.session != self.number:
            return None
        if not self.agrees(seat):
            return None
        return 2 if size >= shown else 1

    def differing(self):
        """The nodes whose consoles contradict what was shown."""
        seats = enumerate(self.seats)
        return [self.name(at) for at, it in seats if it.is_up() and self.agrees(it) is False]

    # The node.

    def judge(self):
        """Leaves the node if it is lost."""
        seat, now = self.seat(), time.monotonic()
        is_other = self.stay and self.stay.process and not seat.is_running(self.stay.process)
        self.stopped = (self.stopped or now) if seat.is_stopped() else None
        if self.away:
            self.move(self.away)
        elif is_other or seat.is_gone():
            what = "has ended" if seat.was_seen else "does not run"
            self.move(f"{self.name()} {what}")
        elif self.stopped and now - self.stopped > PATIENCE:
            self.move(f"{self.name()} is stopped")
        elif seat.keys is None or seat.size() is None:
            what = "address of keys" if seat.keys is None else "console"
            self.move(f"the {what} of {self.name()} is not known or cannot be read")
        elif self.post.is_refused_late(seat.keys):
            seat.refused_at = now
            self.move(f"nobody receives at {text_of_address(seat.keys)}")

    def move(self, why):
        """Goes on at the next node that can. Whether there is one."""
        self.leave()
        size = len(self.seats)
        order = [(self.at + it) % size for it in range(1, size + 1)]
        found = [(self.rank(at), -place, at) for place, at in enumerate(order)]
        found = [it for it in found if it[0]]
        if not found:
            if self.away is None:
                differing = [f"the console of {it} is another one" for it in self.differing()]
                more = "".join(f"; {it}" for it in differing)
                self.say("away", f"{why}, and no other node that is seen here can take over{more}. "
                         "Keys that you type wait here.")
            self.away = why
            return False
        before, self.at = self.at, max(found)[2]
        again = ", which runs again" if before == self.at else ""
        first = why if self.away is None else "The keys that waited are typed now"
        self.say("moved", f"{first}: the session continues at {self.name()}{again}, "
                 "and its console is shown.")
        self.away = self.stopped = None
        return True

    def go_to(self, at):
        """Goes on at this node, as a person wants it. Why it cannot, or None."""
        seat = self.seats[at]
        if at == self.at and not self.away:
            return f"the session is at {self.name(at)} already"
        if not self.rank(at):
            return self.why_not(at, seat)
        self.leave()
        self.at, self.away, self.stopped = at, None, None
        self.say("moved", f"the session continues at {self.name()}, as it was asked for.")
        return None

    def why_not(self, at, seat):
        """Why the session cannot go on at a node."""
        name = self.name(at)
        if not seat.is_up():
            return f"{name} does not run here, or is stopped"
        if seat.keys is None or seat.size() is None:
            return f"the console of {name}, or the address of its keys, is not known here"
        if self.agrees(seat) is False:
            return f"the console of {name} is another one than was shown"
        return f"{name} takes no keys now, or is of another session"

    def leave(self):
        if self.stay and self.stay.keys:
            self.losses.add(self.stay)
        self.stay = None
        if self.blind and time.monotonic() - self.blind[-1][0] < BLIND:
            self.losses.say_blind(self.name(), b"".join(keys for _, keys in self.blind))
        self.blind.clear()

    # The keys.

    def push(self):
        """Sends keys while there is a node and room."""
        while self.held and self.away is None and not self.losses.holds():
            seat = self.seat()
            if seat.keys is None or not seat.is_up() or self.stay is None and not seat.has_port():
                return
            self.open_stay(seat)
            room = WINDOW - self.unseen()
            if room <= 0 or not self.send(seat, min(KEYS, room, len(self.held))):
                return

    def unseen(self):
        """How many keys are at the node that no record has."""
        return self.stay.fates(self.tally).count(ABSENT) if self.stay else 0

    def send(self, seat, count):
        """Sends so many keys to the node. Where no node has them the session moves, and they are
        sent there. Whether they are sent, or can be now."""
        keys, stay = [self.held[it] for it in range(count)], self.stay
        process, begun = seat.process, time.monotonic()
        if process and not seat.is_running(process):
            return False  # The next look finds it out.
        outcome, why = self.post.send(seat.keys, bytes(it for _, it in keys))
        if outcome != SENT:
            seat.refused_at = begun
            return self.move(f"{why}: {text_of_address(seat.keys)}")
        for _ in keys:
            self.held.popleft()
        if stay:
            stay.add(keys)
            is_slow = time.monotonic() - begun > SLOW
            stay.is_unsure = bool(is_slow and process and not seat.is_running(process))
        else:
            self.blind.append((begun, bytes(it for _, it in keys)))
        return True

    def open_stay(self, seat):
        """The stay of the process that runs now, if its record can be read: else nobody can tell
        which of its keys are whose."""
        record, it = seat.record(), self.stay
        if record is None or record.session != self.number:
            return
        starts = record.starts
        if it and it.process == seat.process and (it.process or it.low <= starts <= it.high):
            return
        self.leave()
        self.stay = self.losses.back_at(seat.process)
        if self.stay is None:
            self.stay = Stay(self.at, record.node, seat.process, starts, self.tally)

    # What people want to know.

    def waiting(self):
        """How many keys are not known to be chosen, nor called lost."""
        count = len(self.held) + self.losses.waiting()
        if self.stay:
            count += len(self.stay.fates(self.tally)) - self.stay.fates(self.tally).count(CHOSEN)
        return count

    def leader(self):
        """The ballot that leads, False where it is known that none does, and None where that is
        not known: it takes all records and processes of the group to know it."""
        records = [it.record() for it in self.seats]
        if not self.tally or not any(records):
            return None
        promised = [it.promised for it in records if it and it.session == self.number]
        leading = [it.may_lead() for it in self.seats]
        found = [it for it in leading if it and 2 * promised.count(it) > self.tally.size]
        if found:
            return max(found)
        are_all = len(promised) == self.tally.size and all(it.was_seen for it in self.seats)
        return False if are_all else None

    def why_waiting(self):
        """Why keys wait, as far as that is known, or an empty text."""
        if self.away:
            return "no node that is seen here can take over"
        if self.tally and self.tally.is_full():
            return "all places are taken; renew the session"
        leader = self.leader()
        if leader is not False:
            return "earlier ones may still come" if self.held and self.losses.holds() else ""
        up = sum(it.is_up() for it in self.seats)
        if 2 * up > self.tally.size:
            return "nobody leads"
        return f"{up} of {self.tally.size} nodes run, which is no majority"

    def close(self):
        self.post.close()
