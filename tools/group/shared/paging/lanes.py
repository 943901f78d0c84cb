"""What a page shows of each node: what it is now, and what it has done in the last minutes, as
marks with their times."""

import collections
import os
import re
import time

from ..ends import Log, with_end
from ..record import text_of_ballot
from ..sitting.seat import ENDED, STOPPED, birth_of
from ..watch import file_of, state_of, words_of_process
from .life import Life, Pair
from .marks import TEXT, now
from .sentences import death_of, told_of

# The most characters of a console's end.
END = 90
# How often a node's log is looked at, and after how long without growth a shorter console is
# behind, in seconds.
READ, STILL = 0.5, 1.0
# How many milliseconds after its start a node is the last to be asked to lead.
NEW = 3000
SUPERVISORS = ("supervise", "pgroup-supervise")
LINE = re.compile(r"(?:^|\s)(\d+\.\d{3}) (?:supervise )?node (\d) (.*)$")
SEQUENCE = re.compile(r"\x1b\[[0-9;?]*[@-~]|\x1b.")


class Lines(Log):
    """A node's log, and the lines of it that nobody has taken yet."""

    def __init__(self, path):
        self.lines, self.stamp = collections.deque(maxlen=100), None
        super().__init__(path)

    def note(self, line):
        super().note(line)
        found = LINE.search(line)
        if found:
            self.lines.append((int(float(found[1]) * 1000), int(found[2]), found[3][:TEXT]))

    def look(self):
        it = os.stat(self.path)
        if (it.st_ino, it.st_size) != self.stamp:
            self.stamp = it.st_ino, it.st_size
            super().look()


def one_line(data):
    """The end of a console in one line."""
    text = SEQUENCE.sub(" ", data.decode("utf-8", "replace"))
    return re.sub(r"[\x00-\x1f\x7f-\x9f]+", " \u00b7 ", text)[-END:]


def is_supervisor(pid):
    words = words_of_process(pid) if pid else []
    return any(os.path.basename(it) in SUPERVISORS for it in words[:3])


class Lane:
    """A node whose record is here."""

    def __init__(self, at, seat, marks):
        self.at, self.seat, self.marks = at, seat, marks
        self.word, self.promised, self.led, self.was_read = None, None, set(), False
        # By ballots: the process which was seen to promise it first.
        self.owners = {}
        self.size, self.grown, self.shown = None, 0.0, ""
        self.log, self.read, self.logged, self.held = None, -READ, None, 0
        self.life, self.pair, self.shown_pair = Life(at, marks), Pair(), (None, None)
        # The process that has started it, with its birth, and whether that starts it again.
        self.supervisor, self.is_supervised = None, False

    def number(self):
        it = self.seat.record()
        return it.node if it else self.seat.number or self.at + 1

    def is_dying(self):
        """Whether its process has ended, which the next look tells."""
        process = self.seat.process
        return bool(self.life.is_up and process and not self.seat.is_running(process))

    def is_removed(self):
        """Whether its record was read here, and is no longer there."""
        votes = self.seat.votes
        return bool(votes) and self.was_read and not os.path.exists(votes.path)

    def state(self, leader):
        """What the node is, in a word."""
        if self.seat.is_gone() or not (self.seat.was_seen or self.seat.keys):
            return "down"
        if self.seat.is_stopped():
            return "stopped"
        return "leads" if self.is_led_by(leader) else "up"

    def is_led_by(self, leader):
        """Whether the node leads under this ballot: not under that of a process that has ended,
        which its record still has until the next one has begun it anew."""
        is_own = leader and leader == self.seat.may_lead() and not self.is_stale(leader)
        # Nor is it said to lead before it is told that it is up again.
        return bool(is_own) and self.life.is_up is not False

    def is_stale(self, ballot):
        """Whether a ballot is one of an earlier process of the node."""
        return self.owners.get(ballot, self.seat.process) != self.seat.process

    def look(self, leader, fresh):
        """Notes what is new. `fresh` are the places at which it has voted since the last look."""
        word, process = self.state(leader), self.seat.process
        self.life.leads = self.word == "leads"
        self.life.look(word == "down", process, bool(self.log) and self.is_supervised)
        self.shown_pair = self.pair.look(word == "down", process, self.seat.record())
        self.note_record(fresh)
        if word != self.word:
            self.note_word(word)
        self.look_at_console()
        # A death is told as the log says it, and as soon as it says so.
        if self.life.died or time.monotonic() - self.read >= READ:
            self.read = time.monotonic()
            self.look_at_log()
            self.is_supervised = self.has_supervisor()

    def note_word(self, word):
        before, self.word = self.word, word
        if before and word == "stopped":
            self.held = now()
            self.marks.add(self.at, "held", "is stopped", self.held)
        elif before == "stopped" and word != "down":
            self.marks.add(self.at, "start", "moves again")
        self.marks.add(self.at, "span", word)
        if word == "leads":
            ballot, when = text_of_ballot(self.seat.may_lead()), now()
            self.led.add(ballot)
            # If it has ended since it was looked at, that it led would stand behind its death.
            if before and not self.is_dying():
                self.marks.add(self.at, "leads", ballot, when)

    def note_record(self, fresh):
        record = self.seat.record()
        if record is None:
            return
        # While a process is seen to run, what its record promises is its own.
        if record.promised and self.seat.process and not self.seat.is_gone():
            self.owners.setdefault(record.promised, self.seat.process)
        if self.was_read and record.promised and record.promised != self.promised:
            is_own = record.promised.node == record.node
            kind = "campaign" if is_own else "promise"
            self.marks.add(self.at, kind, text_of_ballot(record.promised))
        self.promised, self.was_read = record.promised, True
        if fresh and now() - self.marks.begun > 1000:
            first, last = min(fresh), max(fresh)
            self.marks.add(self.at, "place", str(first) if first == last else f"{first}-{last}")

    def look_at_console(self):
        size = self.seat.size()
        if size == self.size:
            return
        self.size, self.grown = size, time.monotonic()
        end = self.seat.read(max(0, size - 2 * END), 2 * END) if size else None
        self.shown = one_line(end or b"")

    def look_at_log(self):
        """Notes what the node's log, or that of its supervisor, says."""
        process = self.seat.process
        if process and process != self.logged:
            self.logged, parent = process, state_of(process[0])[1]
            if is_supervisor(parent):
                self.supervisor = parent, birth_of(parent)
            path = file_of(process[0], 2) or file_of(parent, 2)
            if path and (self.log is None or self.log.path != path):
                self.log = Lines(path)
        try:
            if self.log:
                self.log.look()
        except OSError:
            return  # It is gone, or is no file.
        while self.log and self.log.lines:
            when, node, text = self.log.lines.popleft()
            if node == self.number() and when > self.marks.begun:
                self.note_line(text, when)

    def note_line(self, text, when):
        """Notes what a line of the log says."""
        death, told = death_of(text), told_of(text, self.led)
        if death:
            self.life.note_end(death, when)
        elif told:
            self.marks.add(self.at, "log", told, when)

    def has_supervisor(self):
        """Whether a supervisor of the node is known to run, which starts it again."""
        if self.supervisor is None:
            return False
        pid, birth = self.supervisor
        is_there = birth is not None and birth_of(pid) == birth
        return is_there and state_of(pid)[0] not in (*ENDED, *STOPPED)

    def lag(self, front):
        """How many bytes its console is behind, once it has not grown for a while."""
        is_still = time.monotonic() - self.grown > STILL
        return front - self.size if self.size is not None and is_still else 0

    def end(self):
        """How its program has ended, in a sentence, or None."""
        it = self.seat.record()
        end = self.log.end(it.node, it.session) if self.log and it else None
        return None if end is None else with_end("its program has ended", end)

    def loss(self):
        """When and how it was lost, if that was seen and it does not run."""
        return (self.held, "is stopped") if self.word == "stopped" and self.held else self.life.loss

    def shot(self, session, front):
        """The node as it is, for a browser."""
        record, seat, tally = self.seat.record(), self.seat, session.tally
        number = self.number()
        is_known = seat.keys is not None and seat.size() is not None
        return {
            "node": number, "at": self.at, "state": self.word, "lag": self.lag(front),
            "pid": self.shown_pair[0], "supervised": self.is_supervised,
            "is_new": now() - self.life.rose < NEW, "loss": self.loss(),
            "log": self.log.path if self.log else None,
            "promised": text_of_ballot(record.promised) if record else None,
            "starts": self.shown_pair[1] if record else None,
            "votes": tally.taken.get(number, 0) if tally and record else None,
            "bytes": self.size, "shown": self.shown, "end": self.end(),
            "fault": None if record else "its record cannot be read here",
            "can_type": is_known and self.word in ("up", "leads"),
            "can_lead": seat.keys is not None and self.word == "up",
        }
