"""When a node has died, and when it is up again: each is told once, and a death before the node is
up again. It is seen by the node's process, and told as the node's log says it."""

from .marks import LOST, now
from .sentences import goes_on, verb_of

# How long a log is waited for to say how a node has ended, and how far what is seen and what it
# says may be apart, in milliseconds.
SAID, NEAR = 1500, 3000


class Life:
    """`died` is when the node was seen to have ended, while that is not told yet."""

    def __init__(self, at, marks):
        self.at, self.marks = at, marks
        # Whether it is told to be up, by which process, and since when.
        self.is_up, self.process, self.rose = None, None, 0
        # When the last death was told, and what a log has said of one that is not seen yet.
        self.died, self.buried, self.spare = None, 0, None
        # While it is down: when it has died, and how, if that was seen.
        self.loss = None
        # Whether it was seen to lead last, and what kind of mark tells the death.
        self.leads, self.kind = False, LOST[0]

    def look(self, is_down, process, is_said):
        """`is_said` says whether a log is expected to tell of a death."""
        if self.is_up is None:
            self.is_up, self.process = not is_down, process
            return
        self.process = self.process or process
        if self.is_up and (is_down or process != self.process):
            self.die(now())
        if self.died and (not is_said or now() - self.died > SAID):
            self.tell("has ended", self.died)
        is_other = process is None or process != self.process
        if not (self.is_up or self.died or is_down) and is_other:
            self.rise(process)

    def die(self, when):
        self.is_up, self.died, self.loss = False, when, (when, "has ended")
        self.kind = LOST[0] if self.leads or self.marks.is_still else LOST[1]
        self.marks.add(self.at, "crash", "", when)
        spare, self.spare = self.spare, None
        if spare and spare[1] > max(self.buried, when - NEAR):
            self.tell(*spare)

    def tell(self, text, when):
        self.died, self.buried, self.loss = None, when, (when, verb_of(text))
        # By now more may be lost.
        self.kind = LOST[0] if self.marks.is_still else self.kind
        more = goes_on(*self.marks.others_of(self.at)) if self.kind == LOST[1] else ""
        self.marks.add(self.at, self.kind, text + more, when)

    def rise(self, process):
        again = " again" if self.buried else ""
        self.is_up, self.process, self.rose, self.loss = True, process, now(), None
        self.marks.add(self.at, "start", f"is up{again}", self.rose)

    def note_end(self, text, when):
        """Notes what a log says of a death."""
        if self.died:
            if when > self.died - NEAR:
                self.tell(text, min(when, self.died))
        elif self.is_up and when > self.rose:
            # Nobody has seen yet that it has ended.
            self.die(when)
            if self.died:
                self.tell(text, when)
        elif not self.is_up and when - self.buried >= NEAR:
            # It does not come up.
            self.tell(text, when)
        else:
            self.spare = text, when


class Pair:
    """A node's process, and how often it was started, which change together: the record has the
    new start some time before or after the process is seen."""

    def __init__(self):
        self.process, self.starts = None, None

    def look(self, is_down, process, record):
        """The number of the process and the starts, as they are to be shown."""
        starts = (record.session, record.starts) if record else None
        is_new = process != self.process
        if self.starts is None or not is_new and not is_down or starts is None:
            self.process, self.starts = process, starts
        elif is_new and not is_down and starts != self.starts:
            self.process, self.starts = process, starts
        is_shown = process is not None and not is_down and process == self.process
        return (process[0] if is_shown else None), (self.starts[1] if self.starts else None)
