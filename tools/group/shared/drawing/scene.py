"""What there is to draw of a script: lanes with who is up and who leads, messages from one node to
another, and marks on the lanes, each at a column. A column is no moment of a clock: what one node
does is in order, and a message is heard to the right of where it was sent. What a script does from
outside (a start, a crash, a campaign, a typed key) is to the right of all that was before it."""

import collections
import datetime

# A message on its way: its number, and the columns at which it was sent and heard. `begin` is None
# where it was sent before the picture, and `end` where it was not heard in it.
Arrow = collections.namedtuple("Arrow", "number message begin to end fate is_news line")
# Something at a lane: start, crash, campaign, key, save, failed save, learned, console, refused.
Mark = collections.namedtuple("Mark", "kind node column text line")
# A part of a lane: `ballot` is the one under which it leads, or None.
Span = collections.namedtuple("Span", "node begin end ballot")

HEARD, LOST, LATER = "heard", "lost", "later"
OUTSIDE = ("start", "crash", "campaign", "type")
# In how many milliseconds without anything but Asks the nodes rest. Such a rest takes few columns.
REST, REST_COLUMNS = 1000, 3
# How many columns a message takes at least.
FLIGHT = 3


def shown_characters(data):
    """Characters as they are drawn: a line feed as a sign, other controls as a dot."""
    signs = {10: "\u21b5", 13: "\u21b5", 32: "\u00b7"}
    return "".join(signs.get(it, chr(it) if 32 < it < 127 else "\u25aa") for it in data)


def second_of(time):
    """The second of the day, UTC, of a time in milliseconds since 1970."""
    return time // 1000 % 86400


def moment_of(time):
    """A time in milliseconds since 1970 as it is written in pictures."""
    there = datetime.datetime.fromtimestamp(time / 1000, datetime.timezone.utc)
    return there.strftime("%Y-%m-%d %H:%M:%S UTC")


class Bounds:
    """Which part of a script is drawn: from a line, or from the first moment at or after a time of
    the day, up to a line or a time."""

    def __init__(self, first, last, from_second=None, to_second=None):
        self.first, self.last = first, last
        self.from_second, self.to_second = from_second, to_second

    def note(self, line, time):
        """Finds the lines of the times, once they come."""
        if self.from_second is not None and time is not None:
            self.first = line if second_of(time) >= self.from_second else line + 1
            if self.first == line:
                self.from_second = None
        if self.from_second is None and self.to_second is not None and time is not None:
            if second_of(time) > self.to_second:
                self.last, self.to_second = line - 1, None


class Lane:
    """What a lane is at a moment: since which column it is up, and under which ballot it leads."""

    def __init__(self):
        self.since, self.ballot, self.last = None, None, 0


class Scene:
    """Columns and what is at them, filled event by event."""

    def __init__(self, group, bounds, is_short=False):
        """With `is_short` a rest takes few columns."""
        self.group, self.bounds, self.is_short = group, bounds, is_short
        self.waiting = []  # what has happened in a rest
        self.lanes = {it: Lane() for it in group.nodes}
        self.arrows, self.marks, self.spans = [], [], []
        self.sent_at, self.heard, self.later = {}, set(), set()
        self.moments = []  # of each event its column, its line, and its time, if that is known
        self.rests = []  # of each rest its columns, and its words
        self.base = self.width = 1
        self.seen = 1  # the last line

    def is_shown(self, line):
        return self.bounds.first <= line <= self.bounds.last

    # Columns.

    def column_of(self, event):
        """Where an event stands."""
        lane = self.lanes[event.node]
        if event.kind in ("run", "release"):
            return lane.last
        column = max(lane.last + 1, self.base)
        if event.kind in OUTSIDE:
            column = self.base = self.width + 1
        elif event.kind == "deliver" and self.sent_at.get(event.number) is not None:
            column = max(column, int(self.sent_at[event.number]) + FLIGHT)
        lane.last = column
        self.width = max(self.width, column)
        return column

    # Events.

    def add(self, line, event, happened, time=None):
        """An event of a script and what it did. Events before the picture only change lanes."""
        self.seen = line
        self.bounds.note(line, time)
        if self.is_short and self.is_shown(line):
            if time is not None and self.is_quiet(event, happened):
                self.waiting.append((line, event, happened, time))
                return
            self.end_rest()
        self.add_now(line, event, happened, time)

    def is_quiet(self, event, happened):
        """Whether an event is a part of a rest: nodes ask, and nothing is new."""
        asks = all(self.group.sent[it].message.kind == "ask" for it in happened.sends)
        is_still = not (happened.learned or happened.refused) and happened.saved is None
        is_ask = event.kind == "deliver" and self.group.sent[event.number].message.kind == "ask"
        is_own = event.kind in ("tick", "run")
        return asks and is_still and (is_own or is_ask)

    def end_rest(self):
        """A rest of some seconds is a gap with its length; a short one is drawn."""
        waiting, self.waiting = self.waiting, []
        if not waiting or waiting[-1][3] - waiting[0][3] < REST:
            for it in waiting:
                self.add_now(*it)
            return
        begin = self.width + 1
        self.width = self.base = begin + REST_COLUMNS
        seconds = round((waiting[-1][3] - waiting[0][3]) / 1000)
        self.rests.append((begin, self.width, f"{seconds} s, only Asks"))

    def add_now(self, line, event, happened, time):
        if not self.is_shown(line):
            self.pass_by(line, event, happened)
            return
        lane, column = self.lanes[event.node], self.column_of(event)
        self.moments.append((column, line, time))
        self.mark_event(event, happened, column, line)
        if event.kind == "deliver":
            self.add_heard(event, happened, column, line)
        # What one call sends begins side by side, so that its lines are told apart.
        apart = min(0.4, 0.9 / max(1, len(happened.sends)))
        for index, number in enumerate(happened.sends):
            self.sent_at[number] = column + apart * index
        for place, value in happened.learned:
            text = "no-op" if value is None else shown_characters(value.characters)
            self.mark("learned", event.node, column, f"{place} {text}", line)
        self.follow_lane(event.node, lane, column)

    def pass_by(self, line, event, happened):
        if line > self.bounds.last and event.kind == "deliver":
            self.later.add((event.number, event.node))
        if line < self.bounds.first:
            self.follow_lane(event.node, self.lanes[event.node], 1)

    def mark(self, kind, node, column, text, line):
        self.marks.append(Mark(kind, node, column, text, line))

    def mark_event(self, event, happened, column, line):
        node = self.group.nodes[event.node]
        if event.kind in ("start", "crash"):
            self.mark(event.kind, event.node, column, event.kind, line)
        if event.kind == "type":
            self.mark("key", event.node, column, shown_characters([event.number]), line)
        if event.kind == "campaign" and node is not None and happened.refused is None:
            ballot = node.proposer.ballot
            text = f"campaigns {ballot.round}.{ballot.node}"
            self.mark("campaign", event.node, column, text, line)
        if happened.refused:
            self.mark("refused", event.node, column, f"{event.kind} {happened.refused}", line)
        if happened.saved is not None:
            failed = event.outcome is not None
            kind = "failed save" if failed else "save"
            self.mark(kind, event.node, column, event.outcome or "", line)
            if failed and event.kind != "start":
                self.mark("crash", event.node, column, "", line)

    def add_heard(self, event, happened, column, line):
        begin = self.sent_at.get(event.number)
        message = self.group.sent[event.number].message
        arrow = Arrow(event.number, message, begin, event.node, column, HEARD,
                      happened.is_news, line)
        self.arrows.append(arrow)
        self.heard.add((event.number, event.node))

    def follow_lane(self, number, lane, column):
        """Ends the span of a lane where it goes down, begins or ceases to lead."""
        node = self.group.nodes[number]
        ballot = node.proposer.ballot if node is not None and node.leads() else None
        if lane.since is not None and (node is None or ballot != lane.ballot):
            if lane.since < column:
                self.spans.append(Span(number, lane.since, column, lane.ballot))
            lane.since = None
        if node is not None and lane.since is None:
            lane.since = column
            if ballot is not None and column > 1:
                self.mark("leads", number, column, f"leads {ballot.round}.{ballot.node}", 0)
        lane.ballot = ballot

    def show_console(self, line, number, data):
        """The console of a node has grown."""
        if self.is_shown(line):
            lane = self.lanes[number]
            self.mark("console", number, max(lane.last, 1), shown_characters(data), line)

    def close(self):
        """Ends all lanes, and adds the messages that were not heard."""
        self.end_rest()
        end = self.width + 2
        for number, lane in self.lanes.items():
            if lane.since is not None:
                self.spans.append(Span(number, lane.since, end, lane.ballot))
        for number, column in self.sent_at.items():
            for to in self.group.addressees(number):
                if (number, to) not in self.heard:
                    fate = LATER if (number, to) in self.later else LOST
                    message = self.group.sent[number].message
                    self.arrows.append(
                        Arrow(number, message, column, to, None, fate, fate == LOST, 0)
                    )
        self.width = end
        return self
