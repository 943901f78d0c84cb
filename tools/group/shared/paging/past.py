"""A run that is over, by its traces: what there was at each of its moments. It is read once, and
nothing of it is changed."""

import bisect
import os

from ..drawing.picture import label_of
from ..drawing.scene import HEARD, LATER, shown_characters
from ..drawing.scene import Bounds
from ..drawing.traced import scene_of_traces
from ..files import Refused
from ..record import text_of_ballot
from ..replica.following import Differs
from ..replica.trace import Bad, is_trace
from ..terminal import Terminal

# How many events are told around a moment, how many columns are drawn around it, and how many
# lines of a console are shown.
AROUND, COLUMNS, LINES = 60, 24, 10
# How many bytes of a console before a moment are taken for what it shows then.
TAIL = 16384
# The kinds of events that are no moments by themselves.
QUIET = ("run", "release")
FLAGS = ("start", "crash", "campaign", "leads")
# The most flags and spans of the overview.
MOST_FLAGS = 2000
LAST = 10**18


def traces_in(folder):
    """The traces in a folder, also those that were put aside."""
    try:
        paths = [os.path.join(folder, it) for it in sorted(os.listdir(folder))]
    except OSError as fault:
        raise Refused(f"{folder}: {fault.strerror}")
    found = [it for it in paths if os.path.isfile(it) and begins_as_trace(it)]
    if not found:
        raise Refused(f"{folder}: there is no trace in it")
    return found


def begins_as_trace(path):
    try:
        with open(path, "rb") as file:
            return is_trace(file.read(100))
    except OSError as fault:
        raise Refused(f"{path}: {fault.strerror}")


class Moment:
    """An event: its line, column and time, its node, and what it was about."""

    __slots__ = ("line", "column", "time", "event", "sends", "is_saved", "refused", "learned")

    def __init__(self, line, column, time, event, happened):
        self.line, self.column, self.time, self.event = line, column, time, event
        self.sends = tuple(happened.sends)
        self.is_saved, self.refused = happened.saved is not None, happened.refused
        self.learned = tuple(happened.learned)


class Past:
    def __init__(self, paths):
        self.paths, self.moments = paths, []
        # By the nodes: the bytes of the console, and at which columns they were shown.
        self.consoles, self.grown = {}, {}
        try:
            self.scene, self.ended = scene_of_traces(paths, Bounds(1, LAST), self.note)
        except (Bad, Differs) as fault:
            raise Refused(str(fault))
        if not self.moments:
            raise Refused("the traces have no event")
        # As a picture has them: what a node does is in order, and what is heard was sent before.
        self.moments.sort(key=lambda it: (it.column, it.line))
        self.at_columns = [it.column for it in self.moments]
        self.nodes = sorted(self.scene.group.nodes)
        self.scene.marks.sort(key=lambda it: it.column)
        self.columns = [it.column for it in self.scene.marks]
        self.heard = {it.line: it for it in self.scene.arrows if it.fate == HEARD}
        self.sent = {}
        for it in self.scene.arrows:
            self.sent.setdefault(it.number, []).append(it)

    def note(self, scene, line, event, happened, call):
        """Takes what happened as the traces are followed."""
        if event.kind == "release":
            data = self.consoles.setdefault(event.node, bytearray())
            if call.deed.number == len(data):
                data.append(call.deed.byte)
                self.grown.setdefault(event.node, []).append(scene.moments[-1][0])
            return
        is_quiet = not (happened.sends or happened.learned or happened.refused or happened.saved)
        if event.kind in QUIET or event.kind == "tick" and is_quiet:
            return
        column, _, time = scene.moments[-1]
        self.moments.append(Moment(line, column, time, event, happened))

    # In words.

    def text_of(self, it):
        """A moment in a sentence."""
        event, name = it.event, f"node {it.event.node}"
        if event.kind == "deliver":
            text = f"{name} hears {self.message(event.number)}"
        else:
            text = f"{name} " + {
                "start": "starts", "crash": "ends", "campaign": "is asked to lead", "tick": "ticks",
                "type": f"is typed at: {shown_characters([event.number or 0])}",
            }.get(event.kind, event.kind)
        more = [f"refuses {it.refused}"] if it.refused else []
        more += ["saves"] if it.is_saved and event.outcome is None else []
        more += ["cannot save"] if it.is_saved and event.outcome is not None else []
        more += [f"learns place {place}: {value_of(value)}" for place, value in it.learned[:3]]
        more += [f"sends {self.message(number)}" for number in it.sends[:3]]
        return "; ".join([text, *more])

    def message(self, number):
        message = self.scene.group.sent[number].message
        return f"{label_of(message)} (from node {message.sender})"

    # For a browser.

    def run(self):
        """What a browser is told once."""
        at, marks = self.moment_at, self.scene.marks
        flags = [[it.kind, it.node, at(it.column)] for it in marks if it.kind in FLAGS]
        spans = [[it.node, at(it.begin), at(it.end), it.ballot is not None]
                 for it in self.scene.spans]
        times = [it.time for it in self.moments if it.time is not None]
        return {
            "name": " ".join(os.path.basename(it) for it in self.paths), "nodes": self.nodes,
            "moments": len(self.moments), "ended": self.ended,
            "spans": spans[:MOST_FLAGS], "flags": flags[:MOST_FLAGS],
            "times": [min(times), max(times)] if times else None,
        }

    def moment_at(self, column):
        return bisect.bisect_left(self.at_columns, column)

    def part(self, at):
        """What there was at a moment, and around it."""
        here = self.moments[at]
        first, last = max(0, at - AROUND), min(len(self.moments), at + AROUND + 1)
        around = self.moments[first:last]
        begin, end = here.column - COLUMNS, here.column + COLUMNS
        spans = [it for it in self.scene.spans if it.end >= begin and it.begin <= end]
        return {
            "at": at, "first": first, "begin": begin, "end": end, "column": here.column,
            "line": here.line, "time": here.time, "text": self.text_of(here),
            "node": here.event.node,
            "events": [[it.column, it.event.node, it.line, self.text_of(it)] for it in around],
            "spans": [span_of(it) for it in spans], "marks": self.marks(begin, end),
            "arrows": self.arrows(around, begin, end), "mine": self.mine(here),
            "consoles": [self.console(it, here.column) for it in self.nodes],
        }

    def marks(self, begin, end):
        first = bisect.bisect_left(self.columns, begin)
        last = bisect.bisect_right(self.columns, end)
        return [[it.kind, it.node, it.column, it.text] for it in self.scene.marks[first:last]
                if it.kind != "console"]

    def arrows(self, around, begin, end):
        """All messages that are on their way between these columns."""
        found = {}
        for it in around:
            arrows = [self.heard.get(it.line)]
            for number in it.sends:
                arrows += self.sent.get(number, [])
            for arrow in filter(None, arrows):
                found[arrow.number, arrow.to] = arrow
        shown = [arrow_of(it) for it in found.values() if it.message.sender != it.to]
        return [it for it in shown if it["begin"] <= end and it["end"] >= begin]

    def mine(self, here):
        """The messages that the event heard or has sent: numbers and whom they are for."""
        arrows = [self.heard[here.line]] if here.line in self.heard else []
        for number in here.sends:
            arrows += self.sent.get(number, [])
        return [[it.number, it.to] for it in arrows]

    def console(self, node, column):
        """The last lines of a console at this column, and how many bytes it has."""
        size = bisect.bisect_right(self.grown.get(node, []), column)
        terminal = Terminal(is_pair=True)
        data = bytes(self.consoles.get(node, b"")[max(0, size - TAIL) : size])
        terminal.write(data.decode("utf-8", "replace"))
        end = terminal.y + 1
        while end < terminal.rows and terminal.lines[end][0].strip():
            end += 1
        lines = [text.rstrip() for text, _ in terminal.history[-LINES:] + terminal.lines[:end]]
        return [node, size, lines[-LINES:]]


def value_of(value):
    return "no-op" if value is None else shown_characters(value.characters)


def span_of(it):
    return [it.node, it.begin, it.end, None if it.ballot is None else text_of_ballot(it.ballot)]


def arrow_of(it):
    begin = it.begin if it.begin is not None else (it.end or 0) - 3
    end = it.end if it.fate == HEARD else begin + (6 if it.fate == LATER else 3.5)
    return {"number": it.number, "kind": it.message.kind, "text": label_of(it.message),
            "from": it.message.sender, "to": it.to, "begin": begin, "end": end, "fate": it.fate,
            "is_news": it.is_news}
