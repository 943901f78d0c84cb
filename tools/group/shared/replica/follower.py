"""A node whose trace is followed: the files of its trace, one behind the other, and where in them
it is."""

import collections
import itertools

from .trace import Bad, Call, Reader, parts_of


class Opened:
    """A file of a trace, and its first process. Whether what was before it is gone."""

    def __init__(self, path, is_late):
        self.path, self.is_late = path, is_late
        items = Reader(path).items()
        self.process = next(items, None)
        self.items = itertools.chain([self.process], items) if self.process else items


def files_of(paths):
    """The files of traces, with those that they were renamed to, by their nodes, in order."""
    found, files = {}, {}
    for path in paths:
        for number, part in enumerate(parts_of(path)):
            is_late = number == 0 and part != path and not part.endswith(".1")
            found.setdefault(part, is_late)
    for it in itertools.starmap(Opened, found.items()):
        if it.process is not None:
            files.setdefault(it.process.node, []).append(it)
    return files


class Follower:
    """A node: its process and the call in it that comes next, None at an end. `after` is what comes
    behind that call: a further call, the next process, or None. `ended` is the process before."""

    def __init__(self, number, files):
        self.number, self.files = number, [it.path for it in files]
        # Where what was before the first file is gone, that file's first process.
        self.first = files[0].process if files[0].is_late else None
        self.items = itertools.chain.from_iterable(it.items for it in files)
        self.seen = collections.deque()  # what was read ahead
        self.process, self.call, self.last = None, None, None
        self.released, self.console = 0, bytearray()
        self.turn, self.since = None, 0  # its turn, and since when it waits for a message
        self.release = ("release", number, None, None)  # what an Event of it has
        self.is_late = False
        # The messages that are kept, to all and to this node, by their content.
        self.sent_to_all, self.sent_to_it = {}, {}
        self.torn = []  # the processes behind which a line was cut off
        self.after = self.take()
        self.next_process()

    def take(self):
        return self.seen.popleft() if self.seen else next(self.items, None)

    def where(self, call=None):
        return f"{self.process.path}:{(call or self.process).at}"

    def move(self):
        """Goes on to the next call of the process, and returns it."""
        call = self.after
        if type(call) is Call:
            self.call = call
            self.after = self.seen.popleft() if self.seen else next(self.items, None)
            return call
        self.last, self.call = self.call, None
        return None

    def is_last(self):
        """Whether the call is the last one of its process."""
        return not isinstance(self.after, Call)

    def is_over(self):
        """Whether the process, of which all calls are done, has ended; the last one may still
        run."""
        last = self.last
        is_ended = self.process.status is not None or last is not None and not last.deed.is_done
        return is_ended or self.after is not None

    def next_process(self):
        """Goes on to the next process, or to the end."""
        if self.process is not None and self.process.torn:
            self.torn.append(self.process)
        self.ended, self.process = self.process, self.after
        it = self.process
        if it is None:
            return
        if it.node != self.number:
            raise Bad(f"{it.path}:{it.at}: is of node {it.node}, and what is before it of node "
                      f"{self.number}")
        self.after, self.call = self.take(), None
        self.move()

    def look_ahead(self):
        """The node's next start, or None, and how many of its processes before that have only begun
        to start."""
        ahead, begun, item = [], 0, self.after
        while item is not None:
            if isinstance(item, Call) and item.deed.kind == "start":
                if item.deed.is_done:
                    break
                begun += 1
            item = self.take()
            ahead.append(item)
        self.seen.extendleft(reversed([it for it in ahead if it is not None]))
        return item, begun


def has_grown(stored, record):
    """Whether a record that was read may be that of a store which has gone on since."""
    promised = stored.promised
    if record.starts < stored.starts or promised is not None and record.promised is None:
        return False
    if promised is not None and record.promised < promised:
        return False
    for place, (ballot, value) in stored.votes.items():
        vote = record.votes.get(place)
        if vote is None or vote[0] < ballot or vote[0] == ballot and vote[1] != value:
            return False
    return True
