"""What was seen of the nodes of a group while they ran, and whether a record is older than that: an
older copy, as a snapshot that was put back, or one of a disk that has lost what it had synced.

How far a record has come is a point: its starts, the ballot that it has promised, and at how many
places it has voted under that ballot. Each change of a record makes one of the two greater, the
starts, or the ballot with its votes; and none is ever smaller. So of two records of a node the one
that lacks changes of the other has a smaller point. A log that was shortened has the same point.

Supervisors tell each other the points of their nodes, only once these are on the disk, and each
keeps what it was told beside the record of its own node, in RECORD.seen."""

import collections
import os
import re
import time

from .record import Ballot, Damaged, read_record, text_of_ballot

# Ballot 0.0 is none.
Point = collections.namedtuple("Point", "starts promised votes")
# A run is one process of a node, with a tag that is greater than those before. How far the node's
# record had come in it, and who saw that, when.
Run = collections.namedtuple("Run", "node tag point at by")
# A datagram or a file: of which session and node's supervisor, its counter, and its other lines.
Said = collections.namedtuple("Said", "session node counter lines")

NONE = Ballot(0, 0)
# Of how many runs of each node the points are kept: the last ones.
KEPT = 2
HEAD = re.compile(rb"pgroup seen (\d{1,10}) ([1-9]) (\d{1,20})")
RUN = re.compile(
    rb"(run|old) ([1-9]) (\d{1,20}) (\d{1,10}) (\d{1,10}) (\d) (\d{1,5}) (\d{1,11}) ([1-9])"
)
TOOK = re.compile(rb"took ([1-9]) (\d{1,20})")
RETIRED = re.compile(r"\.retired-\d+$")


def point_of(record):
    """How far a record has come that was read with its votes."""
    under = sum(ballot == record.promised for ballot, _ in record.votes.values())
    return Point(record.starts, record.promised or NONE, under)


def point_of_head(head, record):
    """How far the record has come that the head has just read. Of a whole record whose votes it
    has not read no vote is known."""
    return Point(record.starts, record.promised or NONE, head.under)


def point_before(head):
    """How far the log had come before its last entry that the head has read."""
    starts, promised, under = head.before_last
    return Point(starts, promised or NONE, under)


def is_behind(point, other):
    """Whether a record of this point lacks changes of a record of the other one."""
    return point.starts < other.starts or point[1:] < other[1:]


def text_of_run(run, word="run"):
    starts, ballot, votes = run.point
    point = f"{starts} {ballot.round} {ballot.node} {votes}"
    return f"{word} {run.node} {run.tag} {point} {int(run.at)} {run.by}"


def runs_of(lines, word=b"run"):
    """The runs in these lines. What is none is passed over."""
    for match in filter(None, map(RUN.fullmatch, lines)):
        node, tag, starts, first, second, votes, at, by = map(int, match.groups()[1:])
        if match[1] == word:
            yield Run(node, tag, Point(starts, Ballot(first, second), votes), at, by)


def took_of(lines):
    """The counter of the last datagram that was taken of each node."""
    found = filter(None, map(TOOK.fullmatch, lines))
    return {int(it[1]): int(it[2]) for it in found}


def said_in(data):
    """What a datagram or a file says, or None where it is another one."""
    lines = data.split(b"\n")
    head = HEAD.fullmatch(lines[0])
    return head and Said(*map(int, head.groups()), lines[1:])


def text_of_said(session, node, counter, lines):
    return "".join(f"{it}\n" for it in [f"pgroup seen {session} {node} {counter}", *lines])


class Table:
    """The last runs of each node, so many, as far as they were seen."""

    def __init__(self, kept=KEPT):
        self.runs, self.kept = {}, kept

    def add(self, run):
        """Notes a run. Answers whether that is new."""
        key = run.node, run.tag
        if key in self.runs and self.runs[key].point >= run.point:
            return False
        self.runs[key] = run
        for tag in sorted(it.tag for it in self.of(run.node))[: -self.kept]:
            del self.runs[run.node, tag]
        return key in self.runs

    def of(self, node):
        return [it for it in self.runs.values() if it.node == node]

    def lines(self):
        return [text_of_run(it) for _, it in sorted(self.runs.items())]

    def later_than(self, point, node, tag=None):
        """A run of the node that was further than this point, or None; but the run of this tag."""
        found = [it for it in self.of(node) if it.tag != tag and is_behind(point, it.point)]
        return max(found, key=lambda it: it.point, default=None)


def seen_path(record):
    """The file beside a record, retired or not."""
    return RETIRED.sub("", os.path.realpath(record)) + ".seen"


def load_seen(path):
    """What a file of what was seen says, or None where there is none."""
    try:
        with open(path, "rb") as file:
            return said_in(file.read())
    except OSError:
        return None


def text_of_time(at):
    """A time of the day, and the day unless it is today."""
    then, now = time.localtime(at), time.localtime()
    return time.strftime("%H:%M" if then[:3] == now[:3] else "%H:%M on %Y-%m-%d", then)


def text_of_old(run, what="this record is older than what"):
    who = "its own supervisor" if run.by == run.node else f"node {run.by}"
    return (
        f"{what} {who} saw at {text_of_time(run.at)}: a snapshot or a lying disk; this node must "
        "never run in this session again: continue with the others, then renew"
    )


def text_of_points(point, run):
    """What is compared, for a person who looks closer."""
    def text(it):
        ballot = text_of_ballot(None if it.promised == NONE else it.promised)
        return f"starts {it.starts} promised {ballot} with {it.votes} votes under it"

    return f"the record has {text(point)}, and was seen with {text(run.point)}"


class Seen:
    """What the files beside these records say. They have to be read before the records are, of
    which some may go on meanwhile."""

    def __init__(self, records):
        self.tables, self.old = collections.defaultdict(Table), {}
        for said in filter(None, map(load_seen, sorted(set(map(seen_path, records))))):
            for run in runs_of(said.lines):
                self.tables[said.session].add(run)
            for run in runs_of(said.lines, b"old"):
                self.old[said.session, run.node] = run

    def run_after(self, record, point):
        """A run that was further than the record that has come to this point, or None."""
        later = self.tables[record.session].later_than(point, record.node)
        return later or self.old.get((record.session, record.node))


def lines_of_old(paths):
    """A line for each of these records that is older than what the files beside them say was seen
    of it. A record that cannot be read has none."""
    paths = list(paths)
    seen, lines = Seen(paths), []
    for path in paths:
        try:
            record = read_record(path)
        except (Damaged, OSError):
            continue
        run = seen.run_after(record, point_of(record))
        if run:
            lines.append(f"{path}: {text_of_old(run)}")
    return lines
