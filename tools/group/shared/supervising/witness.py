"""What supervisors saw of each other's records, so that no node is started on a record that is
older than that: a snapshot that was put back, or a disk that has lost what it had synced.

- *Told* is only what is on the disk, or an honest cut of the power would look like a lost record.
  A node saves one change after another, and goes on only once each is synced. So all of a log but
  its last entry is synced, once more was appended to it. What it has at last is synced here, where
  nothing follows, before it is told. Nothing is told of a node that has ended meanwhile, as one
  whose save fails.
- *Kept* is what was told, in RECORD.seen beside the record of the supervisor's own node, and the
  counters of datagrams. A snapshot may take it back together with the record, so what the others
  have kept counts as well.
- *Asked* are the others when a supervisor begins, before it starts its node: for at most --silent
  seconds, since a group has to begin from nothing, and while some are down. Later starts need no
  question: what others saw since then this supervisor has told them itself. What is heard too late
  ends the node that runs.

No clock of another machine orders anything. Each run of a node has a tag, and no run before it was
further than the record when it began."""

import collections
import contextlib
import os
import threading
import time

from ..files import Refused, say
from ..record import Damaged
from ..seen import (
    NONE, Point, Run, Table, is_behind, load_seen, point_before, point_of_head, runs_of, seen_path,
    text_of_old, text_of_points, text_of_run, text_of_said, took_of,
)
from ..whole import put_whole, sync_folder

# How often all that is known is told though nobody asks, and the least time between two writings of
# the file, in seconds.
ALL_EVERY, KEEP_EVERY = 20.0, 1.0
# How often what is new is told: a datagram may be lost.
REPEATS = 3
# How long the others are waited for at most, in seconds, and of how many runs of the own node it
# remembers what it heard.
LONGEST_WAIT, REMEMBERED = 10.0, 64
# A run of the own node that this supervisor has begun: how far the record was then, and whether the
# node's process was started.
Begun = collections.namedtuple("Begun", "tag base is_started")


def sync_record(path):
    """Syncs a record as it is now, and its name."""
    place = os.path.realpath(path)
    file = os.open(place, os.O_RDONLY | os.O_CLOEXEC)
    try:
        os.fdatasync(file)
    finally:
        os.close(file)
    sync_folder(place)


class Behind:
    """One thing at a time that may wait for a disk, behind the heartbeats."""

    def __init__(self):
        self.thread = None

    def is_busy(self):
        return self.thread is not None and self.thread.is_alive()

    def wait(self, seconds):
        if self.thread is not None:
            self.thread.join(seconds)

    def do(self, work, done=lambda: None):
        """Begins it, unless something is under way. `done` is called after it, if it succeeds."""
        def run():
            with contextlib.suppress(OSError, MemoryError):
                work()
                done()

        if not self.is_busy():
            with contextlib.suppress(RuntimeError):  # No thread can be had now.
                thread = threading.Thread(target=run, daemon=True)
                thread.start()
                # A signal may have ended the start: what was not started is not waited for.
                self.thread = thread


class Progress:
    """How far the record of the present process has come on the disk: `point`, which only grows."""

    def __init__(self, record, behind):
        self.record, self.behind = record, behind
        self.process, self.last, self.synced, self.point = None, None, None, None

    def look(self, process, inode, at, point, before):
        """Notes what is in the record now. A log is known by its inode, and reaches up to `at`. How
        far it had come before its last entry is `before`: that entry is of the last save, and those
        before it in the same save, if any, change nothing."""
        last, self.last = self.last, (inode, at, point)
        if process is not self.process:
            self.process, self.point, self.synced = process, None, None
        elif self.point != point and process.poll() is None:
            is_longer = inode is not None and last[0] == inode and last[1] < at
            if is_longer:
                self.point = before
            elif self.synced == last:
                self.point = last[2]
            elif last == self.last:
                self.behind.do(lambda: sync_record(self.record), lambda: self.note_synced(last))

    def note_synced(self, last):
        self.synced = last


class Witness:
    """What the supervisor of a node has seen and was told, and whether its node may run."""

    def __init__(self, words, beats):
        self.words, self.beats, self.me = words, beats, words.id
        self.path, self.behind = seen_path(words.record), Behind()
        self.progress = Progress(words.record, self.behind)
        # What was seen of all nodes, which is told on; of the own one; and, where the node has run
        # on an old record, by which run that was noticed.
        self.table, self.mine, self.old = Table(), Table(REMEMBERED), None
        # The first run of the node that was begun here, and the present one; what was told of it.
        self.runs, self.told, self.said = [], None, None
        # Who has answered and who was heard, since when; and whether the first start may be.
        self.answered, self.heard, self.since, self.is_free = set(), set(), None, words.size == 1
        self.is_changed, self.is_new, self.repeats = False, False, 0
        self.all_due = self.keep_due = 0.0
        self.load()

    def load(self):
        """Takes what was kept of this session."""
        said = load_seen(self.path)
        if said is None or (said.session, said.node) != (self.words.session, self.me):
            return
        for run in runs_of(said.lines):
            self.add(run)
        self.old = max(runs_of(said.lines, b"old"), default=None)
        self.beats.remember(said.counter, took_of(said.lines))

    def add(self, run):
        if run.node == self.me:
            self.is_new |= self.mine.add(run)
        return self.table.add(run)

    def note(self, node, said):
        """Something was heard of another supervisor, and what it has said, if anything."""
        self.heard.add(node)
        if said is None:
            return
        if b"all" in said.lines:
            self.answered.add(node)
        if b"ask" in said.lines or self.beats.is_behind:
            self.all_due, self.beats.is_behind = 0.0, False
        for run in runs_of(said.lines):
            # What a supervisor says of its own node was seen here, as far as others are concerned.
            seen = run._replace(by=self.me, at=time.time()) if run.node == node else run
            if run.node <= self.words.size:
                self.is_changed |= self.add(seen)

    def is_answered(self, now):
        """Whether the others have answered, or were waited for long enough: for a third of
        `silent` where all that were heard have answered, or for all of it."""
        if self.since is None:
            self.since = now
        waited, longest = now - self.since, min(self.words.silent, LONGEST_WAIT)
        are_all = len(self.answered) == self.words.size - 1
        are_heard = bool(self.heard) and self.heard <= self.answered
        self.is_free |= are_all or are_heard and waited >= longest / 3 or waited >= longest
        return self.is_free

    def may_tend(self, node, head, now):
        """Whether the node, which has the record of this head, may be looked after: one that runs
        is checked by what was heard since, and one that is due to be started once the others were
        asked."""
        if node.process is not None:
            self.check()
        elif now >= node.due:
            if not self.is_answered(now) or self.behind.is_busy():
                return False
            self.begin(head, node.is_new)
        return True

    def begin(self, head, is_new):
        """A run begins over the record as it is now. One that cannot be read is refused by those
        who start the node."""
        try:
            base = point_of_head(head, head.read(is_all=True))
        except FileNotFoundError:
            if not is_new:
                return
            base = Point(0, NONE, 0)
        except (OSError, Damaged):
            return
        before = max((it.tag for it in self.mine.of(self.me)), default=0)
        begun = Begun(max(before + 1, time.time_ns() // 10**6), base, False)
        self.runs, self.is_new = [*[it for it in self.runs if it.is_started][:1], begun], True
        self.check()

    def further(self):
        """Yields each run that was further than the record was when a later run began, with that
        one."""
        for begun in self.runs:
            for it in self.mine.of(self.me):
                is_before = it.tag < begun.tag or begun is self.runs[-1] and it.tag != begun.tag
                if is_before and is_behind(begun.base, it.point):
                    yield it, begun

    def check(self):
        """Refuses a record that is older than what was seen, now or once before."""
        if self.words.run_on_old or not self.is_new or not self.runs:
            return
        self.is_new = False
        run, begun = next(self.further(), (self.old, self.runs[-1]))
        if run is None:
            return
        if begun.is_started:
            # The record has grown since, so later nothing else may show it.
            self.old, self.is_changed = run, True
        say(self.words, text_of_points(begun.base, run))
        if not os.path.exists(self.words.record):
            raise Refused(text_of_old(run, f"--new, but of {self.words.record} there was a record "
                "that is lost:"))
        raise Refused(text_of_old(run))

    def note_told(self, point):
        """This is on the disk now, and is told from now on."""
        if point is self.told:
            return
        self.told = point
        if point and self.add(Run(self.me, self.runs[-1].tag, point, time.time(), self.me)):
            self.is_changed, self.repeats = True, REPEATS

    def look(self, record, head, process, now):
        """Notes how far the node's record has come, tells it once it is on the disk, and keeps what
        is new."""
        if process is not None and self.runs:
            if not self.runs[-1].is_started:
                self.runs[-1] = self.runs[-1]._replace(is_started=True)
            point = point_of_head(head, record)
            self.progress.look(process, head.inode, head.at, point, point_before(head))
            self.note_told(self.progress.point)
        if self.is_changed and now >= self.keep_due and not self.behind.is_busy():
            self.is_changed, self.keep_due = False, now + KEEP_EVERY
            data = self.kept()
            self.behind.do(lambda: put_whole(self.path, data))

    def is_urgent(self, now):
        """Whether more than votes has to be said: somebody is asked or has asked, or the node has a
        start or ballot of which nothing was said."""
        is_new = self.told is not None and self.told[:2] != self.said
        return not self.is_free or now >= self.all_due or is_new

    def lines(self, now):
        """What is said beside the next heartbeat."""
        self.said = self.told and self.told[:2]
        lines = [] if self.is_free else ["ask"]
        if now >= self.all_due:
            self.all_due, self.repeats = now + ALL_EVERY, 0
            took = self.beats.took_lines() if self.beats.key else []
            return [*lines, "all", *self.table.lines(), *took]
        if self.repeats:
            self.repeats -= 1
            lines.append(text_of_run(max(self.table.of(self.me), key=lambda it: it.tag)))
        return lines

    def kept(self):
        lines = [*self.table.lines(), *self.beats.took_lines()]
        lines += [text_of_run(self.old, "old")] if self.old else []
        return text_of_said(self.words.session, self.me, self.beats.counter, lines).encode("ascii")

    def finish(self):
        """Keeps what is new as this ends, unless the disk lets it wait."""
        self.behind.wait(1.0)
        if self.is_changed and not self.behind.is_busy():
            with contextlib.suppress(OSError):
                put_whole(self.path, self.kept())
                self.is_changed = False
