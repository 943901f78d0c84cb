"""A record is read once: what supervisors read again and again of it, and how long a group takes
whose records have very many votes."""

import collections
import os
import random
import signal
import time
from unittest import mock

from shared import record as reading
from shared.nodes import stat_of
from shared.record import Damaged, Head, read_record, record_of
from shared.seen import point_of, point_of_head

from ..checks import expect, passed
from ..echo_code import ECHO
from ..files import file_with, number
from ..group import await_that
from ..program import Broken
from ..renew.records import NOOP, keys, log, vote
from ..scripts import session_of
from ..supervised import group_of

# The votes of a record that is large; and how many seconds of a processor its supervisor may take
# at a boot, and for a node that was killed. A machine that is busy takes longer for the same.
LARGE, BOOT, AGAIN = 60000, 3.0, 1.2
PROMISED = b"\x02" + number(1) + number(1, 1)


def random_vote(draw, place, version):
    under = f"{place // 20 + 1}.1"
    if draw.random() < 0.1:
        return vote(place, under, NOOP)
    count = draw.randrange(1, 33) if version == 2 else 1
    value = keys(2, 1, place + 1, bytes(draw.choices(range(256), k=count)))
    return vote(place, under, value if version == 2 else value[:10] + value[11:])


def whole_of(data):
    """The whole record that says what a log with one start does."""
    it = record_of(data)
    votes = b"".join(
        vote(place, f"{first}.{second}", NOOP if value is None else keys(*value))[1:]
        for place, ((first, second), value) in it.votes.items()
    )
    ballot = number(it.promised.round) + number(it.promised.node, 1)
    head = b"PR" + data[2:9] + number(1) + ballot
    return head + number(len(it.votes)) + votes


def answer_of(data):
    try:
        return record_of(data)
    except Damaged as why:
        return str(why)


def check_two_readers(_folder):
    """What is read by struct and what is read field by field is one record, or one fault."""
    draw, answers = random.Random(5), collections.Counter()
    for _ in range(600):
        version = draw.choice((1, 2, 2))
        votes = [random_vote(draw, it, version) for it in range(draw.randrange(1, 40))]
        data = log(1, *votes, *[PROMISED] * draw.randrange(2), version=version)
        data = whole_of(log(1, *votes)) if version == 2 and draw.random() < 0.4 else data
        for _ in range(draw.randrange(3)):
            at, byte = draw.randrange(9, len(data) + 1), bytes([draw.choice((0, 1, 2, 3, 255))])
            data = draw.choice((data[:at], data[:at] + bytes(20), data + bytes(at % 90),
                                data[:at] + byte + data[at + 1:]))
        found = answer_of(data)
        with mock.patch.object(reading, "vote_at", lambda *_: None):
            by_field = answer_of(data)
        answers[isinstance(found, str)] += 1
        if found != by_field:
            expect("both readers agree", False, data.hex(), found, by_field)
    is_so = min(answers[False], answers[True]) > 100
    expect("two readers of a record agree, in what is damaged too", is_so, answers)


class Counted:
    """A head of a record, and how many votes it has read."""

    def __init__(self, path):
        self.path, self.head, self.count = path, Head(path), 0
        self.inner = reading.vote_at

    def vote_at(self, *words):
        self.count += 1
        return self.inner(*words)

    def look(self, what, most, is_all=False):
        """The head has to say what the whole record does, and to read so many votes at most."""
        self.count = 0
        with mock.patch.object(reading, "vote_at", self.vote_at):
            record = self.head.read(is_all)
        count, whole = self.count, read_record(self.path)
        found = record.starts, record.promised, point_of_head(self.head, record)
        if found != (whole.starts, whole.promised, point_of(whole)):
            expect(what, False, found, whole._replace(votes=len(whole.votes)))
        places = self.head.places
        is_so = count <= most and places in (None, 1 + max(whole.votes, default=-1))
        expect(f"{what}: {most} votes are read at most", is_so, count, places)


def renamed(path, data):
    os.rename(file_with(os.path.dirname(path), "record.new", data), path)


def check_read_once(folder):
    """A supervisor reads what came since, whatever becomes of the file."""
    many, start = 300, number(1, 1)
    votes = [vote(it, "1.1", keys(2, 1, it + 1, b"k" * 32)) for it in range(many)]
    begun, more = log(1, *votes), vote(many, "1.1", NOOP)
    path = file_with(folder, "record", begun)
    it = Counted(path)
    it.look("a log", many + 1)
    it.look("the same once more", 1, True)
    with open(path, "ab") as out:
        out.write(PROMISED * 3 + more + more[:7])
    it.look("a vote behind promises that change nothing, and a cut one", 2)
    renamed(path, begun + PROMISED * 3 + more + start)
    it.look("written anew with the same beginning, by a start", 1)
    renamed(path, begun + start + PROMISED + more)
    it.look("written anew with less", many + 2)
    renamed(path, log(1, *votes[100:]) + start)
    it.look("shortened", many)
    with open(path, "r+b") as file:
        file.truncate(len(log(1, *votes[100:150])))
    it.look("cut in its place", 51)
    with open(path, "r+b") as file:
        file.write(log(1, *(vote(at, "2.1", NOOP) for at in range(many))))
    it.look("another log of more bytes in its place, as a start looks at it", many + 1, True)
    renamed(path, whole_of(begun))
    it.look("a whole record", many, True)
    it.look("the same whole record once more", 0, True)
    renamed(path, begun)
    it.look("a log again", many + 1)
    passed("and each time what the head says is what the record does")


def processor_time(pid):
    return sum(map(int, stat_of(pid)[11:13])) / os.sysconf("SC_CLK_TCK")


def seconds_to(is_so, what, pid, most):
    before, begun = processor_time(pid), time.monotonic()
    await_that(is_so, what)
    used = processor_time(pid) - before
    if used > most:
        raise Broken(f"{what} after {used:.1f} s of a processor; the limit of time is {most} s")
    return time.monotonic() - begun


def check_large(folder):
    """A node whose record has very many votes is up soon, after a boot and after a kill."""
    it = group_of(3, folder, silent=0.3)[0]  # The others stay down, so nothing else happens.
    votes = [vote(at, "1.1", keys(1, 1, at + 1, b"k")) for at in range(LARGE)]
    file_with(folder, "record1", log(1, *votes, session=session_of(ECHO)))
    try:
        it.begin()
        pid, what = it.process.pid, "a node with a large record is up after a"
        boot = seconds_to(it.is_up, f"{what} boot", pid, BOOT)
        killed = it.node()
        os.kill(killed, signal.SIGKILL)
        is_again = lambda: it.node() not in (None, killed) and it.is_up()
        again = seconds_to(is_again, f"{what} kill", pid, AGAIN)
        passed(f"a node with {LARGE} votes is up {boot:.1f} s after a boot, {again:.2f} s after a "
               "kill")
    finally:
        it.end()
