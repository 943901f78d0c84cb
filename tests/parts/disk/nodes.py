"""The nodes of tests/disk: cases of what a node is asked to do and has to save, and runs of them.
The script is the other nodes."""

import collections
import contextlib
import os
import select
import socket
import subprocess
import time

from shared.nodes import TURNS, command_of
from shared.record import Ballot, Batch, Record, record_of
from shared.words import text_of_address

from .. import readers
from ..files import bytes_of
from ..group import await_that
from ..program import PROGRAM, Broken
from ..readers import Message
from . import traces
from .traces import replay

SESSION = 7
# The longest that a run waits for what has to come, in seconds.
LONGEST = 60
# What is typed at a node that is alone: keys for two places.
FEW = bytes(33 + it % 90 for it in range(40))


def changed(record, **more):
    return record._replace(votes=dict(record.votes), **more)


def with_start(record):
    return changed(record, version=2, starts=record.starts + 1)


def with_vote(record, place, ballot, value):
    votes = {**record.votes, place: (ballot, value)}
    return record._replace(promised=ballot, votes=dict(sorted(votes.items())))


def answer_of(record, node, message):
    """Returns the record after a Prepare or an Accept under a new ballot, and the answer."""
    fields, ballot = message.fields, Ballot(*message.fields["ballot"])
    if message.kind == "accept":
        voted = with_vote(record, fields["place"], ballot, fields["value"])
        return voted, Message("accepted", node, fields)
    votes = [(place, *vote) for place, vote in record.votes.items()]
    answer = {"ballot": ballot, "first": fields["place"], "upto": readers.PLACES, "votes": votes}
    return changed(record, promised=ballot), Message("promise", node, answer)


class Case:
    """A node, the bytes of its record before, and the record after each of its saves. It is played
    to its end, or until it has ended."""

    # How a run ends that is not disturbed.
    status, shown = 0, b""

    def __init__(self, name, node, size, before):
        self.name, self.node, self.size, self.before = name, node, size, before
        empty = Record(2, node, size, SESSION, 0, None, {})
        first = empty if before is None else record_of(before)
        self.history = [first, with_start(first)]

    def words(self):
        """Returns the words after the addresses, the number of turns, and the standard input."""
        return [], 0, b""

    def play(self, playing):
        """Does what the node waits for. One that is alone waits for nothing, and ends after its
        turns."""


class Alone(Case):
    """A node that is alone campaigns and votes for what is typed: for 32 keys at most at each
    place."""

    def __init__(self, name, before, keys):
        super().__init__(name, 1, 1, before)
        self.keys = keys
        record = self.history[-1]
        ballot = Ballot(1 + (record.promised.round if record.promised else 0), 1)
        self.history.append(changed(record, promised=ballot))
        values = [value for _, value in record.votes.values()]
        self.shown = b"".join(it.characters for it in values) + keys
        for first in range(0, len(keys), 32):
            values.append(Batch(1, record.starts, 1 + first, keys[first : first + 32]))
        for place, value in enumerate(values):
            self.history.append(with_vote(self.history[-1], place, ballot, value))

    def words(self):
        return ["--campaign"], len(self.history) + 2, self.keys


class Accepts(Case):
    """Node 2 of three promises and votes as the others ask it to."""

    status = -9

    def __init__(self, name, before):
        super().__init__(name, 2, 3, before)
        batch, long = Batch(1, 1, 1, b"Hi"), Batch(3, 1, 1, FEW[:32])
        asked = [
            Message("prepare", 1, {"ballot": (2, 1), "place": 0}),
            Message("accept", 1, {"ballot": (2, 1), "place": 0, "value": batch}),
            Message("accept", 1, {"ballot": (2, 1), "place": 1, "value": None}),
            Message("prepare", 3, {"ballot": (3, 3), "place": 0}),
            Message("accept", 3, {"ballot": (3, 3), "place": 1, "value": long}),
        ]
        self.steps = []
        for message in asked:
            record, answer = answer_of(self.history[-1], 2, message)
            self.history.append(record)
            self.steps.append((message, answer))

    def words(self):
        return [], TURNS, b""

    def play(self, playing):
        if playing.hear(1, lambda it: it.kind == "ask"):
            if all(playing.tell(*it) for it in self.steps):
                playing.stop()


class Leads(Case):
    """Node 1 of three leads node 2, and votes for one key after the other."""

    status = -9
    shown = b"Hi"

    def __init__(self, name):
        super().__init__(name, 1, 3, None)
        self.history.append(changed(self.history[-1], promised=Ballot(1, 1)))
        keys = enumerate(self.shown)
        self.batches = [Batch(1, 1, 1 + place, bytes([key])) for place, key in keys]
        for place, batch in enumerate(self.batches):
            self.history.append(with_vote(self.history[-1], place, Ballot(1, 1), batch))

    def words(self):
        return ["--campaign", "--keys"], TURNS, b""

    def play(self, playing):
        if not playing.hear(2, lambda it: it.kind == "prepare"):
            return
        promise = {"ballot": (1, 1), "first": 0, "upto": readers.PLACES, "votes": []}
        playing.send(Message("promise", 2, promise))
        for place, batch in enumerate(self.batches):
            vote = {"ballot": (1, 1), "place": place, "value": batch}
            playing.type(batch.characters)
            if not playing.hear(2, lambda it: it == Message("accepted", 1, vote)):
                return
            playing.send(Message("accepted", 2, vote))
            if not playing.await_shown(place + 1):
                return
        playing.stop()


# A run that has ended, with the bytes that the record has then.
Ran = collections.namedtuple("Ran", "status stdout stderr calls data")


def status_of(process):
    """Waits for the end of a process. Returns its status."""
    try:
        return process.wait(LONGEST)
    except subprocess.TimeoutExpired:
        raise Broken(f"it has not ended in {LONGEST} seconds: {' '.join(process.args)}")
    finally:
        process.kill()
        process.wait()


class Bench:
    """A place for one run at a time: a folder with the record, the files of the standard streams,
    addresses, and the sockets of two other nodes. These stay open, as a process that is just
    started elsewhere may have them a moment longer than this one."""

    def __init__(self, room, library, number, addresses):
        self.home = os.path.join(os.path.realpath(room), f"bench{number}")
        self.folder = os.path.join(self.home, "folder")
        os.makedirs(self.folder)
        # Where the record is, and the word that names it.
        self.record = self.word = os.path.join(self.folder, "record")
        self.library, self.file = library, os.path.join(room, "endless.code")
        self.own, self.keys, *others = addresses
        self.sockets = [socket.socket(socket.AF_INET, socket.SOCK_DGRAM) for _ in others]
        for it, address in zip(self.sockets, others):
            it.bind(address)
            it.setblocking(False)

    def at(self, name):
        return os.path.join(self.home, name)

    def others(self, case):
        """Returns the sockets of the other nodes of a case by their numbers, with nothing in
        them."""
        for it in self.sockets:
            while select.select([it], [], [], 0)[0]:
                it.recv(2000)
        return dict(zip((it for it in range(1, case.size + 1) if it != case.node), self.sockets))

    def put(self, data, fresh=None):
        """Lets the folder have this record, if any, and this second file."""
        for path, there in ((self.record, data), (self.record + ".new", fresh)):
            if os.path.lexists(path):
                os.remove(path)
            if there is not None:
                with open(path, "wb") as file:
                    file.write(there)

    def start(self, case, plan, more, turns, keys):
        """Starts the node of a case over the record that is there."""
        if more[-1:] == ["--keys"]:
            more = [*more, text_of_address(self.keys)]
        addresses = [it.getsockname() for it in self.sockets[: case.size - 1]]
        addresses.insert(case.node - 1, self.own)
        words = command_of(
            PROGRAM, self.file, case.node, SESSION, self.word, addresses, *more, turns=turns
        )
        about = {
            "LD_PRELOAD": self.library, "DISK_FOLDER": self.folder, "DISK_TRACE": self.at("trace"),
            "DISK_PLAN": plan,
        }
        for name, data in (("stdin", keys), ("stdout", b""), ("stderr", b""), ("trace", b"")):
            with open(self.at(name), "wb") as file:
                file.write(data)
        kinds = {"stdin": "rb", "stdout": "ab", "stderr": "ab"}
        with contextlib.ExitStack() as stack:
            ends = {it: stack.enter_context(open(self.at(it), kinds[it])) for it in kinds}
            return subprocess.Popen(words, **ends, env={**os.environ, **about}, cwd=self.folder)

    def name(self):
        """Returns the path of the record, from the folder on."""
        return os.path.relpath(self.record, self.folder)

    def data(self):
        """Returns the bytes of the record, or None."""
        return bytes_of(self.record) if os.path.lexists(self.record) else None

    def ran(self, status):
        calls = traces.calls_in(self.at("trace"))
        said = [bytes_of(self.at(it)) for it in ("stdout", "stderr")]
        return Ran(status, *said, calls, self.data())

    def run(self, case, plan=""):
        """Plays a case from its beginning."""
        self.put(case.before)
        playing = Playing(self, case, plan)
        try:
            case.play(playing)
            return self.ran(status_of(playing.process))
        finally:
            playing.process.kill()
            playing.process.wait()

    def start_again(self, case):
        """Starts the node of a case over the record that is there, for no turn. Returns the record
        that it has then."""
        before = self.data()
        ran = self.ran(status_of(self.start(case, "", [], 0, b"")))
        if (ran.status, ran.stderr) != (0, b""):
            had = f"the record had {before and before.hex()}"
            raise Broken(f"the next start: status {ran.status}, {ran.stderr}; {had}")
        looked_at(self, case, ran, before)
        return record_of(ran.data)


class Playing:
    """A node that runs, and the other nodes, which are the script."""

    def __init__(self, bench, case, plan):
        self.bench, self.case = bench, case
        self.sockets = bench.others(case)
        self.heard = None  # the node to which the last message came that was waited for
        self.process = bench.start(case, plan, *case.words())

    def send(self, message):
        data = readers.bytes_of(message, self.case.size, SESSION)
        self.sockets[message.sender].sendto(data, self.bench.own)

    def type(self, data):
        next(iter(self.sockets.values())).sendto(data, self.bench.keys)

    def hear(self, number, is_wanted):
        """Waits until such a message has come to node `number`. Returns false if the node has ended
        before."""
        self.heard = number
        end = time.monotonic() + LONGEST
        while time.monotonic() < end:
            has_ended = self.process.poll() is not None
            while select.select([self.sockets[number]], [], [], 0 if has_ended else 0.005)[0]:
                data = self.sockets[number].recv(2000)
                if is_wanted(readers.datagram(data, self.case.size, SESSION)):
                    return True
            if has_ended:
                return False
        what = f"{self.case.name}: a message to node {number}"
        raise Broken(f"it did not come in {LONGEST} seconds: {what}")

    def tell(self, message, answer):
        """Sends a message, and waits for its answer. Returns false if the node has ended before it
        has answered."""
        self.send(message)
        return self.hear(message.sender, lambda it: it == answer)

    def await_shown(self, count):
        """Waits until so many bytes are shown. Returns false if the node has ended before."""
        def is_shown():
            has_ended = self.process.poll() is not None
            return has_ended or os.path.getsize(self.bench.at("stdout")) >= count

        await_that(is_shown, f"{self.case.name}: {count} bytes are shown")
        return os.path.getsize(self.bench.at("stdout")) >= count

    def stop(self):
        """Ends the node once it has sent one more message. Then the one that was waited for last is
        in the trace."""
        self.hear(self.heard, lambda it: True)
        self.process.kill()


def looked_at(bench, case, ran, before, is_thorough=False):
    """Returns the model after the calls of a run. It has to have the bytes that the file has."""
    disk = replay(ran.calls, bench.name(), before, (case.size, SESSION), is_thorough=is_thorough)
    if disk.data() != ran.data:
        there = f"the file has {ran.data}, and not {disk.data()}"
        raise Broken(f"{case.name}: not all calls were seen: {there}")
    return disk
