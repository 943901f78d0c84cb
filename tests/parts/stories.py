"""Stories of groups for tests/draw and tests/replay: what happens to a group by chance, as a script
of `sim` and as the traces that its nodes would write. The datagrams are those of
tools/group/shared/replica/group.py, which tests/draw compares with `sim`; the output is what
`pgroup run` prints on the keys that a node has learned."""

import collections
import random

from shared.record import keys_in
from shared.replica.group import Group, GroupRefused
from shared.replica.protocol import ALL
from shared.replica.script import Event, text_of_script

from .echo_code import ECHO
from .files import number
from .group import output_of
from .readers import ballot_bytes, value_bytes

# How a story goes: the share of deliveries that are lost and that come twice, of events that a save
# fails in, and of turns in which a node is killed.
Faults = collections.namedtuple("Faults", "lost again failing killed")
CALM = Faults(0, 0, 0, 0)
WILD = Faults(0.1, 0.05, 0.01, 0.03)


class Trace:
    """What one node writes."""

    def __init__(self, node, group):
        self.lines, self.node, self.released = [], node, 0
        self.head = f"trace 1 node {node} size {group.size} session {group.session}"

    def write(self, *lines):
        self.lines += lines

    def text(self, clock=None):
        """The trace, with a time before each line where a clock is given."""
        lines = self.lines
        if clock is not None:
            lines = [f"@{clock + at} {it}" for at, it in enumerate(lines)]
        return "".join(line + "\n" for line in lines)


def log_bytes(node, group):
    """A log with the record of a node, by hand."""
    stored = group.stored[node]
    if not stored.starts:
        return b""
    log = b"PL" + bytes([2, node, group.size]) + number(group.session, 4) + b"\x01" * stored.starts
    votes = sorted(stored.votes.items(), key=lambda it: (it[1][0], it[0]))
    for place, (ballot, value) in votes:
        log += b"\x03" + number(place, 4) + ballot_bytes(ballot) + value_bytes(value)
    if stored.promised is not None:
        log += b"\x02" + ballot_bytes(stored.promised)
    return log


class Story:
    """A group, what happened to it, and what its nodes have written about it."""

    def __init__(self, seed, size, faults, session=7):
        self.chance, self.faults = random.Random(seed), faults
        self.group, self.events = Group(size, session), []
        self.traces = {it: Trace(it, self.group) for it in self.group.nodes}
        self.consoles = {it: bytearray() for it in self.group.nodes}
        self.outputs = {}
        self.passed = self.starts = 0

    def script(self):
        return text_of_script(self.group.size, self.group.session, self.events) + "show\n"

    # Events.

    def do(self, *words):
        """Does an event, and has its node write it down. Whether it could happen."""
        event, trace = Event(*words), self.traces[words[1]]
        try:
            self.group.check(event)
        except GroupRefused:
            return False
        record = log_bytes(event.node, self.group) if event.kind == "start" else b""
        happened = self.group.apply(event)
        self.events.append(event)
        if happened.saved is not None and event.outcome:
            self.write_failure(trace, event)
            return True
        trace.write(*self.lines_of(event, record))
        for number_ in happened.sends:
            to, _, data = self.group.sent[number_]
            trace.write(f"send {'all' if to == ALL else to} {data.hex().upper()}")
        return True

    def lines_of(self, event, record):
        """The lines of a call that is done."""
        trace = self.traces[event.node]
        if event.kind == "start":
            self.starts, trace.released = self.starts + 1, 0
            return [trace.head, "begin start", f"start {record.hex().upper() or '-'}"]
        if event.kind == "deliver":
            sent = self.group.sent[event.number]
            data = sent.data.hex().upper()
            address = f"10.0.0.{sent.message.sender}:7001"
            begun = [f"begin hear {data}"] if sent.message.kind in ("prepare", "accept") else []
            return [*begun, f"hear {address} {data}"]
        return {
            "campaign": ["begin campaign", "campaign"], "tick": ["tick"],
            "type": [f"press {event.number}"], "run": [f"run {event.number}"],
        }.get(event.kind, [])

    def write_failure(self, trace, event):
        """A save that failed: the device says so, or the node is killed in it."""
        kind = "hear" if event.kind == "deliver" else event.kind
        if kind == "start":
            trace.write(trace.head)
        words = ["begin", kind]
        if kind == "hear":
            words.append(self.group.sent[event.number].data.hex().upper())
        trace.write(" ".join(words))
        if self.chance.random() < 0.5:
            trace.write(f"failed {kind}", "end 1")

    def outcome(self):
        failing = self.chance.random() < self.faults.failing
        return self.chance.choice(["failold", "failnew"]) if failing else None

    # What a node does.

    def input_of(self, node):
        learner = self.group.nodes[node].learner
        values = [learner.learned[it] for it in range(learner.front)]
        keys = dict.fromkeys(key for value in values for key in keys_in(value))
        return bytes(it[3] for it in keys)

    def output(self, node):
        keys = self.input_of(node)
        if keys not in self.outputs:
            self.outputs[keys] = output_of(ECHO, keys)
        return self.outputs[keys]

    def run(self, node):
        """The machine of a node runs, and all its output is released."""
        output, trace, console = self.output(node), self.traces[node], self.consoles[node]
        if trace.released == len(output):
            return
        while trace.released < len(output):
            self.do("run", node, 1000)
            for byte in output[trace.released : trace.released + 200]:
                trace.write(f"release {trace.released} {byte}")
                self.do("release", node)
                if trace.released == len(console):
                    console.append(byte)
                trace.released += 1

    def flow(self):
        """All messages go to those whom they are for, as far as none is lost."""
        while self.passed < len(self.group.sent):
            for node in self.group.addressees(self.passed):
                for _ in range(1 + (self.chance.random() < self.faults.again)):
                    if self.chance.random() >= self.faults.lost:
                        self.do("deliver", node, self.passed, self.outcome())
            self.passed += 1
        for node in self.group.up():
            self.run(node)

    def kill_and_start(self):
        up, chance = self.group.up(), self.chance
        if 2 * (len(up) - 1) > self.group.size and chance.random() < self.faults.killed:
            node = chance.choice(up)
            self.do("crash", node)
            if chance.random() < 0.3:
                self.traces[node].write("end 0")
        for node in self.group.nodes:
            is_lonely = 2 * len(self.group.up()) <= self.group.size
            if not self.group.is_up(node) and (is_lonely or chance.random() < 0.1):
                self.do("start", node, None, self.outcome())

    def lead(self):
        if not any(self.group.nodes[it].leads() for it in self.group.up()):
            self.do("campaign", self.chance.choice(self.group.up()), None, self.outcome())

    def type(self, node, character):
        self.do("type", node, character)
        self.do("tick", node)

    def tell(self, messages):
        """Goes on until so many messages were sent."""
        for node in self.group.nodes:
            self.do("start", node)
        while len(self.group.sent) < messages:
            self.lead()
            self.flow()
            up = self.group.up()
            if up:
                self.type(self.chance.choice(up), self.chance.choice(b"abcdefgh\n"))
                self.flow()
            self.kill_and_start()
        return self
