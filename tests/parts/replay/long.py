"""Traces of any length, for tests/replay: a group of three without faults, which types batches of
keys and rests between them, written line by line and followed by the group of `replay`. Nothing of
them is kept here.

    python3 -m parts.replay.long FOLDER EVENTS    in the folder tests: writes such traces"""

import collections
import os
import re
import sys

from parts.checks import expect
from parts.echo_code import ECHO
from parts.files import bytes_of, file_with
from parts.program import PROGRAM, SCRIPTS, ran

from shared.replica.group import Group
from shared.replica.messages import Messages
from shared.replica.protocol import ALL
from shared.replica.script import Event

SIZE, SESSION = 3, 7
# How many keys are typed at once, and how often each node ticks in vain before the next ones: so a
# session has some ten million events.
KEYS, RESTS = 16, 5
# The addresses for a hundred thousand events, in KiB. When all events were kept it took more.
MEMORY = 120 * 1024
LETTERS = b"abcdefghijklmnopqrstuvwxyz"


class Long:
    """The group, and the files that its nodes write."""

    def __init__(self, folder):
        self.group = Group(SIZE, SESSION, sent=Messages())
        paths = {it: os.path.join(folder, f"trace{it}") for it in self.group.nodes}
        self.files = {it: open(path, "w", encoding="ascii") for it, path in paths.items()}
        self.paths, self.time, self.count, self.passed = list(paths.values()), 10**12, 0, 0
        self.shown = dict.fromkeys(self.group.nodes, 0)
        self.output = bytearray(b"> ")

    def write(self, node, *lines):
        self.files[node].writelines(f"@{self.time} {it}\n" for it in lines)

    def do(self, kind, node, number=None, *lines):
        """An event, whose call has these lines."""
        happened = self.group.apply(Event(kind, node, number))
        self.count += 1
        self.write(node, *lines)
        for it in map(self.group.sent.__getitem__, happened.sends):
            to = "all" if it.to == ALL else it.to
            self.write(node, f"send {to} {it.data.hex().upper()}")

    def start(self):
        for node in self.group.nodes:
            head = f"trace 1 node {node} size {SIZE} session {SESSION}"
            self.do("start", node, None, head, "begin start", "start -")
        self.do("campaign", 1, None, "begin campaign", "campaign")
        self.flow()

    def flow(self):
        """All that was sent is heard by those whom it is for."""
        while self.passed < len(self.group.sent):
            it, number = self.group.sent[self.passed], self.passed
            self.passed += 1
            data = it.data.hex().upper()
            begun = it.message.kind in ("prepare", "accept")
            lines = [f"begin hear {data}"] * begun + [f"hear 10.0.0.{it.message.sender}:7 {data}"]
            for node in self.group.nodes if it.to == ALL else (it.to,):
                self.do("deliver", node, number, *lines)

    def type(self, node, characters):
        for character in characters:
            self.do("type", node, character, f"press {character}")
        self.output += characters
        self.tick(node)
        for it in self.group.nodes:
            self.show(it)

    def tick(self, node):
        self.do("tick", node, None, "tick")
        self.flow()
        self.do("run", node, 100000, "run 100000")

    def show(self, node):
        self.do("run", node, 100000, "run 100000")
        while self.shown[node] < len(self.output):
            number = self.shown[node]
            self.do("release", node, None, f"release {number} {self.output[number]}")
            self.shown[node] += 1

    def tell(self, events):
        """Goes on until there are so many events."""
        self.start()
        turns = collections.deque(self.group.nodes)
        while self.count < events:
            self.time += 20
            self.type(turns[0], bytes(LETTERS[(self.passed + it) % 26] for it in range(KEYS)))
            turns.rotate()
            for _ in range(RESTS):
                self.time += 100
                for node in self.group.nodes:
                    self.tick(node)
        for it in self.files.values():
            it.close()
        return self


def replay(lines, *words, memory=None):
    """Runs `replay`, whose script for `sim` may have so many lines, in so many KiB of addresses."""
    code = (
        "import runpy, sys; sys.dont_write_bytecode = True; sys.path.insert(0, sys.argv[1]); "
        "from shared.replica import replaying, steps; "
        f"steps.MOST_LINES, replaying.OFTEN = {lines}, 500; "
        "sys.argv = [sys.argv[1] + '/replay', *sys.argv[2:]]; "
        "runpy.run_path(sys.argv[0], run_name='__main__')"
    )
    command = [sys.executable, "-c", code, SCRIPTS, ECHO, *words, "--program", PROGRAM]
    return ran(command, memory=memory, seconds=300)


def expect_said(what, done, status, pattern):
    said = done.stdout.decode()
    is_so = done.returncode == status and re.fullmatch(pattern, said)
    expect(what, is_so and not done.stderr, said, done.stderr.decode())


def check_long(folder):
    """Traces of which `sim` does what changed something, or the first part."""
    long = Long(folder).tell(24000)
    same = f"the same: {long.count:,} events, 3 nodes, 3 starts\n"
    expect_said("long: sim does what changed something", replay(23000, *long.paths), 0, same)
    partly = replay(4000, *long.paths)
    rest = r"sim has done the first [1-9][\d,]* of them, for its memory: .*\n"
    expect_said("long: sim does the first part", partly, 0, same + rest)
    # A byte that the machine has not written, behind what sim has done.
    data = bytes_of(long.paths[1])
    at = data.rindex(b"release ")
    end = data.index(b"\n", at)
    number = data[at:end].split()[1]
    other = data[:at] + b"release %s 63" % number + data[end:]
    file_with(folder, "trace2", other)
    pattern = "differs: the released bytes of node 2 are not those that `run` writes .*\n"
    expect_said("long: a byte that run does not write", replay(4000, *long.paths), 1, pattern)
    line = other.count(b"\n", 0, at) + 1
    pattern = rf"differs: line \d+ of the script, line {line} of the trace of node 2: node 2 .*\n"
    for lines in (10**6, 23000):
        done = replay(lines, *long.paths)
        expect_said(f"long: a byte of node 2, with {lines} lines", done, 1, pattern)


def check_memory(folder):
    """A hundred thousand events in little memory."""
    long = Long(folder).tell(100000)
    done = replay(50000, *long.paths, memory=MEMORY)
    same = f"the same: {long.count:,} events, 3 nodes, 3 starts\n(sim .*\n)?"
    expect_said(f"long: {long.count:,} events in {MEMORY} KiB of addresses", done, 0, same)


if __name__ == "__main__":
    print(f"{Long(sys.argv[1]).tell(int(sys.argv[2])).count:,} events")
