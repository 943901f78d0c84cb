"""Traces whose ends are cut off, for tests/replay: as a cut of the power leaves them, while records
keep what was synced and the other nodes go on."""

import os
import random
import re

from shared.nodes import free_addresses

from ..checks import expect
from ..echo_code import ECHO
from ..files import bytes_of, file_with
from ..group import Group, await_that, output_of
from ..program import PROGRAM
from ..scripts import run
from ..stories import CALM, Story

# How often the ends of traces are cut off at random.
TIMES = 16


def said_of(*words):
    done = run("replay", ECHO, *words, "--program", PROGRAM)
    return done.returncode, done.stdout.decode(), done.stderr.decode()


def expect_said(what, said, status, pattern):
    """Checks the status, and that what is said matches."""
    is_so = said[0] == status and re.fullmatch(pattern, said[1], re.S) and not said[2]
    expect(what, is_so, *said)


def cut(path, size, is_zeroed=False):
    """Cuts off what a file has behind so many bytes, or leaves zeros there."""
    data = bytes_of(path)
    zeros = bytes(len(data) - size) if is_zeroed else b""
    file_with(os.path.dirname(path), os.path.basename(path), data[:size] + zeros)


def size_before(data, line):
    """How many bytes are before a line of a file, which is counted from 1."""
    return sum(map(len, data.splitlines(keepends=True)[: line - 1]))


def start_all(group):
    for node in group.nodes:
        group.start(node, node.number == 1)
    for node in group.nodes:
        node.await_keys()


def show(group, nodes, text, wanted):
    """Types at the first of these nodes, and waits until all of them show it."""
    group.socket.sendto(text, nodes[0].keys)
    shown = output_of(ECHO, wanted)
    await_that(lambda: all(bytes_of(it.console) == shown for it in nodes), f"they show {wanted}")


def group_in(folder):
    addresses = free_addresses(6)
    return Group(folder, 1, ECHO, addresses[3:], [addresses[:3]] * 3, is_traced=True)


def words_of(group):
    return [*(it.trace for it in group.nodes), "--records", *(it.record for it in group.nodes)]


def check_power(folder):
    """The power of the machine of node 2 is cut: its trace ends some lines before what the others
    have heard of it, and its record does not. Then it starts again, and goes on in its trace."""
    group = group_in(folder)
    first, second, third = group.nodes
    try:
        start_all(group)
        show(group, group.nodes, b"one\n", b"one\n")
        lines = bytes_of(second.trace).count(b"\n")
        show(group, [second, first, third], b"two\n", b"one\ntwo\n")
        second.end()
        whole = bytes_of(second.trace)
        before = size_before(whole, lines + 1)
        for is_zeroed, what in ((False, "cut off"), (True, "zeros")):
            file_with(folder, "trace2", whole)
            cut(second.trace, before, is_zeroed)
            second.start(ECHO)
            second.await_keys()
            show(group, [first, second, third], b"x", b"one\ntwo\nx" + b"x" * is_zeroed)
            second.end()
            check_cut(group, lines, what)
    finally:
        group.end()


def check_cut(group, lines, what):
    """What is said of the traces, of which the second lacks what was behind so many lines, and has
    further starts."""
    second = group.nodes[1]
    lost = f"cut: {re.escape(second.trace)} lacks what node 2 did after line {lines}, .*"
    ends = r"Up to there it is the same: [\d,]+ events, .*trace1 to .*, .*trace2 to .*\n"
    expect_said(f"{what}: the line is said", said_of(*words_of(group)), 1, lost + ends)
    words = words_of(group)[:3]
    expect_said(f"{what}: also without records", said_of(*words), 1, lost + ends)


def check_record(folder):
    """What is lost was heard by nobody: the record of the next start, or of the disk, tells it."""
    group = group_in(folder)
    try:
        start_all(group)
        show(group, group.nodes, b"one\n", b"one\n")
        group.nodes[2].end()
        trace = group.nodes[2].trace
        data = bytes_of(trace)
        # From here on it has heard, saved and sent, and that was never heard.
        lines = data.splitlines()
        at = next(it for it, line in enumerate(lines, 1) if b" begin hear 50470203" in line)
        cut(trace, size_before(data, at))
        alone = file_with(folder, "alone", bytes_of(trace))
        group.end()
        records = words_of(group)[3:]
        found = said_of(*words_of(group)[:2], alone, *records)
        for words in ("cut: ", "lacks what node 3 did after line", "Up to there it is the same"):
            is_so = found[0] == 1 and words in found[1]
            expect(f"a record on the disk has more: {words}", is_so, found)
    finally:
        group.end()


def check_random(folder):
    """The power of all machines is cut at a moment, and each trace has lost some of its end, or has
    zeros there: nothing is taken for a forgery, or for a record that was changed."""
    group, chance = group_in(folder), random.Random(80)
    try:
        start_all(group)
        for at in range(12):
            show(group, group.nodes, b"%x" % at, b"".join(b"%x" % it for it in range(at + 1)))
        group.end()
    finally:
        group.end()
    whole, found = {it: bytes_of(it.trace) for it in group.nodes}, {}
    for number in range(TIMES):
        for node, data in whole.items():
            file_with(folder, f"trace{node.number}", data)
            lost = chance.choice((0, chance.randrange(300), chance.randrange(9000)))
            cut(node.trace, max(200, len(data) - lost), chance.random() < 0.5)
        words = words_of(group)
        status, said, errors = said_of(*(words if chance.random() < 0.5 else words[:3]))
        if not said.startswith("the same: " if status == 0 else "cut: ") or errors:
            expect(f"ends that are cut off, number {number}", False, said, errors)
        found[status] = found.get(status, 0) + 1
    expect(f"ends that are cut off at random: by status {found}", found.get(1, 0) >= TIMES // 4)


def check_changed_too(folder):
    """Node 3 has lost the end of its trace, and in that of node 2 a datagram is there twice. It is
    sent by a call that changes what `sim` shows of node 2, which is no part of what is compared."""
    story = Story(5, 3, CALM).tell(80)
    lines = {it: trace.text(10**12).splitlines(True) for it, trace in story.traces.items()}
    lost = next(at for at, it in enumerate(lines[3]) if " send all 50470201" in it) + 1
    twice = next(at for at, it in enumerate(lines[2]) if " send 3 50470202" in it)
    lines[3], lines[2][twice] = lines[3][:lost], 2 * lines[2][twice]
    traces = [file_with(folder, f"trace{it}", "".join(some).encode())
              for it, some in lines.items()]
    pattern = (f"cut: .*trace3 lacks what node 3 did after line {lost}, .*"
               f"trace2 to line {twice - 1}, .*\n")
    expect_said("an end that is cut off, and a change", said_of(*traces), 1, pattern)


CUT_CHECKS = (check_power, check_record, check_random, check_changed_too)
