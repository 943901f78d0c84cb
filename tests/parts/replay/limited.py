"""Traces that `supervise --trace-limit` has put aside, for tests/replay: a node that is killed
again and again, whose trace is in parts, of which the first are gone."""

import os
import re
import signal

from shared.nodes import children_of

from ..checks import expect
from ..echo_code import ECHO
from ..files import bytes_of
from ..group import await_that, output_of, type_at
from ..scripts import expect_end
from ..supervised import group_of, send_signal
from .cuts import expect_said, said_of

LIMIT = 12000


def parts_in(folder, node):
    """The parts of a node's trace by their numbers, ascending, and their sizes."""
    names = [it.split(".") for it in os.listdir(folder) if it.startswith(f"trace{node}.")]
    numbers = sorted(int(it[1]) for it in names)
    return {it: os.path.getsize(os.path.join(folder, f"trace{node}.{it}")) for it in numbers}


def kill(it):
    """Kills the node of a supervisor, which starts it again."""
    before = children_of(it.process.pid)
    for pid in before:
        send_signal(pid, signal.SIGKILL)
    await_that(lambda: children_of(it.process.pid) not in ([], before), "it is started again")


def show(group, node, text, wanted):
    type_at(node.keys, text)
    shown = output_of(ECHO, wanted)
    await_that(lambda: all(bytes_of(it.console) == shown for it in group), f"they show {wanted}")


def play(group, folder):
    """Node 3 is killed until the first part of its trace is gone. What was typed is shown."""
    typed = b""
    for at in range(60):
        typed += b"%x" % (at % 16)
        show(group, group[0], typed[-1:], typed)
        if at % 3 == 0:
            kill(group[2])
        if at % 3 == 0 and parts_in(folder, 3) and 1 not in parts_in(folder, 3):
            break
    show(group, group[1], b"\n", typed + b"\n")


def check_limit(folder):
    group = group_of(3, folder, silent=0.3)
    traces = [os.path.join(folder, f"trace{it.number}") for it in group]
    try:
        for it, trace in zip(group, traces):
            it.env = {**it.env, "PGROUP_TRACE": trace}
            limit = ["--trace-limit", str(LIMIT)] if it.number == 3 else []
            it.start("--new", *limit)
        play(group, folder)
    finally:
        for it in group:
            it.kill()
    parts = parts_in(folder, 3)
    expect("limit: the first part is gone", parts and 1 not in parts, parts)
    whole = sum(parts.values())
    is_so = whole <= LIMIT or len(parts) == 1
    expect("limit: the parts have no more bytes than they may", is_so, parts)
    said = bytes_of(group[2].errors).decode()
    for text in (f"its trace {traces[2]} is {traces[2]}.1 now", "removed what is oldest of its"):
        expect(f"limit: it says so: {text[:9]}", text in said, said)
    first = re.escape(f"{traces[2]}.{min(parts)}")
    consoles = [it.console for it in group]
    words = [*traces, "--records", *(it.record for it in group), "--consoles", *consoles]
    pattern = r"the same: [\d,]+ events, 3 nodes, \d+ starts\n(cut: .*\n)*"
    late = rf"what node 3 did before {first}:1 is in no file; .*\nsim, .* has done none of .*\n"
    expect_said("limit: replay says from where on", said_of(*words), 0, pattern + late)
    check_changed(traces[2], words)


def check_changed(trace, words):
    """One byte that was sent is another: it is still noticed."""
    data = bytes_of(trace)
    at = data.rindex(b"\n", 0, data.rindex(b" send ")) + 1
    end = data.index(b"\n", at)
    other = b"1" if data[end - 1 : end] == b"0" else b"0"
    with open(trace, "wb") as file:
        file.write(data[: end - 1] + other + data[end:])
    status, said, _ = said_of(*words)
    is_told = status == 1 and said.startswith("differs: ")
    expect("limit: a datagram that was changed is told", is_told, said)


def check_limit_words(folder):
    it = group_of(1, folder)[0]
    os.environ.pop("PGROUP_TRACE", None)
    done = it.run("--trace-limit", "1000")
    expect_end("limit: without a trace", done, 2, "PGROUP_TRACE names no trace")
    expect_end("limit: no number", it.run("--trace-limit", "x"), 2, "x is no number of bytes")


LIMIT_CHECKS = (check_limit, check_limit_words)
