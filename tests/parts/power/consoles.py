"""What a power cut leaves of consoles and traces, and what supervisors make of the consoles: for
tests/power."""

import os
import re
import time

from shared.watch import words_of_process
from shared.words import ask

from ..echo_code import ECHO
from ..files import bytes_of
from ..group import await_that, fault_of_end, type_at
from ..program import Broken, system
from ..supervised import group_of

BOOT = "/proc/sys/kernel/random/boot_id"
# The note beside a console, as docs/FORMATS.md has it.
NOTE = re.compile(rb"pgroup console synced (\d+) boot [0-9a-f-]+\n")
# What is typed after the cut, and nothing else types.
MARK = b"!"
SILENT = 0.3
# After how many seconds a node is asked to campaign, and how often each one is.
PATIENCE, ROUNDS = 3.0, 6
# How many bytes are shown where a console is another.
SHOWN = 40


class Boots:
    """What this machine calls its boots, as far as this process and its children see: each power
    cut is followed by another one."""

    def __init__(self, room):
        self.path, self.count = os.path.join(room, "boot"), 0
        self.next()
        system("mount", "--bind", self.path, BOOT)

    def next(self):
        self.count += 1
        with open(self.path, "w", encoding="ascii") as file:
            file.write(f"00000000-0000-4000-8000-{self.count:012x}\n")

    @staticmethod
    def end():
        system("umount", BOOT)


def bytes_at(path):
    """Returns the bytes of a file, or none where there is no file."""
    return bytes_of(path) if os.path.exists(path) else b""


def noted_at(console):
    """Returns how many bytes of a console were synced by the note beside it, or 0 where there is
    none. Raises Broken where the note is not whole."""
    data = bytes_at(console + ".synced")
    found = NOTE.fullmatch(data)
    if data and not found:
        raise Broken(f"the note beside {os.path.basename(console)} is not whole: {data[:SHOWN]}")
    return int(found[1]) if found else 0


def difference(data, full):
    """Says where bytes differ from the first ones of an output, or None."""
    same = len(os.path.commonprefix([data, full]))
    if same == len(data):
        return None
    nuls = data.count(0)
    return (
        f"of {len(data)} bytes the first {same} are the output's, and {nuls} are NULs; then come "
        f"{data[same : same + SHOWN]} in place of {full[same : same + SHOWN]}"
    )


def kind_of_trace(data, final):
    """Returns what the cut has left of a trace: the whole lines of its begin, a line that is cut,
    NULs, or other bytes."""
    if data == final[: len(data)]:
        return "whole" if not data or data.endswith(b"\n") else "cut"
    same = len(os.path.commonprefix([data, final]))
    return "with NULs" if data[same] == 0 else "other"


class Consoles:
    """The consoles of a mode's nodes at the end of its history, and the output that they show."""

    def __init__(self, room, nodes):
        self.room, self.nodes = room, nodes
        self.finals = [bytes_of(it.console) for it in nodes]
        self.full = max(self.finals, key=len)
        self.traces = [bytes_at(it.trace) for it in nodes]
        for it, final in zip(nodes, self.finals):
            why = difference(final, self.full)
            if why:
                raise Broken(f"console {it.number}, though no power was cut: {why}")

    def count(self, counts):
        """Counts the consoles and traces of the image that is mounted."""
        for it, final in zip(self.nodes, self.traces):
            counts["console with NULs" if 0 in bytes_at(it.console) else "console without"] += 1
            counts[f"trace {kind_of_trace(bytes_at(it.trace), final)}"] += 1

    def faults_of_notes(self):
        """Returns what is wrong with the notes in the image: each names bytes that are there."""
        faults = []
        for it in self.nodes:
            try:
                noted = noted_at(it.console)
            except Broken as broken:
                faults.append(str(broken))
                continue
            data = bytes_at(it.console)[:noted]
            if data != self.full[:noted]:
                why = difference(data, self.full) or f"it has {len(data)} bytes"
                faults.append(f"console {it.number}, of which {noted} bytes are noted: {why}")
        return faults

    def faults_of_walk(self):
        """Starts supervisors on the image. Returns what is wrong with the consoles, as they were
        when the nodes were started, or once the group has gone on."""
        noted = {it.number: noted_at(it.console) for it in self.nodes}
        disk = os.path.dirname(self.nodes[0].console)
        group = group_of(len(self.nodes), self.room, SILENT, disk=disk)
        for it in group:
            it.errors += "-after"
            if os.path.exists(it.errors):
                os.remove(it.errors)
        try:
            for it in group:
                it.begin(*([] if os.path.exists(it.record) else ["--new"]))
            seen = {it.number: self.seen_of(it) for it in group}
            type_at(group[0].keys, MARK)
            self.await_marks(group)
            faults = [self.fault_of(it, seen[it.number], noted[it.number]) for it in group]
            faults = [it for it in faults if it]
            if not faults:
                self.await_end(group)
            faults += [f"supervisor {it.number} says that consoles contradict each other"
                       for it in group if " contradicts that of node " in it.said()]
            return faults
        finally:
            for it in group:
                it.kill()

    @staticmethod
    def await_end(group):
        """Waits until the consoles are equal, and show what `run` writes on the chosen keys. A vote
        of a minority may be in one record alone: it is chosen, or another value in its place, once
        that node campaigns."""
        files = [it.record for it in group], [it.console for it in group]
        fault = fault_of_end(ECHO, *files)
        for it in ROUNDS * group:
            end = time.monotonic() + PATIENCE
            while isinstance(fault, str) and time.monotonic() < end:
                time.sleep(0.05)
                fault = fault_of_end(ECHO, *files)
            if not isinstance(fault, str):
                return
            ask(it.keys)
        raise Broken(f"what is chosen is not shown at all nodes: {fault}")

    @staticmethod
    def seen_of(it):
        """Returns the --seen of the node that this supervisor starts."""
        found = []

        def is_started():
            it.check()
            words = words_of_process(it.node()) if it.node() else []
            found.extend(words[words.index("--seen") + 1 :][:1] if "--seen" in words else [])
            return found

        await_that(is_started, f"supervisor {it.number} starts its node on the image")
        await_that(it.is_up, f"node {it.number} is up on the image")
        return int(found[0])

    @staticmethod
    def await_marks(group):
        def have_gone_on():
            for it in group:
                it.check()
            return all(MARK in bytes_at(it.console) for it in group)

        await_that(have_gone_on, "the group has gone on after the cut")

    def fault_of(self, it, seen, noted):
        data = bytes_of(it.console)
        if 0 in data:
            return f"console {it.number} keeps {data.count(0)} NULs for ever"
        why = difference(data[:seen], self.full)
        if why:
            return f"console {it.number}, behind which its node went on: {why}"
        if seen < noted:
            return f"console {it.number}: {noted} bytes were noted, and --seen was {seen}"
        return None
