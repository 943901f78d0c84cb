"""What a supervisor tells systemd, for tests/group_supervise: its lines in a journal, its status,
and what the unit leaves open."""

import os
import platform
import re
import shutil
import signal
import socket
import subprocess
import sys

from shared.journal import PAUSE, Sparing

from ..checks import expect, passed
from ..files import bytes_of
from ..group import await_that, type_at
from ..page.visitor import Page
from ..scripts import path_of
from ..supervised import group_of

# The greatest exposure of a unit that is taken, ten times as systemd-analyze prints it.
EXPOSURE = 17
UNITS = ("pgroup@.service", "pgroup-page@.service")
FILTERED = os.path.join(os.path.dirname(os.path.realpath(__file__)), "filtered.py")
WRITE_AND_RUN = "import mmap; mmap.mmap(-1, 4096, prot=7)"


def check_sparing(_folder):
    """Which lines are left out, by a clock that is set here."""
    clock = [0.0]
    it = Sparing(True, lambda: clock[0])
    said = [it.passed(f"node {number} ended") for number in range(5)]
    expect("the first of equal lines passes", said == ["node 0 ended", *[None] * 4], said)
    expect("another line passes", it.passed("ended") == "ended")
    clock[0] = PAUSE - 1
    expect("nothing is said again within a minute", it.passed("node 9 ended") is None)
    clock[0] = PAUSE
    wanted = "node 7 ended (and 5 times more since the last such line)"
    expect("after it is said how often it came", it.passed("node 7 ended") == wanted)
    clock[0] = 2 * PAUSE
    expect("and no more where it has not come", it.passed("node 7 ended") == "node 7 ended")
    every = Sparing(False)
    expect("elsewhere each line passes", [every.passed("x") for _ in range(3)] == ["x"] * 3)


def kill(it):
    before = it.node()
    os.kill(before, signal.SIGTERM)
    # Before its program runs, a signal would come to the supervisor's own code.
    await_that(lambda: it.node() not in (None, before) and it.is_up(), "it is started again")


def check_journal(folder):
    """A supervisor whose standard error is a journal, as systemd says it, and which it asks for its
    status."""
    it = group_of(1, folder, silent=0.3)[0]
    open(it.errors, "wb").close()
    status, path = os.stat(it.errors), os.path.join(folder, "notify")
    with socket.socket(socket.AF_UNIX, socket.SOCK_DGRAM) as systemd:
        systemd.bind(path)
        systemd.settimeout(30)
        it.env = {**it.env, "NOTIFY_SOCKET": path,
                  "JOURNAL_STREAM": f"{status.st_dev}:{status.st_ino}"}
        try:
            it.start("--new")
            told = ""
            while "leads" not in told:
                told = systemd.recv(4096).decode()
            wanted = rf"STATUS=node 1 leads; hears 1 of 1 supervisors, .*process {it.node()}\n"
            expect("systemd is told the status", re.fullmatch(wanted, told), told)
            for _ in range(4):
                kill(it)
            it.await_said("ended by SIGTERM")
            said = it.said()
            counts = [said.count(it) for it in ("ended by SIGTERM", "supervise node 1 started,")]
            expect("in a journal a line comes once a minute", counts == [1, 1], said)
            again = r"\d node 1 started size \d session \d+ starts"
            it.await_said(again)
            kill(it)
            expect("so does one of the node", len(re.findall(again, it.said())) == 1, it.said())
        finally:
            it.end()
    passed("a supervisor in a journal")


def check_exposure(_folder):
    """What systemd says of the units, without running them."""
    if not shutil.which("systemd-analyze"):
        print("not tried: what systemd-analyze says of the unit, as there is none", flush=True)
        return
    words = ["systemd-analyze", "security", "--offline=yes", f"--threshold={EXPOSURE}"]
    for it in UNITS:
        done = subprocess.run([*words, path_of(it)], check=False, capture_output=True,
                              env={**os.environ, "SYSTEMD_PAGER": ""})
        expect(f"{it} leaves little open", done.returncode == 0, done.stdout[-200:], done.stderr)


def check_filtered(folder):
    """A node, its supervisor and a page run under the filter of MemoryDenyWriteExecute."""
    texts = [bytes_of(path_of(it)).decode() for it in UNITS]
    is_so = all("\nMemoryDenyWriteExecute=yes\nRemoveIPC=yes\n" in it for it in texts)
    expect("the units refuse memory that can be written and run", is_so)
    if platform.machine() != "x86_64":
        print("not tried: the filter of the units, which here is for x86-64", flush=True)
        return
    around = [sys.executable, FILTERED]
    done = subprocess.run([*around, sys.executable, "-c", WRITE_AND_RUN], check=False,
                          capture_output=True)
    expect("the filter refuses such memory", b"PermissionError" in done.stderr, done)
    it = group_of(1, folder, silent=0.3)[0]
    it.around = around
    try:
        it.start("--new")
        type_at(it.keys, b"one\n")
        await_that(lambda: bytes_of(it.console) == b"> one\n> ", "the node shows a key")
        page = Page(folder, it.record, around=around)
        page.end()
    finally:
        it.end()
    passed("a node, its supervisor and a page run under it")


JOURNAL_CHECKS = (check_sparing, check_journal, check_exposure, check_filtered)
