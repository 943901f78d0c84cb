"""Three nodes under supervisors in a folder that goes away."""

import ctypes
import os
import signal
import subprocess
import sys
import tempfile
import time

from ..files import Refused
from ..nodes import dropped_at, free_addresses
from ..session import session_of
from ..words import ask, text_of_address

SHARED = os.path.dirname(os.path.dirname(os.path.realpath(__file__)))
SCRIPTS = os.path.dirname(SHARED)
REMOVING = os.path.join(SHARED, "demo", "removing.py")
SIZE = 3
# How long no leader is heard before another node is asked, and how long a node has to start.
SILENT, START = 1.0, 60.0
# How long supervisors have to end by SIGTERM, in seconds.
PATIENCE = 5.0
PR_SET_PDEATHSIG = 1
LIBC = ctypes.CDLL(None)


def end_with_parent():
    LIBC.prctl(PR_SET_PDEATHSIG, signal.SIGTERM, 0, 0, 0)


class Group:
    """The folder and what runs there. Another process removes all of it, once this one has
    ended."""

    def __init__(self):
        self.folder = tempfile.mkdtemp(prefix="pgroup-demo-")
        # A session of its own: no signal of this terminal is for it.
        self.remover = subprocess.Popen(
            [sys.executable, "-B", REMOVING, self.folder], stdin=subprocess.PIPE,
            stdout=subprocess.DEVNULL, stderr=subprocess.DEVNULL, start_new_session=True,
        )
        self.supervisors, self.keys = [], []

    def tell_remover(self, line):
        self.remover.stdin.write(f"{line}\n".encode())
        self.remover.stdin.flush()

    def path(self, name):
        return os.path.join(self.folder, name)

    def records(self):
        return [self.path(f"record{it}") for it in range(1, SIZE + 1)]

    def start(self, file, program):
        """Starts the supervisors. Each ends with this process."""
        with open(file, "rb") as code:
            session = session_of(code.read(), 1)
        addresses = free_addresses(3 * SIZE)
        nodes, beats, self.keys = (addresses[it : it + SIZE] for it in (0, SIZE, 2 * SIZE))
        for node in range(1, SIZE + 1):
            words = ["--file", file, "--id", node, "--size", SIZE, "--session", session, "--new"]
            words += ["--record", self.path(f"record{node}"), "--silent", SILENT]
            words += ["--console", self.path(f"console{node}"), "--program", program]
            words += ["--nodes", *map(text_of_address, nodes)]
            words += ["--beats", *map(text_of_address, beats)]
            words += ["--keys", text_of_address(self.keys[node - 1])]
            command = [os.path.join(SCRIPTS, "supervise"), *map(str, words)]
            with open(self.path(f"log{node}"), "ab") as log:
                process = subprocess.Popen(
                    command, stdin=subprocess.DEVNULL, stdout=log, stderr=log,
                    env={**os.environ, "PGROUP_LOG": "1"}, start_new_session=True,
                    preexec_fn=end_with_parent,
                )
            self.supervisors.append(process)
            self.tell_remover(f"pid {process.pid}")

    def await_nodes(self):
        """Waits until keys can be typed at all nodes, and asks one to lead."""
        until = time.monotonic() + START
        while not all(dropped_at(it[1]) is not None for it in self.keys):
            for number, it in enumerate(self.supervisors, 1):
                if it.poll() is not None:
                    raise Refused(self.said(number))
            if time.monotonic() > until:
                raise Refused(f"the nodes have not started in {START:.0f} seconds")
            time.sleep(0.02)
        ask(self.keys[0])

    def said(self, number):
        """The last line of what a supervisor has said."""
        with open(self.path(f"log{number}"), encoding="utf-8", errors="replace") as log:
            lines = log.read().strip().split("\n")
        return lines[-1] or f"the supervisor of node {number} has ended"

    def end(self):
        """Ends all, and waits until it is removed."""
        for it in self.supervisors:
            it.terminate()
        until = time.monotonic() + PATIENCE
        for it in self.supervisors:
            try:
                it.wait(max(0.0, until - time.monotonic()))
            except subprocess.TimeoutExpired:
                # It was stopped by a signal. Its node ends with it.
                it.kill()
                it.wait()
        self.remover.stdin.close()
        self.remover.wait()
