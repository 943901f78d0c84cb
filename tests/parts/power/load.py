"""Supervised nodes on a mounted file system, at which keys are typed while they are killed and
started again: for tests/power."""

import os
import signal
import socket
import string
import subprocess
import sys
import time

from ..files import file_with
from ..group import await_that
from ..program import PROGRAM
from ..supervised import ASKED, group_of, send_signal

# The mean seconds between two datagrams of keys, and how long nodes run at least and at most until
# the next kill.
PAUSE = 0.005
LIFE = (0.3, 1.5)
# How often a kill is that of the supervisor too, and how often a `sync` of the file system comes
# with a datagram, as other programs on a disk cause it.
SUPERVISORS, SYNCS = 0.3, 0.01
# How long a supervisor hears no leader before it asks its node, in seconds.
SILENT = 0.3
# echo.code ends at a full stop, so that none is typed.
LETTERS = (string.ascii_letters + string.digits).encode()

# Appends to a file and syncs it until the process that started it has ended.
BESIDE = """
import os, random, sys, time
parent = os.getppid()
file = os.open(sys.argv[1], os.O_WRONLY | os.O_CREAT | os.O_APPEND)
while os.getppid() == parent:
    os.write(file, os.urandom(random.randrange(1, 300)))
    os.fsync(file)
    time.sleep(random.random() * 0.004)
"""
# The program as the supervisors run it: the library is loaded into nodes alone.
NODE = """#!/bin/sh
[ "$1" = node ] && export LD_PRELOAD="$POWER_LIBRARY"
exec {} "$@"
"""


class Load:
    """The nodes, what notes of their records are made, and a process beside them, if any."""

    def __init__(self, room, top, mode, library, draw):
        self.top, self.mode, self.draw = top, mode, draw
        self.program = file_with(room, "program", NODE.format(PROGRAM).encode())
        os.chmod(self.program, 0o755)
        self.nodes = group_of(mode.nodes, room, SILENT, disk=top)
        for it in self.nodes:
            it.trace = os.path.join(top, f"trace{it.number}")
            it.env = {
                **ASKED, "POWER_LIBRARY": library, "POWER_RECORD": it.record,
                "POWER_NOTES": self.notes(room, it), "POWER_DELAY": str(mode.delay),
                "PGROUP_TRACE": it.trace,
            }
        self.beside, self.kills = None, 0
        self.socket = socket.socket(socket.AF_INET, socket.SOCK_DGRAM)

    @staticmethod
    def notes(room, node):
        return os.path.join(room, f"notes{node.number}")

    def start(self, node, *more):
        node.begin("--program", self.program, *more)

    def begin(self):
        if self.mode.syncs_beside:
            file = os.path.join(self.top, "beside")
            self.beside = subprocess.Popen([sys.executable, "-c", BESIDE, file])
        for it in self.nodes:
            self.start(it, "--new")
        for it in self.nodes:
            it.await_said("hears that node . leads")

    def type_some(self):
        count = self.draw.choice((1, 2, 20, 31, 32))
        data = bytes(self.draw.choices(LETTERS, k=count))
        self.socket.sendto(data, self.draw.choice(self.nodes).keys)
        if self.draw.random() < SYNCS:
            subprocess.run(["sync", "-f", self.top], check=True)

    def kill_one(self):
        """Kills a node, which its supervisor starts again; or the supervisor too."""
        it = self.draw.choice(self.nodes)
        it.check()
        self.kills += 1
        if self.draw.random() < SUPERVISORS:
            it.kill()
            self.start(it)
        elif it.is_up():
            send_signal(it.node(), signal.SIGKILL)

    def go_on(self, seconds):
        now = time.monotonic()
        end, kill = now + seconds, now + self.draw.uniform(*LIFE)
        while now < end:
            if now > kill:
                self.kill_one()
                kill = now + self.draw.uniform(*LIFE)
            self.type_some()
            time.sleep(self.draw.expovariate(1 / PAUSE))
            now = time.monotonic()
        for it in self.nodes:
            it.check()
            await_that(it.is_up, f"node {it.number} is up at the end")

    def end(self):
        for it in self.nodes:
            it.kill()
        if self.beside:
            self.beside.kill()
            self.beside.wait()
        self.socket.close()
