"""How long a supervised group has no leader: its leader's process is killed, or its supervisor is
restarted or killed, and the lines of the nodes' logs say when another one leads."""

import collections
import os
import re
import signal
import statistics
import subprocess
import time

from shared.record import read_head
from shared.words import text_of_address

from .checks import expect, passed
from .group import await_that
from .program import Broken
from .supervised import send_signal

LEADS = re.compile(r"^(\d+\.\d{3}) node \d leads ballot (\d+)\.(\d)$", re.M)
ASKED = re.compile(r" is asked to campaign")
# What is done to the leader; how often if not given; and how long at most half of them may take and
# three of four, in seconds: the third part of --silent more if the next in rank is down, and that
# time itself if nothing says that the leader is gone.
Kind = collections.namedtuple("Kind", "what times half most")
KILLED, BOTH, RESTARTED, LOST = (
    Kind("the leader's process is killed", 40, 0.6, 1.0),
    Kind("the same while the next in rank is down", 40, 1.6, 2.0),
    Kind("the leader's supervisor is restarted", 20, 0.5, 0.8),
    Kind("the leader's machine is lost", 20, 4.0, 4.5),
)


def type_in(place):
    """Types a key at a node, which may be in a namespace. It may be lost."""
    command = f"printf k > /dev/udp/{text_of_address(place.keys).replace(':', '/')}"
    words = [*place.around, "bash", "-c", command]
    subprocess.run(words, check=False, stderr=subprocess.DEVNULL)


class Takeovers:
    """A group whose leader is taken away again and again."""

    def __init__(self, group, silent):
        self.group, self.silent = group, silent

    def said(self):
        return "\n".join(it.said() for it in self.group)

    def leads(self):
        """When a node began to lead last, its ballot, and the node."""
        found = [(int(it[2]), int(it[3]), float(it[1])) for it in LEADS.finditer(self.said())]
        if not found:
            return 0.0, (0, 0), None
        first, node, at = max(found)
        return at, (first, node), self.group[node - 1]

    def start(self):
        for it in self.group:
            it.begin("--new")
        await_that(lambda: self.leads()[2], "a node leads")

    def settle(self):
        """Waits until each node has run for so long that it may be asked, and follows the leader:
        so one of the others is enough for it."""
        for it in self.group:
            await_that(it.node, f"node {it.number} is up")
        time.sleep(self.silent + 0.5)
        for it in self.group:
            it.check()
        _, ballot, leader = self.leads()
        type_in(leader)
        await_that(lambda: all(read_head(it.record).promised == ballot for it in self.group),
                   "all nodes have voted under the leader's ballot")

    def next_after(self, leader):
        return self.group[leader.number % len(self.group)]

    def take(self, kind):
        """Takes the leader away once. Returns after how many seconds another one leads, and how
        many were asked."""
        self.settle()
        _, ballot, leader = self.leads()
        down = self.next_after(leader) if kind is BOTH else None
        if down:
            down.end()
            time.sleep(self.silent + 0.5)  # No supervisor hears it any more.
        asked, begun = len(ASKED.findall(self.said())), time.time()
        self.hurt(kind, leader)
        await_that(lambda: self.leads()[1] > ballot, f"another node leads after {kind.what}")
        took = self.leads()[0] - begun
        for it in [down, leader] if kind is not KILLED else []:
            if it and it.process is None:
                it.begin()
        return took, len(ASKED.findall(self.said())) - asked

    def hurt(self, kind, leader):
        if kind is RESTARTED:
            leader.process.terminate()
            leader.process.wait()
            leader.begin()
        elif kind is LOST:
            leader.end()  # The node ends with it.
        else:
            send_signal(leader.node(), signal.SIGKILL)

    def measure(self, kind, times):
        took, asked = zip(*(self.take(kind) for _ in range(times)))
        half, over = statistics.median(took), sum(it > kind.most for it in took)
        load = os.getloadavg()[0]
        numbers = f"median {half:.2f} s, {min(took):.2f} to {max(took):.2f}; load {load:.1f}"
        more = f"{sum(it > 1 for it in asked)} times more than one was asked"
        print(f"{times} times {kind.what}: {numbers}; {more}", flush=True)
        if half > kind.half or 4 * over > times:
            raise Broken(f"the limit of time is {kind.half} s for half of them, and {kind.most} s "
                         f"for three of four: {sorted(took)}")
        passed(kind.what)

    def rest(self, minutes):
        """Nobody is asked while the leader leads."""
        self.settle()
        before, asked = self.leads(), len(ASKED.findall(self.said()))
        begun, loads = time.monotonic(), []
        while time.monotonic() - begun < 60 * minutes:
            time.sleep(1)
            loads.append(os.getloadavg()[0])
            for it in self.group:
                it.check()
        is_so = self.leads() == before and len(ASKED.findall(self.said())) == asked
        print(f"load {min(loads):.1f} to {max(loads):.1f}", flush=True)
        expect(f"for {minutes:.0f} minutes nobody is asked while the leader leads", is_so,
               self.said())

    def end(self):
        for it in self.group:
            it.end()
