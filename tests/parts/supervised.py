"""A node under its supervisor (tools/group/supervise), as tests of supervised groups have it."""

import os
import re
import subprocess

from shared.nodes import children_of, dropped_at, free_addresses
from shared.watch import words_of_process
from shared.words import text_of_address

from .echo_code import ECHO
from .files import bytes_of, file_with
from .group import Running, await_that
from .program import PROGRAM, Broken
from .scripts import path_of, run, session_of

ASKED = {**os.environ, "PGROUP_LOG": "1"}


def send_signal(pid, number):
    """Sends a signal to a process, unless it has just ended."""
    try:
        os.kill(pid, number)
    except ProcessLookupError:
        pass


class Supervised(Running):
    """A node of the echo, or another program, under a supervisor, and their files in a folder."""

    def __init__(self, number, folder, nodes, beats, keys, silent=3.0, around=(), disk=None,
                 code=ECHO):
        """`nodes` and `beats` have the addresses of the group, in order, and `keys` is the node's
        own. `around` are words that come before each command, such as those that lead it into a
        namespace. The record and the console are in the folder `disk`, if it is given."""
        self.number, self.folder, self.around = number, folder, list(around)
        self.env = ASKED
        self.nodes, self.beats, self.keys = nodes, beats, keys
        self.record = os.path.join(disk or folder, f"record{number}")
        self.console = os.path.join(disk or folder, f"console{number}")
        self.errors = os.path.join(folder, f"errors{number}")
        # How much of what they say was read, and how many starts of the node that has.
        self.read = self.started = 0
        lines = f"--file {code}  # the program\n--id {number} --size {len(nodes)}\n"
        lines += f"--session {session_of(code)} --silent {silent}\n--program {PROGRAM}\n"
        lines += f"--record {self.record}\n--console {self.console}\n"
        lines += f"--nodes {' '.join(text_of_address(it) for it in nodes)}\n"
        lines += f"--beats {' '.join(text_of_address(it) for it in beats)}\n"
        lines += f"--keys {text_of_address(keys)}\n"
        self.words = "@" + file_with(folder, f"words{number}", lines.encode())

    def run(self, *more):
        """Runs the supervisor to its end."""
        return run("supervise", self.words, *more)

    def begin(self, *more):
        command = self.around + [path_of("supervise"), self.words, *more]
        with open(self.errors, "ab") as errors:
            self.process = subprocess.Popen(
                command, stdin=subprocess.DEVNULL, stderr=errors, env=self.env
            )

    def start(self, *more):
        """Starts it, and waits until the node can be typed at."""
        self.begin(*more)
        await_that(self.is_up, f"the supervisor has started node {self.number}")

    def is_bound(self):
        return dropped_at(self.keys[1]) is not None

    def is_up(self):
        """Whether the node can be typed at. Before it is started its supervisor tries whether the
        ports are free, and has them for a moment: once there is the node, they are its own."""
        return self.node() is not None and self.is_bound()

    def is_down(self):
        return dropped_at(self.nodes[self.number - 1][1]) is None and not self.is_bound()

    def node(self):
        """Returns the node's process, or None. Its supervisor has other children too, as itself
        before it becomes the node, and may be a child of what leads it into a namespace."""
        found = children_of(self.process.pid) if self.process else []
        found += [it for child in found for it in children_of(child)]
        found = [it for it in found if words_of_process(it)[1:2] == ["node"]]
        if len(found) > 1:
            raise Broken(f"the supervisor of node {self.number} has {len(found)} nodes")
        return found[0] if found else None

    def said(self):
        return bytes_of(self.errors).decode()

    def starts(self):
        """Returns how often the node was started, by what it says."""
        with open(self.errors, "rb") as file:
            file.seek(self.read)
            lines = file.read().rpartition(b"\n")[0]
        self.read += len(lines)
        self.started += lines.count(b" node %d started size " % self.number)
        return self.started

    def check(self):
        """Raises Broken if the supervisor has ended by itself. The line that says why comes first:
        the gate shows a few lines of what has failed."""
        if self.process and self.process.poll() is not None:
            status, said = self.process.returncode, self.said()
            why = said.rstrip().rpartition("\n")[2]
            raise Broken(f"supervisor {self.number} has ended with {status}: {why}\n{said}")

    def await_said(self, text, at_least=1):
        """Waits until it has said this so often."""
        def is_said():
            self.check()
            return len(re.findall(text, self.said())) >= at_least

        await_that(is_said, f"supervisor {self.number} says {text}")

    def kill(self):
        """Kills the supervisor, if it runs. Its node has to end with it."""
        if self.process:
            self.end()
            await_that(self.is_down, f"node {self.number} ends with its supervisor", 20)

    def terminate(self):
        """Ends the supervisor by SIGTERM. Returns its status."""
        self.process.terminate()
        await_that(lambda: self.process.poll() is not None, "the supervisor has ended")
        return self.process.returncode


def start_all(group):
    """Starts all at once for the first time, and waits until each node can be typed at."""
    for it in group:
        it.begin("--new")
    for it in group:
        await_that(it.is_up, f"node {it.number} is up")


def last_leader(group, session=None):
    """Returns the one of these whose node began to lead last, by what the nodes say, or have said
    in a session."""
    said = [it.said() for it in group]
    if session is not None:
        said = [it.partition(f" session {session} ")[2] for it in said]
    ballots = re.findall(r" node \d leads ballot (\d+)\.(\d)\n", "".join(said))
    number = max((int(it), int(node)) for it, node in ballots)[1]
    return group[number - 1]


def group_of(size, folder, silent=3.0, disk=None, code=ECHO):
    """Returns the nodes of a group of this size on this machine, none of them started."""
    addresses = free_addresses(3 * size)
    nodes, beats, keys = addresses[:size], addresses[size : 2 * size], addresses[2 * size :]
    return [
        Supervised(it, folder, nodes, beats, keys[it - 1], silent, disk=disk, code=code)
        for it in range(1, size + 1)
    ]
