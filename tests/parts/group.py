"""Nodes as processes with records and consoles in files, groups of them, keys that are typed at
them, and what has to hold of the records and consoles."""

import itertools
import os
import random
import shlex
import socket
import subprocess
import time

from shared.frozen import wrote_before
from shared.nodes import TURNS, command_of, dropped_at
from shared.record import Damaged, keys_in, read_head, read_record
from shared.words import ask, text_of_address

from .files import bytes_of
from .program import PROGRAM, SCRIPTS, Broken

SESSION = 7
# The mean pause between two datagrams of keys in seconds, and how many keys may be on the way.
PAUSE = 0.08
AHEAD = 300


def await_that(is_so, what, seconds=60.0):
    """Waits until `is_so` returns true. Raises Broken with the text `what` after `seconds`."""
    end = time.monotonic() + seconds
    while not is_so():
        if time.monotonic() > end:
            raise Broken(f"it did not come in {seconds:.0f} seconds: {what}")
        time.sleep(0.002)


def type_at(address, data):
    with socket.socket(socket.AF_INET, socket.SOCK_DGRAM) as sender:
        sender.sendto(data, address)


def output_of(file, keys):
    """Returns what `pgroup run` writes on these keys."""
    words = [PROGRAM, "run", "--steps", str(TURNS), file]
    return subprocess.run(words, check=False, input=keys, capture_output=True).stdout


def votes_in(path):
    """Returns the votes of a record. There are none before the file exists."""
    try:
        return read_record(path).votes
    except FileNotFoundError:
        return {}
    except Damaged as fault:
        raise Broken(f"{path} is no record: {fault}")


def values_of(records):
    """Returns the values at the places from 0 on, or a text that says what is still missing."""
    votes = [votes_in(it) for it in records]
    values = []
    for place in range(1 + max((place for it in votes for place in it), default=-1)):
        there = [it[place] for it in votes if place in it]
        if not there:
            return f"there is no vote at place {place}"
        value = max(there, key=lambda vote: vote[0])[1]
        if 2 * sum(vote[1] == value for vote in there) <= len(records):
            return f"at place {place} no majority of records has the value of the greatest ballot"
        values.append(value)
    return values


def keys_of(values):
    """Returns the keys of values, each once, in order: node, start, serial and character."""
    return list(dict.fromkeys(key for value in values for key in keys_in(value)))


def check_consoles(consoles):
    """Raises Broken unless of each two consoles one holds a prefix of the other."""
    shown = sorted((bytes_of(it) for it in consoles), key=len)
    for shorter, longer in zip(shown, shown[1:]):
        if not longer.startswith(shorter):
            sizes = f"of {len(shorter)} and {len(longer)} bytes"
            raise Broken(f"two consoles {sizes} contradict each other")


def fault_of_end(file, records, consoles):
    """Checks the end of a run: the consoles are equal, and show what the program writes on the
    chosen keys of the records. Returns the keys, or a text that says what does not hold yet."""
    check_consoles(consoles)
    shown = [bytes_of(it) for it in consoles]
    if len(set(shown)) > 1:
        return f"the consoles have {[len(it) for it in shown]} bytes"
    values = values_of(records)
    if isinstance(values, str):
        return values
    keys = keys_of(values)
    wanted = output_of(file, bytes(it[3] for it in keys))
    if wanted != shown[0]:
        return f"`run` writes {len(wanted)} bytes, and the consoles have {len(shown[0])}"
    return keys


def fault_of_typed(node, now, typed, keys):
    """Returns what is missing of the keys that were typed at a node, or None. `typed` has them by
    the number of the start, and `now` is the present one: of it all are chosen, and of the others
    the first ones."""
    for start in {it[1] for it in keys if it[0] == node} | {now}:
        mine = [it for it in keys if it[:2] == (node, start)]
        serials, chosen = [it[2] for it in mine], bytes(it[3] for it in mine)
        sent = typed.get(start, b"")
        if serials != list(range(1, len(serials) + 1)) or not sent.startswith(chosen):
            which = f"the keys of start {start} of node {node}"
            raise Broken(f"{which} are not the first ones that were typed there")
        if start == now and len(chosen) < len(sent):
            return f"of {len(sent)} keys of the last start of node {node} {len(chosen)} are chosen"
    return None


class Running:
    """What has a process while it runs."""

    process = None

    def end(self):
        """Kills the process if it runs."""
        if self.process:
            self.process.kill()
            self.process.wait()
            self.process = None


class Node(Running):
    """A node: its process while it runs, its files, and what was typed at each of its starts, by
    the start's number."""

    def __init__(self, number, folder, keys, addresses):
        self.number, self.keys, self.addresses = number, keys, addresses
        self.session = SESSION
        self.record = os.path.join(folder, f"record{number}")
        self.console = os.path.join(folder, f"console{number}")
        self.errors = os.path.join(folder, f"errors{number}")
        self.trace = None  # the path of its trace, if it writes one
        self.sent = bytearray()
        self.typed = {}
        open(self.console, "wb").close()

    def command(self, file, *more, turns=TURNS):
        """Returns the node's command line, with `more` words after its own."""
        more = ("--keys", text_of_address(self.keys), *more)
        return command_of(
            PROGRAM, file, self.number, self.session, self.record, self.addresses, *more,
            turns=turns,
        )

    def start(self, file, campaigns=False, env=None):
        """Starts the node. Its console goes on where it stopped."""
        self.sent = bytearray()
        seen = os.path.getsize(self.console) - wrote_before(file)
        more = ["--seen", seen] + ["--campaign"] * campaigns
        with open(self.console, "ab") as console, open(self.errors, "ab") as errors:
            self.process = subprocess.Popen(
                self.command(file, *more), stdin=subprocess.DEVNULL, stdout=console,
                stderr=errors, env=self.environment(env),
            )

    def environment(self, env):
        """Returns the environment of the process: this one or the test's own, with the node's trace
        and no other."""
        env = dict(os.environ if env is None else env)
        env.pop("PGROUP_TRACE", None)
        return env if self.trace is None else {**env, "PGROUP_TRACE": self.trace}

    def await_keys(self):
        """Waits until keys can be typed."""
        def is_bound():
            self.check()
            return dropped_at(self.keys[1]) is not None

        await_that(is_bound, f"node {self.number} has its socket of keys")

    def check(self):
        """Raises Broken if the node has ended by itself."""
        status = self.process.poll()
        if status is not None:
            said = bytes_of(self.errors).decode().strip()
            raise Broken(f"node {self.number} has ended with status {status}: {said}")

    def kill(self):
        self.check()
        if dropped_at(self.keys[1]):
            raise Broken(f"a fault of the test: node {self.number} could not take all keys")
        self.end()
        self.note_typed()

    def note_typed(self):
        """Notes what was typed at the start that the record counted last."""
        if os.path.exists(self.record):
            self.typed.setdefault(read_head(self.record).starts, bytes(self.sent))

    def now_typed(self):
        """Returns what was typed at each start, including the present one."""
        return {**self.typed, read_head(self.record).starts: bytes(self.sent)}


class Piped(Node):
    """A node whose console is a pipe, so that what it shows is seen at once."""

    def start(self, file, campaigns=False, env=None):
        with open(self.errors, "ab") as errors:
            self.process = subprocess.Popen(
                self.command(file, *["--campaign"] * campaigns), stdin=subprocess.DEVNULL,
                stdout=subprocess.PIPE, stderr=errors, env=self.environment(env),
            )
        os.set_blocking(self.process.stdout.fileno(), False)

    def read(self):
        """Returns what it shows next, of which there has to be some, or its end. Raises Broken with
        what the node said if that is the end."""
        data = os.read(self.process.stdout.fileno(), 65536)
        if not data:
            self.process.wait()
            self.check()
        return data


class Group:
    """Nodes on one machine, a text that is typed at them, and what happened so far."""

    def __init__(self, folder, seed, file, keys, lists, is_traced=False):
        """A node for each address of `keys`, with the list of addresses that it is given, and a
        trace if that is said."""
        self.random = random.Random(seed)
        self.file = file
        count = range(1, len(keys) + 1)
        self.nodes = [Node(it, folder, keys[it - 1], lists[it - 1]) for it in count]
        for node in self.nodes if is_traced else ():
            node.trace = os.path.join(folder, f"trace{node.number}")
        self.socket = socket.socket(socket.AF_INET, socket.SOCK_DGRAM)
        lines = (f"{it:04}" + ("\n" if it % 20 == 19 else " ") for it in range(10000))
        self.text = itertools.cycle("".join(lines).encode())
        self.leader = None
        self.kills = self.leader_kills = self.campaigns = self.asked = 0
        self.bytes_typed = self.stuck = self.last_shown = self.ahead = 0

    def up(self):
        return [it for it in self.nodes if it.process]

    def down(self):
        return [it for it in self.nodes if not it.process]

    def start(self, node, campaigns):
        node.start(self.file, campaigns)
        if campaigns:
            self.leader = node
            self.campaigns += 1

    def ask(self, node):
        """Asks a node that runs to campaign."""
        ask(node.keys)
        self.leader = node
        self.asked += 1

    def kill(self, node):
        node.kill()
        self.kills += 1
        self.ahead = 0
        if self.leader is node:
            self.leader = None
            self.leader_kills += 1
        self.check_consoles()

    def check_consoles(self):
        check_consoles([it.console for it in self.nodes])

    def longest(self):
        return max(os.path.getsize(it.console) for it in self.nodes)

    def type_some(self):
        """Types the next bytes of the text at a node that is up. It types none if many were typed
        since a console went on or a node was killed."""
        node = self.random.choice(self.up())
        longest = self.longest()
        if longest > self.last_shown:
            self.last_shown, self.ahead = longest, 0
        if self.ahead > AHEAD or dropped_at(node.keys[1]) is None:
            return
        count = self.random.choice((1, 1, 2, 5, 20, 40, 64))
        data = bytes(itertools.islice(self.text, count))
        self.socket.sendto(data, node.keys)
        node.sent += data
        self.bytes_typed += len(data)
        self.ahead += len(data)

    def type_for(self, seconds, is_enough=lambda: False):
        """Types for this time, or until `is_enough` returns true. Returns its answer."""
        end = time.monotonic() + seconds
        while time.monotonic() < end:
            if is_enough():
                return True
            if self.up():
                self.type_some()
            for node in self.up():
                node.check()
            time.sleep(self.random.expovariate(1 / PAUSE))
        return is_enough()

    def let_campaign(self, node):
        """Starts a node so that it campaigns. It is killed first if it is up."""
        if node.process:
            self.kill(node)
        self.start(node, True)
        node.await_keys()

    def final_fault(self):
        """Returns what does not hold yet of the end, or None. Raises Broken if it never can."""
        for node in self.nodes:
            node.check()
        files = [it.record for it in self.nodes], [it.console for it in self.nodes]
        keys = fault_of_end(self.file, *files)
        return keys if isinstance(keys, str) else self.fault_of_typed(keys)

    def fault_of_typed(self, keys):
        """Returns what is missing of the keys that were typed, or None."""
        for node in self.nodes:
            now = read_head(node.record).starts
            fault = fault_of_typed(node.number, now, node.now_typed(), keys)
            if fault:
                return fault
        return None

    def settle(self, remedy, seconds, times):
        """Waits until all that has to hold at the end holds. After each `seconds` it applies
        `remedy` to a node, at most `times` times."""
        fault = None
        for _ in range(times):
            end = time.monotonic() + seconds
            while time.monotonic() < end:
                fault = self.final_fault()
                if fault is None:
                    return
                time.sleep(0.1)
            self.stuck += 1
            remedy(self.random.choice(self.nodes))
        raise Broken(f"it did not come in {times} times {seconds:.0f} seconds: at the end {fault}")

    def places(self):
        return len(values_of([it.record for it in self.nodes]))

    def check_replay(self):
        """Kills all nodes, and raises Broken unless `replay` says that their traces come to the
        same, and to their records and consoles."""
        self.end()
        words = [os.path.join(SCRIPTS, "replay"), self.file, *(it.trace for it in self.nodes)]
        words += ["--records", *(it.record for it in self.nodes)]
        words += ["--consoles", *(it.console for it in self.nodes), "--program", PROGRAM]
        done = subprocess.run(words, check=False, capture_output=True, text=True)
        if done.returncode != 0:
            said = (done.stdout + done.stderr).strip()
            raise Broken(f"by the traces: {said}\nthat is what this says: {shlex.join(words)}")
        print(f"the traces: {done.stdout.strip()}")

    def end(self):
        for node in self.nodes:
            node.end()
