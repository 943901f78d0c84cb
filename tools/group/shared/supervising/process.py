"""The process of a node under a supervisor: when it is started, whether it moves, and how it ends
with its supervisor."""

import contextlib
import ctypes
import os
import re
import select
import signal
import socket
import subprocess
import time

from ..codes import sentence_of, with_sentence
from ..ends import end_of
from ..files import Refused, check_session, promised_of, refuse_lasting, say, text_of_fault
from ..frozen import end_in_original, wrote_before
from ..locks import InUse, held
from ..nodes import command_of, stat_of
from ..words import text_of_address
from .beats import text_of_address_fault
from .consoles import Console
from .speech import Speech, is_log_asked
from .traces import limit_trace
from .unsaved import why_unsaved

PR_SET_PDEATHSIG = 1
LIBC = ctypes.CDLL(None)
# The least and the greatest pause before a node is started again, and how long a node has to run
# for the pause to be the least again, in seconds.
PAUSE, LONGEST_PAUSE, STEADY = 0.1, 5.0, 2.0
# After how many seconds at most it is said that a node does not move, however long --silent is.
MINUTE = 60.0
# A node that lacks more places than this, and has learned some within so many seconds, catches up:
# one that has them leads sooner. A leader may have voted at 1,024 places that it does not know.
MANY, LEARNS = 2048, 1.5
# What a node's log says of something that went wrong begins so.
FAULTS = ("campaign refused", "no room for typed keys", "cannot send", "dropped", "trace lost")

# What a node's log says of how far it knows the session: the first place that it has not learned,
# and how many keys wait at it.
KNOWN = re.compile(r"known front (\d{1,5}) waiting (\d{1,3})")


def end_with(parent):
    """In the node's process, before the program: the kernel kills it when this process ends."""
    LIBC.prctl(PR_SET_PDEATHSIG, signal.SIGKILL, 0, 0, 0)
    if os.getppid() != parent:
        os._exit(1)


def end_of_process(pid):
    """A file that can be read once a child has ended, in a list, or none if the system has no such
    files: then it is looked for several times a second."""
    try:
        return [os.pidfd_open(pid)]
    except (AttributeError, OSError):
        return []


def activity_of(pid):
    """What grows while a process runs: its processor time, and how often it was given a processor.
    A node that has nothing to do takes a turn every 10 to 200 milliseconds."""
    try:
        with open(f"/proc/{pid}/schedstat", "rb", buffering=0) as file:
            return file.read(64)
    except FileNotFoundError:
        return slow_activity_of(pid)  # The kernel keeps no such counts, or the process has ended.
    except OSError:
        return None


def slow_activity_of(pid):
    """The same from files that the kernel takes longer to make."""
    try:
        with open(f"/proc/{pid}/status", encoding="ascii", errors="replace") as status:
            switches = [int(line.split()[1]) for line in status if "ctxt_switches" in line]
        return switches, stat_of(pid)[11:13]
    except OSError:
        return None


class Node:
    """The node's process, and when it may be started again."""

    def __init__(self, words, head):
        self.words, self.head = words, head
        self.is_new = words.new
        self.process, self.before, self.text = None, None, None
        self.watched = []  # can be read once the process has ended
        self.console = Console(words.console, words.console_limit)
        self.activity, self.speech = None, None
        self.is_held = False
        # How the program has ended, by this process of the node, or None; and what went wrong last,
        # with its time.
        self.end, self.fault = None, None
        # Of this process of the node, the first place that it has not learned, and how many keys
        # wait at it; None as long as its log has not said so.
        self.front, self.waiting = None, None
        self.started = self.moved = self.learned = 0
        self.pause, self.due = PAUSE, time.monotonic()

    def tell(self, text):
        """Says what keeps the node from starting, once."""
        if text != self.text:
            self.complain(text)
        self.text = text

    def complain(self, text):
        """Says what went wrong, and remembers it."""
        self.fault = time.time(), text
        say(self.words, text)

    def are_ports_free(self):
        for address in (self.words.nodes[self.words.id - 1], self.words.keys):
            with socket.socket(socket.AF_INET, socket.SOCK_DGRAM) as probe:
                try:
                    probe.bind(address)
                except OSError as fault:
                    why = text_of_address_fault(fault)
                    self.tell(f"waits for {text_of_address(address)}: {why}; it is tried again")
                    return False
        return True

    def command(self, seen):
        words = self.words
        rest = ["--keys", text_of_address(words.keys), "--seen", seen]
        place = (words.file, words.id, words.session, words.record)
        return command_of(words.program, *place, words.nodes, *rest)

    def start(self, now):
        """Starts the node, or puts it off where that cannot be done now."""
        self.due = now + self.pause
        self.pause = min(2 * self.pause, LONGEST_PAUSE)
        try:
            # While the ports are taken, a node that was there before may still write.
            if self.are_ports_free():
                self.start_process(now)
        except InUse as why:
            self.tell(f"cannot be started: {why}; it is tried again")
        except (OSError, subprocess.SubprocessError) as fault:
            if isinstance(fault, OSError):
                refuse_lasting(fault)
                fault = text_of_fault(fault)
            self.tell(f"cannot be started: {fault}; it is tried again")

    def start_process(self, now):
        limit_trace(self.words)
        check_session(self.words)
        self.before = promised_of(self.words, self.head, self.is_new)
        parent = os.getpid()
        self.open_console(wrote_before(self.words.file))
        command = self.command(self.seen())
        speech = Speech(is_log_asked(), self.note)
        self.process = speech.leave_to(lambda begin: subprocess.Popen(
            command, stdin=subprocess.DEVNULL, stdout=self.console.file, stderr=begin,
            env={**os.environ, "PGROUP_LOG": "1", "PGROUP_COUNTS": "1"},
            preexec_fn=lambda: end_with(parent),
        ))
        self.speech, self.watched = speech, end_of_process(self.process.pid)
        self.started = self.moved = now
        self.is_held = False
        self.end, self.text = None, None
        self.front, self.waiting = None, None
        say(self.words, f"started, process {self.process.pid}")

    def seen(self):
        """How many bytes of its output the console has. Refuses one that lacks what no node writes
        again."""
        seen, console = self.console.seen(), self.console
        if seen is None:
            raise Refused(
                f"{console.path} has {console.length()} bytes, and {self.words.file} continues "
                f"after {console.before}: put a copy of another node's console there"
            )
        return seen

    def open_console(self, before):
        """Opens the console while no other process is at the record, so that none writes to it.
        Where the lock cannot be had at all, the node will refuse to run, and why is said then."""
        with contextlib.ExitStack() as lock:
            with contextlib.suppress(OSError):
                lock.enter_context(held(self.words.record))
            cut = self.console.open(before)
        if cut:
            say(self.words, cut)

    def tend_console(self, now):
        self.console.tend(now)
        fault, self.console.fault = self.console.fault, None
        if fault:
            self.tell(fault)

    def tend(self, now):
        """Starts the node if it is due, and notes that it has ended, or how it does."""
        self.tend_console(now)
        if self.process is None:
            if now >= self.due:
                self.start(now)
            return
        status = self.process.poll()
        if status is not None:
            self.note_end(status, now)
            return
        self.speech.hand_on()
        try:
            self.watch_moves(now)
        except OSError:
            pass  # The system cannot say it now.

    def note(self, text):
        """Says what a line of the node's log means for a person, and remembers what went wrong."""
        end, known = end_of(text), KNOWN.fullmatch(text)
        if known:
            before, (self.front, self.waiting) = self.front, map(int, known.groups())
            self.learned = self.learned if self.front == before else time.monotonic()
        if text.startswith(FAULTS):
            self.fault = time.time(), text
        if end is not None:
            end = end_in_original(self.words.file, end)
            how = f", by {end}" if end else ""
            self.end = end
            goes_on = "the node keeps running, and nobody reads what is typed"
            say(self.words, f"says that the program has ended{how}; {goes_on}")

    def leave(self):
        """There is no process any more."""
        self.process, self.front, self.waiting = None, None, None
        self.speech.close()
        for it in self.watched:
            os.close(it)
        self.watched = []

    def note_end(self, status, now):
        self.leave()
        if status == 2:
            raise Refused("the program refuses its arguments")
        if status == 0 or now - self.started > STEADY:
            self.pause, self.due = PAUSE, now
        why = f", {self.why_refused()}" if status == 1 and sentence_of(self.speech.last) else ""
        self.complain(f"ended {status_text(status)}{why}; the node is started again")

    def why_refused(self):
        """The code with which the node has refused, its sentence, and of a record that cannot be
        loaded or saved what is found out."""
        text = with_sentence(self.speech.last)
        if self.speech.last != "refused D2":
            return text
        why = why_unsaved(self.words.record)
        return f"{text} ({why or 'a file could be written there just now'})"

    def watch_moves(self, now):
        activity = activity_of(self.process.pid)
        if activity != self.activity:
            self.activity, self.moved = activity, now
            if self.is_held:
                say(self.words, "moves again")
            self.is_held = False
        elif not self.is_held and now - self.moved >= min(self.words.silent, MINUTE):
            self.is_held = True
            self.complain(f"does not move: {self.what_holds()}")

    def what_holds(self):
        try:
            state = stat_of(self.process.pid)[0]
        except OSError:
            state = ""
        if state in ("T", "t"):
            return "it was stopped by a signal"
        if not select.select([], [self.console.file], [], 0)[1]:
            return f"nobody reads its console {self.words.console}, which is full"
        if state == "D":
            return "it waits for a disk"
        return f"its process {self.process.pid} is in state {state}"

    def is_ready(self, now):
        """Whether it may be asked to campaign: it runs, moves, had time to hear what the others
        know, and does not learn most of it just now."""
        silent = self.words.silent
        is_heard = now - self.moved < silent <= now - self.started
        return self.process is not None and is_heard and not self.catches_up(now)

    def catches_up(self, now):
        places = self.head.places
        is_behind = None not in (places, self.front) and places - self.front > MANY
        return is_behind and now - self.learned < LEARNS

    def end_process(self):
        """Ends the process, if there is one."""
        if self.process is not None:
            self.process.kill()
            self.process.wait()
            self.leave()

    def kill(self):
        self.end_process()
        self.console.finish()


def status_text(status):
    names = {it.value: it.name for it in signal.Signals}
    return f"by {names.get(-status, -status)}" if status < 0 else f"with status {status}"
