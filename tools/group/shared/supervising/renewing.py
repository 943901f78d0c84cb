"""The part of a supervisor in renewing its session by freezing, with --renew-at. It begins when so
many places are taken, and nothing is in the way; the supervisor of node 1 does it.

1. It looks at all that has to hold, and lets `renew --rehearse` try it while the nodes run. If
   anything is not as it has to be, a line says what, and the old session stays as it is.
2. Once nobody has typed for a second it puts the plan of shared/renewing/plan.py. Each supervisor
   that finds it ends its node, and starts none as long as it counts.
3. It calls `renew --freeze`, again if that was interrupted, until all new records are there.
4. It removes the plan. Each supervisor goes on with the last session that the lists beside its
   record tell of. If `renew` refuses before a record was retired, that is the old one.

Each of these steps is found again after a restart, by the files alone."""

import collections
import os
import re
import subprocess
import sys
import time

from ..continued import sessions_after
from ..files import say, text_of_fault
from ..full import script
from ..nodes import is_empty_at
from ..record import PLACES, Damaged, read_head
from ..renewing import plan as plans
from ..synced import boot_of_machine
from ..watch import file_of, keys_of, link_of, node_processes, plain_words
from ..words import text_of_address
from .process import end_with
from .supervised import SHARED

# How often it is told that this supervisor renews, how long that counts, and for how long something
# has to be in the way until it is said, in seconds.
TOLD, COUNTS, FIRST = 1.0, 6.0, 5.0
# How long nobody has to have typed; how long nodes may take to end; the pause before something that
# has failed is tried again: a step, and the whole; and how long another supervisor is waited for
# until a line says so. In seconds.
QUIET, PATIENCE, AGAIN, LATER, LONG = 1.0, 20.0, 5.0, 600.0, 60.0
# The least bytes that have to be free where files are written.
ROOM = 1 << 20
RENEWS = re.compile(rb"renews (\d{1,5}) ([0-9a-f-]{1,64})")
# What `renew` says where a node still runs.
RUNS = re.compile(r" runs, process \d+: | runs at the record .* already")

# What another supervisor has told: when, and in which boot of its machine.
Told = collections.namedtuple("Told", "at boot")
# A node that runs here: its record, its console, and the port of its keys.
Here = collections.namedtuple("Here", "record console keys")


class Over(Exception):
    """The renewal is over, or was given up: begin anew with what the files say."""


def follow(words):
    """Takes the session that continues that of the words, and its program. Whether it is being
    renewed just now."""
    if words.renew_at is None:
        return False
    found = []

    def is_over(session):
        found.append(plans.plan_at(words.record, session))
        return found[-1] is None

    *before, (session, file) = sessions_after(words.record, words.session, words.file, is_over)
    if before:
        say(words, f"continues in session {session}, with {file}: session {words.session} was "
            "renewed")
        words.earlier += [it for it, _ in before]
        words.session, words.file, words.generation, words.new = session, file, 1, False
    # A plan that was found may be over by now, and then another session continues this one.
    return found[-1] is not None


def nodes_here(words):
    """The nodes of a session that are seen on this machine, by their numbers, or a sentence that
    says why it is not possible to renew them."""
    found, addresses = {}, [text_of_address(it) for it in words.nodes]
    for pid, said in node_processes().items():
        plain = plain_words(said)
        # Another group may have the same session.
        if plain[3:4] != [str(words.session)] or plain[6:6 + words.size] != addresses:
            continue
        node, folder, console = int(plain[1]), link_of(f"/proc/{pid}/cwd"), file_of(pid, 1)
        if link_of(f"/proc/{pid}/ns/mnt") != link_of("/proc/self/ns/mnt"):
            return f"process {pid} of node {node} is in a container, or another user's"
        if node in found:
            return f"two processes here are of node {node}"
        if console is None:
            return f"the console of node {node} is no regular file"
        found[node] = Here(os.path.realpath(os.path.join(folder, plain[4])), console, keys_of(said))
    lacking = [it for it in range(1, words.size + 1) if it not in found]
    if lacking:
        return f"no process of node {lacking[0]} is seen here"
    return why_unfit(words, found) or found


def why_unfit(words, found):
    """What is wrong with the files of these nodes, or None."""
    files = [path for it in found.values() for path in (it.record, it.console)]
    if len(set(files)) < len(files):
        return "two nodes have one record or console"
    for node, it in found.items():
        try:
            head = read_head(it.record)
        except (OSError, Damaged) as fault:
            return f"the record {it.record} cannot be read: {fault}"
        if (head.node, head.size, head.session) != (node, words.size, words.session):
            return f"{it.record} is not the record of node {node} in session {words.session}"
    for folder in sorted({os.path.dirname(it) for it in files}):
        room = os.statvfs(folder)
        if room.f_bavail * room.f_frsize < ROOM:
            return f"less than {ROOM} bytes are free in {folder}"
    return None


class Call:
    """A call of `renew`, which ends with this process."""

    def __init__(self, words, plan, *more):
        command = [sys.executable, "-B", os.path.join(os.path.dirname(SHARED), "renew"),
                   *plan.words(), *more]
        parent = os.getpid()
        self.process = subprocess.Popen(
            command, stdin=subprocess.DEVNULL, stdout=subprocess.DEVNULL, stderr=subprocess.PIPE,
            env={**os.environ, "PGROUP": words.program}, preexec_fn=lambda: end_with(parent),
        )

    def is_over(self):
        return self.process.poll() is not None

    def why(self):
        """Why it has failed, once it is over, or None."""
        said = self.process.communicate()[1].decode("utf-8", "replace").strip()
        status = self.process.returncode
        return None if status == 0 else said.rpartition("\n")[2] or f"renew ends with {status}"

    def end(self):
        if not self.is_over():
            self.process.kill()
        self.process.communicate()


class Renewing:
    """Whether the session is to be renewed, and what this supervisor does about it."""

    def __init__(self, words, node, head, office, is_under_way):
        self.words, self.node, self.head, self.office = words, node, head, office
        self.is_under_way, self.boot = is_under_way, boot_of_machine()
        self.begun = self.since = time.monotonic()
        self.told, self.told_due, self.text, self.why = {}, 0.0, None, None
        self.call, self.due, self.is_rehearsed = None, 0.0, False
        # How far the record was when it was looked at last, and when it has grown.
        self.at, self.grown = None, self.begun

    def lines(self, now):
        """What is told to the other supervisors."""
        if self.words.renew_at is None or now < self.told_due:
            return []
        self.told_due = now + TOLD
        return [f"renews {self.words.renew_at} {self.boot}"]

    def note(self, node, said):
        for match in filter(None, map(RENEWS.fullmatch, said.lines if said else ())):
            self.told[node] = Told(time.monotonic(), match[2].decode("ascii"))

    def tell(self, text):
        """Says what is in the way, once."""
        if text != self.text:
            self.node.complain(text)
        self.text = text

    def look(self, now):
        """Does what is next. Whether the session is being renewed, so that no node runs."""
        if self.words.renew_at is None:
            return False
        plan = plans.plan_at(self.words.record, self.words.session)
        if plan is None and self.is_under_way:
            raise Over
        if plan is None:
            self.consider(now)
            return False
        if not self.is_under_way:
            self.is_under_way, self.since = True, now
            say(self.words, f"ends its node: session {plan.session} is renewed")
        self.node.kill()
        try:
            self.go_on(plan, now)
        except OSError as fault:
            self.tell_late(plan, text_of_fault(fault), now)
        return True

    def end(self):
        """Ends what was called."""
        if self.call:
            self.call.end()

    # Before it begins.

    def consider(self, now):
        """Begins, if that is due, this supervisor's, and possible."""
        if self.head.at != self.at:
            self.at, self.grown = self.head.at, now
        places, least = self.head.places, max(self.due, self.words.renew_due)
        if places is None or places < self.words.renew_at or now < least:
            return
        self.due = now + QUIET / 4
        is_mine = self.words.id == 1
        nodes = self.nodes_or_why(now) if is_mine else self.why_of(1, now)
        if isinstance(nodes, str):
            self.note_why(places, nodes, now)
        elif is_mine:
            plan = self.plan(nodes)
            if self.has_rehearsed(plan, places, now) and self.is_quiet(nodes, places, now):
                plans.begin(plan)

    def note_why(self, places, why, now):
        """What is in the way is said once it has been for a while: it may be a node that is just
        started again."""
        if why != self.why:
            self.why, self.since = why, now
        elif self.since is not None and now - self.since > FIRST:
            self.since = None
            self.tell_kept(places, why)

    def tell_kept(self, places, why):
        self.tell(f"does not renew session {self.words.session}, which has {places} of {PLACES} "
                  f"places, and runs on: {why}")

    def nodes_or_why(self, now):
        """The nodes, or a sentence that says what is in the way."""
        others = (it for it in range(1, self.words.size + 1) if it != self.words.id)
        why = next(filter(None, (self.why_of(it, now) for it in others)), None)
        if why:
            return why
        if self.node.end is not None:
            return "the program has ended, so there is nothing to continue"
        if self.office.leader(now) is None:
            return "no node leads"
        return nodes_here(self.words)

    def why_of(self, node, now):
        """What is in the way at another supervisor, or None."""
        told = self.told.get(node)
        if node not in self.office.fresh(now):
            return f"the supervisor of node {node} is not heard"
        if told is None or now - told.at > COUNTS:
            return f"the supervisor of node {node} has no --renew-at"
        if told.boot != self.boot:
            return f"node {node} is on another machine: {script('status')} has what to type there"
        return None

    def plan(self, nodes):
        records = [nodes[it].record for it in sorted(nodes)]
        frozen = f"{records[0]}.frozen-{self.words.session}.code"
        return plans.Plan(self.words.session, os.path.realpath(self.words.file), frozen, records,
                          [nodes[it].console for it in sorted(nodes)])

    def has_rehearsed(self, plan, places, now):
        """Whether `renew` would do it. It is asked once."""
        if self.is_rehearsed:
            return True
        if self.call is None:
            self.call = Call(self.words, plan, "--rehearse")
        elif self.call.is_over():
            why, self.call = self.call.why(), None
            self.is_rehearsed = why is None
            if why:
                self.words.renew_due = now + LATER
                self.tell_kept(places, why)
        return self.is_rehearsed

    def is_quiet(self, nodes, places, now):
        """Whether nobody types, or nothing more is chosen."""
        are_empty = all(is_empty_at(it.keys) for it in nodes.values())
        return places >= PLACES or are_empty and now - self.grown >= QUIET

    # From then on.

    def go_on(self, plan, now):
        if plan.records[0] != os.path.realpath(self.words.record):
            if now - self.since > LONG:
                self.tell(f"waits for the supervisor of node 1, which renews session "
                          f"{plan.session}: start it")
        elif self.call and self.call.is_over():
            why, self.call = self.call.why(), None
            self.note_end(plan, why, now)
        elif self.call is None and now >= self.due:
            self.renew(plan, now)

    def renew(self, plan, now):
        """Lets the others end their nodes, and calls `renew` once they have."""
        plans.tell(plan)
        if plans.renewed_into(plan):
            self.note_end(plan, None, now)
        there = plans.holders(plan)
        if not there:
            self.call = Call(self.words, plan)
        elif now - self.since > PATIENCE:
            self.note_end(plan, f"{there[0]} does not end", now)

    def note_end(self, plan, why, now):
        """`renew` has ended. Without a reason it has done all."""
        if why is None:
            plans.end(plan)
            say(self.words, f"has renewed session {plan.session} into {plans.renewed_into(plan)}")
            raise Over
        if plans.is_begun(plan):
            self.tell_late(plan, why, now)
            return
        if RUNS.search(why) and now - self.since <= PATIENCE:
            return  # Its supervisor has started it before it saw the plan, and ends it now.
        plans.take_back(plan)
        plans.end(plan)
        self.words.renew_due = now + LATER
        self.tell(f"gives up to renew session {plan.session}, which continues as it was: {why}")
        raise Over

    def tell_late(self, plan, why, now):
        self.due = now + AGAIN
        self.tell(f"cannot renew session {plan.session} to its end: {why}; it is tried again, and "
                  "no node runs before")
