"""Three supervised nodes of the echo that renew their session, and what has to hold of them."""

import os
import signal
import sys

from shared.frozen import frozen_at
from shared.renewing.retired import session_at

from ..echo_code import ECHO
from ..files import bytes_of
from ..group import await_that, output_of, type_at
from ..program import must
from ..scripts import session_of
from ..supervised import group_of

CUT = os.path.join(os.path.dirname(os.path.realpath(__file__)), "cut.py")
SILENT = 0.5


class Renewed:
    """A group in a folder, and what was typed at it."""

    def __init__(self, folder, size=3, places=2, disk=None):
        self.nodes, self.typed = group_of(size, folder, SILENT, disk=disk), b""
        self.words = ["--renew-at", str(places)]

    def session(self):
        """The session of all records, or None where they differ or are of none."""
        found = {session_at(it.record) for it in self.nodes}
        return found.pop() if len(found) == 1 else None

    def begin(self, *more, nodes=None):
        for it in nodes or self.nodes:
            it.begin(*self.words, *more)

    def await_up(self):
        """Waits until keys that are typed come to each node. They wait there for a leader."""
        for it in self.nodes:
            await_that(lambda: it.check() or it.is_up(), f"node {it.number} is up")

    def type(self, node, text):
        """Types at a node, which takes a place, and waits until all consoles show it."""
        type_at(self.nodes[node - 1].keys, text)
        self.typed += text
        self.await_shown()

    def wanted(self):
        return output_of(ECHO, self.typed)

    def are_shown(self):
        wanted = self.wanted()
        return all(os.path.exists(it.console) and bytes_of(it.console) == wanted
                   for it in self.nodes)

    def await_shown(self):
        await_that(self.are_shown, f"all consoles show {self.wanted()[-60:]}")

    def await_session_after(self, session):
        """Waits until all records are of another session, and nodes run in it."""
        def is_so():
            for it in self.nodes:
                it.check()
            now = self.session()
            return now not in (None, session) and all(it.is_up() for it in self.nodes)

        await_that(is_so, f"session {session} is renewed")
        return self.session()

    def frozen(self, session):
        """The frozen file by which the session before this one was renewed."""
        return f"{os.path.realpath(self.nodes[0].record)}.frozen-{session}.code"

    def check_one_session(self, old):
        """At no time a majority of the old records is in its place while a new one is, so that no
        two sessions can go on."""
        there = [session_at(it.record) for it in self.nodes]
        must(not (any(it not in (None, old) for it in there) and old in there),
             f"two sessions may go on: {there}")
        must(all(os.path.exists(it.record) for it in self.nodes), "a record is missing")

    def end(self):
        for it in self.nodes:
            it.end()


def is_killed(it):
    return it.process.poll() == -signal.SIGKILL


def killed_at(folder, left, what, are_all):
    """A renewal whose supervisor is killed after so many calls, with the others if that is said,
    and started again. Whether it was killed."""
    os.mkdir(folder)
    group = Renewed(folder)
    first = group.nodes[0]
    first.around = [sys.executable, "-B", CUT, str(left), what]
    try:
        group.begin("--new")
        group.await_up()
        old = session_of(ECHO)
        group.type(2, b"one\n")
        group.type(3, b"two\n")

        def is_past():
            is_over = group.session() not in (None, old) and not any(
                ".renewing-" in it for it in os.listdir(folder))
            return is_killed(first) or is_over

        await_that(is_past, "the supervisor is killed, or has renewed the session")
        was_killed, first.around = is_killed(first), []
        if was_killed:
            if are_all:
                for it in group.nodes[1:]:
                    it.kill()
            group.check_one_session(old)
            group.begin(nodes=group.nodes if are_all else [first])
        new = group.await_session_after(old)
        group.type(1, b"three\n")
        must(group.session() == new, "it was renewed again, though the places are not taken")
        must(not any(".renewing-" in it for it in os.listdir(folder)), "a plan is left")
        must(frozen_at(group.frozen(old)).read == len(b"one\ntwo\n"), "other keys were frozen")
    finally:
        group.end()
    return was_killed
