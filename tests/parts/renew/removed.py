"""Renewals by hand that are interrupted, and of which a record may be removed then: `renew` called
again comes to its end, or a line says what to do, and then the group goes on. For
tests/power_renew."""

import os
import re

from shared.record import LOG_HEADER, Damaged, Reader, owner_of

from ..echo_code import ECHO
from ..files import bytes_of, file_with
from ..group import await_that, output_of, type_at
from ..program import Broken, must
from ..scripts import session_of
from ..supervised import group_of
from .cut import renew_cut
from .records import keys, log, vote

NODES, MARK, MOST = (1, 2, 3), b"!", 32
# The keys of a session with some sectors of output, and how much of that its consoles have.
TYPED = b"a line of some words\n" * 90
SHARES = (1, 0, 0.4)
# What `renew` says where a record of the old session is lost, and where one of the new session is.
LEFT_OUT = re.compile(r"leave it out and name the paths of all new records by --to")
WITHOUT = re.compile(r"Continue with the other nodes; node (\d) gets a record")


def log_of_all(node):
    """A record in which all these keys are chosen."""
    votes = [vote(at // MOST, "1.1", keys(2, 1, at + 1, TYPED[at:at + MOST]))
             for at in range(0, len(TYPED), MOST)]
    return log(node, *votes, session=session_of(ECHO))


class ByHand:
    """A renewal in a folder, with or without --freeze, and what was removed of it."""

    def __init__(self, top, is_frozen):
        self.top, self.is_frozen = top, is_frozen
        self.old, self.removed = session_of(ECHO), None
        self.records = [os.path.join(top, f"record{it}") for it in NODES]
        self.frozen = os.path.join(top, "frozen.code")

    def make(self):
        shown = output_of(ECHO, TYPED)
        for number, share in zip(NODES, SHARES):
            file_with(self.top, f"record{number}", log_of_all(number))
            file_with(self.top, f"console{number}", shown[: int(share * len(shown))])

    def words(self, without=None):
        """The words of `renew`; those without a record that is lost name all new ones."""
        records = [it for it in self.records if it != without]
        words = ["--yes", "--file", ECHO, *records]
        words += ["--to", *self.records] if without else []
        if not self.is_frozen:
            return [*words, "--generation", 2]
        consoles = [os.path.join(self.top, f"console{it}") for it in NODES]
        return [*words, "--freeze", self.frozen, "--consoles", *consoles]

    def renew(self, left=0, without=None):
        return renew_cut(left, *self.words(without))

    def remove(self, draw):
        """Removes a record of any node, of the old session or the new one, wherever it is."""
        names = [it for it in sorted(os.listdir(self.top)) if is_record(os.path.join(self.top, it))]
        self.removed = draw.choice(names)
        os.unlink(os.path.join(self.top, self.removed))

    def finish(self):
        """Calls `renew` again, and does what its line says. Returns the nodes that may run then."""
        done, without = self.renew(), None
        said = done.stderr.decode().strip()
        if done.returncode != 0 and LEFT_OUT.search(said):
            without = next(it for it in self.records if said.startswith(f"renew: refused: {it} "))
            done = self.renew(without=without)
            said = done.stderr.decode().strip()
        lost = WITHOUT.search(said) if done.returncode == 1 else None
        if done.returncode != 0 and not lost:
            raise Broken(f"after {self.removed} was removed: status {done.returncode}: {said}")
        must("\n" not in said, f"it says more than a line: {said}")
        return [it for it in NODES if not lost or it != int(lost[1])]

    def go_on(self, nodes, room):
        """Starts these nodes in the new session. They have to show what is typed."""
        code = self.frozen if self.is_frozen else ECHO
        words = [] if self.is_frozen else ["--generation", 2]
        words += [] if self.is_frozen else ["--session", session_of(ECHO, "2\n")]
        group = [it for it in group_of(3, room, silent=0.3, disk=self.top, code=code)
                 if it.number in nodes]
        try:
            for it in group:
                it.begin(*map(str, words))
            for it in group:
                await_that(lambda: it.check() or it.is_up(), f"node {it.number} is up")
            type_at(group[0].keys, MARK)
            wanted = output_of(ECHO, TYPED + MARK)
            await_that(lambda: all(bytes_of(it.console) == wanted for it in group),
                       f"the nodes {nodes} show what is typed, after {self.removed} was removed")
        finally:
            for it in group:
                it.kill()

    def judge(self, draw, room):
        """Removes a record in half of all cases, and lets the group go on."""
        if draw.random() < 0.5:
            self.remove(draw)
        self.go_on(self.finish(), room)


def is_record(path):
    try:
        owner_of(Reader(bytes_of(path)[:LOG_HEADER]))
    except (Damaged, IsADirectoryError):
        return False
    return True
