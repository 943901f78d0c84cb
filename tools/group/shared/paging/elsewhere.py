"""What supervisors say of the nodes of a group whose records are not on this machine."""

import os
import time

from ..asking.command import words_in
from ..asking.questions import states_of
from ..asking.view import View
from ..continued import follow_words
from ..ends import with_end
from ..files import Refused
from ..ports import owner_of, user_of
from ..record import text_of_ballot
from ..sitting.seat import Seat
from ..supervising.key import key_of
from ..watch import link_of, node_processes, plain_words, record_word
from ..words import text_of_address

# How often supervisors are asked, and how long they are waited for, in seconds.
ASKED, WAITED = 2.0, 1.0
# The lanes of nodes elsewhere have numbers from here on, each its node's behind it.
FIRST = 100
STATES = {"up": "up", "held": "stopped", "down": "down", None: "unknown"}
# The most bytes of a list.
MOST = 1 << 16


def is_list(paths):
    """Whether there is a first file that has the words of a supervisor."""
    try:
        with open((paths or [os.devnull])[0], "rb") as file:
            data = file.read(MOST)
    except OSError:
        return False
    return b"\0" not in data and b"--beats" in data


def asked_of(path):
    """The words of a list: whom to ask about which session."""
    words = words_in(path)
    if words.beats is None or words.session is None:
        raise Refused(f"{path}: it says no --beats, or no --session")
    follow_words(words)
    return words


def seats_of(asked):
    """The nodes of a session on this machine: that of the list, if its record is here, and those
    that run. Those of another user count only if no record says whose they are."""
    found = [asked.record] if asked.record and os.path.exists(asked.record) else []
    users = {0, os.geteuid(), *map(owner_of, found)}
    for pid, words in sorted(node_processes().items()):
        if (found or os.geteuid()) and user_of(pid) not in users:
            continue
        plain, record = plain_words(words), record_word(words)
        folder = link_of(f"/proc/{pid}/cwd")
        if record and plain[3] == str(asked.session) and (folder or os.path.isabs(record)):
            found.append(os.path.join(folder or "/", record))
    paths = dict.fromkeys(map(os.path.realpath, found))
    return [Seat(path, None, None) for path in paths]


class Elsewhere:
    """Asks the supervisors of a list again and again, and tells a table."""

    def __init__(self, asked, table):
        self.asked, self.table = asked, table
        self.key = key_of(asked.beats_key) if asked.beats_key else None
        self.addresses = [text_of_address(it) for it in asked.beats]
        self.words = {}

    def serve(self):
        while True:
            begun = time.monotonic()
            follow_words(self.asked)
            session, states = states_of(self.asked.beats, self.asked.session, self.key, WAITED)
            self.note(View(session, self.addresses, states))
            time.sleep(max(0.0, ASKED - (time.monotonic() - begun)))

    def note(self, view):
        here = {it.number() for it in self.table.lanes}
        nodes = [it for it in view.nodes if it not in here]
        shots = [self.shot(view, it) for it in nodes]
        with self.table.changed:
            for it in shots:
                self.note_word(it)
            self.table.others, self.table.view = shots, view

    def note_word(self, it):
        before, word = self.words.get(it["at"]), it["state"]
        if word == before:
            return
        self.words[it["at"]], marks = word, self.table.marks
        if before and word == "down":
            marks.add(it["at"], "crash", "has ended, as its supervisor says")
        elif before == "down":
            marks.add(it["at"], "start", "is up, as its supervisor says")
        elif before and word == "unknown":
            marks.add(it["at"], "held", "is unknown: its supervisor does not answer")
        marks.add(it["at"], "span", word)

    def shot(self, view, node):
        """A node as its own supervisor tells it, for a browser."""
        it = view.states.get(node)
        shot = {"node": node, "at": FIRST + node, "state": "unknown", "lag": 0, "pid": None,
                "promised": None, "starts": None, "votes": None, "bytes": None, "shown": "",
                "end": None, "can_type": False, "can_lead": False, "supervised": it is not None,
                "is_new": False, "loss": None, "log": None,
                "fault": f"no answer from {self.addresses[node - 1]}{view.heard_of(node)}"}
        if it is None:
            return shot
        leads = it.leads and it.process == "up"
        return {
            **shot, "state": "leads" if leads else STATES[it.process], "pid": it.pid,
            "promised": None if it.promised is None else text_of_ballot(it.promised),
            "starts": it.starts, "bytes": it.console,
            "end": None if it.end is None else with_end("its program has ended", it.end),
            "fault": "on another machine" + (f": {it.fault[1]}" if it.fault else ""),
        }
