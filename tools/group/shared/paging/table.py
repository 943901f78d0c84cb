"""The session at which all browsers of a page sit: what they type, the screen that they see, and
what is to be said of the group."""

import codecs
import collections
import concurrent.futures
import threading
import time

from ..record import PLACES, text_of_ballot
from ..screens import Screen
from ..sitting.seat import Seat
from ..sitting.session import Session
from .asks import Asks
from .clients import Clients
from .counts import Counted
from .course import Course
from .due import due_of
from .heading import RUNS, SHORTLY, flow_of, heading_of, majority_of, until_of, with_reasons
from .heard import STILL, HeardTerminal, Readings
from .lanes import Lane
from .marks import Marks, now
from .moves import moved_of, still_of
from .recovery import Recovery

# How often the session looks, in seconds: for some time after a key, while keys wait, and at the
# console alone else; and how often it looks at more than that then.
SOON, LATE, AWAKE, REST, LOOK = 0.002, 0.02, 0.5, 0.04, 0.15
# How often the nodes are shown anew, at most.
SHOT = 0.1
# After how many seconds in which no key is chosen it is said that keys wait.
STUCK = 1.0
# How many bytes of keys may wait here, and how many sentences are kept.
MOST, SENTENCES = 1 << 16, 200
ENDED = "The program has ended: it reads no keys any more."
# What the session says of keys that are lost, or may be.
LOSSES = ("lost", "blind", "voted")
# How long a request that the session has to do may take, in seconds.
PATIENCE = 10.0


class Table:
    """`changed` guards all that browsers are shown, and is notified when something of it is new:
    then `version` has grown."""

    def __init__(self, seats, at, is_lf, screen=None):
        # Without a node of this machine there is a group to be seen, and no session.
        self.session = Session(seats or [Seat(None, None, None)], at, Counted)
        self.has_seat, self.is_lf = bool(seats), is_lf
        self.screen = Screen(screen, is_lf) if screen else None
        self.terminal, self.readings = HeardTerminal(is_lf=is_lf), Readings()
        # Since when the console is still, until what it waits with is read, and since when the
        # cursor is in its line.
        self.came, self.row = None, (0, 0.0)
        self.decoder = codecs.getincrementaldecoder("utf-8")("replace")
        self.changed, self.version, self.is_over = threading.Condition(), 0, False
        self.clients, self.keys, self.orders = Clients(), bytearray(), []
        self.marks = Marks()
        self.lanes = [Lane(*it, self.marks) for it in zip(range(len(seats)), seats)]
        # What supervisors say of the nodes whose records are not here, and of the group.
        self.others, self.view = [], None
        self.sentences, self.said = collections.deque(maxlen=SENTENCES), 0
        # What the session has said, until the deaths before it are told.
        self.unsaid, self.recovery, self.is_lossy = [], Recovery(), False
        # What becomes of the group as a whole, what of that is not told yet, and what has come of
        # requests to lead.
        self.course, self.events, self.asks = Course(), [], Asks()
        # How many keys were chosen when that was new, and when it was.
        self.chosen = 0, time.monotonic()
        self.group, self.screens, self.held = None, 0, 0
        self.wake, self.typed, self.shot = threading.Event(), -AWAKE, -SHOT

    # What browsers ask for, each in a thread of its own.

    def type(self, client, number, keys):
        """Takes keys of a browser, once for each number. A status, and a sentence or None."""
        with self.changed:
            last = self.clients.last(client)
            if last is None:
                return 409, "This browser is not known here any more: open the page again."
            if number == last[0]:
                return last[1]
            if number != last[0] + 1:
                return 409, f"The keys with number {last[0] + 1} are expected, not {number}."
            waiting = self.held + len(self.keys)
            if self.group and self.group["flow"] == "ended":
                answer = 409, ENDED
            elif waiting + len(keys) > MOST:
                answer = 409, f"{waiting} keys wait here already: nothing is chosen."
            else:
                answer = 200, None
                self.keys += keys
                self.typed = time.monotonic()
            self.clients.note(client, number, answer)
        self.wake.set()
        return answer

    def ask(self, what, *words):
        """Lets the session do something. What it returns."""
        done = concurrent.futures.Future()
        with self.changed:
            self.orders.append((done, what, words))
        self.wake.set()
        return done.result(PATIENCE)

    def go_to(self, at):
        return self.ask(self.session.go_to, at)

    def note_asked(self, at):
        """Notes that somebody asks a node to lead."""
        with self.changed:
            self.marks.add(at, "asked", "asked")
            self.note_sentence("asked", f"{self.session.name(at).capitalize()} is asked to lead.")
            self.asks.add(at, self.session.seats[at])
            self.changed.notify_all()

    def drop_ask(self, at):
        """Notes that it could not be asked, which its browser is told."""
        with self.changed:
            self.asks.open.pop(at, None)

    def end(self, seconds):
        """Tells all browsers that the page ends, and waits until they know it, so long at most."""
        with self.changed:
            self.is_over = True
            self.version += 1
            self.changed.notify_all()
            self.changed.wait_for(lambda: not self.clients.listening, seconds)

    # What the session's own thread does.

    def serve(self):
        """Lets the session go on, for ever."""
        while True:
            self.wake.clear()
            self.rest(*self.step())

    def step(self):
        """Does what is due. Whether it may look again at once, and whether soon."""
        with self.changed:
            keys, self.keys = bytes(self.keys), bytearray()
            orders, self.orders = self.orders, []
            self.held = len(self.session.held) + len(keys)
        session = self.session
        session.type(keys)
        for done, what, words in orders:
            done.set_result(what(*words))
        is_new = self.has_seat and session.step()
        said, session.said = session.said, []
        data, session.output = bytes(session.output), bytearray()
        is_due = bool(said or orders or self.unsaid) or time.monotonic() - self.shot >= SHOT
        with self.changed:
            before = self.version
            self.note(data)
            self.read()
            if is_due:
                self.look()
            self.note_said(said)
            if self.version != before:
                self.changed.notify_all()
        return is_new, is_new or time.monotonic() - self.typed < AWAKE

    def rest(self, is_new, is_soon):
        """Waits until something may be new: for long only a key or the console ends it."""
        if is_new:
            return
        if is_soon or self.session.away or self.session.held:
            self.wake.wait(SOON if is_soon else LATE)
            return
        until, seat = time.monotonic() + LOOK, self.session.seat()
        size = seat.size()
        while not self.wake.wait(REST) and time.monotonic() < until and seat.size() == size:
            pass

    def note(self, data):
        if data:
            data = self.screen.translated(data) if self.screen else data
            self.terminal.write(self.decoder.decode(data))
            self.screens += 1
            self.version += 1
            self.came = time.monotonic()
            row = self.terminal.y + self.terminal.scrolled
            self.row = self.row if row == self.row[0] else (row, self.came)
            self.readings.add(*self.terminal.take())
        self.held = len(self.session.held)

    def read(self):
        """Reads out the words with which the console waits, once it is still, unless somebody types
        there already: then they are read with the whole line."""
        if self.came is None or time.monotonic() - self.came < STILL:
            return
        self.came, before = None, self.readings.count
        if self.typed > self.row[1]:
            return
        self.readings.add(*self.terminal.take(is_still=True))
        self.version += self.readings.count != before

    def note_said(self, said):
        """Notes what the session has said, by what the nodes are now, and once it is told which of
        them have died before."""
        self.unsaid += said
        if not self.unsaid or any(it.life.died or it.is_dying() for it in self.lanes):
            return
        is_still = not self.group["is_led"] or self.group["flow"] != "goes"
        said, self.unsaid = self.unsaid, []
        for kind, text in said:
            self.is_lossy = self.is_lossy or kind in LOSSES
            text = moved_of(text, self.recovery.lost_with)
            self.note_sentence(kind, still_of(text, is_still or self.has_led(text)))

    def has_led(self, text):
        """Whether the node that a sentence begins with was seen to lead last."""
        return any(it["state"] == "leads" and text.startswith(f"Node {it['node']} ")
                   for it in self.group["nodes"])

    def note_sentence(self, kind, text, when=None, since=None):
        """`since` is when that began, if it is told too."""
        self.said += 1
        self.sentences.append((self.said, when or now(), kind, text, since))
        self.version += 1

    def look(self):
        """Brings what is shown of the nodes up to date."""
        session, self.shot = self.session, time.monotonic()
        leader, count = self.leader(), self.marks.count
        self.note_running(leader)
        for it in self.lanes:
            fresh = session.tally.take_fresh(it.number()) if session.tally else []
            it.look(leader, fresh)
        self.recovery.note_losses(self.marks, self.nodes())
        group = self.group_now(leader)
        if group != self.group or self.marks.count != count:
            self.group = group
            self.version += 1
        for it in self.asks.look(session, leader):
            self.note_sentence(*it)
        self.tell_course(leader and leader.node)

    def note_running(self, leader):
        """Notes for deaths that are told now whether the program goes on, and which nodes run."""
        running = {it.at for it in self.lanes if it.state(None) in RUNS}
        running |= {("other", it["node"]) for it in self.others if it["state"] in RUNS}
        self.marks.is_still, self.marks.running = leader is False, running if leader else set()
        self.marks.size = self.size(len(self.lanes) + len(self.others))

    def tell_course(self, leader):
        """Says what has become of the group, once the deaths before that are told; and what has
        happened in all, once the program goes on after a loss."""
        nodes, size = self.group["nodes"], self.group["size"]
        self.recovery.note(nodes, size, leader, self.session.count, self.group["waiting"])
        if any(it.life.died for it in self.lanes):
            return
        events, self.events = self.events, []
        for when, kind, text in events:
            self.note_sentence(kind, text, when)
        if not self.recovery.lost:
            self.is_lossy = False
        told = self.recovery.look(self.marks, nodes, size, leader, self.fate_of_keys(),
                                  self.group["flow"] == "ended")
        if told:
            self.note_sentence("over", told[1], since=told[0])

    def fate_of_keys(self):
        """What has become of keys that were typed here since a node was lost, in a word."""
        session = self.session
        if not self.has_seat:
            return "unseen"
        if self.is_lossy or not session.count:
            return "lost" if self.is_lossy else "none"
        is_open = session.waiting() or session.losses.left or session.blind or not session.tally
        return "unknown" if is_open else "kept"

    def is_stuck(self, waiting):
        """Whether keys wait, and none was chosen for a while."""
        chosen, now_is = self.session.count - waiting, time.monotonic()
        if not waiting or chosen != self.chosen[0]:
            self.chosen = chosen, now_is
        return now_is - self.chosen[1] > STUCK

    def leader(self):
        """The ballot that leads, False if it is known that none does, or None. Without a majority
        none does, whatever it has led before."""
        states = [{"state": it.state(None)} for it in self.lanes] + self.others
        if majority_of(states, self.size(len(states))) is False:
            return False
        leader, view = self.session.leader(), self.view
        if leader and any(it.number() == leader.node and it.is_stale(leader) for it in self.lanes):
            return False
        if leader is None and view:
            return view.leader() or (False if view.leads_nobody() else None)
        return leader

    def nodes(self):
        """The lanes with the numbers of their nodes."""
        return [{"at": it.at, "node": it.number()} for it in self.lanes]

    def size(self, seen):
        if self.session.tally:
            return self.session.tally.size
        return self.view.size if self.view else seen

    def used(self):
        """How many places are used, as far as that is seen."""
        tally, view = self.session.tally, self.view
        said = [it.places for it in view.states.values() if it.places is not None] if view else []
        if tally:
            said.append(tally.used())
        return max(said, default=None)

    def is_supervised(self):
        """Whether a supervisor of the group is known to run."""
        return bool(self.view and self.view.states) or any(it.is_supervised for it in self.lanes)

    def are_gone(self, nodes):
        """Whether no node runs, and there is no record any more."""
        return bool(nodes) and all(it["state"] == "down" for it in nodes) and all(
            it.is_removed() for it in self.lanes)

    def group_now(self, leader):
        """The group for a browser."""
        session = self.session
        front = max((it.size for it in self.lanes if it.size is not None), default=0)
        nodes = [it.shot(session, front) for it in self.lanes] + self.others
        nodes.sort(key=lambda it: it["node"])
        size, waiting = self.size(len(nodes)), session.waiting()
        nodes, is_nobody = with_reasons(nodes, size), leader is False
        flow = flow_of(nodes, size, is_nobody)
        self.events += self.course.look(nodes, size, leader, flow == "ended", self.recovery.untold)
        due = due_of(nodes, size, is_nobody, self.is_supervised(), waiting, self.course.is_late(),
                     self.are_gone(nodes), self.recovery.untold)
        leads = f"node {leader.node} leads, ballot {text_of_ballot(leader)}" if leader else None
        is_soon = self.is_supervised() and not self.course.is_late()
        heading = heading_of(nodes, size, leads, is_nobody, is_soon, self.recovery.untold)
        return {
            "nodes": nodes, "size": size, "heading": heading, "is_soon": SHORTLY in heading,
            "is_led": bool(leader), "due": due, "until": until_of(nodes, size, flow),
            "flow": "waits" if flow == "goes" and self.is_stuck(waiting) else flow,
            "session": self.view.session if self.view else session.number,
            "used": self.used(), "places": PLACES,
            "seat": session.at if self.has_seat and not session.away else None,
            "name": session.name(),
            "waiting": waiting, "why": session.why_waiting() if waiting else "",
        }
