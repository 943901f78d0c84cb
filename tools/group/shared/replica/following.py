"""Puts the traces of a group into one order, in which each message was sent before it was heard,
and follows it call by call with a group apart from the program (`group.py`). The traces are read
once, side by side, and of what was read only that is kept which is still needed."""

import collections
import itertools

from ..record import Damaged, Record, record_of
from . import trace
from .datagram import BytesRefused, message_of
from .follower import Follower, files_of, has_grown
from .group import QUIET, Group, Sent
from .messages import Messages
from .protocol import ALL
from .script import Event

# The record of a node that was never started, as far as it matters here.
EMPTY = Record(2, 0, 0, 0, 0, None, {})
# For how many steps of others a node waits for a message, before it is looked for among those that
# were sent long ago.
PATIENCE = 2000
KINDS = {"start": "start", "campaign": "campaign", "tick": "tick", "run": "run", "press": "type",
         "hear": "deliver"}


class Differs(Exception):
    """Where a trace is not what a group does, and how."""


class Cut(Differs):
    """Where a trace has lost lines. By a record that is known from the call that was followed last:
    the process of that call, and whether it is its start."""

    def __init__(self, text, process=None, is_start=False):
        super().__init__(text)
        self.process, self.is_start = process, is_start

    def place(self):
        return self.process.path, self.process.at


class Following:
    """The traces of the nodes of a group, by the paths of their files. `records` has what is on the
    disk at the end, of the nodes of which that is known."""

    def __init__(self, paths, records, keeps_all=False):
        files = files_of(paths)
        if not files:
            raise Differs("the traces are empty")
        self.followers = {it: Follower(it, files[it]) for it in sorted(files)}
        first = self.first = next(iter(files.values()))[0].process
        self.messages = Messages(keeps_all)
        self.group = Group(first.size, first.session, sent=self.messages)
        self.records = records
        self.active = list(self.followers.values())
        self.late = {it.number: it.first for it in self.active if it.first is not None}
        self.waiting = collections.defaultdict(list)  # by what they wait for
        # Whose turn it is of the nodes that can go on, the least first: the times of their next
        # calls, how many they have done, and their numbers.
        self.turns = {}
        self.starts = self.count = 0
        for it in self.active:
            it.sent_to_all, it.sent_to_it = self.messages.kept_for(it.number)
            self.check_group(it)
            self.note_next(it, 0)

    def check_group(self, follower):
        it, first = follower.process, self.first
        if it is not None and (it.size, it.session) != (first.size, first.session):
            raise Differs(f"{it.path}:{it.at}: is of another group than {first.path}")

    # The order.

    def steps(self):
        """Yields all steps: what an Event has, what happened, and the call, which is None for the
        crash at the end of a process. Of the nodes that can go on the one goes on whose next call
        has the least time, or that has done least. It ends where none can. Differs where one does
        not do as it should."""
        turns, followers, nodes = self.turns, self.followers, self.group.nodes
        doing = {"hear": self.hear, "release": self.release, "run": self.act, "tick": self.act,
                 "press": self.act, "start": self.start, "campaign": self.campaign}
        for self.count in itertools.count(1):
            is_due = not turns or self.count % PATIENCE == 0
            turn = self.look_back() if is_due else min(turns.values())
            if turn is None:
                return
            _, done, number = turn
            follower = followers[number]
            call = follower.call
            if call is None:
                step, call = self.end_process(follower), follower.call
            else:
                if nodes[number] is None:
                    self.must_start(follower, call)
                step = doing[call.deed.kind](follower, call)
                call, done = follower.move(), done + 1
            if call is None or call.deed.kind == "hear":
                self.note_next(follower, done)
            else:
                turns[number] = call.time or 0, done, number
            if step is not None:
                if self.waiting and step[1].sends:
                    self.wake(step[1].sends)
                yield step

    def note_next(self, follower, done):
        """Notes whether a node, which has done so many calls, can go on, and when it is its
        turn."""
        call, number = follower.call, follower.number
        time = call and call.time or 0
        self.turns[number] = follower.turn = time, done, number
        if follower.process is None:
            self.active.remove(follower)
            del self.turns[number]
        elif call is not None and call.deed.kind == "hear":
            data = call.deed.data
            if data not in follower.sent_to_all and data not in follower.sent_to_it:
                self.await_message(follower, call)

    def await_message(self, follower, call):
        """The node waits for the message that it hears next, unless that was sent long ago or is
        believed."""
        del self.turns[follower.number]
        follower.since = self.count
        if self.late and self.is_from_before(call) and self.believe(follower):
            return
        if not follower.is_late or not self.recall(follower):
            follower.is_late = False
            self.waiting[call.deed.data].append(follower)

    def wake(self, numbers):
        """Lets those go on that have waited for these messages."""
        for number in numbers:
            sent = self.messages[number]
            waiting = self.waiting.get(sent.data)
            if waiting is None:
                continue
            for it in waiting:
                data = it.call and it.call.deed.data
                if data == sent.data and sent.to in (ALL, it.number):
                    self.turns[it.number] = it.turn
            if all(it.number in self.turns for it in waiting):
                del self.waiting[sent.data]

    def look_back(self):
        """Looks for the messages of those who wait for long, or of all if no node can go on, among
        those sent long ago. Returns the turn that is next, or None."""
        turn = min(self.turns.values(), default=None)
        are_all = turn is None
        for it in self.blocked():
            if are_all or it.since + PATIENCE <= self.count:
                it.is_late = self.recall(it)
                it.since = self.count
        waiting = [it for it in self.blocked() if self.first_of_sender(it.call) is not None]
        if are_all and waiting and len(self.blocked()) == len(self.active):
            self.believe(min(waiting, key=lambda it: it.turn))
        return turn or min(self.turns.values(), default=None)

    def is_from_before(self, call):
        """Whether a message was heard before the trace of its sender begins, of which the first
        part is gone."""
        first = self.first_of_sender(call)
        return first is not None and (call.time or 0) < (first.begun or 0)

    def first_of_sender(self, call):
        """The first process of a message's sender, if the first part of its trace is gone."""
        data = call.deed.data
        return self.late.get(data[4] if trace.is_datagram(data) else None)

    def believe(self, follower):
        """Takes for sent what was heard of a node of whose trace the first part is gone. Whether it
        is a message."""
        data = follower.call.deed.data
        try:
            message = message_of(data, self.group.size, self.group.session)
        except BytesRefused:
            return False
        self.messages.extend([Sent(follower.number, message, data)])
        self.turns[follower.number] = follower.turn
        return True

    def recall(self, follower):
        """Whether the message that a node waits for was sent long ago. It need wait no more
        then."""
        data = follower.call.deed.data
        try:
            message = message_of(data, self.group.size, self.group.session)
        except BytesRefused:
            return False
        if not self.messages.recall(follower.number, Sent(ALL, message, data)):
            return False
        self.turns[follower.number] = follower.turn
        return True

    def blocked(self):
        """The nodes that wait for a message: those that could not be followed to the end, once no
        node can go on."""
        return [it for it in self.active if it.number not in self.turns]

    # One step.

    def end_process(self, follower):
        """A process has ended: its node is down, unless it is the last one and may still run."""
        is_known = follower.is_over()
        follower.next_process()
        self.check_group(follower)
        if is_known and self.group.is_up(follower.number):
            event = Event("crash", follower.number)
            return event, self.group.apply(event), None
        return None

    # What is done for each step is written out, as a method of its own takes a twentieth of the
    # time.

    def release(self, follower, call):
        """Bytes are released from 0 on in each start, and each start releases the same."""
        number, byte, console = call.deed.number, call.deed.byte, follower.console
        if number != follower.released:
            where = follower.where(call)
            raise Differs(f"{where}: byte {number} is released after {follower.released}")
        follower.released += 1
        if number == len(console):
            console.append(byte)
        elif console[number] != byte:
            where, before = follower.where(call), console[number]
            raise Differs(f"{where}: byte {number} is {byte}, and was {before} before")
        return follower.release, QUIET, call

    def hear(self, follower, call):
        """A message is heard, or that was only begun."""
        if not call.deed.is_done:
            return self.undone(follower, call)
        node, data = follower.number, call.deed.data
        number, sent = self.messages.heard_by(node, data) or self.heard_late(follower)
        happened = self.group.happen("deliver", node, number, None, sent.message)
        if happened is not QUIET or call.sends:
            self.check_call(follower, call, happened)
        return ("deliver", node, number, None), happened, call

    def heard_late(self, follower):
        """The number of a message that a node hears, and the message, if it was let go while the
        node could have gone on."""
        self.recall(follower)
        return self.messages.heard_by(follower.number, follower.call.deed.data)

    def act(self, follower, call):
        """A call without a message."""
        kind, node, number = KINDS[call.deed.kind], follower.number, call.deed.number
        happened = self.group.happen(kind, node, number)
        if happened is not QUIET or call.sends:
            self.check_call(follower, call, happened)
        return (kind, node, number, None), happened, call

    def campaign(self, follower, call):
        """A call that saves, or was only begun."""
        return (self.act if call.deed.is_done else self.undone)(follower, call)

    def start(self, follower, call):
        self.check_start(follower, call)
        if call.deed.is_done and self.group.nodes[follower.number] is not None:
            raise differs_by(follower, call, "up")
        return self.campaign(follower, call)

    def must_start(self, follower, call):
        """Refuses each call but a start: the node is down."""
        is_known = call.deed.is_done or not self.is_unknown(follower)
        if call.deed.kind != "start" and is_known:
            raise differs_by(follower, call, "not started")

    def undone(self, follower, call):
        """A call that was begun and not done, or whose save has failed: it is done as a save that
        failed, if it saves, with the outcome that the next record of the node says."""
        if self.is_unknown(follower):
            return None
        node, deed = follower.number, call.deed
        event = Event(KINDS[deed.kind], node)
        if deed.kind == "hear":
            number, _ = self.messages.heard_by(node, deed.data) or self.heard_late(follower)
            event = event._replace(number=number)
        outcome = self.outcome_of(follower, call, event)
        if outcome is None:
            if call.deed.has_failed:
                where = follower.where(call)
                raise Differs(f"{where}: the {call.deed.kind} saves nothing that can fail")
            return None
        event = event._replace(outcome=outcome)
        return event, self.group.apply(event), call

    def is_unknown(self, follower):
        """Whether the node's record is not known yet: the first part of its trace is gone."""
        return follower.number in self.late and not self.group.stored[follower.number].starts

    def outcome_of(self, follower, call, event):
        """`failold` or `failnew`, or None where the call saves nothing."""
        change = self.group.change_of(event)
        if change is None:
            return None
        start, more = follower.look_ahead()
        after, stored = self.record_after(follower, start), self.group.stored[follower.number]
        # Starts that were only begun come before that record too, and each may have been counted.
        most = 0 if call.deed.kind == "start" else more
        if after is None or stored.equals_started(after, 0, most):
            return "failold"
        if stored.equals_changed(change, after, more):
            return "failnew"
        text = (
            f"{follower.where(call)}: node {follower.number} began a {call.deed.kind}, and its "
            "next record is neither the one before the save nor the one after it"
        )
        raise Cut(text, follower.process) if has_grown(stored, after) else Differs(text)

    def record_after(self, follower, start):
        """The node's next record: that of its next start, or the one on the disk; None where
        neither is known."""
        if start is None:
            return self.records.get(follower.number)
        return self.read_record(follower, start)

    # What has to agree.

    def read_record(self, follower, call):
        try:
            return record_of(call.deed.data) if call.deed.data else EMPTY
        except Damaged as fault:
            raise Differs(f"{follower.where(call)}: the record is damaged: {fault}")

    def check_start(self, follower, call):
        follower.released = 0
        if not call.deed.is_done:
            return
        self.starts += 1
        record, stored = self.read_record(follower, call), self.group.stored[follower.number]
        if stored.equals(record):
            return
        where = f"{follower.where(call)}: the record of node {follower.number}"
        if stored.starts == 0 and follower.number in self.late:
            stored.take(record)
            return
        if stored.starts == 0:
            why = "a trace begins with the first start of its node in the session"
            raise Differs(f"{where}: {why}")
        text = f"{where}: it is not what the calls before it have saved"
        is_cut = has_grown(stored, record)
        raise Cut(f"{text}, but more", follower.process, True) if is_cut else Differs(text)

    def check_call(self, follower, call, happened):
        if happened.refused:
            where = follower.where(call)
            raise Differs(f"{where}: {call.deed.kind} is refused by {happened.refused}")
        came, numbers = list(call.sends), happened.sends
        messages = map(self.messages.__getitem__, numbers)
        sent = [(to or trace.ALL, data) for to, _, data in messages]
        # What follows a call that was the last of its process may be cut off.
        may_lack = follower.is_last() and follower.process.status is None
        if came != sent and not (may_lack and came == sent[: len(came)]):
            raise Differs(f"{follower.where(call)}: {difference_of(sent, came, numbers)}")


def differs_by(follower, call, state):
    return Differs(f"{follower.where(call)}: {call.deed.kind} of a node that is {state}")


def text_of_heard(process, call, why):
    data, source = call.deed.data, call.deed.source
    source = f" from {source.decode('ascii', 'replace')}" if source else ""
    heard = f"{process.path}:{call.at}: node {process.node} heard{source} what {why}"
    return f"{heard}: {data.hex().upper()}"


def difference_of(wanted, came, numbers):
    """How the datagrams that a call has sent differ from those that it should."""
    for number, (one, other) in zip(numbers, zip(wanted, came)):
        if one != other:
            texts = [f"to {to}, {data.hex().upper()}" for to, data in (other, one)]
            return f"message {number} of the script is sent {texts[0]}; it should be {texts[1]}"
    return f"{len(came)} datagrams are sent, and should be {len(wanted)}"
