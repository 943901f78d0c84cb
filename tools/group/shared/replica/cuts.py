"""Why traces could not be followed to their ends: something was heard that nobody sent, or lines
are missing at the end of a process, as after a cut of the power."""

import collections

from .following import Cut, Differs, text_of_heard
from .trace import ALL, Call, Reader, is_datagram

# How many bytes the filter of all that was sent has. Of a million datagrams one in some 70,000
# that was not sent is taken for one that was; it is then told in other words.
FILTER = 1 << 26

# What was heard that no trace has sent: in which process, and by which call.
Unsent = collections.namedtuple("Unsent", "process call")


class Sent:
    """A set of datagrams with whom they are for. What is in it is said to be; of what is not, all
    but very little is said not to be."""

    def __init__(self):
        self.bits = bytearray(FILTER)

    def places(self, to, data):
        both = hash((to, data))
        for it in (both, both >> 29):
            yield it >> 3 & FILTER - 1, 1 << (it & 7)

    def add(self, to, data):
        for at, bit in self.places(to, data):
            self.bits[at] |= bit

    def has(self, to, data):
        return all(self.bits[at] & bit for at, bit in self.places(to, data))


def items_of(follower):
    for file in follower.files:
        yield from Reader(file).items()


class Scan:
    """All traces, read as they are and not followed: their processes by nodes, and what was heard
    that nobody sent."""

    def __init__(self, followers):
        self.processes, self.unsent = collections.defaultdict(list), []
        sent = Sent()
        for number, it in followers.items():
            for item in items_of(it):
                if not isinstance(item, Call):
                    self.processes[number].append(item)
                for to, data in item.sends if isinstance(item, Call) else ():
                    sent.add(to, data)
        for number, it in followers.items():
            self.look(number, it, sent)

    def look(self, number, follower, sent):
        process = None
        for item in items_of(follower):
            if not isinstance(item, Call):
                process = item
            elif item.deed.kind == "hear":
                data = item.deed.data
                if not sent.has(ALL, data) and not sent.has(number, data):
                    self.unsent.append(Unsent(process, item))


def sender_of(unsent):
    data = unsent.call.deed.data
    return data[4] if is_datagram(data) else None


def lost_process(unsent, processes, follower):
    """The process at whose end the lines are missing that have sent these datagrams of one node, or
    None where they cannot have been there. By the times what was heard first was sent after the
    last line of that process, and before the next one began. Without times, and where it was heard
    in the same millisecond, the node could be followed to the end of that process."""
    times = [it.call.time for it in unsent]
    if None in times or any(it.ended is None for it in processes):
        return processes[-1] if follower.process is None else None
    for it, after in zip(processes, [*processes[1:], None]):
        may_end = it.status is None or after is None
        if may_end and it.ended <= min(times) and (after is None or min(times) <= after.begun):
            return it if it.ended < max(times) or is_behind(follower, it) else None
    return None


def is_behind(follower, process):
    """Whether a node was followed to the end of a process of its trace."""
    now = follower.process
    return now is None or (follower.files.index(now.path), now.at) > (
        follower.files.index(process.path), process.at)


def explain(following, fault):
    """The Differs or Cut that says why traces could be followed no further, or None where they were
    followed to their ends. What nobody sent is said before all else."""
    blocked = following.blocked()
    if fault is None and not blocked:
        return None
    scan, lost = Scan(following.followers), None
    by_sender = collections.defaultdict(list)
    for it in scan.unsent:
        if sender_of(it) not in following.late:
            by_sender[sender_of(it)].append(it)
    for sender, unsent in by_sender.items():
        process = None
        if sender in following.followers and sender not in {it.process.node for it in unsent}:
            follower = following.followers[sender]
            process = lost_process(unsent, scan.processes[sender], follower)
        if process is None:
            why = "nobody sent to it in these traces"
            return Differs(text_of_heard(*unsent[0], why) + text_of_others(scan.unsent))
        lost = lost or (process, unsent)
    if lost is not None:
        process, unsent = lost
        heard = text_of_heard(*unsent[0], f"node {process.node} has sent there")
        return Cut(f"{text_of_lost(process)}: {heard}{text_of_others(unsent)}")
    if isinstance(fault, Cut):
        process = lost_before(fault, scan.processes)
        return Cut(f"{text_of_lost(process)}: {fault}")
    if fault is not None:
        return fault
    # The others may wait for one that waits for itself.
    first = min(blocked, key=lambda it: it.call.deed.data[4] != it.number)
    return Differs(text_of_heard(first.process, first.call, "was sent only after that"))


def lost_before(cut, processes):
    """The process that a Cut is about, or the one before it where it was found at a start."""
    its = processes[cut.process.node]
    at = next(at for at, it in enumerate(its) if (it.path, it.at) == cut.place())
    return its[max(at - cut.is_start, 0)]


def text_of_others(unsent):
    return f"; so it is with {len(unsent) - 1} more" if len(unsent) > 1 else ""


def text_of_lost(process):
    return (f"{process.path} lacks what node {process.node} did after line {process.last}, as if a "
            "cut of the power had cut off its end")


def notes_of(following):
    """What is to be said of lines that were cut off, though all is the same."""
    for it in following.followers.values():
        for process in it.torn:
            line, what = process.torn
            yield (f"cut: {process.path}:{line} {what}, as a kill or a cut of the power leaves it: "
                   f"what node {process.node} did from there to its next start is not compared\n")


def text_of_ends(following):
    """Up to which lines traces were followed."""
    ends = []
    for it in following.followers.values():
        if it.process is None:
            ends.append(f"{it.files[-1]} to its end")
        else:
            ends.append(f"{it.process.path} to line {(it.call or it.process).at - 1}")
    return ", ".join(ends)
