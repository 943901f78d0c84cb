"""Compares what a group did, by its traces, with what `sim` makes of the same events, and with the
files that the nodes left."""

import hashlib
import itertools
import subprocess
import tempfile

from ..record import Damaged, read_record
from ..synced import first_kept
from .cuts import explain, notes_of, text_of_ends, text_of_lost
from .follower import has_grown
from .following import Cut, Differs, Following
from .keys import Keys
from .script import SHOW
from .shown import SimFailed, Shown, difference_of, each_show, known_of, nodes_of, sim_lines
from .steps import Steps

# The most steps of a `run`, and its status where they are not enough.
MOST_STEPS, STEPS_ARE_SPENT = 4294967295, 4
# At how many ends of processes `sim` is looked at besides the end of the script. A later start of a
# node shows its whole output again, and would hide what was left out before.
MOST_LOOKS = 200
# After how many steps it is looked at besides, where no process ends.
OFTEN = 65536
# Where it shows another thing, at how many steps before that it is looked at each time, until the
# first one is found.
FINER = 20


def print_of(console):
    """A fingerprint of a console: how many bytes it has, and their checksum."""
    return len(console), hashlib.sha256(console).hexdigest()


class Prints:
    """The fingerprints of consoles that grow."""

    def __init__(self):
        self.sums = {}

    def of(self, follower):
        count, total = self.sums.get(follower.number) or (0, hashlib.sha256())
        total.update(bytes(follower.console[count:]))
        self.sums[follower.number] = len(follower.console), total
        return len(follower.console), total.hexdigest()


class Replay:
    """What was followed so far: the group of the traces, and its steps. `looks` has what `sim`
    should show of the nodes behind some of these, by the number of steps; `chosen` the values at
    their places; `cut` says where a trace has lost lines, so that they were followed no further;
    `in_sim` is the number of steps that `sim` has done; and `is_ahead` says whether the group has
    begun the step behind the last one."""

    def __init__(self, paths, records):
        self.paths, self.records = paths, records
        self.following, self.steps, self.looks, self.cut = None, Steps(), {}, None
        self.chosen, self.in_sim, self.is_ahead = {}, 0, False

    def head(self):
        group = self.following.group
        return f"size {group.size} session {group.session}\n"

    def texts(self):
        """The script of all steps, piece by piece. There is none where a part of a trace is gone:
        a script begins with new records."""
        if self.following is None or self.following.late:
            return
        yield self.head()
        for _, line, _ in self.steps.whole(self.steps.count):
            yield line
        yield f"{SHOW}\n"

    def follow(self):
        self.following = Following(self.paths, self.records)
        fault = None
        try:
            self.follow_steps()
        except Differs as differs:
            fault, self.is_ahead = differs, True
        fault = explain(self.following, fault)
        if isinstance(fault, Cut):
            self.cut = str(fault)
        elif fault is not None:
            raise Differs(f"{fault} (after line {self.steps.count + 1} of the script)")

    def follow_steps(self):
        prints, moments, every = Prints(), 0, 1
        steps = self.following.steps()
        for _, happened, call in self.steps.take(steps, OFTEN, not self.following.late):
            self.chosen.update(happened.learned)
            if call is not None and self.steps.count % OFTEN:
                continue
            moments += 1
            if moments % every == 0:
                self.looks[self.steps.count] = self.look(prints)
            if len(self.looks) > 2 * MOST_LOOKS:
                self.looks = dict(list(self.looks.items())[1::2])
                every *= 2

    def at_end(self):
        """The group as it is behind the last step, and what it has released."""
        if not self.is_ahead:
            return self.following
        following = Following(self.paths, self.records)
        for _ in itertools.islice(following.steps(), self.steps.count):
            pass
        return following

    def look(self, prints):
        """What `sim` should show of the nodes now."""
        consoles = consoles_of(self.following, prints.of, print_of(b""))
        return Shown(nodes_of(self.following.group, consoles), {}, 0)

    def looks_between(self, good, bad):
        """Follows once more, up to the step `bad`. Returns what `sim` should show behind some steps
        after the step `good`, and these steps, by their numbers."""
        following, every = Following(self.paths, self.records), max(1, (bad - good) // FINER)
        looks, steps = {}, {}
        for count, step in enumerate(following.steps(), 1):
            if count == bad or count > good and (count - good) % every == 0:
                consoles = consoles_of(following, lambda it: bytes(it.console), b"")
                looks[count], steps[count] = known_of(following.group, consoles), step
            if count == bad:
                break
        return looks, steps


def consoles_of(following, console_of, empty):
    """The consoles of all nodes, also of those without a trace."""
    consoles = dict.fromkeys(following.group.nodes, empty)
    consoles.update((node, console_of(it)) for node, it in following.followers.items())
    return consoles


def records_at(paths):
    """The records of these files by their nodes."""
    records = {}
    for path in paths:
        try:
            record = read_record(path)
        except Damaged as fault:
            raise Damaged(f"{path}: {fault}")
        records[record.node] = record
    return records


def check_records(replay):
    for number, record in sorted(replay.records.items()):
        following = replay.following
        group, follower = following.group, following.followers.get(number)
        if (record.size, record.session) != (group.size, group.session):
            raise Differs(f"the record of node {number} on the disk is of another group")
        stored = group.stored[number]
        if stored.equals(record):
            continue
        text = (f"the record of node {number} on the disk: {text_of_record(record)}; the script "
                f"leaves {text_of_record(stored)}")
        if follower is None or not has_grown(stored, record):
            raise Differs(text)
        replay.cut = f"{text_of_lost(follower.ended)}: {text}"
        return


def text_of_record(record):
    promised = "-" if record.promised is None else "{}.{}".format(*record.promised)
    return f"starts {record.starts} promised {promised} places {len(record.votes)}"


def check_consoles(replay, paths):
    """The files of the consoles are what was released. Where a node was killed, or still runs, one
    may lack the end of the other."""
    followers = replay.following.followers.values()
    for path, follower in zip(paths, followers):
        console, first = bytes(follower.console), first_kept(path)
        with open(path, "rb") as file:
            data = file.read()
        # What the supervisor has given back to the disk is not there to be compared.
        data = console[:first] + data[first:]
        shorter, longer = sorted((data, console), key=len)
        is_whole = follower.ended.status is not None
        if data != console and (is_whole or not longer.startswith(shorter)):
            same = next((at for at, (one, other) in enumerate(zip(data, console)) if one != other),
                        len(shorter))
            raise Differs(f"{path} and the released bytes of node {follower.number} differ at byte "
                          f"{same} of {len(data)} and {len(console)}")


def first_difference(replay, words, looks, console_of):
    """Between which two of these looks `sim` comes to show another thing, and what that is: the
    step of the look before, and of the one behind; or None. The last look is at the last step."""
    steps, good = sorted(looks), 0
    with tempfile.TemporaryFile("w+", encoding="ascii") as script:
        sent = replay.steps.script(replay.head(), steps[-1], steps, script)
        shows = each_show(sim_lines(words.program, words.file, script), console_of)
        for count, messages, shown in zip(steps, sent, shows):
            wanted = looks[count]._replace(sent=messages)
            if not wanted.places:
                shown = shown._replace(places={})
            difference = difference_of(wanted, shown)
            if difference:
                return good, count, difference
            good = replay.in_sim = count
    return None


def check_sim(replay, words):
    """What `sim` shows, at the end and behind the processes that ended before, is what the traces
    say."""
    following, end = replay.at_end(), replay.steps.count
    consoles = consoles_of(following, lambda it: print_of(bytes(it.console)), print_of(b""))
    looks = {**replay.looks, end: known_of(following.group, consoles)}
    found = first_difference(replay, words, looks, print_of)
    steps = {}
    while found and (found[1] not in steps or found[1] - found[0] > 1):
        looks, steps = replay.looks_between(*found[:2])
        found = first_difference(replay, words, looks, bytes) or found
    if found:
        raise Differs(text_of_difference(found[1], steps[found[1]], *found[2]))


def texts_of_unseen(replay):
    """What is said of the steps that `sim` has not done."""
    rest = "the nodes are followed, and what they have released is what `run` writes\n"
    for number, first in replay.following.late.items():
        yield (f"what node {number} did before {first.path}:{first.at} is in no file; what others "
               "heard of it until then is believed\n")
    if replay.following.late:
        yield f"sim, which begins with new records, has done none of them: {rest}"
    else:
        yield f"sim has done the first {replay.in_sim:,} of them, for its memory: then {rest}"


def check_output(replay, words):
    """What the nodes have released is the beginning of what `run` writes on the chosen keys. This
    is for what `sim` has not done."""
    places = itertools.takewhile(replay.chosen.__contains__, itertools.count())
    keys = b"".join(characters_read(replay.chosen[it] for it in places))
    command = [words.program, "run", "--steps", str(MOST_STEPS), words.file]
    done = subprocess.run(command, check=False, input=keys, capture_output=True)
    if done.returncode == STEPS_ARE_SPENT:
        raise SimFailed(f"run has not come to an end in {MOST_STEPS:,} steps")
    for number, it in replay.following.followers.items():
        if not done.stdout.startswith(bytes(it.console)):
            raise Differs(f"the released bytes of node {number} are not those that `run` writes on "
                          "the chosen keys")


def characters_read(values):
    """The characters of these values, each key once."""
    keys = Keys()
    for it in filter(None, values):
        serials = enumerate(it.characters, it.first)
        yield bytes(character for serial, character in serials
                    if keys.first_missing(it.node, it.start, serial) == serial)
        keys.add(it)


def text_of_difference(count, step, name, one, other):
    """Says of the first step behind which `sim` shows another thing where it is, and what."""
    event, _, call = step
    where = f"line {call.at} of the trace" if call else "the end of a process"
    return (f"line {count + 1} of the script, {where} of node {event[1]}: {name} is "
            f"{text_of_shown(one)} by the traces, and {text_of_shown(other)} by sim")


def text_of_shown(value):
    if isinstance(value, bytes):
        text = value[-40:].hex().upper() or "-"
        return f"..{text} ({len(value)} bytes)" if len(value) > 40 else text
    return str(value)


def replayed(replay, words):
    """Replays traces. Returns what is to be said, and the status, or raises Differs."""
    replay.records.update(records_at(words.records))
    replay.follow()
    if not replay.following.late:
        check_sim(replay, words)
    if replay.cut is None:
        check_records(replay)
    following, count = replay.following, replay.steps.count
    events, notes = f"{count:,} events", list(notes_of(following))
    if replay.in_sim < count:
        check_output(replay, words)
        notes += texts_of_unseen(replay)
    if replay.cut is not None:
        ends = text_of_ends(following)
        first, status = f"cut: {replay.cut}. Up to there it is the same: {events}, {ends}\n", 1
    else:
        check_consoles(replay, words.consoles)
        nodes, starts = len(following.followers), following.starts
        first, status = f"the same: {events}, {nodes} nodes, {starts} starts\n", 0
    return first + "".join(notes), status
