"""Heartbeats that nobody with the key has sent, or that come once more."""

import hmac
import os
import re
import socket
import time

from shared.files import Refused
from shared.nodes import free_addresses, is_empty_at
from shared.supervising.beats import Beats, text_of_beat
from shared.supervising.key import key_of, make_key, signed
from shared.supervising.office import Beat

from ..checks import expect, passed
from ..files import bytes_of, file_with
from ..group import await_that
from ..scripts import expect_end
from ..supervised import group_of
from .copies import supervised

KEY, OTHER = b"k" * 32, b"j" * 32
NOBODY = 65534
QUIET = Beat(7, 2, None, 5.0, False, frozenset((1, 2)))


def check_key_files(folder):
    """Which file has a key, and who makes it."""
    it = group_of(1, folder, silent=0.3)[0]
    path = os.path.join(folder, "key")
    words = ["--new", "--beats-key", path]
    expect_end("a key that is not there", it.run(*words), 1, f"not tried again: {path}: No such")
    done = it.run("--new", "--new-beats-key")
    expect_end("a key without a file", done, 2, "--beats-key")
    try:
        it.start(*words, "--new-beats-key")
    finally:
        it.end()
    is_so = os.stat(path).st_mode & 0o7777 == 0o600
    is_so = is_so and re.fullmatch(rb"[0-9a-f]{64}\n", bytes_of(path))
    expect("the first supervisor makes one of 32 bytes, for its owner alone", is_so, bytes_of(path))
    check_keys(path)


def check_keys(path):
    made = key_of(path)
    expect("it has the key", re.fullmatch(rb"[0-9a-f]{64}", made), made)
    for mode in (0o640, 0o604, 0o700):
        os.chmod(path, mode)
        expect_refused(f"a key with the mode {mode:o}", lambda: key_of(path), f"chmod 600 {path}")
    os.chmod(path, 0o600)
    check_owner(path, made)
    expect_refused("a key that is written over", lambda: make_key(path), "leave --new-beats-key")
    file_with(os.path.dirname(path), "key", KEY[1:] + b"\n")
    expect_refused("a key of 31 bytes", lambda: key_of(path), "has 31 bytes")


def check_owner(path, made):
    """Root takes another user's key, as OPERATE's cron lines do."""
    if os.geteuid() != 0:
        print("not tried: another user's key, for want of root", flush=True)
        return
    os.chown(path, NOBODY, NOBODY)
    expect("root takes another user's key", key_of(path) == made)
    os.chown(path, 0, 0)


def expect_refused(what, call, text):
    try:
        call()
        said = "nothing is refused"
    except Refused as why:
        said = str(why)
    expect(f"{what} is refused", text in said, said)


class Pair:
    """The supervisors of nodes 1 and 2, each with its key or without."""

    def __init__(self, first, second):
        self.addresses = free_addresses(3)
        self.one = Beats(7, 1, self.addresses, first)
        self.two = Beats(7, 2, self.addresses, second)
        for it in (self.one, self.two):
            it.bind()

    def heard(self, count=1):
        """What the first one hears of so many datagrams that have come."""
        found, end = [], time.monotonic() + 0.05 * count
        may_come = lambda: time.monotonic() < end or not is_empty_at(self.addresses[0][1])
        while len(found) < count and may_come():
            found += list(self.one.hear_until(time.monotonic() + 0.05))
        return found

    def end(self):
        for it in (self.one, self.two):
            it.socket.close()


def beats_heard(first, second, lines=("all",)):
    """The heartbeats, and the other datagrams, that one takes of another."""
    pair = Pair(first, second)
    try:
        pair.two.send(QUIET, lines)
        found = pair.heard(2)
        beats = [beat for _, beat, _ in found if beat]
        return beats, [said for _, _, said in found if said]
    finally:
        pair.end()


def check_signed(_folder):
    """What counts with a key and without."""
    line = b"pgroup beat 7 2 0 0 5.000 0 12"
    expect("the line of a heartbeat is as it was", text_of_beat(QUIET) == line)
    for what, first, second, wanted in (
        ("without a key", None, None, (1, 1)), ("with one key", KEY, KEY, (1, 1)),
        ("unsigned, where there is a key", KEY, None, (0, 0)),
        ("signed with another key", KEY, OTHER, (0, 0)),
        ("signed, where there is no key", None, KEY, (1, 1)),
    ):
        found = beats_heard(first, second)
        is_so = tuple(map(len, found)) == wanted and found[0] in ([], [QUIET])
        expect(f"a heartbeat {what} counts {wanted[0]} times", is_so, found)
    check_repeats()
    check_counters()
    check_short()


def check_repeats():
    pair = Pair(KEY, KEY)
    try:
        pair.two.counter = 1
        data, = pair.two.datagrams(text_of_beat(QUIET), ["run 2 1 1 1 1 5 60 2"])
        found = []
        for _ in range(3):
            pair.two.socket.sendto(data, pair.addresses[0])
            found += pair.heard()
        is_so = [beat for _, beat, _ in found] == [QUIET, None, None]
        expect("a heartbeat that comes again counts for nothing", is_so, found)
        changed = data.replace(b" 5.000 0 12", b" 0.000 1 12")
        pair.two.socket.sendto(changed, pair.addresses[0])
        expect("nor does one that was changed", changed != data and pair.heard() == [])
    finally:
        pair.end()


def check_counters():
    """A counter that has fallen, with the clock and the file, grows again by what others say."""
    pair = Pair(KEY, KEY)
    try:
        pair.one.remember(0, {2: 1 << 62})
        pair.two.send(QUIET)
        found = pair.heard()
        is_so = [beat for _, beat, _ in found] == [None] and pair.one.is_behind
        expect("a counter that is too small is noticed", is_so, found)
        pair.one.send(QUIET._replace(node=1), pair.one.took_lines())
        def has_grown():
            list(pair.two.hear_until(time.monotonic() + 0.05))
            return pair.two.counter >= 1 << 62

        await_that(has_grown, "the counter grows")
        pair.two.send(QUIET)
        beats = [beat for _, beat, _ in pair.heard()]
        expect("and goes on above what was taken last", beats == [QUIET], beats)
    finally:
        pair.end()


def sent_by(beats, lines=()):
    """What a supervisor sends to node 1, as bytes."""
    with socket.socket(socket.AF_INET, socket.SOCK_DGRAM) as receiver:
        receiver.bind(("127.0.0.1", 0))
        receiver.settimeout(20)
        beats.nodes = {receiver.getsockname(): 1}
        beats.send(QUIET, lines)
        return receiver.recv(4096)


def check_short():
    """The short form is sent to those who say that they take it, and counts once."""
    pair = Pair(KEY, KEY)
    try:
        expect("before anybody is heard no form is short", b"\nmac " in sent_by(pair.two))
        pair.two.short = {1}
        data = sent_by(pair.two)
        body, _, tag = data.rpartition(b" ")
        is_so = re.fullmatch(rb"pgroup beat 7 2 0 0 5\.000 0 12 \d+", body)
        wanted = hmac.new(KEY, body, "sha256").hexdigest()[:32].encode()
        expect("it is the heartbeat, a counter and half a tag", is_so and tag == wanted, data)
        expect("what has more to say is long", b"\nmac " in sent_by(pair.two, ["ask"]))
        for what, given, wanted in (
            ("with a digit of its tag changed", changed_digit(data), []),
            ("with another counter", body + b"1 " + tag, []), ("as it is", data, [QUIET]),
            ("that comes again", data, [None]),
        ):
            pair.two.socket.sendto(given, pair.addresses[0])
            beats = [beat for _, beat, _ in pair.heard()]
            expect(f"a short form {what} counts {wanted.count(QUIET)} times", beats == wanted)
        expect("who sends it takes it", pair.one.short == {2}, pair.one.short)
    finally:
        pair.end()
    check_old_version()


def changed_digit(data):
    return data[:-1] + (b"0" if data[-1:] != b"0" else b"1")


def check_old_version():
    """One who does not say that it takes the short form, as 0.13.0 does not, gets the long one."""
    pair = Pair(KEY, KEY)
    try:
        for what, lines, wanted in (("a new one", b"short\n", {2}), ("an old one", b"", set())):
            pair.two.counter += 1
            text = b"pgroup seen 7 2 %d\n%s\n%s" % (pair.two.counter, text_of_beat(QUIET), lines)
            pair.two.socket.sendto(signed(text, KEY), pair.addresses[0])
            beats = [beat for _, beat, _ in pair.heard()]
            is_so = beats == [QUIET] and pair.one.short == wanted
            expect(f"{what} is heard, and gets the form that it takes", is_so, pair.one.short)
    finally:
        pair.end()


def forge(group, lost, seconds, is_over):
    """Somebody says at the address of a lost supervisor that its node leads, until it is over, or
    for so long."""
    ballot = re.findall(rf"node {lost.number} leads, ballot (\d+)\.\d\n", lost.said())[-1]
    session = re.findall(r"session (\d+)", lost.said())[0]
    numbers = "".join(str(it.number) for it in group)
    beat = f"pgroup beat {session} {lost.number} {ballot} {lost.number} 0.000 1 {numbers}".encode()
    end = time.monotonic() + seconds
    with socket.socket(socket.AF_INET, socket.SOCK_DGRAM) as sender:
        sender.bind(lost.beats[lost.number - 1])
        while time.monotonic() < end and not is_over():
            for it in group:
                sender.sendto(beat, it.beats[it.number - 1])
            time.sleep(0.02)
    return is_over()


def check_forged(folder):
    """With a key nobody without it stops elections by saying that a lost node leads."""
    path = file_with(folder, "key", KEY)
    os.chmod(path, 0o600)
    with supervised(folder, words=["--beats-key", path]) as group:
        number = int(re.findall(r"that node (\d) leads", group[0].said())[-1])
        lost, others = group[number - 1], [it for it in group if it.number != number]
        lost.await_said(f"hears that node {number} leads")
        lost.kill()
        names = "".join(str(it.number) for it in others)
        is_led = lambda: re.search(rf"that node [{names}] leads", others[0].said())
        is_so = forge(group, lost, 60, is_led)
        what = "with a key a forged leader stops no election, which comes within 60 seconds"
        expect(what, is_so, others[0].said())
        text = f"takes no heartbeats of node {number}: they are not signed with the key in {path}"
        await_that(lambda: text in others[0].said(), "that it is not signed is said")
        passed("and it is said whose heartbeats are not taken")
