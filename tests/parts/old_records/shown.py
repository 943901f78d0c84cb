"""Consoles that contradict each other, for tests/old_records: what supervisors tell each other of
them, and what they say of it."""

import hashlib
import os

from shared.supervising.consoles import Console
from shared.supervising.shown import PIECE, Shown, Sums, Told, told_in
from shared.synced import Note

from ..checks import expect, passed
from ..files import bytes_of
from ..group import await_that
from ..supervised import group_of
from .copies import type_until_shown


def sum_of(data):
    return hashlib.sha256(data).hexdigest()[:16]


class Own:
    """A console of a supervisor's own, as a file, and what is said of it."""

    def __init__(self, folder, name):
        self.path, self.said = os.path.join(folder, name), []
        self.console = Console(self.path)
        self.console.open()
        self.shown = Shown(self.console, self.said.append)

    def write(self, data, is_looked=True):
        with open(self.path, "ab") as file:
            file.write(data)
        if is_looked:
            self.shown.look()

    def take(self, node, length, digits):
        """Another supervisor tells this."""
        self.shown.pending.setdefault(node, told_in([b"shown %d %s" % (length, digits.encode())]))
        self.shown.look()


def check_sums(folder):
    """The checksums of a console at each length, as it grows, is cut, and has a hole."""
    own = Own(folder, "sums")
    sums, data = own.shown.sums, bytes(it % 251 for it in range(3 * PIECE + 5000))
    own.write(data[: 2 * PIECE], is_looked=False)
    sums.look()
    expect("of what was not read yet nothing is told", sums.whole() is None, sums.marks)
    sums.look()
    expect("the checksum of all", sums.whole() == Told(2 * PIECE, sum_of(data[: 2 * PIECE])))
    for at in range(2 * PIECE, len(data), 5000):
        own.write(data[at : at + 5000])
    expect("it goes on as the console grows", sums.whole() == Told(len(data), sum_of(data)))
    lengths = len(data), len(data) - 1, len(data) - 5000, 2 * PIECE + 17, 700
    is_so = [sums.at(it) in (sum_of(data[:it]), None) for it in lengths]
    expect("the checksums of earlier lengths", all(is_so) and sums.at(lengths[1]), is_so)
    expect("none of a length that is not there", sums.at(len(data) + 1) is None)
    own.console.noted = Note(len(data), "boot", len(data) - 100)
    expect("none for which bytes of a hole are needed", sums.at(lengths[1] - 4000) is None)
    expect("that of all is kept", sums.at(len(data)) == sum_of(data))
    own.console.noted = None
    os.truncate(own.path, 10)
    sums.look()
    expect("a console that was cut begins anew", sums.whole() == Told(10, sum_of(data[:10])))


def check_mended(folder):
    """A console that the supervisor cuts, and that has as many bytes again before it is looked
    at."""
    own = Own(folder, "mended")
    own.write(b"> one")
    own.console.sync()
    own.write(b"\0\0\0")
    said = own.console.open()
    expect("what was lost is cut", said and "from 8 to 5 bytes" in said, said)
    own.write(b"\n> two")
    own.shown.look()
    expect("what was there before is forgotten", own.shown.sums.whole() == Told(
        11, sum_of(b"> one\n> two")), own.shown.sums.whole())


def check_lines(_folder):
    """The line that is told."""
    line = b"shown 12 0123456789abcdef"
    expect("a line of a console", told_in([b"run", line]) == Told(12, "0123456789abcdef"))
    others = [b"shown 12 0123456789ABCDEF", b"shown -1 0123456789abcdef", line + b" 1", b"shown"]
    expect("what is none is passed over", told_in(others) is None)


def check_compared(folder):
    """What others tell is compared once there is as much, and each disagreement is said once."""
    own = Own(folder, "compared")
    own.write(b"> one\n")
    own.take(2, 4, sum_of(b"> on"))
    own.take(3, 8, sum_of(b"> one\n> "))
    expect("what agrees, and what is not there yet", own.said == [], own.said)
    own.write(b"> two")
    expect("what agrees once it is there", own.said == [] and not own.shown.pending, own.said)
    own.take(2, 9, sum_of(b"> one\n> x"))
    own.take(2, 11, sum_of(b"> one\n> xwo"))
    what = f"its console {own.path} contradicts that of node 2 within the first 9 bytes: "
    expect("a contradiction is said once", [it[: len(what)] for it in own.said] == [what], own.said)
    own.take(2, 6, sum_of(b"> one\n"))
    expect("a begin that agrees does not mend it", len(own.said) == 1, own.said)
    own.take(2, 10, sum_of(b"> one\n> tw"))
    again = f"its console {own.path} agrees with that of node 2 again"
    expect("it is said when they agree again", own.said[1:] == [again], own.said)


def contradictions(group):
    return {(it.number, other.number) for it in group for other in group
            if f"{it.console} contradicts that of node {other.number} " in it.said()}


def check_contradiction(folder):
    """A console with another text than the others is noticed, and is right once it was written
    anew."""
    group = group_of(3, folder, silent=0.5)
    try:
        for it in group:
            it.begin("--new")
        for it in group:
            await_that(it.is_up, f"node {it.number} is up")
        type_until_shown(group, group[0], b"pay 100\n")
        odd = group[2]
        odd.kill()
        text = bytes_of(odd.console)
        with open(odd.console, "r+b") as file:
            file.write(text.replace(b"100", b"900"))
        odd.start()
        await_that(lambda: {(1, 3), (2, 3), (3, 1), (3, 2)} <= contradictions(group),
                   "each of them says it")
        expect("nothing is said of the two that agree", len(contradictions(group)) == 4)
        odd.kill()
        for it in (odd.console, odd.console + ".synced"):
            os.remove(it)
        odd.start()
        for it in group[:2]:
            it.await_said(f"its console {it.console} agrees with that of node 3 again")
        passed("once the console was written anew they agree again")
    finally:
        for it in group:
            it.end()
