"""A program that is frozen at several keys, one after the other, beside the same program in one
piece."""

import collections
import re

from freezer.frozen import Places, frozen_in
from freezer.making import frozen_after
from freezer.refused import Refused

from ..program import PROGRAM, must, ran

STEPS = 400000000
MOST_STEPS = "4294967295"
ERROR = re.compile(r"execution error (\d+) in procedure (\d+) at (\d+)")


def put(data, name="now.code"):
    with open(name, "wb") as file:
        file.write(data)
    return name


def run(data, given):
    """What a code file writes, and how it ends: an answer of the program, or nothing."""
    words = [PROGRAM, "run", put(data, "run.code"), "--steps", str(STEPS)]
    done = ran(words, given, seconds=600)
    return done.stdout, done.stderr.decode().strip()


def answered(command, data, given, steps=MOST_STEPS):
    """What `state` or `frozen` answers of a code file on this input: standard output, standard
    error, and the status."""
    words = [PROGRAM, command, put(data, "asked.code"), "--steps", steps]
    done = ran(words, given, seconds=600)
    return done.stdout, done.stderr.decode(), done.returncode


def is_proved(original, given, made):
    """True if the proved check accepts a frozen file, and says that the original stands where it
    does stand after these keys."""
    return answered("frozen", made, b"") == answered("state", original, given)


def in_the_original(data, end):
    """The end, with procedure and offset of the original program."""
    frozen, error = frozen_in(data), ERROR.fullmatch(end)
    if not frozen or not error:
        return end
    number, at = Places(frozen.rows).place(int(error[2]), int(error[3]))
    return f"execution error {error[1]} in procedure {number} at {at}"


class Cuts:
    """Counts what was frozen."""

    def __init__(self):
        self.counts, self.largest, self.deepest = collections.Counter(), 0, 0

    def frozen(self, data, given):
        """The frozen file of a code file after these keys, or None: it has ended."""
        try:
            made = frozen_after(PROGRAM, put(data), data, given)
        except Refused as why:
            if why.name != "ended":
                raise
            self.counts["ends"] += 1
            return None
        self.counts["freezes"] += 1
        self.counts["reads in the middle"] += made.state.pending.left > 1
        self.largest = max(self.largest, int.from_bytes(made.data[6:8], "little"))
        self.deepest = max(self.deepest, len(made.state.frames))
        return made.data

    def try_program(self, data, given, cuts):
        """Freezes at each of these keys. What is written and how it ends has to be what it is in
        one piece."""
        whole, end = run(data, given)
        now, shown, before = data, b"", 0
        for cut in cuts:
            output, _ = run(now, given[before:cut])
            made = self.frozen(now, given[before:cut])
            if made is None:
                break
            must(is_proved(data, given[:cut], made), f"cut at {cut}, pgroup frozen refuses it")
            shown, now, before = shown + output, made, cut
        output, ending = run(now, given[before:])
        must(shown + output == whole, f"cut at {cuts}, it writes otherwise")
        must(in_the_original(now, ending) == end, f"cut at {cuts}, it ends with {ending}: {end}")
        frozen = frozen_in(now)
        if frozen:
            must((frozen.read, frozen.wrote) == (before, len(shown)), "other sums were noted")
        self.counts["programs"] += 1

    def told(self):
        return ", ".join(f"{number} {what}" for what, number in sorted(self.counts.items()))
