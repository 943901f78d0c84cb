"""Checks that a frozen file continues as its original does. It does not know how the file was made.

1. Started on no input, it waits, has read and written nothing, and its configuration is that of the
   original, with procedures and offsets taken by its rows.
2. From each place at which one of its frames may go on, the instructions are alike: the same names
   and operands, and what may come next is alike too. Procedures that are alike have the same level
   and sizes. One UJP may come before an instruction, which changes nothing but the offset.

By both it reads, writes and ends as the original does: a step keeps what 1 and 2 say. Nothing of
this is proved."""

from pcode.faults import Fault
from pcode.instructions import CALL

from .code import JUMPS, Code
from .frozen import Places, frozen_in
from .refused import Refused
from .state import original_state


def must(holds, text):
    if not holds:
        raise Refused("check", f"it does not continue as its original does: {text}. Do not use it, "
                      "and keep the file and its input: this is a fault of freeze")


def check_state(places, old, new):
    """Compares the two configurations. `old` is that of the original."""
    must(new.ends == "waits" and new.pending is not None, f"it ends with {new.ends}")
    must(not new.read and not new.wrote, "it reads or writes before it waits")
    found = original_state(places, new)
    must(found.frames[0].procedure == 1, "its first frame is not procedure 1")
    for name in ("ioresult", "next", "pending", "frames", "stack", "memory"):
        must(getattr(found, name) == getattr(old, name), f"its {name} are others")


def operands_of(it):
    """What an instruction does besides leading on."""
    if it.name in JUMPS:
        return []
    return it.operands[:2] if it.name == "XJP" else it.operands


class Likeness:
    """The places that were compared, and those that wait for it."""

    def __init__(self, old, new, places):
        self.old, self.new, self.places, self.seen, self.waiting = old, new, places, set(), []

    def follow(self, number, offset, wanted):
        """A place where the frozen file goes on has to be this one of the original, there or behind
        one UJP."""
        found = self.places.place(number, offset)
        must(found == wanted, f"procedure {number} goes on at {offset}, which is {found[1]} of "
             f"procedure {found[0]}, and not {wanted[1]} of procedure {wanted[0]}")
        it = self.new.at(self.new.procedures[number], offset)
        if it.name == "UJP" and it.targets[0] != offset \
                and self.places.place(number, it.targets[0]) == wanted:
            offset = it.targets[0]
        if (number, offset) not in self.seen:
            self.seen.add((number, offset))
            self.waiting.append((number, offset))

    def compare(self, number, offset):
        of, back = self.places.place(number, offset)
        mine, others = self.new.procedures[number], self.old.procedures[of]
        sizes = [(it.level, it.params, it.data) for it in (mine, others)]
        must(sizes[0] == sizes[1], f"procedures {number} and {of} have other levels or sizes")
        it, like = self.new.at(mine, offset), self.old.at(others, back)
        must((it.name, operands_of(it)) == (like.name, operands_of(like)),
             f"{it.name} is at {offset} of procedure {number}, and {like.name} at {back} of "
             f"procedure {of}")
        nexts, wanted = it.following(), like.following()
        must(len(nexts) == len(wanted), f"at {offset} of procedure {number} it goes on elsewhere")
        for one, other in zip(nexts, wanted):
            self.follow(number, one, (of, other))
        if it.name in CALL:
            callee = it.operands[0]
            self.follow(callee, self.new.procedures[callee].enter,
                        (callee, self.old.procedures[callee].enter))

    def check(self, state):
        """How many places were compared, from those on at which this configuration goes on."""
        for under, it in zip(state.frames, state.frames[1:]):
            self.follow(under.procedure, it.back, self.places.place(under.procedure, it.back))
        last = state.frames[-1].procedure
        self.waiting.append((last, state.pending.at))
        self.seen.add((last, state.pending.at))
        while self.waiting:
            self.compare(*self.waiting.pop())
        return len(self.seen)


def check(original, made, old, new):
    """Checks the bytes of a frozen file. `old` is the original's configuration, and `new` that of
    the file on no input. Returns how many places were compared."""
    frozen = frozen_in(made)
    must(frozen is not None, "it says nothing of an original")
    must(frozen.original == original, "its original is another program")
    must(frozen_in(original) is None, "its original is frozen itself")
    places = Places(frozen.rows)
    try:
        check_state(places, old, new)
        return Likeness(Code(original), Code(made), places).check(new)
    except Refused:
        raise
    except (Fault, KeyError, IndexError) as why:
        must(False, str(why))
