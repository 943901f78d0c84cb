"""Sets, which are on the stack with their lengths: they go to two rooms of the run-time, where its
procedures work with them. A set of a length that is known is moved at once, any other word by
word."""

from .output import Output
from .table import SETS

LOWER, UPPER = "RTLOWER", "RTUPPER"
# Instructions that take a set from the top, and so may find it in a room.
TAKING = ("UNI", "INT", "DIF", "ADJ", "INN")
ROUTINES = {"UNI": "RTUNION", "INT": "RTMEET", "DIF": "RTLESS"}
ROOM = 256  # words of a room, the length among them
FEW = 3  # words that are stored one by one


class Sets:
    """The part of the writer for sets. `held` is the room that has the set on the top, if it is not
    on the stack."""

    held = None

    # Moving

    def take(self, count, room):
        """A set goes from the stack to a room."""
        if self.held:
            self.moved(room)
            return
        base = self.machine.variable(room)
        if count is None:
            self.out.emit("CGP", self.machine.own(f"POP {room}", lambda: self.popping(base)))
        elif count < FEW:
            for k in range(count + 1):
                self.out.emit("SRO", base + k)
        else:
            name = f"POP {room} {count}"
            self.out.emit("CGP", self.machine.own(name, lambda: self.storing(base, count + 1)))

    def moved(self, room):
        """The set that is in a room goes to another one."""
        if self.held != room:
            there, here = self.machine.variable(room), self.machine.variable(self.held)
            self.out.many(f"LAO {there}", f"LAO {here}", f"MOV {ROOM}")
        self.held = None

    def give(self, count, room):
        """The set in a room is the value on the top: it is pushed, if the next instruction does not
        take it from there."""
        following = self.next()
        if following and (following.name in TAKING or following.operands[:1] == [SETS]
                          and following.name in ("EQU", "NEQ", "LEQ", "GEQ")):
            self.held = room
            return
        base = self.machine.variable(room)
        if count is None:
            self.out.emit("CGP", self.machine.own(f"PUSH {room}", lambda: self.pushing(base)))
            return
        if count:
            self.out.many(f"LAO {base + 1}", f"LDM {count}")
        self.out.number(count)

    def popping(self, base):
        """A procedure that takes a set from its caller's stack: all frames share it."""
        one, two = self.machine.variable("RTONE"), self.machine.variable("RTTWO")
        out = Output(self.machine.place)
        out.many(f"SRO {base}", "SLDC 0", f"SRO {one}")
        out.set("again")
        out.many(f"LDO {one}", f"LDO {base}", "LESI", "FJP exit", f"SRO {two}", f"LAO {base + 1}",
                 f"LDO {one}", "IXA 1", f"LDO {two}", "STO", f"LDO {one}", "SLDC 1", "ADI",
                 f"SRO {one}", "UJP again")
        out.set("exit")
        out.emit("RNP", 0)
        return 0, out.lines, out.labels

    def pushing(self, base):
        one = self.machine.variable("RTONE")
        out = Output(self.machine.place)
        out.many(f"LDO {base}", f"SRO {one}")
        out.set("again")
        out.many(f"LDO {one}", "SLDC 0", "GRTI", "FJP end", f"LDO {one}", "SLDC 1", "SBI",
                 f"SRO {one}", f"LAO {base + 1}", f"LDO {one}", "IXA 1", "SIND 0", "UJP again")
        out.set("end")
        out.emit("LDO", base)
        out.set("exit")
        out.emit("RNP", 0)
        return 0, out.lines, out.labels

    def storing(self, base, words):
        """A procedure whose parameters are the words of a set."""
        out = Output(self.machine.place)
        out.many(f"LAO {base}", "LLA 1", f"MOV {words}")
        out.set("exit")
        out.emit("RNP", 0)
        return words, out.lines, out.labels

    def address(self, room):
        self.out.emit("LAO", self.machine.variable(room))

    # Instructions

    def uni(self, it):
        lower, upper = self.notes.sets[it.at]
        self.take(upper, UPPER)
        self.take(lower, LOWER)
        self.address(LOWER)
        self.address(UPPER)
        self.call(ROUTINES[it.name])
        if it.name == "UNI":
            lower = None if None in (lower, upper) else max(lower, upper)
        self.give(lower, LOWER)

    int = dif = uni

    def adj(self, it):
        count, = self.notes.sets[it.at]
        wanted = it.operands[0]
        if count == wanted and not self.held and self.out.take_back(1):
            return
        if count == 0 and not self.held and self.out.take_back(1):
            self.constant([0] * wanted)
            return
        room = self.held or LOWER
        self.take(count, room)
        self.out.number(wanted)
        self.address(room)
        self.call("RTADJUST")
        if wanted:
            self.out.many(f"LAO {self.machine.variable(room) + 1}", f"LDM {wanted}")

    def inn(self, it):
        count, = self.notes.sets[it.at]
        room = self.held or LOWER
        self.take(count, room)
        base = self.machine.variable(room)
        self.out.many(f"LAO {base + 1}", f"LDO {base}", "SLDC 16", "MPI", "SLDC 1", "SBI")
        self.call("RTIN")

    def compare_sets(self, it):
        lower, upper = self.notes.sets[it.at]
        self.take(upper, UPPER)
        self.take(lower, LOWER)
        rooms = (UPPER, LOWER) if it.name == "GEQ" else (LOWER, UPPER)
        for room in rooms:
            self.address(room)
        self.call("RTSAMESET" if it.name in ("EQU", "NEQ") else "RTWITHIN")
        if it.name == "NEQ":
            self.out.many("SLDC 0", "EQUI")

    def is_one_element(self, it):
        """Whether the set of one element is only added to a set of a length that stays, or taken
        from it."""
        how = self.next(it)
        fitted = self.next(how) if how and how.name in ("UNI", "DIF") else None
        if not fitted or fitted.name != "ADJ":
            return False
        lower = self.notes.sets[how.at][0]
        return lower == fitted.operands[0] and 0 < lower

    def one_element(self, it):
        how = self.next(it)
        count, = self.next(how).operands
        one = self.machine.variable("RTONE")
        self.out.emit("SRO", one)
        self.take(count, LOWER)
        base = self.machine.variable(LOWER)
        self.out.many(f"LDO {one}", f"LAO {base + 1}")
        self.out.number(16 * count - 1)
        self.out.number(int(how.name == "UNI"))
        self.call("RTELEMENT")
        self.out.many(f"LAO {base + 1}", f"LDM {count}")
        self.skip(self.next(how))
        self.skip(how)

    def sgs(self, it):
        if self.is_one_element(it):
            self.one_element(it)
            return
        one = self.machine.variable("RTONE")
        self.out.many(f"SRO {one}", f"LDO {one}", f"LDO {one}")
        self.srs(it)

    def srs(self, it):
        following = self.next()
        if following and following.name == "INN":
            self.call("RTBETWEEN")
            self.skip(following)
            return
        self.address(UPPER)
        self.call("RTRANGE")
        self.give(None, UPPER)

    def is_tested(self, count):
        """Whether a length is pushed and INN follows: then no words need to be pushed."""
        length = self.next()
        test = self.next(length) if length else None
        if not test or test.name != "INN" or length.operands != [count]:
            return False
        return length.name in ("SLDC", "LDCI")

    def is_range(self, words):
        """The first and the last element, if the set has all between; else None."""
        bits = sum(word << 16 * k for k, word in enumerate(words))
        first, count = (bits & -bits).bit_length() - 1, bin(bits).count("1")
        return (first, first + count - 1) if bits >> max(first, 0) == (1 << count) - 1 else None

    def within(self, low, high):
        """The word on the top is compared with both ends of a range."""
        one = self.machine.variable("RTONE")
        self.out.many(f"SRO {one}", f"LDO {one}")
        self.out.number(low)
        self.out.many("GEQI", f"LDO {one}")
        self.out.number(high)
        self.out.many("LEQI", "LAND")
        self.skip_test()

    def skip_test(self):
        length = self.next()
        self.skip(self.next(length))
        self.skip(length)

    def tested(self, count):
        """x and the address of the words are pushed."""
        self.out.number(16 * count - 1)
        self.call("RTIN")
        self.skip_test()
