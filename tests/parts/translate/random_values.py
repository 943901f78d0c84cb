"""Random values in assembly: numbers, Booleans, strings, sets and REALs."""

import struct

# Offsets of the program's variables.
STRINGS, NUMBERS, SETS = (3, 44, 85), (126, 127, 128, 129), (130, 146)
SCRATCH, CHARACTER, LOOPS, REALS = 162, 203, (204, 205, 206), (208, 210)
PACKED, POINTER, MARKED, RECORD, TEXT, FILE, ARRAY = 212, 217, 218, 219, 221, 261, 301
WORDS = 308  # of the program
CONSTANTS = (0, 1, 2, 5, 17, 100, -1, -7, 300, 32767, -32768)
DATA_SEGMENT = 20  # of the file of Apple Pascal 1.1


def pushed_real(value):
    """A REAL constant: its high word is pushed first."""
    low, high = struct.unpack("<HH", struct.pack("<f", value))
    return f"LDC {high} {low}\n"


# What a file may have or not.
FEATURES = ("strings", "sets", "reals", "files", "heap", "packed", "moves", "reads", "either",
            "exits", "data")


class Values:
    """`level` is the lex level at which a text stands, and `features` what the file has."""

    def __init__(self, source, features):
        self.random, self.features, self.count = source, features, 0
        self.has_calls, self.segment = False, 1

    def has(self, *features):
        return self.features.issuperset(features)

    def chosen(self, makers):
        """One of the makers whose feature the file has; each stands behind its feature."""
        return self.random.choice([make for feature, make in makers
                                   if feature is None or feature in self.features])

    def label(self):
        self.count += 1
        return f"X{self.count}"

    def choice(self, some):
        return self.random.choice(some)

    # Numbers

    def load(self, level, offset):
        if level and self.random.random() < 0.3:
            return f"LOD {level} {offset}\n"
        return f"SLDO {offset}\n" if offset <= 16 else f"LDO {offset}\n"

    def number(self, level, depth=2):
        if depth <= 0:
            return self.choice([f"LDCI {self.choice(CONSTANTS)}\n",
                                self.load(level, self.choice(NUMBERS))])
        makers = [(None, self.joined), (None, self.joined), (None, self.divided),
                  (None, self.alone), ("strings", self.of_string), (None, self.of_array),
                  ("packed", self.of_packed), ("reals", self.of_real), (None, self.boolean),
                  ("heap", self.of_pointer), ("data", self.of_data)]
        if self.has_calls:
            makers += [(None, self.of_function), ("sets", self.of_set_function)]
        return self.chosen(makers)(level, depth - 1)

    def joined(self, level, depth):
        how = self.choice(["ADI", "SBI", "MPI", "LAND", "LOR"])
        return self.number(level, depth) + self.number(level, depth) + how + "\n"

    def divided(self, level, depth):
        how = self.choice(["DVI", "MODI"])
        return self.number(level, depth) + f"SLDC {self.random.randrange(1, 9)}\n{how}\n"

    def alone(self, level, depth):
        return self.number(level, depth) + self.choice(["ABI", "NGI", "SQI", "LNOT"]) + "\n"

    def of_string(self, level, depth):
        kind = self.random.randrange(3)
        if kind == 0:
            return f"LAO {self.choice(STRINGS)}\nSLDC 0\nLDB\n"
        if kind == 1:
            return self.string() + self.string() + "SLDC 0\nSLDC 0\nCXP 0 27\n"
        return (f"SLDC {self.random.randrange(20)}\nSLDC {self.random.randrange(2)}\n"
                f"LDCI {self.random.randrange(65, 69)}\nLAO {self.choice(STRINGS)}\n"
                f"SLDC 1\nSLDC 0\nCSP 11\n")

    def index(self, level, most):
        return self.number(level, 1) + f"SLDC {most}\nMODI\nABI\nSLDC 0\nSLDC {most - 1}\nCHK\n"

    def of_array(self, level, _depth):
        return f"LAO {ARRAY}\n" + self.index(level, 6) + "IXA 1\nSIND 0\n"

    def of_packed(self, level, _depth):
        return f"LAO {PACKED}\n" + self.index(level, 16) + "IXP 4 4\nLDP\n"

    def of_real(self, level, depth):
        return self.real(level, depth) + self.choice([
            "CSP 23\n", "CSP 24\n", pushed_real(0.0) + "LES 2\n", pushed_real(1.5) + "GEQ 2\n"])

    def of_pointer(self, _level, _depth):
        return f"LDO {POINTER}\n" + self.choice(["SIND 0\n", "IND 1\n", "INC 1\nSIND 0\n"])

    def of_data(self, _level, _depth):
        return f"LDE {DATA_SEGMENT} {self.random.randrange(1, 5)}\n"

    def of_function(self, level, depth):
        """A function of two numbers, of the same segment or of another one."""
        call = "CXP 7 3\n" if self.segment == 1 or level == 0 else self.choice(["CLP 3\n",
                                                                               "CXP 7 3\n"])
        if self.segment != 7 or level != 1:
            return self.number(level, depth)
        return self.number(level, depth) + self.number(level, depth) + "SLDC 0\nSLDC 0\n" + call

    def of_set_function(self, level, depth):
        return (self.a_set(level, depth) + "ADJ 16\n" + self.small(level) + "SLDC 0\nSLDC 0\n"
                + "CXP 1 4\n")

    def small(self, level):
        """A number from 0 to 119."""
        return self.number(level, 1) + "SLDC 120\nMODI\nABI\n"

    # Strings

    def string(self):
        if self.random.random() < 0.5:
            return f"LAO {self.choice(STRINGS)}\n"
        count = self.random.randrange(6)
        return "LSA '" + "".join(self.choice("ABCD") for _ in range(count)) + "'\n"

    # Booleans

    def boolean(self, level, depth=2):
        makers = [(None, self.compared), ("strings", self.strings), ("sets", self.sets),
                  ("sets", self.member), ("moves", self.arrays), ("sets", self.range),
                  ("reals", self.reals), (None, self.bits)]
        if depth > 0:
            makers.append((None, self.both))
        return self.chosen(makers)(level, depth - 1)

    def comparison(self):
        return self.choice(["EQU", "NEQ", "LEQ", "LES", "GEQ", "GRT"])

    def compared(self, level, depth):
        return self.number(level, depth) + self.number(level, depth) + self.comparison() + "I\n"

    def strings(self, _level, _depth):
        return self.string() + self.string() + self.comparison() + " 4\n"

    def sets(self, level, _depth):
        how = self.choice(["EQU", "NEQ", "LEQ", "GEQ"])
        return self.a_set(level, 1) + self.a_set(level, 1) + how + " 8\n"

    def member(self, level, _depth):
        element = self.small(level)
        if self.random.random() < 0.2:
            element = f"LDCI {self.choice([-1, -300, 400, 4079])}\n"
        return element + self.a_set(level, 1) + "INN\n"

    def range(self, level, _depth):
        low, high = self.random.randrange(120), self.random.randrange(120)
        return self.small(level) + f"SLDC {low}\nSLDC {high}\nSRS\nINN\n"

    def arrays(self, _level, _depth):
        one, two = self.choice(STRINGS), self.choice(STRINGS)
        kind = self.choice([f"{self.comparison()} 10 {self.choice([0, 1, 3, 140])}\n",
                            f"{self.choice(['EQU', 'NEQ'])} 12 {self.choice([0, 1, 3])}\n"])
        return f"LAO {one}\nLAO {two}\n{kind}"

    def reals(self, level, depth):
        return self.real(level, depth) + self.real(level, depth) + self.comparison() + " 2\n"

    def bits(self, level, depth):
        return self.number(level, depth) + self.number(level, depth) + self.comparison() + " 6\n"

    def both(self, level, depth):
        how = self.choice(["LAND", "LOR"])
        return self.boolean(level, depth) + self.boolean(level, depth) + how + "\n"

    # Sets

    def a_set(self, level, depth=2):
        kind = self.random.randrange(8 if depth > 0 else 4)
        if kind == 0:
            return f"LAO {self.choice(SETS)}\nLDM 16\nSLDC 16\n"
        if kind == 1:
            return f"SLDC {self.random.randrange(100)}\nSLDC {self.random.randrange(120)}\nSRS\n"
        if kind == 2:
            words = [self.random.randrange(65536) for _ in range(self.random.randrange(5))]
            pushed = "LDC " + " ".join(map(str, words)) + "\n" if words else ""
            return pushed + f"SLDC {len(words)}\n"
        if kind == 3:
            return self.small(level) + "SGS\n"
        how = self.choice(["UNI", "UNI", "INT", "DIF"])
        return self.a_set(level, depth - 1) + self.a_set(level, depth - 1) + how + "\n"

    # REALs

    def real(self, level, depth=2):
        if depth <= 0:
            return self.choice([pushed_real(self.choice([0.0, 1.0, -2.5, 0.1, 3e3, 1e-3, 7.0])),
                                f"LAO {self.choice(REALS)}\nLDM 2\n"])
        kind = self.random.randrange(6 if self.has_calls else 5)
        if kind == 0:
            return self.number(level, 0) + "FLT\n"
        if kind == 1:
            return self.real(level, depth - 1) + self.choice(["NGR", "ABR", "SQR"]) + "\n"
        if kind == 2:
            return self.real(level, depth - 1) + pushed_real(self.choice([3.0, -0.7])) + "DVR\n"
        if kind == 3:
            return self.number(level, 0) + self.real(level, depth - 1) + "FLO\nADR\n"
        if kind == 5:
            return self.real(level, depth - 1) + "SLDC 0\nSLDC 0\nCXP 1 3\n"
        how = self.choice(["ADR", "SBR", "MPR"])
        return self.real(level, depth - 1) + self.real(level, depth - 1) + how + "\n"
