"""The code of one procedure, instruction by instruction."""

from pcode.parts import Label, Line

# What an instruction adds to the evaluation stack; calls, and those with a count, are told apart.
ADDED = {
    "SLDC": 1, "LDCI": 1, "LDCN": 1, "SLDL": 1, "LDL": 1, "SLDO": 1, "LDO": 1, "LOD": 1, "LLA": 1,
    "LAO": 1, "LDA": 1, "STL": -1, "SRO": -1, "STR": -1, "STO": -2, "SIND": 0, "IND": 0, "INC": 0,
    "IXA": -1, "MOV": -2, "LDB": -1, "STB": -3, "IXP": 1, "LDP": -2, "STP": -4, "CHK": -2,
    "ABI": 0, "NGI": 0, "SQI": 0, "LNOT": 0, "UJP": 0, "FJP": -1, "EFJ": -2, "NFJ": -2, "XJP": -1,
    "CGP": 0, "CLP": 0, "CIP": 0, "RNP": 0, "RBP": 0, "NOP": 0,
}
TWO_TO_ONE = -1  # arithmetic, comparisons and the like
STANDARD = {0: 0, 5: -6, 6: -6, 34: 1, 39: 0}
# The instructions for a word of the frame: of the procedure, of the program, of one around.
LOADS, STORES, ADDRESSES = ("LDL", "LDO", "LOD"), ("STL", "SRO", "STR"), ("LLA", "LAO", "LDA")
SHORT = {"LDL": "SLDL", "LDO": "SLDO"}
MOST_SHORT = 16


class Code:
    """Instructions and labels. `depth` is how many words its statement has pushed."""

    def __init__(self, routine):
        self.routine = routine
        self.lines, self.labels = [], {}
        self.place = routine.place
        self.depth = 0
        self.count = 0

    def emit(self, name, *operands):
        self.lines.append(Line(self.place, name, list(operands)))
        if name == "CSP":
            self.depth += STANDARD[operands[0]]
        elif name == "STM":
            self.depth -= operands[0] + 1
        elif name == "LDM":
            self.depth += operands[0] - 1
        else:
            self.depth += ADDED.get(name, TWO_TO_ONE)

    def number(self, value):
        if 0 <= value <= 127:
            self.emit("SLDC", value)
        else:
            self.emit("LDCI", value)

    def frame(self, names, routine, offset):
        """A load, a store or the address of a word at an offset of a routine's frame."""
        local, main, around = names
        if routine.level == 0:
            name = main
        elif routine is self.routine:
            name = local
        else:
            self.emit(around, self.routine.level - routine.level, offset)
            return
        self.emit(SHORT[name] if name in SHORT and offset <= MOST_SHORT else name, offset)

    def indirect(self, offset):
        """The word at an address, so many words on."""
        self.emit("SIND" if offset < 8 else "IND", offset)

    # Labels

    def label(self):
        """A fresh label."""
        self.count += 1
        return f"L{self.count}"

    def set(self, label):
        self.labels[label] = Label(self.place, len(self.lines))
