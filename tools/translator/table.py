"""All instructions of UCSD Pascal II.0 and Apple Pascal 1.1, and the system's procedures.

What pgroup has too stands in the table of tools/pcode.
"""

from pcode.instructions import (BIG, BYTE, CALL, COMPARE, JUMP, LDCI, LEVELS, PACKED, PLAIN, SHORT,
                                XJP)

# Without operands, beside those of pgroup: reals, sets, strings, and the end of a program.
MORE_PLAIN = {
    "ABR": 129, "ADR": 131, "DIF": 133, "DVR": 135, "FLO": 137, "FLT": 138, "INN": 139, "INT": 140,
    "MPR": 144, "NGR": 146, "SRS": 148, "SBR": 150, "SGS": 151, "SQR": 153, "IXS": 155, "UNI": 156,
    "XIT": 214,
}
MORE_BYTE = {"ADJ": 160, "SAS": 170}
MORE_CALL = {"CBP": 194}
MORE_BIG = {"BPT": 213}
EXTERN = {"LDE": 157, "LAE": 167, "STE": 209}  # a word of a data segment: its number and an offset
TEXT = {"LSA": 166, "LPA": 208}  # a length and so many characters
CXP, LDC = 205, 179

FORMS = {
    "plain": {**PLAIN, **MORE_PLAIN}, "byte": {**BYTE, **MORE_BYTE}, "call": {**CALL, **MORE_CALL},
    "big": {**BIG, **MORE_BIG}, "levels": {**LEVELS, **EXTERN}, "two": {**PACKED, "CXP": CXP},
    "jump": JUMP, "compare": COMPARE, "text": TEXT, "word": {"LDCI": LDCI}, "words": {"LDC": LDC},
    "case": {"XJP": XJP},
}


def names_by_opcode():
    """The name and the form of each opcode, and the number that a short one has."""
    table = {opcode: (name, form, 0) for form, some in FORMS.items()
             for name, opcode in some.items()}
    for name, (base, least, most) in SHORT.items():
        table.update((base + number, (name, "short", number))
                     for number in range(least, most + 1))
    return table


OPCODES = names_by_opcode()
# The types of a comparison with a type byte. The last two have a size behind it.
REALS, STRINGS, BOOLEANS, SETS, BYTES, WORDS = 2, 4, 6, 8, 10, 12
TYPES = {REALS: "REAL", STRINGS: "STR", BOOLEANS: "BOOL", SETS: "POWR", BYTES: "BYT", WORDS: "WORD"}
# Instructions that no next one follows.
LAST = ("UJP", "XJP", "RNP", "RBP", "XIT")

# The procedures of the system's segment 0, with the words that a call takes and gives: f is a file,
# and w a word.
SYSTEM = {
    3: ("FINIT", "www", 0), 4: ("FRESET", "f", 0), 5: ("FOPEN", "wwww", 0), 6: ("FCLOSE", "fw", 0),
    7: ("FGET", "f", 0), 8: ("FPUT", "f", 0), 9: ("XSEEK", "fw", 0), 10: ("FEOF", "fww", 1),
    11: ("FEOLN", "fww", 1), 12: ("FREADINT", "fw", 0), 13: ("FWRITEINT", "fww", 0),
    14: ("FREADREAL", "fw", 0), 15: ("FWRITEREAL", "fwwww", 0), 16: ("FREADCHAR", "fw", 0),
    17: ("FWRITECHAR", "fww", 0), 18: ("FREADSTRING", "fww", 0), 19: ("FWRITESTRING", "fww", 0),
    20: ("FWRITEBYTES", "fwww", 0), 21: ("FREADLN", "f", 0), 22: ("FWRITELN", "f", 0),
    23: ("SCONCAT", "www", 0), 24: ("SINSERT", "wwww", 0), 25: ("SCOPY", "wwww", 0),
    26: ("SDELETE", "www", 0), 27: ("SPOS", "wwww", 1), 28: ("FBLOCKIO", "fwwwwwww", 1),
    29: ("FGOTOXY", "ww", 0),
}
OTHER_SYSTEM = {2: "EXECERROR", 30: "a procedure of the system"}

# The standard procedures that CSP calls: their names, and the words that they take and give.
STANDARD = {
    0: ("IOC", 0, 0), 1: ("NEW", 2, 0), 2: ("MVL", 5, 0), 3: ("MVR", 5, 0), 4: ("EXIT", 2, 0),
    5: ("URD", 6, 0), 6: ("UWT", 6, 0), 7: ("IDS", 2, 0), 8: ("TRS", 5, 1), 9: ("TIM", 2, 0),
    10: ("FLC", 4, 0), 11: ("SCN", 6, 1), 12: ("USTAT", 4, 0), 21: ("GSEG", 1, 0),
    22: ("RSEG", 1, 0), 23: ("TNC", 2, 1), 24: ("RND", 2, 1), 25: ("SIN", 2, 2), 26: ("COS", 2, 2),
    27: ("LOG", 2, 2), 28: ("ATN", 2, 2), 29: ("LN", 2, 2), 30: ("EXP", 2, 2), 31: ("SQT", 2, 2),
    32: ("MRK", 1, 0), 33: ("RLS", 1, 0), 34: ("IOR", 0, 1), 35: ("UBUSY", 1, 1),
    36: ("POT", 1, 2), 37: ("UWAIT", 1, 0), 38: ("UCLR", 1, 0), 39: ("HLT", 0, 0),
    40: ("MAV", 0, 1),
}
EXIT = 4
# Units of Apple Pascal's library, by the numbers of their segments.
LIBRARY = {20: "TURTLEGRAPHICS", 22: "APPLESTUFF", 28: "CHAINSTUFF", 29: "TRANSCEND",
           30: "LONGINTIO", 31: "PASCALIO"}


def system_name(number):
    return SYSTEM[number][0] if number in SYSTEM else OTHER_SYSTEM.get(number)


def standard_name(number):
    return STANDARD[number][0] if number in STANDARD else None
