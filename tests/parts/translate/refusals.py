"""What the translator refuses: a name, a code file, and the words that tell it with its place."""

import struct

from .oldfiles import BLOCK, DATASEG, LINKED, SEGPROC, Assembler, code_file

END = "exit:\nRBP 0\n"
RETURN = "exit:\nRNP 0\n"


def segment(text, others=(), data=20, number=1, level=0):
    """A segment: the text of its program, and other procedures with their numbers, levels,
    parameters and texts."""
    made = Assembler()
    made.procedure(1, level, 2, data, text)
    for it, depth, params, body in others:
        made.procedure(it, depth, params, 0, body)
    return made.finished(number)


def program(text, others=(), number=1, **more):
    """A file of one segment."""
    return code_file([(number, "OLD", LINKED, segment(text, others, number=number, **more))])


def changed(data, at, new):
    return data[:at] + bytes(new) + data[at + len(new):]


PLAIN = program("SLDC 1\nSRO 3\n" + END)
LENGTH = struct.unpack_from("<H", PLAIN, 2)[0]
LAST = BLOCK + LENGTH  # behind the segment
JTAB = LAST - 6
ONE = "old.code, segment 1 OLD procedure 1"


def two_segments(number, text, is_second=True):
    one, two = Assembler(), Assembler()
    one.procedure(1, 0, 2, 20, text + END)
    two.procedure(1, 1, 0, 0, RETURN)
    segments = [(1, "OLD", LINKED, one.finished(1))]
    if is_second:
        segments.append((number, "TWO", SEGPROC, two.finished(number)))
    return code_file(segments)


# The dictionary and the tables of procedures.
FORMS = (
    ("an empty file", b"", "old.code: it has 0 bytes"),
    ("half a block", PLAIN[:256], "old.code: it has 256 bytes"),
    ("zeros", bytes(2 * BLOCK), "old.code: block 0 names no segment"),
    ("a text", b"PROGRAM OLD; BEGIN END." * 60, "block 0 is that of no code file"),
    ("a file that is cut", PLAIN[:LAST - 2], "bytes from block 1 on, and the file has"),
    ("an odd length", changed(PLAIN, 2, struct.pack("<H", LENGTH - 1)), "an even number is wanted"),
    ("two segments of a number", two_segments(1, ""), "segment 1 TWO: two segments have this"),
    ("no program", program(RETURN, number=5), "old.code: no segment has the number 1"),
    ("no procedures", changed(PLAIN, LAST - 1, [0]), "says that it has 0 procedures"),
    ("too many procedures", changed(PLAIN, LAST - 1, [200]), "says that it has 200 procedures"),
    ("a table that leads to itself", changed(PLAIN, LAST - 4, [0, 0]),
     f"{ONE}: its table is at {LENGTH - 4}, outside"),
    ("native code", changed(PLAIN, JTAB, [0]), f"{ONE}: it is in native code"),
    ("another number", changed(PLAIN, JTAB, [9]), f"{ONE}: its table has the number 9"),
    ("a program of the system", changed(PLAIN, JTAB + 1, [255]),
     f"{ONE}: its lex level is below 0"),
    ("a program at level 3", program(END, level=3), "has the lex level 3"),
    ("two programs", program(END, [(2, 0, 0, RETURN)]), "procedure 2: it has the lex level 0"),
    ("an odd size", changed(PLAIN, JTAB - 8, [3]), f"{ONE}: a size of it is an odd number"),
    ("ENTER outside", changed(PLAIN, JTAB - 2, [0, 240]), f"{ONE}: its ENTER leads to"),
    ("EXIT outside", changed(PLAIN, JTAB - 4, [2, 0]), f"{ONE}: its EXIT leads to"),
) + tuple((f"kind {kind}", changed(PLAIN, 192, [kind]), f"segment 0 OLD: it is {name}")
          for kind, name in ((1, "HOSTSEG"), (3, "UNITSEG"), (4, "SEPRTSEG"),
                             (5, "UNLINKED INTRINSIC")))

WORDS_IN_A_LOOP = "again:\nSLDC 1\nUJP again\n"
# Instructions, and where they stand.
INSTRUCTIONS = (
    ("an opcode of another version", program("SLDC 1\nFJP exit\nNOP\n" + END).replace(
        b"\x01\xa1", b"\xd2\xa1"), f"{ONE} at 0: the opcode 210 is none of II.0"),
    ("an instruction that is cut off", changed(PLAIN, BLOCK + 3, [166, 9]),
     f"{ONE} at 3: an instruction is cut off"),
    ("a jump out of the procedure", changed(program("UJP exit\n" + END), BLOCK + 1, [100]),
     f"{ONE} at 0: a jump leads to 102, out of the procedure"),
    ("a jump without a word", changed(program("UJP exit\n" + END), BLOCK + 1, [248]),
     f"{ONE} at 0: a jump has no word in the jump table"),
    ("a case jump without a table", changed(program("a:\nSLDC 1\nXJP 1 1 exit a\n" + END),
                                            BLOCK + 2, [9]),
     f"{ONE} at 1: a case jump has wrong bounds"),
    ("a type of no comparison", program("SLDC 1\nSLDC 1\nEQU 14\nSRO 3\n" + END),
     f"{ONE} at 2: a comparison has the type 14"),
    ("an order of records", program("LAO 3\nLAO 5\nLES 12 2\nSRO 3\n" + END),
     f"{ONE} at 4: arrays or records are compared by their order"),
    ("too few words", program("SLDC 1\nADI\nSRO 3\n" + END), f"{ONE} at 1: it takes more words"),
    ("IXS on one word", program("SLDC 1\nIXS\nSRO 3\n" + END), f"{ONE} at 1: it takes more words"),
    ("a loop that pushes", program(WORDS_IN_A_LOOP + END), f"{ONE} at 0: two ways lead there"),
    ("too many words", program("LAO 3\nLDM 250\n" * 5 + END), "more words are pushed than"),
    ("a set of no known length", program("LDO 3\nSLDC 0\nUNI\n" + END),
     "the length of a set is not known"),
    ("a set of -1 words", program("LDCI -1\nADJ 4\n" + END), "a set has -1 words"),
    ("words of a set", program("SLDC 1\nSGS\nSRO 3\n" + END),
     f"{ONE} at 2: it takes words of a set whose length is not known"),
    ("a variable of the system", program("LOD 1 1\nSRO 3\n" + END),
     f"{ONE} at 0: LOD 1,1: it uses a variable of the system"),
    ("a file of the system as a record", program("LOD 1 2\nSIND 1\nSRO 3\n" + END),
     f"{ONE} at 3: SIND uses a file of the system"),
    ("RBP in a procedure", program("CGP 2\n" + END, [(2, 1, 0, END)]),
     "procedure 2 at 14: RBP stands in a procedure that is not the program"),
    ("three words of a function", program("CGP 2\n" + END, [(2, 1, 3, "exit:\nRNP 3\n")]).replace(
        b"\xcf\x02", b"\xd7\xd7"), "procedure 2 at 14: a function gives 3 words"),
)
# Calls.
CALLS = (
    ("an intrinsic unit", two_segments(20, "CXP 20 1\n", False),
     f"{ONE} at 0: it calls procedure 1 of segment 20, which is not in the file: an intrinsic unit "
     "of the library (TURTLEGRAPHICS in Apple Pascal)"),
    ("data of an intrinsic unit", program("LDE 21 1\nSRO 3\n" + END),
     f"{ONE} at 0: the data segment 21 of an intrinsic unit is not in the file"),
    ("a word behind a data segment", code_file([
        (1, "OLD", LINKED, segment("LAE 21 9\nSRO 3\n" + END)),
        (21, "DATA", DATASEG, 8)], is_apple=True),
     f"{ONE} at 0: the data segment 21 of an intrinsic unit is not in the file"),
    ("no such procedure", program("CGP 9\n" + END),
     f"{ONE} at 0: it calls procedure 9 of segment 1, which has no such procedure"),
    ("CLP of another level", program("CGP 2\n" + END, [(2, 1, 0, "CLP 3\n" + RETURN),
                                                       (3, 1, 0, RETURN)]),
     "procedure 2 at 14: CLP leads from lex level 1 to a procedure at level 1"),
    ("a call of the program", program("CGP 2\n" + END, [(2, 1, 0, "CGP 1\n" + RETURN)]),
     "procedure 2 at 14: CGP leads from lex level 1 to a procedure at level 0"),
    ("a program of the system", program("CBP 2\n" + END, [(2, 1, 0, RETURN)]),
     f"{ONE} at 0: it calls a program of the system (CBP)"),
    ("EXECERROR", program("CXP 0 2\n" + END),
     f"{ONE} at 0: it calls procedure 2 of the system (EXECERROR)"),
    ("a procedure of the system", program("CXP 0 40\n" + END),
     f"{ONE} at 0: it calls procedure 40 of the system"),
    ("no standard procedure", program("CSP 99\n" + END),
     f"{ONE} at 0: there is no standard procedure 99"),
    ("IDSEARCH", program("SLDC 0\nSLDC 0\nCSP 7\n" + END),
     f"{ONE} at 2: standard procedure 7, IDS, is not there"),
    ("UNITSTATUS", program("SLDC 0\n" * 4 + "CSP 12\n" + END),
     f"{ONE} at 4: standard procedure 12, USTAT, is not there"),
    ("an EXIT of no known procedure", program("SLDC 1\nLDO 3\nCSP 4\n" + END),
     f"{ONE} at 3: an EXIT names a procedure that is not known"),
    ("an EXIT of no procedure", program("SLDC 9\nSLDC 1\nCSP 4\n" + END),
     f"{ONE} at 2: an EXIT names procedure 1 of segment 9"),
)


def many(number, count, text):
    """A segment of so many procedures, of which all but the first do nothing."""
    made = Assembler()
    made.procedure(1, number != 1, 2 * (number == 1), 20 * (number == 1), text)
    for it in range(2, count + 1):
        made.procedure(it, 1, 0, 0, RETURN)
    return (number, f"MANY{number}", LINKED if number == 1 else SEGPROC, made.finished(number))


USING = ("LSA 'A'\nLSA 'B'\nSLDC 0\nSLDC 0\nCXP 0 27\nSRO 3\n"
         "SLDC 1\nSGS\nSLDC 0\nEQU 8\nSRO 3\n")
LARGE = "LDCI 300\nSRO 3\n" * 8000
# What one segment has no room for.
SIZES = (
    ("256 procedures", code_file([many(1, 200, END), many(7, 56, RETURN)]),
     "old.code: it has 256 procedures, and 255 are the most"),
    ("too many procedures of the run-time", code_file([many(1, 253, USING + END)]),
     "old.code: there are 255 procedures at most, and those of the "),
    ("more than 65,534 bytes", code_file([many(1, 2, LARGE + END), many(7, 2, LARGE + RETURN)]),
     "the segment has more than 65534 bytes"),
    ("more variables than memory", program("LAO 3\nSLDC 1\nCSP 1\n" + END, data=14000),
     "the variables of the program leave no room for 4000 words of the library"),
)
CASES = FORMS + INSTRUCTIONS + CALLS + SIZES
