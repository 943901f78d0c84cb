"""What texts may look like: those of a p-System, ends of files, and what stands behind END."""

import os

from ..checks import passed
from ..program import TOP, must
from .judging import compile_text, faults_of, prints, read_text, tool, write

# A text file as a p-System's editor leaves it, byte by byte: two blocks of its own, a page that is
# not full, and another. 16 and 34 stand for two blanks.
FIRST = b"PROGRAM T;\rVAR N: INTEGER;\rBEGIN\r\x10\x22N := 3;\r"
SECOND = b"\x10\x22{ \x10 }\rWRITE('A', N);\r\x10\x20WRITE(N + Q)\rEND.\r"


def page(lines):
    return lines + bytes(1024 - len(lines))


def text_file(*pages):
    return bytes([1, 0]) + b"some of the editor's".ljust(1022, b"\0") + b"".join(map(page, pages))


def try_text_file():
    """Lines and blanks of a text file of a p-System are read, and faults told by its lines."""
    write("OLD.TEXT", text_file(FIRST, SECOND))
    shown = "PROGRAM T;\nVAR N: INTEGER;\nBEGIN\n  N := 3;\n  { \x10 }\nWRITE('A', N);\n" \
            "WRITE(N + Q)\nEND.\n"
    must(read_text("OLD.TEXT") == shown, f"OLD.TEXT is {read_text('OLD.TEXT')!r}")
    told = tool("OLD.TEXT")
    must(told == (1, "", "OLD.TEXT:7:11: Q is not declared\n"), f"OLD.TEXT: {told}")
    write("GOOD.TEXT", text_file(FIRST, SECOND.replace(b"Q", b"4")))
    prints("GOOD", read_text("GOOD.TEXT"), "", "A37", "")
    passed("a text file of a p-System is read by its pages")


def try_included():
    """A file is found whatever its case, and with or without .TEXT."""
    os.mkdir("part")
    for name, value in (("Inc1.Text", 1), ("inc2", 2), ("INC3", 3), ("inc3", 4), ("Two", 5),
                        ("tWO", 6)):
        write(f"part/{name}", f"CONST C{value} = {value};")
    write("part/PAGES.TEXT", text_file(b"CONST C7 = 7;\r"))
    names = ("INC1.TEXT", "inc1", "INC2.TEXT", "Inc2", "inc3", "PAGES")
    seen = []
    for name in names:
        text = f"PROGRAM T; {{$I {name}}}\nBEGIN WRITE(C1); WRITE(C2) END."
        seen.append([it.split(": ")[1] for it in faults_of(text, "part/t.pas")])
    no_one, no_two = "C1 is not declared", "C2 is not declared"
    must(seen == [[no_two], [no_two], [no_one], [no_one], [no_one, no_two], [no_one, no_two]],
         f"what is included by {names}: {seen}")
    text = "PROGRAM T; {$I INC3}\n{$I pages.text}\nBEGIN WRITE(C3, C7) END."
    must(not faults_of(text, "part/t.pas"), faults_of(text, "part/t.pas"))
    told = faults_of("PROGRAM T; {$I TWO}\nBEGIN END.", "part/t.pas")
    must(told == ["part/t.pas:1:12: TWO may be Two or tWO: write it as the file is named"], told)
    passed("an included file is found whatever its case, with or without .TEXT")


def try_ends():
    """What is behind END. is passed over, as are ^Z with all behind it, and NULs."""
    for name, rest in (("nothing", ""), ("words", "\nVAR 'x # { $I gone } 1.5 \"A"),
                       ("an option", "{$X+} {$I gone.pas}"), ("^Z", "\x1a\x1a"), ("NULs", "\0\0")):
        prints(f"END. and {name}", "PROGRAM T; BEGIN WRITE('OK') END." + rest, "", "OK", "")
    for name, rest in (("zpart.inc", "\x1a\x1aB"), ("npart.inc", "\0\0\0")):
        write(name, "CONST SIX = 6;" + rest)
        prints(name, f"PROGRAM T; {{$I {name}}} BEGIN WRITE(SIX) END.", "", "6", "")
    told = faults_of("PROGRAM T; BEGIN X := 1 END. #")
    must([it.split(": ")[0] for it in told] == ["t.pas:1:18"], f"behind END.: {told}")
    told = faults_of("PROGRAM T; VAR N: CHAR; BEGIN PROCEDURE P; BEGIN END. # BEGIN # END.")
    must(any("#" in it for it in told), f"an END. that is not the last: {told}")
    passed("what is behind END. and at the ends of files is passed over")


def try_no_texts():
    """A code file, and a text file that is damaged, are told as such."""
    code = os.path.join(TOP, "examples", "echo.code")
    told = tool(code, "-o", "x.code")
    must(told[0] == 1 and f"{code}: this is a code file, and no text" in told[2], f"{told}")
    with open(code, "rb") as file:
        words = bytearray(file.read())
    for at in range(0, 64, 2):  # the words of a machine whose high byte comes first
        words[at:at + 2] = reversed(words[at:at + 2])
    write("BIG.CODE", bytes(words))
    must("this is a code file" in tool("BIG.CODE")[2], "BIG.CODE")
    write("BAD.TEXT", text_file(b"PROGRAM T;\r\x01\x02"))
    must("is a p-System's text file that is damaged" in tool("BAD.TEXT")[2], "BAD.TEXT")
    told = faults_of("PROGRAM T; {$I BIG.CODE} BEGIN END.")
    must("t.pas:1:12: BIG.CODE is a code file" in told[0], told)
    passed("a code file and a damaged text file are told as such")


def try_notes():
    """What is passed over is said once, at its first place."""
    text = ("PROGRAM T;\nVAR P: ^CHAR;\nSEGMENT PROCEDURE Q; BEGIN END;\n{$L+}\n"
            "SEGMENT PROCEDURE R; BEGIN END;\nBEGIN NEW(P); DISPOSE(P); DISPOSE(P) {$L-} END. "
            "{$S+}")
    notes = [it.split(" is ")[0].split(" changes ")[0].split(" gives ")[0]
             for it in compile_text(text, "t.pas").notes]
    must(notes == ["t.pas:3:1: note: SEGMENT", "t.pas:4:1: note: the option L",
                   "t.pas:6:15: note: DISPOSE"], notes)
    passed("what is passed over is told once")


TESTS = (try_text_file, try_included, try_ends, try_no_texts, try_notes)
