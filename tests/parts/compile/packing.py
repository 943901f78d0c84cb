"""Texts that a program writes or stores: alike ones are kept once. Those that are written may be
packed."""

import random

from ..checks import passed
from ..program import must
from .judging import Options, compile_text, run, tool, write

CAPITALS = "".join(map(chr, range(65, 91)))
ALPHABETS = (CAPITALS + " ", CAPITALS.lower() + " .", "ABCdef. ", "".join(map(chr, range(32, 64))),
             "".join(map(chr, range(32, 127))), "aB", ".. aaA'")
TEXT = "Far below something glitters. A shaft leads down, and a cellar is in the west."
LINES = 600  # of TEXT and its number: too many for a segment, unless they are packed


def program_of(lines):
    quoted = (it.replace("'", "''") for it in lines)
    return "PROGRAM P;\nBEGIN\n" + ";\n".join(f"WRITELN('{it}')" for it in quoted) + "\nEND.\n"


def size_of(text, is_packed=False):
    data = compile_text(text, "p.pas", Options(is_packed=is_packed)).data
    return int.from_bytes(data[6:8], "little")


def random_lines(source):
    return ["".join(source.choice(letters) for _ in range(source.randrange(1, 90)))
            for letters in (source.choice(ALPHABETS) for _ in range(12))]


def try_written():
    """What is written is the text, packed or not, with either end of a line."""
    source = random.Random(84)
    for number in range(20):
        lines = random_lines(source)
        lines += lines[:2]
        for line_end, is_packed in (("lf", False), ("lf", True), ("cr", True)):
            options = Options(line_end=line_end, is_packed=is_packed)
            found = run(compile_text(program_of(lines), "p.pas", options).data, "")
            wanted = "".join(f"{it}\n" for it in lines)
            wanted = wanted.replace("\n", "\r") if line_end == "cr" else wanted
            must(found == (wanted, ""), f"{number} {options}: {found} is not {wanted!r}")
    passed("260 lines are written as they stand, also where they are packed")


IN_A_FILE = """PROGRAM P;
VAR F: TEXT; S: STRING[100];
BEGIN
  REWRITE(F, 'X');
  WRITE('Both are packed. '); WRITELN(F, '{line}');
  WRITE(F, '{line}'); WRITELN('Both are packed. ');
  RESET(F);
  READLN(F, S); WRITELN(S); READ(F, S); WRITELN(S)
END.
"""


def try_in_a_file():
    """Texts that are written to a file in memory, and read again."""
    source = random.Random(85)
    for line in random_lines(source):
        quoted = line.replace("'", "''")
        for is_packed in (False, True):
            text = IN_A_FILE.replace("{line}", quoted)
            found = run(compile_text(text, "p.pas", Options(is_packed=is_packed)).data, "")
            wanted = f"Both are packed. Both are packed. \n{line}\n{line}\n"
            must(found == (wanted, ""), f"{is_packed}: {found} is not {wanted!r}")
    passed("packed texts are the same in a file")


STORED = """PROGRAM P;
CONST SAME = '{text}';
TYPE LETTERS = PACKED ARRAY[1..{size}] OF CHAR;
VAR S: STRING[90]; L: LETTERS; I: INTEGER; SEVERAL: ARRAY[1..3] OF STRING[90];
  R: RECORD NUMBER: INTEGER; NAME: STRING[90] END;
FUNCTION GIVEN(IT: STRING): BOOLEAN;
VAR OWN: STRING[90];
  PROCEDURE FARTHER;
  BEGIN OWN := '{text}' END;
BEGIN OWN := ''; FARTHER; GIVEN := IT = OWN END;
FUNCTION TAKEN(IT: LETTERS): BOOLEAN;
BEGIN TAKEN := IT = SAME END;
BEGIN
  S := SAME; WRITELN(S); S := CONCAT('!', SAME); S := CONCAT('{text}', '!'); WRITELN(S);
  L := SAME; WRITELN(L); L := '{text}'; WRITELN(TAKEN(SAME) AND TAKEN(L));
  WITH R DO NAME := SAME; WRITELN(R.NAME);
  FOR I := 1 TO 3 DO BEGIN SEVERAL[I] := '{text}'; WRITELN(SEVERAL[I]) END;
  WRITELN(GIVEN(SAME) AND GIVEN('{text}')); WRITELN(COPY(SAME, 2, 1)); WRITELN(POS('!', SAME))
END.
"""


def try_stored():
    """Texts that are assigned, given, compared and joined are the same in each place."""
    source = random.Random(86)
    for number in range(20):
        letters = source.choice(ALPHABETS).replace("!", "")
        line = "".join(source.choice(letters) for _ in range(source.randrange(2, 81)))
        text = STORED.replace("{text}", line.replace("'", "''")).replace("{size}", str(len(line)))
        found = run(compile_text(text, "p.pas").data, "")
        wanted = [line, line + "!", line, "TRUE", line, line, line, line, "TRUE", line[1], "0",
                  ""]
        must(found == ("\n".join(wanted), ""), f"{number}: {found} is not {wanted}")
    passed("20 texts that are stored in 16 places each are the same in all of them")


def stores_of(targets, constant=TEXT):
    """A program that stores TEXT in some variables, and another text."""
    stores = "".join(f"{it} := SAME; " for it in targets)
    return (f"PROGRAM P;\nCONST SAME = '{constant}';\nVAR S: STRING; L: PACKED ARRAY"
            f"[1..{len(TEXT)}] OF CHAR;\nBEGIN {stores}S := 'Another text.' END.\n")


def try_room_of_stored():
    """A text that is stored again takes a call beside the address: as a string, and as letters."""
    for name in ("S", "L"):
        sizes = [size_of(stores_of([name] * count)) for count in range(5)]
        must(sizes[4] - sizes[3] == 4, f"{name}: a text that is stored again is a call: {sizes}")
        must(sizes[3] < sizes[1] + 30, f"{name}: a text stored three times is kept once: {sizes}")
    both = size_of(stores_of("SL")) - size_of(stores_of("S"))
    must(both > len(TEXT), f"letters without a length are others than a string's: {both}")
    once = [size_of(stores_of("S", it)) for it in (TEXT, "It.")]
    must(once[0] - once[1] > len(TEXT), f"a text that is stored once stands in its place: {once}")
    passed("a text that is stored again takes 2 bytes beside its address")


def try_room():
    """An equal text takes two bytes more, and a packed one at most 1.25 bytes a character with what
    writes it."""
    other = program_of(["Another text, that is not the same as any."])
    one = program_of([TEXT, "Another text, that is not the same as any."])
    three = program_of([TEXT, TEXT, TEXT, "Another text, that is not the same as any."])
    four = program_of([TEXT] * 4 + ["Another text, that is not the same as any."])
    must(size_of(four) - size_of(three) == 2, "a text that is written again is a call")
    must(size_of(three) < size_of(one) + 30, "a text that is written three times is kept once")
    taken = size_of(one, True) - size_of(other, True)
    must(taken <= 1.25 * (len(TEXT) + 1), f"{len(TEXT) + 1} characters take {taken} bytes")
    passed(f"a packed text of {len(TEXT) + 1} characters takes {taken} bytes")


def try_too_large():
    """Texts are packed by themselves where the code has else no room."""
    text = program_of(f"{number} {TEXT}" for number in range(LINES))
    write("large.pas", text)
    status, _, said = tool("large.pas")
    must(status == 0 and "the texts that it writes are packed" in said, said)
    made = compile_text(text, "large.pas")
    found = run(made.data, "")
    must(found == ("".join(f"{number} {TEXT}\n" for number in range(LINES)), ""), found)
    write("larger.pas", program_of(f"{number} {TEXT}" for number in range(2 * LINES)))
    status, _, said = tool("larger.pas")
    must(status == 1 and ": the segment has more than 65534 bytes\n" in said, said)
    passed(f"{LINES} lines that have no room are packed, and twice as many are refused")


TESTS = (try_written, try_in_a_file, try_stored, try_room_of_stored, try_room, try_too_large)
