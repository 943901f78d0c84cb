"""An old program from the image of a disk to three nodes that lose their leader."""

import os
import subprocess
import sys

from ..checks import passed
from ..compile.old_programs import at_three_nodes
from ..files import bytes_of
from ..program import TOP, must
from .backend import old_code
from .comparing import run
from .oldfiles import segments_of

TOOLS = os.path.join(TOP, "tools")
STORE = """PROGRAM STORE;
TYPE ITEM = RECORD NAME: STRING[15]; PRICE: REAL END;
VAR F: FILE OF ITEM; S: STRING; SEEN: SET OF CHAR; C: CHAR; N, I: INTEGER; SUM: REAL;
PROCEDURE BEGINNING;
BEGIN
  REWRITE(F, 'STORE'); SEEN := []; N := 0; SUM := 0
END;
PROCEDURE ADD(NAME: STRING; PRICE: REAL);
BEGIN
  F^.NAME := NAME; F^.PRICE := PRICE; PUT(F); N := N + 1
END;
BEGIN
  BEGINNING;
  REPEAT
    WRITE('? '); READLN(S);
    IF S <> '' THEN BEGIN ADD(S, LENGTH(S) / 4); SEEN := SEEN + [S[1]] END
  UNTIL S = '';
  FOR I := N DOWNTO 1 DO
    BEGIN
      SEEK(F, I - 1); GET(F); SUM := SUM + F^.PRICE; WRITELN(F^.NAME, F^.PRICE:8:2)
    END;
  FOR C := 'A' TO 'Z' DO IF C IN SEEN THEN WRITE(C);
  WRITELN(SUM:8:2); CLOSE(F, LOCK)
END.
"""
GIVEN = "LAMP\nROPE\nGEM\n\n"
WANTED = "? LAMP\n? ROPE\n? GEM\n? \nGEM    0.75\nROPE    1.00\nLAMP    1.00\nGLR    2.75\n"


def do(name, *words):
    command = [sys.executable, os.path.join(TOOLS, name), *words]
    done = subprocess.run(command, check=False, capture_output=True)
    must(done.returncode == 0, f"tools/{name} {words}: {done.stderr}")


def try_nodes():
    """A program of two segments with strings, sets, REALs and a file."""
    old = old_code(STORE, "store.pas")
    must(sorted(segments_of(old)[0]) == [1, 7], "the old file has two segments")
    with open("STORE.CODE", "wb") as file:
        file.write(old)
    do("volume", "old.dsk", "--dos", "--put", "STORE.CODE")
    do("translate", "--volume", "old.dsk", "STORE.CODE", "-o", "store.code")
    found = run(bytes_of("store.code"), GIVEN.encode())
    must(found == (WANTED.encode(), "normal"), f"store.code alone: {found}")
    at_three_nodes("store.code", GIVEN, WANTED)
    passed("an old program goes from a disk's image to three nodes that lose their leader")
