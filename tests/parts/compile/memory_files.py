"""Files in memory: what they begin with, how what is written is got at, and at three nodes."""

import os
import subprocess
import sys

from ..checks import passed
from ..files import bytes_of
from ..program import PROGRAM, TOP, must
from .judging import Options, compile_text, run, tool, write

TOOL = os.path.join(TOP, "tools", "files")
KEEPER = """PROGRAM KEEPER;
TYPE R = RECORD N: INTEGER; S: STRING[5] END;
VAR F: FILE OF R; T, U: TEXT; S: STRING; N: INTEGER;
BEGIN
  RESET(T, 'WORDS'); REWRITE(F, 'COUNTS'); REWRITE(U, 'BACK.TEXT'); N := 0;
  WHILE NOT EOF(T) DO
    BEGIN
      READLN(T, S); N := N + 1;
      F^.N := LENGTH(S); F^.S := COPY(S, 1, 1); PUT(F); WRITELN(U, N, ' ', S)
    END;
  CLOSE(T, LOCK); CLOSE(F, LOCK); CLOSE(U, LOCK); WRITELN('DONE ', N)
END.
"""
WORDS = b"alpha\nbeta, the second\n\nlast"
COUNTS = b"".join(n.to_bytes(2, "little") + text for n, text in (
    (5, b"\1a\0\0\0\0"), (16, b"\1b\0\0\0\0"), (0, b"\0\0\0\0\0\0"), (4, b"\1l\0\0\0\0")))
LEDGER = """PROGRAM L;
VAR F: FILE OF INTEGER; I, N, SUM: INTEGER;
BEGIN
  REWRITE(F, 'SUMS'); SUM := 0;
  FOR I := 1 TO 5 DO
    BEGIN
      READLN(N); RESET(F); SEEK(F, I - 1); F^ := N; PUT(F);
      SUM := 0; RESET(F);
      WHILE NOT EOF(F) DO BEGIN SUM := SUM + F^; GET(F) END;
      WRITELN('=', SUM)
    END
END.
"""


def files(*words):
    done = subprocess.run([sys.executable, TOOL, *words], check=False, capture_output=True)
    return done.returncode, done.stdout.decode(), done.stderr.decode()


def try_ways():
    """The way in, --file, and the way out, --show-files and tools/files."""
    write("keeper.pas", KEEPER)
    write("words.txt", WORDS)
    done = tool("--show-files", "--file", "words=words.txt", "keeper.pas")
    must(done[0] == 0, f"keeper.pas: {done}")
    with open("output", "wb") as output:
        subprocess.run([PROGRAM, "run", "keeper.code"], check=True, stdout=output)
    shown = bytes_of("output")
    must(shown.endswith(b"\n]file\nDONE 4\n") and shown.count(b"[file ") == 4, f"{shown}")
    os.mkdir("room")
    found = files("output", "--to", "room")
    must(found[0] == 0 and len(found[1].splitlines()) == 3, f"tools/files: {found}")
    must(bytes_of("room/WORDS") == WORDS, "WORDS is another one")
    back = b"1 alpha\n2 beta, the second\n3 \n4 last\n"
    must(bytes_of("room/BACK.TEXT") == back, f"BACK.TEXT is {bytes_of('room/BACK.TEXT')}")
    counts = bytes_of("room/COUNTS")
    must([counts[k:k + 2] for k in range(0, 32, 8)] == [COUNTS[k:k + 2] for k in range(0, 32, 8)]
         and counts[2:4] == b"\1a" and len(counts) == 32, f"COUNTS is {counts}")
    must(files("output", "--to", "room")[0] == 1, "a file is written over")
    write("half", shown[:shown.index(b"last")])
    must("is not whole" in files("half")[2], "half a file is taken")
    must(files("gone")[0] == 1 and files()[0] == 2, "words of tools/files")
    for words in ("x", "=words.txt", "ABCDEFGHIJKLMNOP=words.txt", "A=gone"):
        must(tool("--file", words, "keeper.pas")[0] == 2, f"--file {words}")
    passed("a program begins with files, and what it writes is got at by tools/files")


def try_group():
    """Files in memory are the same at three nodes whose leader falls."""
    write("l.code", compile_text(LEDGER, "l.pas", Options(is_echoed=False)).data)
    keys = "12\n-3\n100\n7\n1\n"
    alone = run(bytes_of("l.code"), keys)
    must(alone == ("=12\n=9\n=109\n=116\n=117\n", ""), f"alone: {alone}")
    script = ["size 3 session 7", "start 1", "start 2", "start 3", "campaign 1", "settle"]
    for number, key in enumerate(keys.encode()):
        if number == 8:
            script += ["crash 1", "campaign 2", "settle"]
        node = 2 + number % 2
        script += [f"type {node} {key:02X}", f"tick {node}", "settle"]
    write("l.script", "\n".join(script + ["settle"] * 4 + ["show", ""]))
    done = subprocess.run([PROGRAM, "sim", "l.code", "l.script"], check=True, capture_output=True)
    shown = [line.split(b" ")[-1].decode() for line in done.stdout.split(b"\n")[:3]]
    whole = alone[0].encode().hex().upper()
    must(shown[1:] == [whole, whole] and shown[0] != whole, f"at three nodes: {shown}")
    passed("files in memory are the same at three nodes")


TESTS = (try_ways, try_group)
