"""What freeze refuses, each by its name and in a sentence, and what it does with its arguments."""

import os
import subprocess
import sys

from freezer.frozen import frozen_in
from freezer.making import frozen_after
from freezer.refused import Refused
from freezer.state import state_after

from ..checks import expect, passed
from ..files import bytes_of
from ..program import PROGRAM, TOP, must
from . import odd_programs as odd
from .cuts import put
from .limits import noise

TOOL = os.path.join(TOP, "tools", "freeze")
EXAMPLES = os.path.join(TOP, "examples")
ADVENTURE = os.path.join(EXAMPLES, "adventure.code")
MOST = 1024  # words of the stack
LOOP = odd.file_of(odd.procedure(1, 0, 2, 3, "again:\nUJP again\nexit:\nRBP 0\n"))
STOPS = odd.file_of(odd.procedure(1, 0, 2, 3, odd.read() + "CSP 39\nexit:\nRBP 0\n"))

# A name, a code file, its input, and what the sentence has.
FILES = (
    ("ended", odd.file_of(odd.procedure(1, 0, 2, 3, "exit:\nRBP 0\n")), b"",
     "the program has ended normally"),
    ("ended", STOPS, b"a", "by error 14 in procedure 1 at 9"),
    ("procedures", odd.chain(129), b"abc",
     "its 129 procedures and 128 that are under way are more than 255"),
    ("bytes", odd.full_memory(16380, odd.padding(28500)), noise(odd.LENGTH),
     "and at most 65,534 are possible"),
    ("overlap", odd.overlapping(), b"a", "the jump table of procedure 1 overlap"),
    ("parameters", odd.deep(MOST, 0), b"abc", "procedure 2 has 1024 words of parameters"),
    ("file", b"no code file", b"", "pgroup says: refused F"),
)


def tool(*words, given=b"", program=PROGRAM):
    """The status of tools/freeze, and what it has printed."""
    done = subprocess.run([sys.executable, TOOL, *words], check=False, capture_output=True,
                          input=given, env={**os.environ, "PGROUP": program})
    return done.returncode, done.stdout.decode(), done.stderr.decode()


def expect_refused(name, part, work):
    try:
        work()
    except Refused as why:
        is_so = why.name == name and part in str(why)
        expect(f"refused, {name}: {part}", is_so, why.name, str(why))
    else:
        must(False, f"{name} ought to be refused: {part}")


def try_refused_files():
    for name, data, given, part in FILES:
        expect_refused(name, part, lambda: frozen_after(PROGRAM, put(data), data, given))
    part = "neither waits nor has ended after 100 steps"
    expect_refused("steps", part, lambda: state_after(PROGRAM, put(LOOP), b"", 100))
    with open("older", "w", encoding="ascii") as file:
        file.write("#!/bin/sh\nexit 2\n")
    os.chmod("older", 0o755)
    path = os.path.realpath("older")
    expect_refused("state", "no command state", lambda: state_after(path, put(LOOP), b"", 100))


def try_tool():
    """An older file stays if it is refused; facts and places are printed."""
    put(b"old", "frozen.code")
    refused = tool(put(STOPS, "stops.code"), "-o", "frozen.code", given=b"a")
    must(refused[:2] == (1, "") and bytes_of("frozen.code") == b"old", refused)
    must(refused[2].startswith("stops.code: refused, ended: the program has ended"), refused)
    done = tool(ADVENTURE, "-o", "frozen.code", given=b"LOOK\n")
    must(done[0] == 0 and "frozen once, after 5 keys and" in done[1], done)
    again = tool("frozen.code", "-o", "again.code", given=b"")
    must(again[0] == 0 and "frozen 2 times, after 5 keys and" in again[1], again)
    frozen = frozen_in(bytes_of("frozen.code"))
    facts = f"times 1\nread 5\nwrote {frozen.wrote}\noriginal {len(bytes_of(ADVENTURE))}\n"
    must(tool("--facts", "frozen.code") == (0, facts, ""), "the facts")
    row = frozen.rows[0]
    place = tool("--map", "frozen.code", str(row.number), str(row.begin))
    must(place == (0, f"procedure {row.of} at {row.back}\n", ""), place)
    alike = tool(ADVENTURE, "--check", "frozen.code", given=b"LOOK\n")
    must(alike[0] == 0 and "places are alike; " in alike[1], alike)
    passed("an older file stays; facts, places and checks are told")


def try_files():
    for path, name, part in ((ADVENTURE, "original", "it was never frozen"),):
        refused = tool("--facts", path)
        must(refused[:2] == (1, "") and f"refused, {name}: {part}" in refused[2], refused)
    tool(ADVENTURE, "-o", "frozen.code", given=b"LOOK\n")
    made = bytes_of("frozen.code")
    put(made[:512] + made[-200:], "cut.code")
    refused = tool("--facts", "cut.code")
    must(refused[0] == 1 and "refused, damaged: its end says" in refused[2], refused)
    # A key more was typed than the file knows of.
    refused = tool(ADVENTURE, "--check", "frozen.code", given=b"LOOK\nE")
    must(refused[0] == 1 and "refused, check: it does not continue" in refused[2], refused)
    refused = tool("none.code", "-o", "new.code")
    must(refused[2] == "none.code: it cannot be read: No such file or directory\n", refused)
    refused = tool("frozen.code", "-o", "frozen.code")
    must(refused[0] == 1 and "would take the place of the file" in refused[2], refused)
    must(bytes_of("frozen.code") == made, "the file stays")
    passed("files that are not frozen, cut off, of other keys, missing or the same are refused")


def try_arguments():
    for words in ((), ("a",), ("a", "-o", "b", "--check", "c"), ("--map", "a", "1", "x"),
                  ("--facts", "a", "b"), ("--facts", "a", "--map", "a", "1", "2"), ("--none",)):
        status, out, err = tool(*words)
        must((status, out) == (2, "") and err.startswith("usage: freeze"), f"{words}: {err}")
    passed("wrong arguments")


def answering(command):
    """A program that does this in place of `frozen`, and all else as the program does."""
    with open("answering", "w", encoding="utf-8") as file:
        file.write(f'#!/bin/sh\n[ "$1" = frozen ] || exec {PROGRAM} "$@"\n{command}\n')
    os.chmod("answering", 0o755)
    return os.path.realpath("answering")


def try_asked():
    """What `pgroup frozen` says of the frozen file decides, if the program has it."""
    keys = put(b"LOOK\n", "keys")
    same = f"{PROGRAM} state {ADVENTURE} --steps 4000000 < {keys}"
    none = "this pgroup has no command frozen, so the proved check was left out"
    tool(ADVENTURE, "-o", "frozen.code", given=b"LOOK\n")
    for command, status, part in (
        (same, 0, "places are alike; pgroup frozen agrees\n"), ("exit 2", 0, none),
        (f"{same} | sed s/^read.*/read\\ 6/", 1, "prints of it that the original stands elsewhere"),
        ("echo refused Z7 >&2; exit 1", 1, "refused, proof: pgroup frozen says of /"),
        ("echo steps >&2; exit 4", 1, "frozen.code neither waits nor has ended"),
    ):
        done = tool(ADVENTURE, "--check", "frozen.code", given=b"LOOK\n",
                    program=answering(command))
        must(done[0] == status and part in done[1] + done[2], f"{command}: {done}")
        before = bytes_of(put(b"old", "new.code"))
        made = tool(ADVENTURE, "-o", "new.code", given=b"LOOK\n", program=answering(command))
        is_kept = bytes_of("new.code") == before
        must(made[0] == status and is_kept == (status == 1), f"{command}: {made}")
    passed("a file that pgroup frozen refuses, or sees elsewhere, is refused and not written")


TESTS = (try_refused_files, try_asked, try_tool, try_files, try_arguments)
