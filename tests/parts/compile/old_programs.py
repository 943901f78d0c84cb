"""The programs of examples/old: from a volume's image to three nodes that lose their leader."""

import os
import subprocess
import sys
from itertools import islice

from ..checks import passed
from ..files import bytes_of
from ..program import PROGRAM, TOP, must
from .judging import TOOLS, run, tool, write
from .units import numbers

OLD = os.path.join(TOP, "examples", "old")
MENU = "A(dd L(ist S(ummary O(rder Q(uit: "
STATISTICS = ("A\n1 3\nA\n2 5\na\n4 9\nA\n3 7\nS\nO\nQ\n", [
    f"STATISTICS\n{MENU}A\nX and Y: 1 3\n1 measurements\n", "4 measurements\n",
    "Mean of X      2.5000  deviation      1.1180\n",
    "Mean of Y      6.0000  deviation      2.2361\n",
    "Y =    1.0000 +    2.0000 * X\n", "   2       2.000       5.000\n"
    "   3       3.000       7.000\n   4       4.000       9.000\n"])
INVENTORY = ("N\n7\nBOLT 8 MM\nN\n3\nLAMP\nI\n7\n1000 25\nI\n3\n9 32000\nO\n7\n1500 1\n"
             "O\n7\n500 25\nI\n100\nI\n5\nL\nQ\n", [
                 "  7  BOLT 8 MM             1000      250.00\n",
                 "  3  LAMP                     9     2880.00\n", "There are only 1000.\n",
                 "Numbers are from 0 to 49.\n", "There is no such item.\n",
                 "Q(uit: L\n  3  LAMP                     9     2880.00\n"
                 "  7  BOLT 8 MM              500      125.00\nN(ew"])
CAVE = ("N\nRESTORE\nE\nE\nTAKE\nSAVE\nX\nW\nW\nRESTORE\nTAKE\nQUIT\n", [
    "You stand before a cave.\n> N\nA low hall, with a draught from the east.",
    "Nothing is saved.\n",
    "A gem glows here.", "Taken.\n> SAVE\nSaved.\n> X\nThere is no way.\n",
    "A low hall, with a draught from the east.", "> RESTORE\nA chamber of crystals.",
    "There is nothing to take.\n> QUIT\n"])
PROGRAMS = [("statistics", STATISTICS), ("inventory", INVENTORY), ("cave", CAVE)]
UNIT = "CAVEROOMS.TEXT"


def volume(*words):
    command = [sys.executable, os.path.join(TOOLS, "volume"), *words]
    done = subprocess.run(command, check=False, capture_output=True)
    must(done.returncode == 0, f"tools/volume {words}: {done.stderr}")


def at_three_nodes(code, given, whole):
    """Two nodes have the keys in turn, and the leader falls in the middle."""
    script = ["size 3 session 7", "start 1", "start 2", "start 3", "campaign 1", "settle"]
    for number, key in enumerate(given.encode()):
        if number == len(given) // 2:
            script += ["crash 1", "campaign 2", "settle"]
        node = 2 + number % 2
        script += [f"type {node} {key:02X}", f"tick {node}", "settle"]
    write("old.script", "\n".join(script + ["settle"] * 1500 + ["show", ""]))
    done = subprocess.run([PROGRAM, "sim", code, "old.script"], check=True, capture_output=True)
    shown = [line.split(b" ")[-1].decode() for line in done.stdout.split(b"\n")[:3]]
    wanted = whole.encode().hex().upper()
    must(shown[1:] == [wanted, wanted] and wanted.startswith(shown[0]) and shown[0] != wanted,
         f"{code} at three nodes: {shown}")


def try_old():
    texts = []
    for name, _ in PROGRAMS:
        texts.append(f"{name.upper()}.TEXT")
        write(texts[-1], bytes_of(os.path.join(OLD, f"{name}.pas")))
    write(UNIT, bytes_of(os.path.join(OLD, UNIT)))
    volume("old.dsk", "--dos", "--put", *texts, UNIT)
    os.mkdir("out")
    volume("old.dsk", "--raw", "--to", "out", "--get", "*.TEXT")
    for name, (given, parts) in PROGRAMS:
        code = f"{name}.code"
        done = tool("-o", code, os.path.join("out", f"{name.upper()}.TEXT"))
        must(done[0] == 0, f"{code}: {done}")
        must(bytes_of(code) == bytes_of(os.path.join(OLD, code)), f"{code} is another one")
        output, ending = run(bytes_of(code), given)
        must(ending == "", f"{name} ends with {ending}")
        rest = output
        for part in parts:
            must(part in rest, f"{name}: {part!r} is not in {rest!r}")
            rest = rest.split(part, 1)[1]
        at_three_nodes(code, given, output)
    passed(f"{len(PROGRAMS)} old programs go from a volume to three nodes that lose their leader")


def try_bat():
    """The bat of the cave flies by chance, which is the same at all nodes."""
    rooms = [it % 6 + 1 for it in islice(numbers((1982, 31, 188)), 40)]
    ways = [2, 1] * 20
    lines = {1: "You stand before a cave.", 2: "A low hall, with a draught from the east."}
    wanted = "".join(f"> {'NS'[k % 2]}\n{lines[way]}"
                     f"{' A bat flutters about you.' * (bat == way)}\n"
                     for k, (way, bat) in enumerate(zip(ways, rooms)))
    output = run(bytes_of(os.path.join(OLD, "cave.code")), "N\nS\n" * 20 + "QUIT\n")[0]
    must(any(bat == way for bat, way in zip(rooms, ways)) and wanted in output, f"{output!r}")
    passed("the bat flies as it is drawn")


TESTS = (try_old, try_bat)
