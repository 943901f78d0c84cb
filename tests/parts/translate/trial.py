"""What tests/translate tries: each function is a test."""

import os
import random
import subprocess
import sys

from pcode.faults import Fault
from translator.program import translate
from translator.reading import read

from ..checks import passed
from ..files import bytes_of
from ..program import PROGRAM, TOP, must
from .comparing import compare_all, run
from .interpreter import interpreted
from .oldfiles import LINKED, SEGPROC, Assembler, code_file
from .random_files import random_file
from .refusals import CASES, END, program

TOOL = os.path.join(TOP, "tools", "translate")


def write(name, data):
    with open(name, "wb") as file:
        file.write(data)


def tool(*words):
    """The status of tools/translate, and what it has printed."""
    done = subprocess.run([sys.executable, TOOL, *words], check=False, capture_output=True)
    return done.returncode, done.stdout.decode(), done.stderr.decode()


def try_refusals():
    """Each refusal is told with its place, and nothing is written."""
    for name, data, part in CASES:
        try:
            translate(read(data, "old.code"))
        except Fault as fault:
            told = f"{fault.place}: {fault}"
            must(part in told, f"{name} ought to be refused with {part!r}; it is {told!r}")
        else:
            must(False, f"{name} ought to be refused")
    write("old.code", CASES[0][1])
    write("new.code", b"old")
    status, out, err = tool("old.code", "-o", "new.code")
    must((status, out) == (1, "") and err.startswith(CASES[0][2]), f"{status} {out} {err}")
    must(bytes_of("new.code") == b"old", "an older file stays")
    passed(f"{len(CASES)} files are refused, each with its place")


def try_files(first, count):
    """Random files do what the interpreter says, or are refused."""
    ends = compare_all(first, count)
    told = ", ".join(f"{number} {ending}" for ending, number in sorted(ends.items()))
    passed(f"of {count} random files none differs: {told}")


def damaged(source, data):
    """A file that is cut, or has some of its bytes changed or moved."""
    data, kind = bytearray(data), source.randrange(4)
    if kind == 0:
        return bytes(data[:source.randrange(len(data))])
    for _ in range(source.choice([1, 1, 2, 5, 30])):
        at = source.randrange(len(data) if kind == 1 else 300 if kind == 2 else len(data) - 512)
        at += 512 * (kind == 3)
        data[at] = source.choice([0, 1, 255, source.randrange(256), data[at] ^ 1 << at % 8])
    if source.random() < 0.1:
        data += bytes(source.randrange(3000))
    return bytes(data)


def try_damaged(first, count):
    """A damaged file is refused at a place, or makes a file that `check` takes."""
    source, taken = random.Random(first + 1), 0
    files = [random_file(seed).data for seed in range(first, first + 40)]
    for number in range(count):
        data = damaged(source, source.choice(files))
        try:
            made = translate(read(data, "old.code"))
        except Fault as fault:
            must(str(fault.place).startswith("old.code"), f"{number}: {fault.place} is no place")
            continue
        taken += 1
        write("new.code", made.data)
        done = subprocess.run([PROGRAM, "check", "new.code"], check=False, capture_output=True)
        must(done.returncode == 0, f"the loader says {done.stderr!r} of the damaged file {number}")
    passed(f"of {count} damaged files {taken} make files that `check` takes, and {count - taken} "
           "are refused at a place")


def example(order="little"):
    """A file of two segments with READ, WRITE, strings and sets."""
    one, two = Assembler(order), Assembler(order)
    text = ("CXP 7 1\nLOD 1 2\nLAO 3\nCXP 0 12\nLOD 1 2\nCXP 0 21\nLOD 1 3\nLDO 3\nSLDC 5\n"
            "CXP 0 13\nLOD 1 3\nCXP 0 22\nLAO 4\nLSA 'PLENTY'\nSAS 80\nLDO 3\n"
            "LDC 2 1023 0\nSLDC 3\nINN\nFJP few\nLOD 1 3\nLAO 4\nSLDC 0\nCXP 0 19\nfew:\n"
            "LOD 1 3\nCXP 0 22\nSLDC 1\nLDO 3\nSLDC 20\nSBI\nDVI\nSRO 3\n")
    one.procedure(1, 0, 2, 60, text + END)
    two.procedure(1, 1, 0, 0, "LOD 2 3\nLSA 'HOW MANY? '\nSLDC 0\nCXP 0 19\nexit:\nRNP 0\n")
    return code_file([(1, "SHOP", LINKED, one.finished(1)), (7, "ASK", SEGPROC, two.finished(7))],
                     order)


def try_example():
    """The same program in both orders of bytes, by what is written down here."""
    wanted = {b"16\n": (b"HOW MANY? 16\n   16\nPLENTY\n", "normal"),
              b"3\n": (b"HOW MANY? 3\n    3\n\n", "normal"),
              b"20\n": (b"HOW MANY? 20\n   20\nPLENTY\n", "error")}
    for order in ("little", "big"):
        data = example(order)
        made = translate(read(data, "old.code")).data
        for given, (output, ending) in wanted.items():
            found, end = run(made, given)
            must(found == output and ending in end, f"{order} {given}: {found!r} {end}")
            again, end = interpreted(data, given, order=order)
            must(again == output and ending in end, f"{order} {given}: interpreted {again!r} {end}")
    passed("a program of two segments runs in both orders of bytes, and is interpreted alike")


def try_command():
    """The words, the statuses and the files."""
    write("SHOP.CODE", example())
    must(tool("SHOP.CODE") == (0, "", "") and os.path.exists("SHOP.new.code"), "SHOP.CODE")
    done = subprocess.run([PROGRAM, "run", "SHOP.new.code"], input=b"20\n", check=False,
                          capture_output=True)
    words = done.stderr.decode().split()
    must(words[:3] == ["execution", "error", "6"], f"the new file ends with {done.stderr!r}")
    status, out, _ = tool("--where", words[5], words[7], "SHOP.CODE")
    must((status, out) == (0, "segment 1 SHOP procedure 1 at 78: DVI\n"), f"--where says {out!r}")
    must(tool("--where", "1", "1", "SHOP.CODE")[0] == 1, "--where 1 1 is refused")
    status, out, _ = tool("--check", "SHOP.CODE")
    for part in ("UCSD Pascal II.0, the low byte", "segment 7 ASK: SEGPROC, 1 procedures",
                 "it uses sets, strings\n", "FREADINT 1", "it can be translated: to "):
        must(status == 0 and part in out, f"--check does not say {part!r}: {out}")
    status, out, _ = tool("--list", "SHOP.CODE")
    for part in ("segment 7 ASK\nproc 1 level 1 params 0 data 0 enter 0 exit 19\n00000 LOD 2 3\n"
                 "00003 LSA 'HOW MANY? '\n00015 SLDC 0\n00016 CXP 0 19  ; FWRITESTRING\n"
                 "00019 RNP 0\n", "00046 LDC 2 1023 0\n"):
        must(status == 0 and part in out, f"--list does not say {part!r}: {out}")
    status, out, _ = tool("--map", "SHOP.CODE")
    must(status == 0 and "segment 7 ASK procedure 1 at 3\n" in out, f"--map: {out}")
    write("BAD.CODE", program("CXP 9 1\n" + END))
    status, out, err = tool("--check", "BAD.CODE")
    must(status == 1 and "segment 1 OLD: LINKED, 1 procedures" in out and "segment 9" in err,
         f"--check of a file that cannot be translated: {status} {out} {err}")
    for words in ((), ("--gone", "SHOP.CODE"), ("--where", "1", "SHOP.CODE"), ("--check", "--map")):
        must(tool(*words)[0] == 2, f"{words} are no words")
    must(tool("gone.code")[0] == 1, "gone.code")
    must(tool("SHOP.CODE", "-o", "SHOP.CODE")[0] == 1, "the old file is not written over")
    must(bytes_of("SHOP.CODE") == example(), "the old file stays")
    passed("words, statuses and files are as help says")


def try_volume():
    """A file is taken out of the image of a disk."""
    write("SHOP.CODE", example())
    for more in ((), ("--dos",)):
        image = f"{len(more)}.dsk"
        subprocess.run([sys.executable, os.path.join(TOP, "tools", "volume"), image, *more,
                        "--put", "SHOP.CODE"], check=True)
        status, _, err = tool("--volume", image, "shop.code", "-o", f"{len(more)}.code")
        must(status == 0, err)
    tool("SHOP.CODE", "-o", "plain.code")
    is_same = bytes_of("0.code") == bytes_of("1.code") == bytes_of("plain.code")
    must(is_same, "the files of two images are that of the file itself")
    status, _, err = tool("--volume", "0.dsk", "GONE.CODE")
    must((status, err) == (1, "0.dsk: it has no file GONE.CODE\n"), err)
    passed("a file is taken out of an image, in both orders of its sectors")


# 300.0 as three machines have it: the words of an LDC, the higher one in memory first. The PDP-11's
# exponent is 2 greater than that of IEEE 754, whose words are 4396 and 0000 in hexadecimal.
REALS = {"low": (0x4396, 0), "high": (0, 0x4396), "pdp": (0, 0x4396 + (2 << 7))}


def try_reals():
    """REAL constants in three forms."""
    for form, words in REALS.items():
        write("REAL.CODE", program(f"LOD 1 3\nLDC {words[0]} {words[1]}\nCSP 23\nSLDC 0\nCXP 0 13\n"
                                   + END))
        status, _, err = tool("REAL.CODE", "-o", "real.code", "--reals", form)
        must(status == 0, err)
        found = run(bytes_of("real.code"), b"")
        must(found == (b"300", "normal"), f"300.0 in the form {form} is {found}")
    passed("REAL constants are taken in three forms")


TESTS = (try_refusals, try_example, try_command, try_volume, try_reals)
