"""What tests/compile tries: each function is a test."""

import glob
import os
import random
import re
import subprocess
import sys

from ..checks import passed
from ..files import bytes_of
from ..program import PROGRAM, TOP, must
from . import file_cases, limits, longs, real_cases
from .cases import CASES as OTHERS
from .programs import BY_HAND, PROGRAMS
from .refusals import (DECLARATIONS, DECLARED, LINE, SEVERAL, SEVERAL_PLACES, STATEMENTS, TEXTS,
                       TYPED, TYPED_PLACES)
from .judging import (TOOL, Options, Refused, compile_text, faults_of, prints, read_text, run, tool,
                      write)
from assembler import command as assembler

CASES = OTHERS + real_cases.CASES + file_cases.CASES + longs.CASES
EXAMPLES = os.path.join(TOP, "examples")
# What is put into a text in a wrong place.
BITS = ("STRING SET ^ NIL 0 32768 - [ ] VAR FORWARD; RECORD '' 1.5 WITH IN EXIT(PROGRAM) BEGIN "
        "END CASE ; : := . .. ( ) PACKED ARRAY OF FUNCTION USES LABEL GOTO 1: { (* $R- {$R-} \" \0"
        ).split(" ")


def try_cases():
    for name, declarations, statements, given, output, ending in CASES:
        text = f"PROGRAM T;\n{declarations}\nBEGIN\n{statements}\nEND.\n"
        prints(name, text, given, output, ending)
    cr = Options(line_end="cr", is_echoed=False)
    text = "PROGRAM T; VAR S: STRING; BEGIN READLN(S); WRITELN(S) END."
    prints("line ends", text, "a\r", "a\r", "", cr)
    prints("no echo", text, "a\n", "a\n", "", Options(is_echoed=False))
    write("part.inc", "CONST FIVE = 5;\n{$R-}")
    text = "PROGRAM T; {$I part.inc}\nVAR N: 1..9; BEGIN N := 2 * FIVE; WRITE(N) END."
    must("10 is outside 1..9" in faults_of(text)[0], "a constant of an included file")
    prints("an included file", text.replace("N := 2 * ", "N := "), "", "5", "")
    text = ("PROGRAM T; TYPE A = ARRAY[1..3] OF CHAR; VAR P: ^A; BEGIN NEW(P); NEW(P); "
            "WRITE(MEMAVAIL); NEW(P) END.")
    prints("a small heap", text, "", "1", "execution error 1", Options(heap=7))
    passed(f"{len(CASES) + 4} programs print what they have to")


def try_programs():
    """The examples and their programs, on the inputs that are written down with them."""
    for name, given, output, ending in PROGRAMS:
        data = compile_text(read_text(os.path.join(EXAMPLES, name)), name).data
        found = run(data, given)
        must(found[1] == ending, f"{name} ends with {found[1]!r}, and not with {ending!r}")
        if isinstance(output, str):
            must(found[0] == output, f"{name}: {found[0]!r} is not {output!r}")
            continue
        rest = found[0]
        for part in output:
            must(part in rest, f"{name}: {part!r} is not in {rest!r}")
            rest = rest.split(part, 1)[1]
    passed(f"the examples print what they have to on {len(PROGRAMS)} inputs")


def try_group():
    """At three nodes, of which two have keys in turn and the leader falls, a program shows at each
    node that is up what it prints alone."""
    name, given, output, _ = PROGRAMS[0]
    write("g.code", compile_text(read_text(os.path.join(EXAMPLES, name)), name).data)
    script = ["size 3 session 7", "start 1", "start 2", "start 3", "campaign 1", "settle"]
    for number, key in enumerate(given.encode()):
        if number == len(given) // 2:
            script += ["crash 1", "campaign 2", "settle"]
        node = 2 + number % 2
        script += [f"type {node} {key:02X}", f"tick {node}", "settle"]
    write("g.script", "\n".join(script + ["settle", "settle", "show", ""]))
    done = subprocess.run([PROGRAM, "sim", "g.code", "g.script"], check=True, capture_output=True)
    shown = [line.split(b" ")[-1].decode() for line in done.stdout.split(b"\n")[:3]]
    whole = output.encode().hex().upper()
    must(shown[1:] == [whole, whole] and whole.startswith(shown[0]) and shown[0] != whole,
         f"the consoles of {name} at three nodes are {shown}")
    passed("a program shows at three nodes what it prints alone")


def try_sizes():
    """No program is larger or takes more steps, by more than a tenth, than what was written by
    hand."""
    for name, (size, steps) in BY_HAND.items():
        data = compile_text(read_text(os.path.join(EXAMPLES, name)), name).data
        given = next(it[1] for it in PROGRAMS if it[0] == name)
        length = int.from_bytes(data[6:8], "little")
        must(length <= 1.1 * size, f"{name} has {length} bytes, and {size} by hand")
        ending = run(data, given, "--steps", str(int(1.1 * steps) + 1))[1]
        must(ending == "", f"{name} ends with {ending!r} within a tenth more than {steps} steps")
    passed(f"{len(BY_HAND)} programs are as small and as fast as by hand, to a tenth")


def try_made():
    """Each example's code file is that of its text, its assembly makes the same, and its listing is
    that of the loader with lines of the text between."""
    found = sorted(glob.glob(os.path.join(EXAMPLES, "**", "*.pas"), recursive=True))
    for path in found:
        text, code, listing = path, path[:-4] + ".code", path[:-4] + ".lst"
        must(tool("-o", "made.code", text)[0] == 0, f"{path} is refused")
        must(bytes_of("made.code") == bytes_of(code), f"{code} is not that of its text")
        status, assembly, _ = tool("--asm", text)
        write("again.asm", assembly)
        must(status == 0 and assembler.main(["again.asm"]) == 0, f"the assembly of {path}")
        is_same = bytes_of("again.code") == bytes_of(code)
        must(is_same, f"the assembly of {path} makes another file")
        status, listed, _ = tool("--list", os.path.basename(path), folder=os.path.dirname(path))
        if os.path.exists(listing):
            must(listed.encode() == bytes_of(listing), f"{listing} is not the listing of {path}")
        plain = subprocess.run([PROGRAM, "list", code], check=True, capture_output=True).stdout
        lines = [line for line in listed.splitlines(True) if not line.startswith(";")]
        must("".join(lines).encode() == plain, f"the listing of {path}")
    passed(f"{len(found)} code files are those of their texts, also by their assembly")


def try_refusals():
    count = 0
    for statement, column, part in STATEMENTS:
        told = faults_of(f"{DECLARED}{statement}\nEND.\n")
        must(told and told[0].startswith(f"t.pas:{LINE}:{column}: ") and part in told[0],
             f"{statement} ought to be refused at {LINE}:{column} with {part!r}; it is {told}")
        count += 1
    for declaration, column, part in DECLARATIONS:
        told = faults_of(f"PROGRAM T;\n{declaration}\nBEGIN END.\n")
        must(told and told[0].startswith(f"t.pas:2:{column}: ") and part in told[0],
             f"{declaration} ought to be refused at 2:{column} with {part!r}; it is {told}")
        count += 1
    for text, place, part in TEXTS:
        told = faults_of(text)
        must(told and told[0].startswith(f"t.pas:{place}: ") and part in told[0],
             f"{text!r} ought to be refused at {place} with {part!r}; it is {told}")
    for text, places in ((SEVERAL, SEVERAL_PLACES), (TYPED, TYPED_PLACES)):
        told = faults_of(text)
        must([it.split(": ")[0][6:] for it in told] == places, f"all faults are told: {told}")
    told = faults_of(DECLARED + "I := 'A';\n" * 20 + "END.")
    must(len(told) == 10, "ten faults are told")
    passed(f"{count + len(TEXTS) + 2} texts are refused at their places")


def try_limits():
    for name, text, given, output in limits.accepted():
        prints(name, text, given, output, "")
    for name, text, part in limits.refused():
        told = faults_of(text)
        must(len(told) > 0 and part in told[0], f"{name}: {told[:1]}")
    write("circle.inc", "{$I circle.inc}")
    told = faults_of("PROGRAM T; {$I circle.inc} BEGIN END.")
    must("more than 20 files include one another" in told[0], f"a circle of files: {told}")
    passed("limits are met, and told")


def garbled(random_source, texts):
    """A text with some of its tokens lost, doubled or exchanged."""
    tokens = list(random_source.choice(texts))
    for _ in range(random_source.choice([1, 1, 1, 2, 3])):
        at, chance = random_source.randrange(len(tokens)), random_source.random()
        if chance < 0.3:
            del tokens[at]
        elif chance < 0.6:
            tokens[at] = random_source.choice(tokens)
        elif chance < 0.8:
            tokens.insert(at, random_source.choice(tokens))
        else:
            tokens[at] = random_source.choice(BITS)
    return "".join(tokens)


def try_garbled(count):
    """A garbled text is refused at a place, or makes a file that `check` takes."""
    form = re.compile(r"\s+|\w+|'[^'\n]*'|\{[^}]*\}|\(\*|\*\)|:=|<>|<=|>=|\.\.|.")
    texts = [form.findall(f"PROGRAM T;\n{it[1]}\nBEGIN\n{it[2]}\nEND.\n") for it in CASES]
    names = ("echo", "calendar", "towers", "sorter", "calculator")
    texts += [form.findall(read_text(os.path.join(EXAMPLES, f"{name}.pas"))) for name in names]
    source, taken = random.Random(1), 0
    for _ in range(count):
        text = garbled(source, texts)
        try:
            data = compile_text(text, "t.pas").data
        except Refused as refused:
            told = str(refused.faults[0].place)
            must(re.match(r"(t\.pas|part\.inc):\d+:\d+$", told), f"{told!r} is no place: {text}")
            continue
        taken += 1
        write("t.code", data)
        done = subprocess.run([PROGRAM, "check", "t.code"], check=False, capture_output=True)
        must(done.returncode == 0, f"the loader says {done.stderr!r} of what is made of {text}")
    passed(f"of {count} garbled texts {taken} make files that `check` takes, and "
          f"{count - taken} are refused at a place")


def try_command():
    """The words, the statuses and the files."""
    write("hello.pas", "PROGRAM HELLO;\nVAR N: INTEGER;\nBEGIN\n  N := 0;\n  {$L+} WRITELN('HI');\n"
          "  N := 1 DIV N\nEND.\n")
    status, out, err = tool("hello.pas")
    must((status, out) == (0, "") and "hello.pas:5:3: note: the option L is not there" in err,
         f"hello.pas: {status} {out} {err}")
    done = subprocess.run([PROGRAM, "run", "hello.code"], check=False, capture_output=True)
    said = re.fullmatch(rb"execution error 6 in procedure (\d+) at (\d+)\n", done.stderr)
    must(done.stdout == b"HI\n" and said, f"hello.code says {done.stderr}")
    found = tool("--where", said[1].decode(), said[2].decode(), "hello.pas")[1]
    must(found == "hello.pas:6: N := 1 DIV N\n", f"--where says {found}")
    must(tool("--where", "1", "9999", "hello.pas")[0] == 1, "--where 1 9999 is refused")
    write("heap.pas", "PROGRAM H; VAR P: ^INTEGER; BEGIN WHILE TRUE DO NEW(P) END.")
    must(tool("heap.pas")[0] == 0, "heap.pas is compiled")
    done = subprocess.run([PROGRAM, "run", "heap.code"], check=False, capture_output=True)
    said = re.fullmatch(rb"execution error 1 in procedure (\d+) at (\d+)\n", done.stderr)
    found = tool("--where", said[1].decode(), said[2].decode(), "heap.pas")[1]
    must(found.startswith("library/heap.pas:") and "the heap is full" in found, found)
    status, out, _ = tool("--help")
    must(status == 0 and "nothing of it is proved" in out and "--where" in out, "--help")
    for words in ((), ("--gone", "hello.pas"), ("--where", "1", "hello.pas"), ("hello.pas", "x"),
                  ("--heap", "0", "hello.pas"), ("--check", "--asm", "hello.pas")):
        must(tool(*words)[0] == 2, f"{words} are no words")
    must("PROCEDURE PUTCHAR(C: CHAR);" in tool("--library")[1], "--library")
    write("bad.pas", "PROGRAM B; BEGIN X := 1 END.")
    write("bad.code", "old")
    before = sorted(os.listdir("."))
    must(tool("bad.pas") == (1, "", "bad.pas:1:18: X is not declared\n"), "bad.pas is refused")
    must(tool("gone.pas")[0] == 1 and tool("--check", "hello.pas")[0] == 0, "gone.pas, --check")
    must(tool("-o", "hello.pas", "hello.pas")[0] == 1, "the text is not written over")
    is_left = sorted(os.listdir(".")) == before and bytes_of("bad.code") == b"old"
    must(is_left, "nothing is written")
    must(tool("-o", "gone/x.code", "hello.pas")[0] == 1, "a folder that is not there")
    old = "import sys; sys.version_info = (3, 6, 15); sys.argv = ['compile']; "
    done = subprocess.run([sys.executable, "-c", f"{old}exec(open({TOOL!r}).read())"], check=False,
                          capture_output=True)
    must(done.returncode == 2 and b"Python 3.8 or newer is wanted" in done.stderr, "an old Python")
    passed("words, statuses and files are as help says")
