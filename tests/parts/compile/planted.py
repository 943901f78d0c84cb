"""Faults that are planted in the compiler, to see whether tests notice them."""

import os
import shutil
import subprocess
import sys

JUDGE = os.path.join(os.path.dirname(os.path.abspath(__file__)), "judge.py")

# Each: a file of tools, what stands there, and what is put in its place.
FAULTS = [
    ("compiler/checking/values.py", '"MOD": "MODI"', '"MOD": "DVI"'),
    ("compiler/checking/values.py", '"<=": "LEQ"', '"<=": "LES"'),
    ("compiler/checking/values.py", "return -quotient if (left < 0) != (right < 0)",
     "return -quotient if (left < 0) and (right < 0)"),
    ("compiler/checking/context.py", "return tree.Operation(value.type, (\"LAND\",)",
     "return tree.Operation(value.type, (\"LOR\",)"),
    ("compiler/checking/layout.py", "self.bit + bits > WORD", "self.bit + bits > WORD + 1"),
    ("compiler/checking/types.py", "self.high.bit_length())", "(self.high - 1).bit_length())"),
    ("compiler/checking/types.py", "(self.count + self.per_word - 1) // self.per_word",
     "self.count // self.per_word"),
    ("compiler/checking/locations.py", "number(wanted.low), number(wanted.high)",
     "number(wanted.low), number(wanted.high + 1)"),
    ("compiler/checking/declarations.py", "offset -= pushed_words(parameter)", "offset -= 1"),
    ("compiler/checking/sets.py", "return max(known_words(left), known_words(right))",
     "return min(known_words(left), known_words(right))"),
    ("compiler/checking/procedures.py", "part = tree.Concatenation(",
     "part = (lambda _, it: it[0])("),
    ("compiler/generating/code.py", "self.routine.level - routine.level, offset",
     "max(1, self.routine.level - routine.level - 1), offset"),
    ("compiler/generating/code.py", "MOST_SHORT = 16", "MOST_SHORT = 17"),
    ("compiler/generating/places.py", "if isinstance(place, Pointer) and place.offset:",
     "if isinstance(place, Pointer) and place.offset > 1:"),
    ("compiler/generating/places.py", "\"SBI\" if number > 0 else \"ADI\"", "\"SBI\""),
    ("compiler/generating/values.py", "\"NEQI\": \"NFJ\"", "\"NEQI\": \"EFJ\""),
    ("compiler/generating/values.py", "\"CLP\" if routine.parent is self.routine else \"CIP\"",
     "\"CLP\""),
    ("compiler/generating/statements.py", "offset = self.top + 1", "offset = self.top"),
    ("compiler/generating/statements.py", "\"GEQI\" if node.is_down else \"LEQI\"",
     "\"GRTI\" if node.is_down else \"LEQI\""),
    ("compiler/generating/statements.py", "where.get(value, \"-\")", "where.get(value, end)"),
    ("compiler/generating/statements.py", "\"EFJ\" if is_last else \"NFJ\"", "\"EFJ\""),
    ("compiler/generating/statements.py", "opening.is_frame = isinstance(place, Frame)",
     "opening.is_frame = isinstance(place, Frame) or True"),
    ("compiler/generating/blocks.py", "if k else \"ASSIGN\"", "if k > 1 else \"ASSIGN\""),
    ("compiler/generating/blocks.py", "known[element // 16] |= 1 << element % 16",
     "known[element // 16] = 1 << element % 16"),
    ("compiler/generating/far.py", "excess = len(uses) - MOST_FAR",
     "excess = len(uses) - MOST_FAR - 9"),
    ("compiler/generating/exits.py", "exits[routine].add(node.routine)",
     "exits[routine] = {node.routine}"),
    ("compiler/library/output.pas", "BLANKS(WIDTH - 6 + I)", "BLANKS(WIDTH - 5 + I)"),
    ("compiler/library/strings.pas", "S[AT + I - 1] := T[I]", "S[AT + I] := T[I]"),
    ("compiler/library/strings.pas", "FOR I := HAS DOWNTO AT DO", "FOR I := HAS DOWNTO AT + 1 DO"),
    ("compiler/library/sets.pas", "ORD(ODD(S[I]) AND NOT ODD(T[I]))\nEND", "S[I] - T[I]\nEND"),
    ("compiler/library/input.pas", "IF ISEOLN[F] THEN C := ' '", "IF FALSE THEN C := ' '"),
    ("compiler/library/blocks.pas", "UNTIL (D <> 0) OR (I = N)", "UNTIL (D <> 0) OR (I = N - 1)"),
    ("compiler/library/reals.pas", "IF (REST > HALFWAY) OR ODD(LOW)", "IF (REST > HALFWAY)"),
    ("compiler/library/reals.pas", "REST := 4096 - REST", "REST := 4095 - REST"),
    ("compiler/library/reals.pas", "IF (T > B3) OR (T = B3) AND (U >= B1)", "IF (T > B3 + B3)"),
    ("compiler/library/decimals.pas", "5 * UNITAT(PLACE + 1)", "4 * UNITAT(PLACE + 1)"),
    ("compiler/library/files.pas", "IF M > N - I THEN M := N - I", "IF M > N THEN M := N"),
    ("compiler/library/directory.pas", "UNLINK(OLD);", ""),
    ("compiler/library/longs.pas", "100 * R[N + 1] + T", "100 * R[N + 1]"),
    ("pcode/encoder.py", "if value < 128:\n        return byte(value)",
     "if value < 129:\n        return byte(value)"),
]
# A fault that changes no program, to see that nothing is noticed where nothing is wrong.
HARMLESS = ("pcode/encoder.py", "if after <= target <= after + 127:",
            "if after <= target <= after + 126:")


def planted(tools, room, fault):
    """A copy of the tools with a fault."""
    file, old, new = fault
    copy = os.path.join(room, "tools")
    shutil.rmtree(copy, ignore_errors=True)
    shutil.copytree(tools, copy)
    path = os.path.join(copy, file)
    with open(path, encoding="utf-8") as stream:
        text = stream.read()
    if old not in text:
        sys.exit(f"tests/pascal: {file} has no {old!r} any more")
    with open(path, "w", encoding="utf-8") as stream:
        stream.write(text.replace(old, new, 1))
    return copy


def first_wrong(tools, runner, programs):
    """The first program of a file that the compiler of a folder gets wrong, or none."""
    done = subprocess.run([sys.executable, JUDGE, tools, runner, programs], check=False,
                          capture_output=True)
    if done.returncode != 0:
        return f"1 it falls: {done.stderr.decode().strip().splitlines()[-1:]}"
    return done.stdout.decode().strip()


def try_faults(tools, runner, room, sets):
    """Plants each fault, and prints which set of programs notices it, and how many are noticed by
    each and by any."""
    noticed = dict.fromkeys(sets, 0)
    either = 0
    for fault in FAULTS:
        copy = planted(tools, room, fault)
        found = {name: first_wrong(copy, runner, file) for name, file in sets.items()}
        for name, wrong in found.items():
            noticed[name] += wrong != "none"
        either += any(wrong != "none" for wrong in found.values())
        told = ", ".join(f"{name}: {wrong}" for name, wrong in found.items())
        print(f"{fault[0]}: {fault[2].splitlines()[0][:50]} -- {told}", flush=True)
    copy = planted(tools, room, HARMLESS)
    for name, file in sets.items():
        if first_wrong(copy, runner, file) != "none":
            sys.exit(f"tests/pascal: {name} refuse a compiler that is right")
        print(f"{name}: {noticed[name]} of {len(FAULTS)} planted faults are noticed")
    print(f"together: {either} of {len(FAULTS)} planted faults are noticed")
