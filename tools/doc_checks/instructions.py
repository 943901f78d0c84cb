"""The table of instructions, which docs/FORMATS.md, specs/Opcodes.antt and the tools share."""
import re
import sys

from . import tree
from .tree import cells_of, fault, text_of

# How docs/FORMATS.md and tools/pcode write each form of specs/Opcodes.antt.
FORMS = {
    "Alone": ("", "PLAIN"), "Numbered": ("number", "SHORT"), "WithByte": ("UB", "BYTE"),
    "WithBig": ("B", "BIG"), "WithWord": ("W", "LDCI"), "WithLevels": ("DB,B", "LEVELS"),
    "WithSigned": ("SB", "JUMP"), "Typed": ("type byte", "COMPARE"), "Packed": ("UB,UB", "PACKED"),
    "Standard": ("UB", "BYTE"), "CaseJump": ("", "XJP"),
}
# The instructions of the forms that have one alone.
ONLY = {"Packed": "IXP", "Standard": "CSP", "CaseJump": "XJP"}


def rows_of_specs():
    """The rows of the table as a set of names, opcodes, the range of the numbers in them, and
    forms."""
    found = set()
    text = re.sub(r"^--.*$", "", text_of("crates/pcode_ops/specs/Opcodes.antt"), flags=re.M)
    row = re.compile(r"^    (?:∷ )?\((\d+), (\w+)(?: (\d+) (\d+))?(?: \(λ [^.]*\.)? ?(\w*)", re.M)
    for opcode, form, count, number, variant in row.findall(text):
        numbers = (int(number), int(number) + int(count) - 1) if count else None
        found.add((ONLY.get(form, variant.upper()), int(opcode), numbers, form))
    return found


def rows_of_formats():
    """The same of docs/FORMATS.md, with the operands as they are written there."""
    found = set()
    section = text_of("docs/FORMATS.md").split("## Instructions")[1].split("\n## ")[0]
    for line in section.split("\n"):
        cells = cells_of(line)
        is_row = len(cells) == 5
        codes = is_row and re.fullmatch(r"(\d+)(?: to (\d+))?((?:, \d+)*)", cells[0])
        if not codes:
            continue
        names = list(dict.fromkeys(re.findall(r"[A-Z]{3,4}", cells[1])))
        opcodes = [int(codes[1])] + [int(it) for it in re.findall(r"\d+", codes[3])]
        numbers = re.search(r"(\d+) to (\d+)", cells[1])
        if codes[2]:
            least = int(numbers[1]) if numbers else int(codes[1])
            within = (least, least + int(codes[2]) - int(codes[1]))
            found.add((names[0], opcodes[0], within, "number"))
            continue
        operands = re.search(r"type byte|(?<= )(?:(?:UB|DB|SB|B|W),?)+$", cells[1])
        form = operands[0] if operands else ""
        # DB alone is a byte as UB is one.
        form = "UB" if names == ["CSP"] or form == "DB" else form
        if len(names) != len(opcodes):
            fault(f"docs/FORMATS.md: {cells[1]} has other opcodes than {cells[0]}")
        found.update((name, opcode, None, form) for name, opcode in zip(names, opcodes))
    return found


def rows_of_tools():
    """The same of tools/pcode, with the names of its tables."""
    sys.path.insert(0, f"{tree.TOP}/tools")
    sys.dont_write_bytecode = True
    from pcode import instructions as table

    found = {("LDCI", table.LDCI, None, "LDCI"), ("XJP", table.XJP, None, "XJP")}
    for form in ("PLAIN", "BYTE", "BIG", "LEVELS", "PACKED", "COMPARE", "JUMP"):
        found.update((name, opcode, None, form) for name, opcode in getattr(table, form).items())
    found.update((name, opcode, None, "BYTE") for name, opcode in table.CALL.items())
    found.update(
        (name, base + least, (least, most), "SHORT")
        for name, (base, least, most) in table.SHORT.items()
    )
    return found


def check_tables():
    rows = rows_of_specs()
    if len(rows) < 60:
        fault(f"crates/pcode_ops/specs/Opcodes.antt: only {len(rows)} rows were understood")
    places = ("docs/FORMATS.md", rows_of_formats(), 0), ("tools/pcode", rows_of_tools(), 1)
    for place, found, column in places:
        wanted = {(*row, FORMS[form][column]) for *row, form in rows}
        for row in sorted(wanted - found, key=str):
            fault(f"{place}: lacks the instruction {row} of specs/Opcodes.antt")
        for row in sorted(found - wanted, key=str):
            fault(f"{place}: has the instruction {row}, which specs/Opcodes.antt has not")
