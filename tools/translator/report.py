"""What is told of an old code file: what it is and needs, its listing, the map to the new one."""

from collections import Counter

from compiler.faults import Place as TextPlace
from compiler.report import Source
from pcode.faults import Fault

from .decoding import Decoder
from .program import translate
from .reading import DATA_SEGMENT, KINDS, Place
from .system import told_of
from .table import REALS, SETS, STANDARD, STRINGS, TYPES, standard_name

# What instructions are about, and procedures of the system and standard procedures.
ABOUT = {
    "REALs": ("ABR ADR DVR FLO FLT MPR NGR SBR SQR", (14, 15), range(23, 32)),
    "sets": ("ADJ DIF INN INT SGS SRS UNI", (), ()),
    "strings": ("IXS LSA SAS", range(23, 28), ()),
    "files": ("", (3, 5, 28), ()),
    "the heap": ("", (), (1, 32, 33, 40)),
    "EXIT": ("", (), (4,)),
    "intrinsic units": ("LAE LDE STE", (), ()),
}
COMPARED = {REALS: "REALs", STRINGS: "strings", SETS: "sets"}


def reached(segment, procedure):
    """The instructions of a procedure, or the fault that is met in it."""
    try:
        return Decoder(segment, procedure).reached(), None
    except Fault as fault:
        return {}, fault


def needs_of(found):
    """What the file is about, and how often it calls which procedures of the system."""
    about, calls = set(), Counter()
    for segment in found.segments.values():
        for procedure in segment.procedures.values():
            for it in reached(segment, procedure)[0].values():
                system = it.operands[1] if it.name == "CXP" and it.operands[0] == 0 else None
                standard = it.operands[0] if it.name == "CSP" else None
                about.update(what for what, (names, some, others) in ABOUT.items()
                             if it.name in names.split() or system in some or standard in others)
                if it.name in ("EQU", "NEQ", "LEQ", "LES", "GEQ", "GRT"):
                    about.update({COMPARED[it.operands[0]]} if it.operands[0] in COMPARED else ())
                if system is not None:
                    calls[told_of(system)] += 1
                elif standard is not None:
                    calls[standard_name(standard) or f"standard procedure {standard}"] += 1
    return [it for it in ABOUT if it in about], calls


def check(found, choices):
    """The lines of --check, and the fault for which the file cannot be translated."""
    order = "low" if found.order == "<" else "high"
    lines = [f"{found.version()}, the {order} byte of a word first"]
    for segment in found.segments.values():
        if segment.kind == DATA_SEGMENT:
            what = f"{segment.words} words of data"
        else:
            what = f"{len(segment.procedures)} procedures, {len(segment.code)} bytes"
        lines.append(f"segment {segment.place.segment}: {KINDS[segment.kind]}, {what}")
    about, calls = needs_of(found)
    if about:
        lines.append(f"it uses {', '.join(about)}")
    if calls:
        lines.append("it calls " + ", ".join(f"{name} {count}" for name, count in
                                             sorted(calls.items())))
    try:
        made = translate(found, choices)
    except Fault as fault:
        return lines, fault
    length = int.from_bytes(made.data[6:8], "little")
    lines.append(f"it can be translated: to {len(made.procedures)} procedures, {length} bytes")
    return lines, None


def operand(value):
    if isinstance(value, bytes):
        return "'" + "".join(chr(it) if 32 <= it < 127 else f"\\{it}" for it in value) + "'"
    return " ".join(map(str, value)) if isinstance(value, list) else str(value)


def text_of(it):
    """An instruction as a listing has it. Behind it comes what a number stands for."""
    text = " ".join([it.name] + [operand(value) for value in it.operands])
    if it.name == "CXP" and it.operands[0] == 0:
        text += f"  ; {told_of(it.operands[1])}"
    elif it.name == "CSP" and it.operands[0] in STANDARD:
        text += f"  ; {standard_name(it.operands[0])}"
    elif it.name in ("EQU", "NEQ", "LEQ", "LES", "GEQ", "GRT"):
        text += f"  ; {TYPES[it.operands[0]]}"
    return text


def listing(found):
    """The lines of --list. A procedure with a fault has it in the place of its instructions."""
    for segment in found.segments.values():
        yield f"segment {segment.place.segment}"
        for number, it in segment.procedures.items():
            yield (f"proc {number} level {it.level} params {it.params} data {it.data} "
                   f"enter {it.enter} exit {it.exit}")
            code, fault = reached(segment, it)
            for at, instruction in code.items():
                yield f"{at:05} {text_of(instruction)}"
            if fault:
                yield f"{fault.place}: {fault}"


def told(place):
    """A place of the old file without the file's name."""
    return str(place._replace(file="")).lstrip(", ")


def mapping(made):
    """The lines of --map: a procedure and an offset of the new file, and what they come from."""
    for procedure in sorted(made.procedures, key=lambda it: it.number):
        yield f"proc {procedure.number} {procedure.name}"
        last = None
        for line in procedure.lines:
            if isinstance(line.place, Place) and line.place.offset is not None \
                    and line.place != last:
                last = line.place
                yield f"{line.at:05} {told(last)}"


def where(made, found, number, offset):
    """What an instruction of the new file comes from."""
    for procedure in made.procedures:
        for line in procedure.lines:
            if (procedure.number, line.at) != (number, offset):
                continue
            if isinstance(line.place, TextPlace):
                return f"{procedure.name} of the run-time: {Source().line(line.place)}"
            if isinstance(line.place, Place) and line.place.offset is not None:
                segment = next(it for it in found.segments.values()
                               if it.place.segment == line.place.segment)
                old = segment.procedures[line.place.procedure]
                it = reached(segment, old)[0][line.place.offset]
                return f"{told(line.place)}: {text_of(it)}"
            return f"{procedure.name}: it is of the translator"
    raise Fault(f"no instruction of procedure {number} begins at {offset}", found.file)
