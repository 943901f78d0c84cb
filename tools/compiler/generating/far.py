"""Jumps that a procedure's table has no room for.

A jump ahead has a distance of up to 127 bytes. All others lead by a table with room for 60 targets.
Where a procedure has more of them, the rest is reached in two steps: the number of the target is
pushed, and a jump leads to an XJP behind the code, whose words lead to any place in front of it.
"""

from pcode.encoder import Encoder
from pcode.faults import Fault
from pcode.instructions import JUMP, MOST_FAR
from pcode.parts import Label, Line, Procedure

TABLE = "TABLE"


def spread(procedure):
    """The same procedure, with at most 60 targets in its table."""
    if len(procedure.labels) <= MOST_FAR:
        return procedure
    chosen = []  # labels that are reached in two steps
    while True:
        made = rewritten(procedure, chosen) if chosen else procedure
        uses, names = far_targets(made)
        excess = len(uses) - MOST_FAR
        if excess <= 0:
            return made
        # Two steps take more code, so that more jumps may become far: then more labels are chosen.
        rarest = sorted(uses, key=uses.get, reverse=True)[::-1][:excess + 1]
        labels = [label for target in rarest for label in names[target]]
        fresh = [it for it in labels if it in procedure.labels and it not in chosen]
        if not fresh:
            raise Fault(f"{procedure.name} has too many large CASEs: divide it", procedure.place)
        chosen += fresh


def far_targets(procedure):
    """How often each target is jumped to that a distance does not reach, and its labels."""
    encoder = Sizes(procedure, 0)
    encoder.offsets = dict.fromkeys(procedure.labels, 0)
    encoder.code()
    places = {label: procedure.lines[it.index].at for label, it in procedure.labels.items()}
    uses, names = {}, {}
    for line in procedure.lines:
        if line.name not in JUMP and line.name != "XJP":
            continue
        is_case = line.name == "XJP"
        label = line.operands[2 if is_case else 0]
        after = line.at + (7 + (line.at + 1) % 2 if is_case else 2)  # behind the UJP of an XJP
        if not after <= places[label] <= after + 127:
            uses[places[label]] = uses.get(places[label], 0) + 1
            names.setdefault(places[label], set()).add(label)
    return uses, {target: sorted(some) for target, some in names.items()}


class Sizes(Encoder):
    """Encodes only to know the offsets: no jump is refused."""

    def jump(self, target, after):
        return b"\0"

    def back(self, place, target):
        return b"\0\0"


def rewritten(procedure, chosen):
    """The procedure with the jumps to the chosen labels by the table behind its code."""
    lines, moved, extra = [], [], {}
    for line in procedure.lines:
        moved.append(len(lines))
        is_chosen = line.name in JUMP and line.operands[0] in chosen
        if not is_chosen:
            lines.append(line)
            continue
        number = Line(line.place, *number_line(chosen.index(line.operands[0])))
        to_table = Line(line.place, "UJP", [TABLE])
        if line.name == "UJP":
            lines += [number, to_table]
            continue
        there, behind = f"T{len(lines)}", f"B{len(lines)}"
        lines += [Line(line.place, line.name, [there]), Line(line.place, "UJP", [behind]), number,
                  to_table]
        extra[there], extra[behind] = len(lines) - 2, len(lines)
    labels = {name: Label(it.place, moved[it.index]) for name, it in procedure.labels.items()}
    labels.update((name, Label(procedure.place, index)) for name, index in extra.items())
    labels[TABLE] = Label(procedure.place, len(lines))
    lines.append(Line(procedure.place, "XJP", [0, len(chosen) - 1, "exit"] + chosen))
    return Procedure(procedure.place, procedure.number, procedure.name, procedure.level,
                     procedure.params, procedure.data, lines, labels)


def number_line(value):
    return ("SLDC", [value]) if value <= 127 else ("LDCI", [value])
