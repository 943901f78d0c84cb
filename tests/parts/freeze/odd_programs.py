"""Programs at the limits, which no compiler writes: deep calls, full memory, a full stack, a full
jump table, procedure 1 in the middle, 255 procedures."""

import random

from pcode.codefile import code_file
from pcode.parts import Label, Line, Procedure

READ = "SLDC {unit}\nLAO {at}\nSLDC 0\nSLDC 1\nSLDC 0\nSLDC 0\nCSP 5\n"
WRITE = "SLDC 1\nLAO {at}\nSLDC 0\nSLDC 1\nSLDC 0\nSLDC 0\nCSP 6\n"
DOT, LENGTH = 46, 32767


def read(at=3):
    return READ.format(unit=2, at=at)


def write(at=3):
    return WRITE.format(at=at)


def procedure(number, level, params, data, text):
    """A procedure of these lines, each an instruction or `LABEL:`. The label `exit` is needed."""
    made = Procedure("odd", number, f"P{number}", level, params, data)
    for row in filter(None, map(str.strip, text.splitlines())):
        if row.endswith(":"):
            made.labels[row[:-1]] = Label("odd", len(made.lines))
            continue
        name, *operands = row.split()
        operands = [int(it) if it.lstrip("-").isdigit() else it for it in operands]
        made.lines.append(Line("odd", name, operands))
    return made


def file_of(*procedures):
    return code_file("ODD", 1, procedures, "odd")


def deep(params, data):
    """Calls itself for each key but a dot, and writes the keys on its way back; then again."""
    pushes = ("SLDO 3\n" if params else "") + "SLDC 7\n" * (params - 1)
    own = "SLDL 1\nSRO 4\n" if params else "SLDO 3\nSRO 4\n"
    body = (read() + f"SLDO 3\nSLDC {DOT}\nEQUI\nFJP more\nUJP back\nmore:\n" + pushes
            + "CIP 2\n" + own + write(4) + "back:\nexit:\nRNP 0\n")
    main = "again:\n" + "SLDC 9\n" * params + "CGP 2\nUJP again\nexit:\nRBP 0\n"
    return file_of(procedure(2, 1, params, data, body), procedure(1, 0, 2, 4, main))


def full_memory(words, more=""):
    """Reads all bytes of its memory by one read, and then writes the one of each key's word."""
    fill = f"SLDC 2\nLAO 4\nSLDC 0\nLDCI {min(2 * words - 4, LENGTH)}\nSLDC 0\nSLDC 0\nCSP 5\n"
    show = "SLDC 1\nLAO 4\nSLDO 3\nSLDC 100\nMPI\nSLDC 90\nSLDC 0\nSLDC 0\nCSP 6\n"
    body = fill + "again:\n" + read() + show + "UJP again\n" + more + "exit:\nRBP 0\n"
    return file_of(procedure(1, 0, 2, words, body))


def padding(count):
    """So many bytes of code that is reached and does nothing that is seen."""
    return "NOP\n" * count


def full_stack(words):
    pushes = "".join(f"LDCI {1000 + 7 * it}\n" for it in range(words))
    pops = ("SRO 4\n" + write(4)) * min(words, 200)
    body = pushes + read() + write() + pops + read() + write() + "exit:\nRBP 0\n"
    return file_of(procedure(1, 0, 2, 3, body))


def full_table(targets):
    """So many far targets in procedure 1, at each of which another procedure reads."""
    body = "".join(f"t{it}:\nCGP 2\n" + padding(130) + f"UJP t{(it + 7) % targets}\n"
                   for it in range(targets))
    reader = procedure(2, 1, 0, 0, read() + write() + "exit:\nRNP 0\n")
    return file_of(procedure(1, 0, 2, 3, body + "exit:\nRBP 0\n"), reader)


def chain(count):
    """Procedures each of which calls the next one, and procedure 1 somewhere among them. The last
    one reads."""
    made = [procedure(1, 0, 2, 3, "again:\nCGP 2\nUJP again\nexit:\nRBP 0\n")]
    for number in range(2, count + 1):
        body = read() + write() if number == count else f"CIP {number + 1}\n"
        made.append(procedure(number, 1, 0, 1, f"SLDO 3\nSTL 1\n{body}exit:\nRNP 0\n"))
    random.Random(3).shuffle(made)
    return file_of(*made)


RBP = 193


def overlapping():
    """EXIT leads to the word of a jump table, whose bytes are an RBP and its operand."""
    for count in range(256):
        body = "NOP\nfar:\n" + read() + padding(130 + count) + "UJP far\nexit:\nRBP 0\n"
        data = bytearray(file_of(procedure(1, 0, 2, 3, body)))
        place = 512 + int.from_bytes(data[6:8], "little") - 4
        jtab = place - int.from_bytes(data[place:place + 2], "little")
        if data[jtab - 10] == RBP:
            data[jtab - 4:jtab - 2] = (6).to_bytes(2, "little")
            return bytes(data)
    raise AssertionError("no count of NOPs makes that word")
