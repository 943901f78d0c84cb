"""Old code files: an assembler that makes them, and what the interpreter reads of them."""

import struct

from .manual import KINDS, OPCODE, SHORT, SIZED, Code

BLOCK, MOST_FAR = 512, 60
LINKED, SEGPROC, DATASEG = 0, 2, 7


def big(value):
    return bytes([value]) if value < 128 else bytes([128 | value >> 8, value & 255])


class Assembler:
    """Assembles the procedures of a segment. `order` is `little` or `big`."""

    def __init__(self, order="little"):
        self.order, self.segment, self.tables = order, b"", {}

    def word(self, value):
        return (value & 65535).to_bytes(2, self.order)

    def procedure(self, number, level, params, data, text):
        """Adds a procedure: its sizes are in words, and its text, or list of lines, has a label
        `exit`."""
        lines = text
        if isinstance(text, str):
            lines = [line.strip() for line in text.strip().split("\n") if line.strip()]
        self.labels = {}
        for _ in (1, 2):  # the first time no label is known
            self.far = []
            code = self.code(lines)
        self.segment += code + bytes(len(code) % 2)
        for target in reversed(self.far):
            self.segment += self.word(len(self.segment) - target)
        self.segment += self.word(2 * data) + self.word(2 * params)
        self.segment += self.word(len(self.segment) - self.labels["exit"])
        start = self.labels.get("enter", len(self.segment) - 6 - len(code) - len(code) % 2
                                - 2 * len(self.far))
        self.segment += self.word(len(self.segment) - start)
        self.tables[number] = len(self.segment)
        self.segment += self.word(number | level << 8)

    def code(self, lines):
        out, start = bytearray(), len(self.segment)
        for line in lines:
            at = start + len(out)
            if line.endswith(":"):
                self.labels[line[:-1]] = at
            else:
                out += self.instruction(at, *line.split(" ", 1))
        return bytes(out)

    def jump(self, label, after):
        target = self.labels.get(label, 0)
        if 0 <= target - after < 128:
            return bytes([target - after])
        if target not in self.far:
            self.far.append(target)
        if len(self.far) > MOST_FAR:
            raise ValueError("too many jumps")
        return bytes([256 - 10 - 2 * self.far.index(target)])

    def instruction(self, at, name, rest=""):
        if name in SHORT:
            first, _, number = SHORT[name]
            return bytes([first + int(rest) - number])
        out = bytearray([OPCODE[name]])
        if name in ("LSA", "LPA"):
            text = rest[1:-1].encode("latin-1")
            return bytes(out) + bytes([len(text)]) + text
        words = rest.split()
        if name == "XJP":
            return bytes(out) + self.case(at + 1, words)
        if name == "LDC":
            out += bytes([len(words)]) + bytes((at + 2) % 2)
            return bytes(out) + b"".join(self.word(int(it)) for it in words)
        for kind in KINDS[name]:
            word = words.pop(0)
            if kind == "SB":
                out += self.jump(word, at + 2)
            elif kind == "W":
                out += self.word(int(word))
            elif kind == "B":
                out += big(int(word))
            else:
                out.append(int(word))
            if kind == "T" and int(word) in SIZED:
                out += big(int(words.pop(0)))
        return bytes(out)

    def case(self, at, words):
        out = bytearray(at % 2)
        out += self.word(int(words[0])) + self.word(int(words[1])) + bytes([OPCODE["UJP"]])
        other = at + len(out) - 1
        out += self.jump(words[2], other + 2)
        for label in words[3:]:
            target = other if label == "-" else self.labels.get(label, 0)
            out += self.word(at + len(out) - target)
        return bytes(out)

    def finished(self, number):
        """The whole segment."""
        segment = self.segment
        for it in sorted(self.tables, reverse=True):
            segment += self.word(len(segment) - self.tables[it])
        return segment + self.word(number | len(self.tables) << 8)


def code_file(segments, order="little", is_apple=False):
    """A code file. `segments` has a number, a name, a kind and bytes for each; a data segment has
    its length in their place. In a file of Apple Pascal 1.1 each entry has the segment's number and
    the machine."""
    block, body, sign = bytearray(BLOCK), b"", "<" if order == "little" else ">"
    for index, (number, name, kind, data) in enumerate(segments):
        has_code = isinstance(data, bytes)
        length, start = (len(data), 1 + len(body) // BLOCK) if has_code else (data, 0)
        struct.pack_into(sign + "HH", block, 4 * index, start, length)
        block[64 + 8 * index:72 + 8 * index] = name.encode("ascii").ljust(8)
        struct.pack_into(sign + "H", block, 192 + 2 * index, kind)
        if is_apple:
            machine = 2 if order == "little" else 1
            struct.pack_into(sign + "H", block, 256 + 2 * index, number | machine << 8 | 1 << 13)
        if has_code:
            body += data + bytes(-len(data) % BLOCK)
    return bytes(block) + body


class Procedure:
    def __init__(self, code, jtab):
        self.jtab = jtab
        self.number, self.level = code.word(jtab) & 255, code.word(jtab) >> 8
        self.enter, self.exit = (at - code.word(at) for at in (jtab - 2, jtab - 4))
        self.params, self.data = code.word(jtab - 6) // 2, code.word(jtab - 8) // 2


class Segment:
    def __init__(self, data, order):
        self.code = code = Code(data, order)
        last = code.word(len(data) - 2)
        self.number, places = last & 255, range(len(data) - 4, len(data) - 4 - 2 * (last >> 8), -2)
        found = [Procedure(code, at - code.word(at)) for at in places]
        self.procedures = {it.number: it for it in found}
        self.decoded = {}

    def at(self, procedure, offset):
        """The instruction at an offset, which is decoded once."""
        if offset not in self.decoded:
            self.decoded[offset] = self.code.decode(offset, procedure.jtab)
        return self.decoded[offset]


def segments_of(data, order="little"):
    """The segments of a file by their numbers, and the words of its data segments."""
    sign, segments, words = "<" if order == "little" else ">", {}, {}
    for index in range(16):
        start, length = struct.unpack_from(sign + "HH", data, 4 * index)
        kind, = struct.unpack_from(sign + "H", data, 192 + 2 * index)
        info, = struct.unpack_from(sign + "H", data, 256 + 2 * index)
        if length and kind == DATASEG:
            words[info & 255] = length // 2
        elif length:
            segment = Segment(data[start * BLOCK:start * BLOCK + length], order)
            segments[segment.number] = segment
    return segments, words
