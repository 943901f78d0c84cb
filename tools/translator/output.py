"""The lines of a procedure that is made."""

from pcode.parts import Label, Line


class Output:
    """Lines and labels. `place` is that of the old instruction which they come from."""

    def __init__(self, place=None):
        self.lines, self.labels, self.place = [], {}, place
        self.count = 0

    def emit(self, name, *operands):
        self.lines.append(Line(self.place, name, list(operands)))

    def many(self, *instructions):
        """Instructions, each with its operands behind a blank."""
        for text in instructions:
            name, *operands = text.split()
            self.emit(name, *(int(it) if it.lstrip("-").isdigit() else it for it in operands))

    def number(self, value):
        if 0 <= value <= 127:
            self.emit("SLDC", value)
        else:
            self.emit("LDCI", value)

    def label(self):
        self.count += 1
        return f"N{self.count}"

    def set(self, label):
        self.labels[label] = Label(self.place, len(self.lines))

    def take_back(self, count):
        """Leaves out the last instructions, if each of them pushes a number and no jump leads
        between; answers whether it did."""
        start = len(self.lines) - count
        last = self.lines[start:] if start >= 0 else []
        is_used = any(it.index > start for it in self.labels.values())
        if len(last) < count or is_used or any(it.name not in ("SLDC", "LDCI") for it in last):
            return False
        del self.lines[start:]
        return True
