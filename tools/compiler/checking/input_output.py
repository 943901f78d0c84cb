"""Checks READ and WRITE, which become calls of the run-time library."""

from ..parsing import syntax
from . import tree
from .context import number
from .locations import is_word
from .procedures import StandardProcedures
from .types import CHAR, INTEGER, LONG, REAL, Array, Long, String


class InputOutput(StandardProcedures):
    destination = None  # the file that WRITE writes to; None for the console

    def write(self, name, node):
        """WRITE(VALUE, VALUE:WIDTH ..): texts that follow one another are written at once."""
        file, items = self.file_of(node.arguments)
        if file in ("INPUT", "KEYBOARD"):
            self.refuse(f"{file} is read, and not written", node.place)
        if name == "WRITE" and not items:
            self.refuse("WRITE has something to write", node.place)
        is_file = file is not None and not isinstance(file, str)
        if is_file:
            self.refuse_text(name, node, file, True)
        statements, text, self.destination = [], "", file if is_file else None
        for item in items:
            known = self.known_text(item)
            if known is not None:
                text += known
                continue
            statements += self.text_written(node, text) + self.item_written_to(node, item)
            text = ""
        if name == "WRITELN":
            text += chr(self.line_end)
        statements += self.text_written(node, text)
        if is_file:
            statements = [self.begun(node), *statements, *self.ended(node)]
        return tree.Block(statements)

    def selected(self, file):
        return tree.Select(self.library["OUTFILE"], self.number_of(file) if file else number(0))

    def text_written(self, node, text):
        if not text:
            return []
        written = tree.WriteText(node.place, text)
        if not self.is_library:
            self.texts[text] = self.texts.get(text, 0) + 1
        if not self.destination:
            return [written]
        return [tree.Perform(node.place, self.selected(self.destination)), written,
                tree.Perform(node.place, self.selected(None))]

    def item_written_to(self, node, item):
        """A value that is written, to a file if there is one: that is selected once all is worked
        out, since a function may write too."""
        file, self.destination = self.destination, None
        written = self.item_written(node, item)
        self.destination = file
        if not file:
            return [written]
        written.value.arguments.append(self.selected(file))
        return [written, tree.Perform(node.place, self.selected(None))]

    def known_text(self, item):
        """What an item is to write, if that is known here."""
        if not isinstance(item.value, (syntax.Text, syntax.Name)):
            return None
        if isinstance(item.value, syntax.Name) and item.width or item.places:
            return None
        value = self.value(item.value)
        if isinstance(value, tree.Constant) and value.type is CHAR:
            text = chr(value.value & 255)
        elif isinstance(value, tree.TextValue):
            text = value.text
        else:
            return None
        if not item.width:
            return text
        width = self.integer(item.width)
        if not isinstance(width, tree.Constant) or width.value > 255:
            return None
        return text.rjust(width.value)[:width.value if width.value > 0 else None]

    def item_written(self, node, item):
        value = self.value(item.value)
        width = self.integer(item.width) if item.width else number(0)
        if isinstance(value.type, Long) and not item.places:
            return self.perform(node, "WRITELONG", tree.LongAddress(value), width)
        if value.type is REAL:
            places = self.integer(item.places) if item.places else number(-1)
            return self.perform(node, "WRITEREAL", value, width, places)
        if item.places:
            self.refuse("places behind a point are of a REAL alone", item.places.place)
        if isinstance(value.type, String) or isinstance(value, tree.TextValue):
            return self.perform(node, "WRITESTRING", tree.StringAddress(value), width)
        if isinstance(value.type, Array) and value.type.is_text:
            return self.perform(node, "WRITEARRAY", tree.Address(value.location),
                                number(value.type.count), width)
        names = {"INTEGER": "WRITEINT", "CHAR": "WRITECHAR", "BOOLEAN": "WRITEBOOLEAN"}
        host = getattr(value.type, "host", None)
        if not is_word(value.type) or not host or host.name not in names:
            self.refuse_type(item.value, value.type, "an INTEGER, REAL, CHAR, BOOLEAN, STRING or "
                             "packed array of characters")
        if host is CHAR and not item.width:
            return self.perform(node, "PUTCHAR", value)
        return self.perform(node, names[host.name], value, width)

    def read(self, name, node):
        file, items = self.file_of(node.arguments)
        if file == "OUTPUT":
            self.refuse("OUTPUT is written, and not read", node.place)
        if name == "READ" and not items:
            self.refuse("READ has a variable to read", node.place)
        if file is not None and not isinstance(file, str):
            self.refuse_text(name, node, file, True)
        unit = self.number_of(file)
        statements = [self.item_read(node, item, unit) for item in items]
        if name == "READLN":
            statements.append(self.perform(node, "ENDLINE", unit))
        return tree.Block(statements)

    def item_read(self, node, item, unit):
        self.refuse_width(item)
        location = self.location(item.value)
        kind = location.type
        if isinstance(kind, String):
            return self.perform(node, "READSTR", unit, tree.Address(location), number(kind.most))
        if isinstance(kind, Long):
            return self.long_assigned(node.place, location, tree.LongRead(LONG, unit))
        if kind is REAL:
            return tree.Assign(node.place, location, self.call_library("READREAL", unit))
        host = getattr(kind, "host", None)
        if host not in (CHAR, INTEGER):
            self.refuse_type(item.value, kind, "an INTEGER, REAL, CHAR or STRING")
        value = self.call_library("READCHAR" if host is CHAR else "READINT", unit)
        value = self.fitted(value, kind, item.value, node.place.is_checked)
        return tree.Assign(node.place, location, value)
