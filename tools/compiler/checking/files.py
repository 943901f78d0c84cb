"""Checks what is done with files: those of memory, and those on devices."""

from ..parsing import syntax
from . import tree
from .calls import Calls
from .context import number
from .symbols import READ_FILES
from .types import BOOLEAN, INTEGER, File

CLOSINGS = {"NORMAL": 0, "LOCK": 1, "PURGE": 2, "CRUNCH": 3}


class Files(Calls):
    """`has_files` says whether the library has the files of memory in it."""

    has_files = False

    def perform(self, node, name, *arguments):
        """A call of a procedure of the library."""
        return tree.Perform(node.place, self.call_library(name, *arguments))

    def file_of(self, arguments):
        """The file that is the first argument, or None; and the other arguments."""
        file = self.file_named(arguments[0].value) if arguments else None
        return (file, arguments[1:]) if file else (None, arguments)

    def file_wanted(self, name, node):
        """The first argument, which has to be a file, and the others."""
        file, rest = self.file_of(node.arguments)
        if not file or file == "OUTPUT":
            self.refuse(f"{name} has a file as its first parameter", node.place)
        return file, rest

    def raw_number(self, file):
        """The number that a file variable has, be it open or not."""
        return number(READ_FILES[file]) if isinstance(file, str) else tree.Load(INTEGER, file)

    def refuse_text(self, name, node, file, is_text):
        """Refuses a file that is, or is not, a text."""
        if not isinstance(file, str) and file.type.is_text != is_text:
            of_text = "a text, and of no file of records or blocks"
            what = of_text if is_text else "a file of records, and of no text"
            self.refuse(f"{name} is of {what}", node.place)

    def begun(self, node):
        """IORESULT begins anew."""
        variable = self.library["IOCODE"]
        location = tree.VariableAt(variable.type, variable)
        return tree.Assign(node.place, location, number(0))

    def ended(self, node):
        """What looks at IORESULT, under I+."""
        return [self.perform(node, "CHECKIO")] if node.place.is_io_checked else []

    # Opening and closing

    def open(self, name, node):
        """RESET and REWRITE of a file, with or without a name."""
        file, rest = self.file_of(node.arguments)
        if name == "REWRITE" and (file == "OUTPUT" or file is None and not rest):
            return tree.Block([])
        file, rest = self.file_wanted(name, node)
        if isinstance(file, str):
            if rest or name == "REWRITE":
                self.refuse(f"{name} opens a variable of the type TEXT or FILE, and {file} is open",
                            node.place)
            return self.perform(node, "RESETFILE", self.number_of(file))
        if len(rest) > 1:
            self.refuse(f"{name} has a file and a name", node.place)
        is_fresh = tree.Constant(BOOLEAN, int(name == "REWRITE"))
        if rest:
            text = tree.StringAddress(self.string(rest[0].value))
            opened = self.call_library("OPENTITLE", self.raw_number(file), text, is_fresh)
        else:
            opened = self.call_library("OPENAGAIN", self.raw_number(file), is_fresh)
        statements = [tree.Assign(node.place, file, opened)]
        if name == "RESET" and file.type.element:  # under I- it may have failed: nothing is read
            outcome = self.library_value("IOCODE")
            is_right = tree.Operation(BOOLEAN, ("EQUI",), [outcome, number(0)])
            statements += [tree.If(node.place, is_right, self.moved(node, "GETRECORD", file), None)]
        return tree.Block(statements + self.ended(node))

    def close(self, name, node):
        """CLOSE(FILE [, LOCK]), or another word for what becomes of it."""
        file, rest = self.file_of(node.arguments)
        words = [it.value.name for it in rest if isinstance(it.value, syntax.Name)]
        if not file or len(words) != len(rest) or len(words) > 1 or not set(words) <= set(CLOSINGS):
            self.refuse(f"{name} has a file, and LOCK, NORMAL, PURGE or CRUNCH", node.place)
        if isinstance(file, str):
            return tree.Block([])
        return tree.Block(self.closed(node, file, CLOSINGS[words[0] if words else "NORMAL"]))

    def closed(self, node, file, how):
        is_text = tree.Constant(BOOLEAN, int(file.type.is_text))
        return [self.perform(node, "CLOSEFILE", self.raw_number(file), number(how), is_text),
                tree.Assign(node.place, file, number(0))]

    def endings(self, routine):
        """What closes the files of a procedure at its end."""
        node = syntax.Node(routine.place)
        found = [it for it in routine.files if not it.is_address]
        return [part for it in found
                for part in self.closed(node, tree.VariableAt(it.type, it), CLOSINGS["NORMAL"])]

    def file_made(self, node, name, data):
        """Makes a file of memory at the program's start, with bytes of the host."""
        variable = self.library["HOSTFILE"]
        file = tree.VariableAt(variable.type, variable)
        opened = self.call_library("OPENTITLE", number(0), tree.StringAddress(
            tree.TextValue(None, name)), tree.Constant(BOOLEAN, 1))
        to_file = tree.Select(self.library["OUTFILE"], self.number_of(file))
        to_console = tree.Select(self.library["OUTFILE"], number(0))
        place = node.place
        return tree.Block([
            tree.Assign(place, file, opened), tree.Perform(place, to_file),
            tree.WriteText(place, data.decode("latin-1")), tree.Perform(place, to_console),
            self.perform(node, "CHECKIO"), *self.closed(node, file, CLOSINGS["LOCK"])])

    # Records

    def element_of(self, file):
        """The location of a file's window."""
        return tree.WindowAt(file.type.element, file)

    def moved(self, node, name, file):
        """GET or PUT of a record."""
        size = number(file.type.element.size)
        return self.perform(node, name, self.raw_number(file), tree.Address(self.element_of(file)),
                            size)

    def get_or_put(self, name, node):
        file, rest = self.file_wanted(name, node)
        if rest:
            self.refuse_count(node.name, "1", len(node.arguments))
        if isinstance(file, str) or file.type.is_text:
            if name == "GET" and not self.has_files:
                return self.perform(node, "NEXTKEY", self.number_of(file))
            routine = "GETTEXT" if name == "GET" else "PUTTEXTWINDOW"
            return self.perform(node, routine, self.number_of(file))
        if not file.type.element:
            self.refuse(f"{name} is of a file of records; BLOCKREAD and BLOCKWRITE are of blocks",
                        node.place)
        return tree.Block([self.moved(node, f"{name}RECORD", file)] + self.ended(node))

    def seek(self, name, node):
        """SEEK(FILE, NUMBER)."""
        file, rest = self.file_wanted(name, node)
        if len(rest) != 1:
            self.refuse_count(node.name, "2", len(node.arguments))
        self.refuse_text(name, node, file, False)
        if isinstance(file, str) or not file.type.element:
            self.refuse("SEEK is of a file of records", node.place)
        size = number(file.type.element.size)
        done = self.perform(node, "SEEKRECORD", self.raw_number(file), self.integer(rest[0].value),
                            size)
        return tree.Block([done] + self.ended(node))

    def blocks(self, name, node):
        """BLOCKREAD(FILE, VARIABLE, COUNT [, FROM]), and BLOCKWRITE."""
        file, rest = self.file_wanted(name, node)
        if not 2 <= len(rest) <= 3:
            self.refuse_count(node.name, "3 to 4", len(node.arguments))
        if isinstance(file, str) or file.type.element or file.type.is_text:
            self.refuse(f"{name} is of a FILE without a type of records", node.place)
        values = [it.value for it in rest]
        start = self.integer(values[2]) if len(values) > 2 else number(-1)
        is_put = tree.Constant(BOOLEAN, int(name == "BLOCKWRITE"))
        return self.call_library("BLOCKS", self.raw_number(file), self.bytes_at(values[0]),
                                 self.integer(values[1]), start, is_put)

    def end_of(self, name, node):
        file, rest = self.file_of(node.arguments)
        if rest or file == "OUTPUT":
            self.refuse(f"{name} asks for the end of INPUT, KEYBOARD or a file", node.place)
        if isinstance(getattr(file, "type", None), File) and not file.type.is_text:
            if name == "EOLN":
                self.refuse_text(name, node, file, True)
            return self.call_library("FILEEOF", self.raw_number(file))
        return self.call_library("ATEOLN" if name == "EOLN" else "ATEOF", self.number_of(file))
