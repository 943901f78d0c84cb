"""The units that a program uses: those that are always there, and those of texts beside it."""

import os

from pcode.faults import Fault

from .faults import Lack
from .parsing.lexer import fold
from .parsing.texts import read_text

# Units of the p-System and of Apple Pascal, whose names the checker knows.
TRANSCEND, APPLESTUFF = "TRANSCEN", "APPLESTU"
BUILT_IN = {TRANSCEND, APPLESTUFF, fold("LONGINTIO"), fold("PASCALIO")}
TURTLES = fold("TURTLEGRAPHICS")
ENDINGS = (".PAS", ".TEXT")


def no_unit(name):
    """What is said of a unit that is not there."""
    if fold(name) == TURTLES:
        return f"there is no {name}, and no pictures: a console has characters alone"
    return f"there is no unit {name}: put its text beside this one, as {name}.pas or {name}.TEXT"


def path_of(name, place):
    """The text of a unit, in the folder of the text that uses it; None if there is none."""
    folder = os.path.dirname(place.file)
    try:
        names = sorted(os.listdir(folder or "."))
    except OSError:
        return None
    found = []
    for it in names:
        stem, ending = os.path.splitext(it)
        if ending.upper() in ENDINGS and stem.upper() == name.written.upper():
            found.append(it)
    if len(found) > 1:
        raise Fault(f"{name.written} may be {found[0]} or {found[1]}: leave one of them there",
                    place)
    return os.path.join(folder, found[0]) if found else None


class Units:
    """The units of a program, in the order in which they are initialised: each behind those that
    it uses. `parse` makes the syntax tree of a text, None if it has a fault."""

    def __init__(self, faults, parse):
        self.faults, self.parse = faults, parse
        self.inline = {}  # those that stand in the program
        self.found, self.under_way = {}, []
        self.used = set()  # also those that are always there
        self.missing = None  # the feature that is missing: the first unit that is not there

    def of_program(self, program):
        """The units of a program, as syntax trees."""
        self.inline = {unit.name.name: unit for unit in program.units}
        self.take_all(program.uses)
        return list(self.found.values())

    def take_all(self, names):
        for name in names:
            with self.faults.caught():
                self.take(name)

    def take(self, name):
        self.used.add(name.name)
        if name.name in self.found or name.name in BUILT_IN and name.name not in self.inline:
            return
        if name.name in self.under_way:
            raise Fault(f"{name.written} uses itself, by what it uses", name.place)
        unit = self.inline.get(name.name) or self.read(name)
        if unit:
            self.under_way.append(name.name)
            self.take_all(unit.uses)
            self.under_way.pop()
            self.found[name.name] = unit

    def read(self, name):
        path = path_of(name, name.place)
        if not path:
            lack = Lack(no_unit(name.written), name.place)
            self.missing = self.missing or lack.feature
            raise lack
        unit = self.parse(read_text(path, name.place), path, self.faults)
        if unit and unit.name.name != name.name:
            raise Fault(f"{path} has the unit {unit.name.written}, and not {name.written}",
                        name.place)
        return unit
