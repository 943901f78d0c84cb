"""Checks units, and what a program sees of them."""

from .statements import Statements
from .symbols import Routine, Scopes, Standard

# What APPLESTUFF has, and no other unit.
APPLESTUFF = ("KEYPRESS", "NOTE", "RANDOM", "RANDOMIZE")


def applestuff():
    return {name[:8]: Standard(name) for name in APPLESTUFF}


class UnitParts(Statements):
    """`interfaces` has for each unit the names that it shows."""

    def open_units(self, names):
        for name in names:
            self.scopes.open(dict(self.interfaces.get(name.name, {})))

    def check_unit(self, unit):
        """Checks a unit; what is done at the program's start."""
        kept, self.scopes = self.scopes, Scopes()
        self.scopes.units = kept.units
        self.open_units(unit.uses)
        self.scopes.open()
        for declaration in unit.interface:
            self.declare(declaration)
        shown = list(self.scopes.scopes[-1])
        for declaration in unit.implementation:
            self.declare(declaration)
        names = self.scopes.scopes[-1]
        self.refuse_missing(names)
        body = self.statement(unit.body)
        self.interfaces[unit.name.name] = {name: names[name] for name in shown}
        self.scopes = kept
        return body

    def refuse_missing(self, names):
        """Refuses procedures that have been declared without a body."""
        for symbol in names.values():
            if isinstance(symbol, Routine) and symbol.is_forward:
                with self.faults.caught():
                    self.refuse(f"{symbol.name} is declared FORWARD, and its body is missing",
                                symbol.place)
