"""What is wrong with a program, and where."""

from __future__ import annotations

from pcode.faults import Fault

MOST_FAULTS = 10


class Place:
    """A place in a text, with the compiler options that hold there: `is_checked` is {$R+}, ranges
    are checked; `is_io_checked` {$I+}, a unit that does not exist is an execution error."""

    __slots__ = ("file", "line", "column", "is_checked", "is_io_checked")

    def __init__(self, file, line, column, is_checked=True, is_io_checked=True):
        self.file, self.line, self.column = file, line, column
        self.is_checked, self.is_io_checked = is_checked, is_io_checked

    def at_column(self, column):
        """Another place of the same line."""
        return Place(self.file, self.line, column, self.is_checked, self.is_io_checked)

    def order(self):
        return self.file, self.line, self.column, self.is_checked, self.is_io_checked

    def __eq__(self, other):
        return isinstance(other, Place) and self.order() == other.order()

    def __lt__(self, other):
        return self.order() < other.order()

    def __hash__(self):
        return hash(self.order())

    def __str__(self):
        return f"{self.file}:{self.line}:{self.column}"


class Follows(Fault):
    """What is met here comes of a fault that is told of the text."""


class Lack(Fault):
    """A program needs what is not there: `feature`, of which it is told once."""

    def __init__(self, text, place=None, feature=None):
        super().__init__(text, place)
        self.feature = feature or text


class Known(Exception):
    """What is met here comes of a fault that has been told, or of a feature that is not there."""

    def __init__(self, feature=None, is_counted=True):
        super().__init__()
        self.feature, self.is_counted = feature, is_counted


class Faults:
    """The faults of a program, each told once; what it lacks, and how often; and notes."""

    def __init__(self):
        self.places: dict[Place, Fault] = {}
        self.lacks: dict[str, list] = {}  # of each feature the first fault, and how often it is met
        self.notes: dict[str, Place] = {}  # each with its first place

    def is_right(self):
        return not self.places and not self.lacks

    def note(self, text, place):
        """Says something of a program that is no fault: once, at its first place."""
        self.notes.setdefault(text, place)

    def add(self, fault):
        if isinstance(fault, Lack):
            self.lacks.setdefault(fault.feature, [fault, 0])
            if fault.place < self.lacks[fault.feature][0].place:
                self.lacks[fault.feature][0] = fault
            self.count(fault.feature)
        elif not isinstance(fault, Follows):
            self.places.setdefault(fault.place, fault)

    def count(self, feature):
        """A feature that is not there is met once more."""
        if feature in self.lacks:
            self.lacks[feature][1] += 1

    def told(self) -> list[Fault]:
        """All that the program lacks, and the first ten of its other faults, in the order of the
        text."""
        lacks = [Fault(f"{fault} ({count} times)" if count > 1 else str(fault), fault.place)
                 for fault, count in self.lacks.values()]
        others = sorted(self.places.values(), key=place_of)[:MOST_FAULTS]
        return sorted(lacks + others, key=place_of)

    def caught(self):
        """`with faults.caught():` notes a fault that is met here, and goes on behind."""
        return Caught(self)


class Caught:
    """What `Faults.caught` gives."""

    def __init__(self, faults):
        self.faults = faults

    def __enter__(self):
        return self

    def __exit__(self, _kind, fault, _trace):
        if isinstance(fault, Known):
            if fault.is_counted:
                self.faults.count(fault.feature)
        elif isinstance(fault, Fault):
            self.faults.add(fault)
        else:
            return False
        return True


def place_of(fault):
    return fault.place if isinstance(fault.place, Place) else Place(str(fault.place), 0, 0)
