"""Why a program is not frozen. Each reason has a name, by which tests and pages know it."""

from pcode.faults import Fault


class Refused(Fault):
    def __init__(self, name, text, place=None):
        super().__init__(text, place)
        self.name = name
