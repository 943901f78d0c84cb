"""What is wrong with a file, and where."""


class Fault(Exception):
    """What is wrong with a source or with a code file, and where, as FILE or as FILE:LINE."""

    def __init__(self, text, place=None):
        super().__init__(text)
        self.place = place


class TooLarge(Fault):
    """A segment has more bytes than one may have."""


class at:
    """`with at(PLACE):` faults that are met here without a place are of this one."""

    def __init__(self, place):
        self.place = place

    def __enter__(self):
        return self

    def __exit__(self, _kind, fault, _trace):
        if isinstance(fault, Fault) and fault.place is None:
            fault.place = self.place


def in_range(what, value, least, most):
    """The value, which has to be in a range."""
    if not least <= value <= most:
        raise Fault(f"{what} is {least} to {most}, and not {value}")
    return value
