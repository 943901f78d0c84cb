"""Sets of keys, in memory that does not grow with them as long as few are missing."""


class Keys:
    """A set of keys of batches. A key is its node, start and serial: a node gives a serial once in
    a start, so no two keys of one serial have different characters. Of each start of a node it has
    the first serial that is missing, and those above it that are there."""

    def __init__(self):
        self.missing, self.above = {}, {}

    def add(self, batch):
        """Adds the keys of a value, which may have none."""
        if batch is None:
            return
        of, first = batch[:2], batch.first
        end, missing = first + len(batch.characters), self.missing.get(of, 1)
        if first > missing:
            self.above.setdefault(of, set()).update(range(first, end))
            return
        missing, above = max(missing, end), self.above.get(of)
        while above and missing in above:
            above.discard(missing)
            missing += 1
        self.missing[of] = missing

    def first_missing(self, node, start, serial):
        """The first serial from this one on that is missing."""
        of = node, start
        missing, above = self.missing.get(of, 1), self.above.get(of, ())
        if serial < missing:
            return missing
        while serial in above:
            serial += 1
        return serial

    def has(self, node, start, serial):
        return self.first_missing(node, start, serial) > serial

    def have(self, batch, others):
        """Whether each key of a value is here or among the others."""
        if batch is None:
            return True
        node, start, serial, end = *batch[:3], batch.first + len(batch.characters)
        while serial < end:
            after = max(it.first_missing(node, start, serial) for it in (self, others))
            if after == serial:
                return False
            serial = after
        return True
