"""How many keys were typed here while something happened to the group, and what became of them, in
a sentence."""

LOST = " Some typed keys are lost: a sentence names them."
NONE = " Nothing was typed here meanwhile."


class Typed:
    """Counts keys from its first note on, with those that wait then; or behind those that were
    chosen `before`."""

    def __init__(self, before=None):
        # How many were typed by now, how many of them wait, and how many have waited at most while
        # the program stood still.
        self.before, self.count, self.waiting, self.most = before, 0, 0, 0

    def anew(self):
        """Counts from now on."""
        return Typed(None if self.before is None else self.count - self.waiting)

    def note(self, count, waiting, is_still):
        """`count` keys were typed here in all, of which so many wait."""
        if self.before is None:
            self.before = count - waiting
        self.count, self.waiting = count, waiting
        if is_still:
            self.most = max(self.most, waiting)

    def told(self, fate, has_stood):
        """What became of them. `has_stood` says whether the program was seen to stand still: then
        it is told of the keys that waited, else of all."""
        if fate == "lost":
            return LOST
        if fate not in ("kept", "none"):
            return ""
        count = self.most or (0 if has_stood else self.count - (self.before or 0))
        if not count:
            return NONE
        every = {1: "The key", 2: "Both keys"}.get(count, f"All {count} keys")
        return f" {every} went in."
