"""The browsers that type, and which request of each came last: one that comes again types nothing
twice."""

import collections
import secrets

# How many browsers are remembered.
MOST = 1000


class Clients:
    """Each has a name that it got here. Its requests have the numbers 1, 2, 3 .., one at a time."""

    def __init__(self):
        # By their names: the number that came last, and what was answered. Who came last is last.
        self.known, self.listening = collections.OrderedDict(), collections.Counter()

    def enter(self, name):
        """The name of a browser that begins to listen: the one that it says, if it has that from
        here, or a new one."""
        if name not in self.known:
            name = secrets.token_urlsafe(12)
            self.known[name] = 0, None
        self.known.move_to_end(name)
        self.listening[name] += 1
        self.forget()
        return name

    def leave(self, name):
        self.listening[name] -= 1
        if not self.listening[name]:
            del self.listening[name]

    def forget(self):
        """Forgets who typed least lately, but for those that listen."""
        for name in list(self.known):
            if len(self.known) <= MOST:
                return
            if name not in self.listening:
                del self.known[name]

    def last(self, name):
        """The number of the last request of a browser and its answer, or None if it is not
        known."""
        return self.known.get(name)

    def note(self, name, number, answer):
        self.known[name] = number, answer
        self.known.move_to_end(name)
