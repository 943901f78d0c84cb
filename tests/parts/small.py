"""Makes a random script small: leaves out what is not needed for what was found."""

from shared.replica.group import GroupRefused

from .plays import play_again

MOST_TRIES = 3000


def least_of(items, kept):
    """Of a list what is left as its halves are left out, then smaller parts, down to one, and again
    until nothing more can be left out. `kept` is given a list and returns what of it is left, or
    None where it will not do."""
    size = max(1, len(items) // 2)
    while True:
        before = len(items)
        items = without_parts(items, size, kept)
        if size == 1 and len(items) == before:
            return items
        size = max(1, size // 2)


def without_parts(items, size, kept):
    """Leaves out parts of this size, where that will do, the last ones first."""
    end = len(items)
    while end > 0:
        rest = kept(items[: max(0, end - size)] + items[end:])
        if rest is not None:
            items = rest
        end = min(end - size, len(items))
    return items


class Small:
    """A script with a finding, whose kind `find` returns for a play, and what is left of it after
    at most so many tries. `end_play` ends a play with an ending."""

    def __init__(self, storm, find, end_play, most_tries=MOST_TRIES):
        self.first, self.end_play = storm.play, end_play
        self.find, self.tries, self.most_tries = find, 0, most_tries
        self.ending, self.items = storm.ending, storm.items
        self.kind = find(storm.play)

    def played(self, items, ending):
        """The play of items and of an ending, if any, and the items that could happen. GroupRefused
        where a settle makes too many deliveries."""
        play = self.first.again()
        done = play_again(play, items)
        if ending is None:
            play.show()
        else:
            self.end_play(play, ending)
        return play, done

    def kept(self, items, ending):
        """The items that could happen, where these have a finding of the same kind, or None, also
        where there is no try left."""
        if self.tries == self.most_tries:
            return None
        self.tries += 1
        try:
            play, done = self.played(items, ending)
        except GroupRefused:
            return None
        return done if self.find(play) == self.kind else None

    def is_least(self):
        """Whether there were tries enough, so that no line can be left out."""
        return self.tries < self.most_tries

    def make(self):
        """The play that is left."""
        done = self.kept(self.items, None)
        if done is not None:
            self.ending, self.items = None, done
        self.items = least_of(self.items, lambda some: self.kept(some, self.ending))
        return self.played(self.items, self.ending)[0]
