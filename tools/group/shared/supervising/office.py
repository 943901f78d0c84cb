"""Who leads a group, as far as one supervisor heard itself, and whether its node is to be asked to
campaign. No clock and no socket is read here.

Each supervisor tells the others what it knows of its own node, and nothing that it was told: the
ballot that the node's record has promised, how long ago the node led, whether it hears a leader,
and which supervisors it hears. What is older than `silent` seconds does not count.

A node leads where a majority of the records, its own included, has promised a ballot that it made
in its present run, where it and their supervisors hear each other, and where no node that it hears
has promised a greater ballot: that one would refuse it. So a leader that nobody
hears, that hears nobody, or that keeps too few of its links, ceases to lead `silent` seconds
later. One that keeps a majority is disturbed by no node that does not hear it: a node is asked only
where a majority, itself included, hears no leader. But keys that are typed where the leader is not
heard wait. So a node is also asked that hears the leader and one that does not, where more nodes
and it hear each other than the leader and others: the hub, where all hear a hub alone.

A node whose process has ended, as its supervisor sees, does not lead, and nobody waits for it. Its
supervisor says that it led just longer ago than counts, once, and the time grows from there. So the
next in number is due at once, and the one after it only if nobody has led by then. A supervisor
that begins says the same of its node.
"""

import collections

# A supervisor's heartbeat: of which session and node it is; the ballot that the node's record has
# promised, or None; how many seconds ago the node led; whether its supervisor hears a leader; and
# the nodes whose supervisors it hears.
Beat = collections.namedtuple("Beat", "session node promised age is_led hears")
# What was heard of a node: when, and of the heartbeat the promised ballot, when it led, and the
# last two.
Heard = collections.namedtuple("Heard", "at promised led is_led hears")
# Longer ago than anything that matters; and by how much more than `silent` it is longer ago than
# counts, at most, in seconds.
LONG, MARGIN = 1e6, 0.05


class Office:
    """What the supervisor of node `me` has heard. It knows of no leader at first, and waits."""

    def __init__(self, me, size, silent, now):
        self.me, self.size, self.silent = me, size, silent
        self.heard = {}
        # When node `me` led last, when it was asked, when a ballot above all others was seen, when
        # no majority was heard, and when node `me` would have been no better leader.
        self.led, self.asked = self.no_longer(now), now - LONG
        self.changed, self.alone, self.content = now, now, now
        # The greatest ballot that was seen, and whether its node was seen to lead.
        self.greatest, self.has_led = None, False

    def no_longer(self, now):
        """When a node led last that others need not wait for. A third of `silent` later, which is
        much more than this margin, the one after the next is due."""
        return now - self.silent - min(MARGIN, self.silent / 60)

    def note_down(self, now):
        """Node `me` has no process, so it does not lead. Only the first call after it led changes
        something."""
        self.led = min(self.led, self.no_longer(now))
        if self.me in self.heard:
            self.heard[self.me] = self.heard[self.me]._replace(led=self.led)

    def note_beat(self, beat, now):
        """What another supervisor tells."""
        led = now - beat.age
        self.heard[beat.node] = Heard(now, beat.promised, led, beat.is_led, beat.hears)
        self.note_ballot(beat.promised, now)

    def note_own(self, promised, before, moved, now):
        """What the record of node `me` has promised; what it had promised as the node's present run
        began, where it runs; and when the node's process moved last."""
        self.note_ballot(promised, now)
        if promised is not None and promised != before and promised.node == self.me:
            backers = [
                it.at for node, it in self.heard.items()
                if node != self.me and it.promised == promised and self.me in it.hears
            ]
            # When it had a majority last: as long ago as the last that is needed was heard.
            times = sorted([moved, *backers], reverse=True)
            if self.is_majority(len(times)) and not self.is_refused(promised, now):
                self.led = max(self.led, min(moved, times[self.size // 2]))
        # So that a leader that is no longer heard learns of it soon.
        hears = frozenset(self.fresh(now, self.silent / 3)) | {self.me}
        self.heard[self.me] = Heard(now, promised, self.led, False, hears)
        self.has_led |= self.greatest is not None and self.leader(now) == self.greatest
        if not self.is_heard(now):
            self.alone = now
        if not self.is_better(now):
            self.content = now

    def is_refused(self, ballot, now):
        """Whether a node that is heard both ways has promised a greater ballot than this one of
        node `me`. It refuses the ballot, and by one refusal node `me` ceases to lead."""
        return any(
            it.promised is not None and it.promised > ballot and self.me in it.hears
            for node, it in self.fresh(now).items() if node != self.me
        )

    def note_ballot(self, promised, now):
        """A ballot above all before is a campaign."""
        if promised is not None and (self.greatest is None or promised > self.greatest):
            self.greatest, self.changed, self.has_led = promised, now, False

    def is_majority(self, count):
        return 2 * count > self.size

    def fresh(self, now, seconds=None):
        """What was heard of each node that was heard within `silent` seconds, or within these."""
        most = self.silent if seconds is None else seconds
        return {node: it for node, it in self.heard.items() if now - it.at < most}

    def leader(self, now):
        """The greatest ballot whose node led within `silent` seconds, or None."""
        leading = [
            it.promised for node, it in self.fresh(now).items()
            if now - it.led < self.silent and it.promised is not None and it.promised.node == node
        ]
        return max(leading, default=None)

    def is_heard(self, now):
        """Whether a majority of the supervisors is heard, this one included."""
        return self.is_majority(len(self.fresh(now)))

    def beat(self, session, now):
        """What this supervisor tells the others."""
        own = self.heard.get(self.me)
        promised, hears = (own.promised, own.hears) if own else (None, frozenset())
        return Beat(session, self.me, promised, now - self.led, self.leader(now) is not None, hears)

    def around(self, node, fresh):
        """The nodes that hear a node and that it hears, itself included. One that is not heard here
        counts where the node hears it."""
        hears = fresh[node].hears
        return {node} | {it for it in hears if it not in fresh or node in fresh[it].hears}

    def is_better(self, now):
        """Whether a node does not hear the leader that would hear node `me`, around which there are
        more than around the leader."""
        leader, fresh = self.leader(now), self.fresh(now)
        if leader is None or self.me not in fresh:
            return False
        mine = self.around(self.me, fresh)
        is_missed = any(not fresh[it].is_led for it in mine - {self.me} if it in fresh)
        return is_missed and len(mine) > len(self.around(leader.node, fresh))

    def rank(self):
        """How many come before node `me`: the next in number after the last to campaign comes
        first, and that one last."""
        last = 0 if self.greatest is None else self.greatest.node
        return (self.me - last - 1) % self.size

    def nobody_since(self):
        """Since when nobody leads, and a majority is heard. A campaign is given time until its node
        leads. A node that has promised another's ballot leads no more."""
        led = [
            it.led for node, it in self.heard.items()
            if it.promised is not None and it.promised.node == node
        ]
        return max([self.alone, *led, *([] if self.has_led else [self.changed])])

    def is_turn(self, now):
        """Whether node `me` is to be asked: for `silent` seconds a majority was heard and no
        leader, and those whose turn comes before had a third of that each. A majority has to be
        heard that hears no leader either, or a campaign would come to nothing, or disturb a leader
        elsewhere. Or a node that hears no leader, which took it `silent` seconds, needs a better
        one."""
        fresh = self.fresh(now)
        if self.me not in fresh or now - self.asked < self.silent * (1 + self.size / 3):
            return False
        free = [it for it in fresh.values() if not it.is_led]
        is_late = now - self.nobody_since() >= self.silent * (1 + self.rank() / 3)
        begun = max(self.changed, self.alone, self.content)
        is_missed = now - begun >= self.silent * (1 + self.rank()) / 3
        return self.is_majority(len(free)) and is_late or is_missed
