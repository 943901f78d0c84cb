"""What is known of a group by the answers of its supervisors. What cannot be known is unknown: that
there is no majority, and that nobody leads, is said only where it is so."""

import time

from ..record import text_of_ballot

UP, NOT, UNKNOWN = 0, 1, 2


class View:
    """The answers of the supervisors that have answered, by their nodes, in a group of this
    size."""

    def __init__(self, session, addresses, states):
        self.session, self.addresses, self.states = session, addresses, states
        self.size, self.nodes = len(addresses), range(1, len(addresses) + 1)
        self.up = [node for node, it in states.items() if it.process == "up"]
        self.silent = [it for it in self.nodes if it not in states]

    def has_majority(self):
        """Whether a majority of the nodes is up, or None where that is unknown."""
        if 2 * len(self.up) > self.size:
            return True
        return None if 2 * (len(self.up) + len(self.silent)) > self.size else False

    def leader(self):
        """The greatest ballot whose node leads, or None. A node whose own supervisor answers that
        it does not lead does not, though others may still hear so."""
        heard = [it.leader for it in self.states.values() if it.leader is not None]
        found = [
            it for it in heard if it.node not in self.states or self.states[it.node].leads
        ]
        return max(found, default=None)

    def leads_nobody(self):
        """Whether it is known that nobody leads: a majority of the supervisors has answered, and
        none of these hears a leader. A leader is heard by a majority."""
        return self.leader() is None and 2 * len(self.states) > self.size

    def status(self):
        """Whether a majority is up and one leads."""
        majority, leader = self.has_majority(), self.leader()
        if majority and leader is not None:
            return UP
        return NOT if majority is False or self.leads_nobody() else UNKNOWN

    # In sentences.

    def who_leads(self):
        leader = self.leader()
        if leader is None:
            return "nobody leads" if self.leads_nobody() else "who leads is unknown"
        text = f"node {leader.node} leads, ballot {text_of_ballot(leader)}"
        hearing = [node for node, it in self.states.items() if it.leader == leader]
        is_said = leader.node in self.states
        return text if is_said else f"{text}, as node {hearing[0]} hears"

    def heading(self):
        known = "known to be " if self.silent else ""
        up = f"{len(self.up)} of {self.size} nodes are {known}up"
        majority = {
            True: "a majority", False: "no majority", None: "whether a majority is up is unknown",
        }[self.has_majority()]
        return f"session {self.session}: {up}, {majority}; {self.who_leads()}"

    def lines(self):
        yield self.heading()
        for node in self.nodes:
            yield self.line_of(node)
        yield from self.differences()

    def line_of(self, node):
        it = self.states.get(node)
        if it is None:
            return f"node {node}: no answer from {self.addresses[node - 1]}{self.heard_of(node)}"
        process = {"up": f"up, process {it.pid}", "down": "down", None: "unknown",
                   "held": f"does not move, process {it.pid}"}[it.process]
        parts = [f"node {node}: {process}", self.part_of_leader(it), part_of_record(it)]
        parts.append(part_of_known(it))
        parts.append("console unknown" if it.console is None else f"console {it.console} bytes")
        if it.end is not None:
            parts.append("its program has ended" + (f": {it.end}" if it.end else ""))
        parts.append(f"hears nodes {' '.join(map(str, sorted(it.heard))) or '-'}")
        if it.fault:
            at = time.strftime("%Y-%m-%d %H:%M:%S", time.localtime(it.fault[0]))
            parts.append(f"{at}: {it.fault[1]}")
        return "; ".join(parts)

    def part_of_leader(self, it):
        if it.leads:
            return f"leads, ballot {text_of_ballot(it.leader)}"
        return "hears no leader" if it.leader is None else f"hears node {it.leader.node} lead"

    def heard_of(self, node):
        """Which other supervisor hears that of a node which has not answered, if any."""
        heard = [
            (it.heard[node][0], other) for other, it in self.states.items() if node in it.heard
        ]
        if not heard:
            return ""
        ago, other = min(heard, key=lambda it: (it[0] is None, it))
        return f"; node {other} heard its supervisor" + ("" if ago is None else f" {ago:.1f} s ago")

    def differences(self):
        """What has to be the same at all nodes, and is not."""
        for name, what in (("code", "code files"), ("program", "programs"), ("size", "sizes")):
            found = {node: getattr(it, name) for node, it in self.states.items()}
            found = {node: it for node, it in found.items() if it is not None}
            if len(set(found.values())) > 1:
                text = ", ".join(f"node {node} {it}" for node, it in found.items())
                yield f"the {what} of the nodes differ: {text}"


def part_of_record(it):
    if it.starts is None:
        return "record unknown"
    places = "-" if it.places is None else it.places
    return f"starts {it.starts} promised {text_of_ballot(it.promised)} places {places}"


def part_of_known(it):
    """How far the node knows the session, as its log has said."""
    front = "unknown" if it.front is None else it.front
    return f"known front {front}, keys waiting {'unknown' if it.waiting is None else it.waiting}"
