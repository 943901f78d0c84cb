"""What a session's records say was typed: the rule by which `renew` reads them. No file is written
here.

A place that was chosen has the vote of a majority under one ballot. So each majority of the records
has a vote of that ballot, or of a greater one with the same value: a proposer takes the value of
the greatest ballot that a majority reports, and the records are read by this rule."""

import collections

from ..record import PLACES, keys_in, text_of_ballot

# What was read: the characters in order; at how many places; how many keys were chosen again; and
# how many stand above the first place without a vote.
Typed = collections.namedtuple("Typed", "characters places again above")


class Unfit(Exception):
    """Why these records do not make a new session."""


def check_group(records, is_minority=False):
    """Refuses records that are not of a majority of one group, or not of a minority where that is
    said. They are given by their paths."""
    paths = list(records)
    first = records[paths[0]]
    nodes = {}
    for path, it in records.items():
        if it.session != first.session:
            raise Unfit(
                f"{paths[0]} is of session {first.session}, and {path} of session {it.session}"
            )
        if it.size != first.size:
            raise Unfit(f"{paths[0]} is of {first.size} nodes, and {path} of {it.size}")
        if it.node in nodes:
            raise Unfit(f"{nodes[it.node]} and {path} are both of node {it.node}")
        nodes[it.node] = path
    count = f"{len(nodes)} of {first.size} records are"
    if is_minority and 2 * len(nodes) > first.size:
        raise Unfit(f"{count} a majority: leave --from-minority out")
    if not is_minority and 2 * len(nodes) <= first.size:
        raise Unfit(f"{count} no majority: what was chosen may be in the others. If those are lost "
                    "for good, --from-minority continues without them")


def value_at(records, place):
    """The value of the greatest ballot at a place, in a list of one, or an empty list."""
    there = {path: it.votes[place] for path, it in records.items() if place in it.votes}
    if not there:
        return []
    path, (ballot, value) = max(there.items(), key=lambda it: it[1][0])
    for other, vote in there.items():
        if vote[0] == ballot and vote[1] != value:
            raise Unfit(
                f"{path} and {other} have different values at place {place} under ballot "
                f"{text_of_ballot(ballot)}: one is damaged, or there were two nodes of one number"
            )
    return [value]


def typed_in(records, is_minority=False):
    """What a majority of a group's records says was typed; or what a minority does, which may lack
    what was chosen, and have what was not."""
    check_group(records, is_minority)
    keys, count, place = {}, 0, 0
    while place < PLACES:
        found = value_at(records, place)
        if not found:
            break
        read = keys_in(found[0])
        keys.update(dict.fromkeys(read))
        count += len(read)
        place += 1
    higher = (it for record in records.values() for it in record.votes.items() if it[0] > place)
    above = {key for _, (_, value) in higher for key in keys_in(value)} - keys.keys()
    characters = bytes(it[3] for it in keys)
    return Typed(characters, place, count - len(keys), len(above))
