"""Which calls may end more than the routine that they call, by EXIT."""

from pcode.fields import Fields

from ..checking import tree


def nodes_of(node):
    """All nodes of a checked tree that are about statements and values."""
    waiting = [node]
    while waiting:
        it = waiting.pop()
        if isinstance(it, (list, tuple)):
            waiting.extend(it)
        elif isinstance(it, Fields) and type(it).__module__ == tree.__name__:
            yield it
            waiting.extend(it.fields())


def found_in(nodes):
    """For each routine the ones that it calls, and those that it names by EXIT. `nodes` has those
    of each."""
    calls, exits = {}, {}
    for routine, own in nodes.items():
        calls[routine], exits[routine] = set(), set()
        for node in own:
            if isinstance(node, tree.Call):
                calls[routine].add(node.routine)
            elif isinstance(node, tree.Exit):
                exits[routine].add(node.routine)
    return calls, exits


def exits_of(nodes):
    """For each routine the other ones that a call of it may end: what it and its callees name by
    EXIT, without itself; and what the EXITs in its callees name, itself among them."""
    routines = list(nodes)
    calls, exits = found_in(nodes)
    callees = {routine: calls[routine] & set(routines) for routine in routines}
    for routine in routines:
        exits[routine] -= {routine}
    is_growing = any(exits.values())
    while is_growing:
        is_growing = False
        for routine in routines:
            more = set().union(*(exits[callee] for callee in callees[routine]))
            more -= exits[routine] | {routine}
            if more:
                exits[routine] |= more
                is_growing = True
    asked = {routine: set().union(*(exits.get(callee, set()) for callee in calls[routine]))
             for routine in routines}
    return exits, asked
