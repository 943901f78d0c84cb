"""Which procedures an EXIT may end, seen from each call."""


def spread_of(own, calls):
    """For each procedure those that a call of it may end, itself among them: `own` has what its own
    EXITs name, and `calls` which procedures it calls."""
    leaves = {it: set(names) for it, names in own.items()}
    is_growing = any(own.values())
    while is_growing:
        is_growing = False
        for it, callees in calls.items():
            for callee in callees:
                more = leaves[callee] - {callee} - leaves[it]
                if more:
                    leaves[it] |= more
                    is_growing = True
    return leaves
