"""What has to hold of what `sim` prints on a random script. Each check is a function of a Case
alone, and returns a Finding or None. What is expected comes from the script and from the rules of
docs/FORMATS.md."""

import collections

from shared.record import NOOP, Batch, keys_in
from shared.replica.shown import difference_of

# What `sim` has shown and which refusals it has printed, and what is known without it: the typed
# characters by node, start and serial; what nodes have learned; what should be shown, but for the
# consoles; which refusals should be printed; and the end after the faults, or None.
Case = collections.namedtuple("Case", "shows refused typed learned wanted refusals end")
# What does not hold: its kind, in few words, and where.
Finding = collections.namedtuple("Finding", "kind text")

PROMPT, STOP, LINE_FEED = b"> ", ord("."), 10


def output_on(characters):
    """What examples/echo.pas writes on these characters, by its source: each as it is read, a
    prompt at first and behind each line feed, and two line feeds and BYE behind a full stop, which
    ends it."""
    output = bytearray(PROMPT)
    for it in characters:
        output.append(it)
        if it == STOP:
            return bytes(output + b"\nBYE\n")
        if it == LINE_FEED:
            output += PROMPT
    return bytes(output)


def value_of(text):
    """The value that a line of a place shows."""
    if text == "noop":
        return NOOP
    node, start, first, characters = text.split(" ")[1:]
    return Batch(int(node), int(start), int(first), bytes.fromhex(characters))


def keys_below_hole(values):
    """The keys of values that are given by their places, up to the first place without one, as
    often as they are there."""
    count = 0
    while count in values:
        count += 1
    return [key for it in range(count) for key in keys_in(value_of(values[it]))]


def input_of(values):
    """The same, each key once, where it is first: the rule `Keys` of docs/DEFINITIONS.md."""
    return list(dict.fromkeys(keys_below_hole(values)))


def characters_of(keys):
    return bytes(it[3] for it in keys)


def values_of(case):
    """All values that any node was shown to have or has learned, by their places. The first counts
    where there are two."""
    values = {}
    for show in case.shows:
        values.update((it, show.places[it]) for it in show.places.keys() - values.keys())
    for it in case.learned:
        values.setdefault(it.place, it.value)
    return values


# The checks.


def check_values(case):
    """No place has two values, at two nodes or at two moments."""
    values = values_of(case)
    for at, show in enumerate(case.shows):
        for place, value in show.places.items():
            if values[place] != value:
                return Finding("two values", f"show {at}, place {place}: {values[place]}, {value}")
    for it in case.learned:
        if values[it.place] != it.value:
            return Finding("two values", f"place {it.place}: {values[it.place]}; {it}")
    return None


def check_typed(case):
    """Each learned key was typed, as this character."""
    values = values_of(case)
    for place, text in values.items():
        for node, start, serial, character in keys_in(value_of(text)):
            if case.typed.get((node, start, serial)) != character:
                key = f"{node} {start} {serial} {character:02X}"
                return Finding("not typed", f"place {place}: key {key}")
    return None


def check_order(case):
    """The keys of one start that are read have the serials 1, 2 and so on, in this order. So no two
    have one node, start and serial."""
    last = collections.Counter()
    for node, start, serial, _ in input_of(values_of(case)):
        if serial != last[node, start] + 1:
            where = f"node {node}, start {start}: serial {serial} after {last[node, start]}"
            return Finding("out of order", where)
        last[node, start] = serial
    return None


def check_consoles(case):
    """No two consoles contradict each other, at no two moments."""
    longest = b""
    for at, show in enumerate(case.shows):
        for node, line in show.nodes.items():
            shorter, longer = sorted((longest, line.console), key=len)
            if not longer.startswith(shorter):
                return Finding("contradict", f"show {at}, node {node}: {line.console}, {longest}")
            longest = longer
    return None


def check_growth(case):
    """A console loses nothing."""
    before = {}
    for at, show in enumerate(case.shows):
        for node, line in show.nodes.items():
            if len(line.console) < before.get(node, 0):
                return Finding("console lost", f"show {at}, node {node}: {line.console}")
            before[node] = len(line.console)
    return None


def check_output(case):
    """Each console has the first bytes of the program's output on the learned keys, each once."""
    values = values_of(case)
    output = output_on(characters_of(input_of(values)))
    repeated = output_on(characters_of(keys_below_hole(values)))
    for at, show in enumerate(case.shows):
        for node, line in show.nodes.items():
            if not output.startswith(line.console):
                is_twice = repeated.startswith(line.console)
                kind = "key read twice" if is_twice else "wrong output"
                return Finding(kind, f"show {at}, node {node}: {line.console}, {output}")
    return None


def check_fronts(case):
    """Of a node that is up all places below its known front are learned."""
    for at, show in enumerate(case.shows):
        for node, line in show.nodes.items():
            missing = set(range(int(line.known))) - show.places.keys() if line.is_up else None
            if missing:
                return Finding("false front", f"show {at}, node {node}: place {min(missing)}")
    return None


def check_end(case):
    """At the end, as the faults have stopped, the nodes that should be up are up, and all that are
    up have learned all places, among them all keys that waited, and their consoles show it."""
    if case.end is None:
        return None
    show = case.shows[case.end.show]
    up = {node: it for node, it in show.nodes.items() if it.is_up}
    down = set(case.end.members) - up.keys()
    if down:
        return Finding("is down", f"node {min(down)}")
    keys = input_of(show.places)
    for node, line in up.items():
        if set(show.places) != set(range(int(line.known))):
            text = f"node {node} knows {line.known} places of those up to {max(show.places)}"
            return Finding("hole stays", text)
    for key in case.end.waiting:
        if key not in keys:
            return Finding("key waits", "node {}, start {}, serial {}: {:02X}".format(*key))
    output = output_on(characters_of(keys))
    for node, line in up.items():
        if line.console != output:
            return Finding("not shown", f"node {node}: {line.console}, {output}")
    return None


def check_wanted(case):
    """All that is shown, but for the consoles, is what the rules of docs/FORMATS.md come to."""
    for at, (wanted, came) in enumerate(zip(case.wanted, case.shows)):
        nodes = {node: it._replace(console=b"") for node, it in came.nodes.items()}
        found = difference_of(wanted, came._replace(nodes=nodes))
        if found:
            return Finding("differs", f"show {at}: {found}")
    if len(case.wanted) != len(case.shows) or case.refusals != case.refused:
        return Finding("differs", f"{len(case.shows)} shows, refusals {case.refused}")
    return None


# What names a finding best comes first.
CHECKS = (
    check_values, check_typed, check_order, check_consoles, check_growth, check_output,
    check_fronts, check_end, check_wanted,
)


def finding_of(case):
    """The first finding, or None."""
    return next(filter(None, (check(case) for check in CHECKS)), None)
