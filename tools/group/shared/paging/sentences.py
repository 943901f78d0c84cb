"""What a page tells of the lines of nodes' logs, in words for people who know nothing of them."""

import re

from ..ends import end_of, with_end

# What a log says that the lanes do not show by themselves.
TOLD = re.compile(
    r".*(refused|no room|cannot|is asked|ended|older|missing|differs|full|contradicts|agrees)"
)
AGAIN = "; the node is started again"
# What stands behind the verb of what is told of a death.
REST = re.compile(r" \(| with | by | refused|[,;:]")
SIGNAL = re.compile(r"ended by (\w+)")
# Nodes that are lost within this time are lost at the same time, in milliseconds.
TOGETHER = 500
# With more losses than these they are counted.
MOST = 4
REFUSED = re.compile(r"refused by (\d+\.(\d+)) ballot (\d+\.\d+)")


def told_of(text, led=()):
    """What a page tells of a line of a log, or None. That a program has ended is told once: as the
    node says it, and not as its supervisor says so. `led` are the ballots under which the node was
    seen to lead."""
    end = end_of(text)
    if end is not None:
        return with_end("says that its program has ended", end)
    if text.startswith("says that the program has ended") or not TOLD.match(text):
        return None
    return refusal_of(text, led) or text.replace(
        "is asked to campaign", "is asked to lead by its supervisor").replace(
        "campaign refused", "cannot ask to lead: refused")


def refusal_of(text, led):
    found = REFUSED.fullmatch(text)
    if not found:
        return None
    what = "gives up leading" if found[3] in led else "does not lead"
    return f"{what}: node {found[2]} has a greater ballot, {found[1]}"


def death_of(text):
    """What is told of a line of a log that says how a node has ended, or None."""
    if not text.startswith("ended "):
        return None
    is_again = text.endswith(AGAIN)
    text = text.removesuffix(AGAIN)
    found = SIGNAL.fullmatch(text)
    if found:
        name = found[1]
        is_killed = name == "SIGKILL"
        text = f"was killed ({name})" if is_killed else f"was ended by a signal ({name})"
    else:
        text = f"has {text}"
    return text + (", and its supervisor starts it again" if is_again else "")


def goes_on(others, size):
    """What is told of the death of a node that did not lead, if so many others run while one leads:
    nothing, if these are too few."""
    if 2 * others <= size:
        return ""
    who = "two" if others == 2 else others
    who = f"the other {who}" if others == size - 1 else f"{who} others"
    return f"; it did not lead and {who} run, so the program goes on"


def verb_of(text):
    """The verb of what is told of a node that is lost."""
    return REST.split(text)[0]


def listed(words):
    words = [str(it) for it in words]
    return " and ".join(filter(None, [", ".join(words[:-1]), words[-1]]))


def nodes_named(numbers):
    """These nodes at the beginning of a sentence."""
    return f"Node{'s' if len(numbers) > 1 else ''} {listed(numbers)}"


def lower(text):
    """A sentence without its capital letter."""
    return text[:1].lower() + text[1:]


def upper(text):
    return text[:1].upper() + text[1:]


def about(span):
    """About how long that is, of milliseconds."""
    seconds = round(span / 1000)
    if seconds < 1:
        return "less than a second"
    if seconds < 120:
        count = "a second" if seconds == 1 else f"{seconds} seconds"
    else:
        count = f"{round(seconds / 60)} minutes"
    return f"about {count}"


def plural(verb, count):
    first, _, rest = verb.partition(" ")
    many = {"was": "were", "has": "have", "is": "are"}
    return f"{many.get(first, first) if count > 1 else first} {rest}"


def losses_named(lost):
    """How often nodes were lost and how, as a sentence without its full stop. By each node `lost`
    has the verbs, one for each time, the node that was lost first before the others."""
    times = {1: "", 2: " twice"}
    parts = [f"node {node} {it[-1]}{times.get(len(it), f' {len(it)} times')}"
             for node, it in lost.items()]
    return upper(listed(parts))


def groups_of(lost):
    """The losses in order, in groups that were at one moment. Each loss has its time, its node, and
    its verb."""
    groups = []
    for it in sorted(lost):
        last = groups[-1] if groups else []
        is_near = last and it[0] - last[0][0] <= TOGETHER
        if is_near and it[1] not in [one[1] for one in last]:
            last.append(it)
        else:
            groups.append([it])
    return groups


def together(group):
    """Nodes that were lost at one moment, as a sentence without its full stop."""
    group = sorted(group, key=lambda it: it[1])
    numbers, verbs = [it[1] for it in group], {it[2] for it in group}
    if len(group) == 1:
        return f"{nodes_named(numbers)} {group[0][2]}"
    if len(verbs) == 1:
        return f"{nodes_named(numbers)} {plural(*verbs, len(group))} at the same time"
    every = "both" if len(group) == 2 else "all"
    who = upper(listed(f"node {node} {verb}" for _, node, verb in group))
    return f"{who}, {every} at the same time"


def in_order(lost):
    """Who was lost and how, as a sentence without its full stop: the first one first."""
    return upper(", then ".join(lower(together(it)) for it in groups_of(lost)))


def who_was_lost(lost):
    """Who was lost, in order, or counted if that is too much; as a sentence without its full
    stop."""
    if len(groups_of(lost)) <= MOST:
        return in_order(lost)
    by_node = {}
    for _, node, verb in lost:
        by_node.setdefault(node, []).append(verb)
    return losses_named(by_node)
