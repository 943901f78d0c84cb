"""What is said of a session that has moved to another node, on a page that several people see."""

import re

from .sentences import upper

MOVED = re.compile(r"Node (\d) .*: the session continues at (node \d), and its console is shown\.")


def moved_of(text, lost_with):
    """What the session says once it has moved from a node that was lost. `lost_with` says of a node
    which ones were lost with it and how, or None."""
    found = MOVED.fullmatch(text)
    if not found:
        return text
    who = lost_with(int(found[1])) or text.partition(":")[0]
    return f"{upper(who)}: you now type at {found[2]}, and see its console."


def still_of(text, is_still):
    """What the session says, for a page that others watch: and no more than is so while nobody
    leads, or no majority runs."""
    text = text.replace("Keys that you type wait here.", "Typed keys wait here.")
    if not is_still:
        return text
    return text.replace("the session continues at node", "your session is at node")
