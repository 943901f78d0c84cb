"""Says what to type before all places of a session are taken."""

import os
import re
import shlex
import sys

from .frozen import frozen_at
from .record import PLACES
from .session import session_of

# From how many places on it is said.
ENOUGH = -(-PLACES * 4 // 5)


def script(name):
    """How to type the name of another script, by how this one was called."""
    folder, mine = os.path.split(sys.argv[0])
    return os.path.join(folder, f"pgroup-{name}" if mine.startswith("pgroup-") else name)


def quoted(*words):
    return " ".join(map(shlex.quote, words))


def next_frozen(file):
    """A name for the frozen file that follows this code file."""
    frozen = frozen_at(file)
    root = re.sub(r"(\.frozen\d+)?(\.code)?$", "", file)
    return f"{root}.frozen{frozen.times + 1 if frozen else 1}.code"


def words_before(session, file):
    """The words of `renew` that say what is frozen."""
    words = [script("renew"), "--freeze", next_frozen(file) if file else "FROZEN"]
    words += ["--file", file or "FILE"]
    if file:
        with open(file, "rb") as code:
            is_first = session_of(code.read(), 1) == session
        words += [] if is_first else ["--session", str(session)]
    return words


def renewal(session, file, records, consoles):
    """The command that renews a session by freezing. What is not known stands for itself."""
    words = words_before(session, file)
    words += [*(records or ["RECORD.."]), "--consoles", *(consoles or ["CONSOLE.."])]
    return quoted(*words)


def told_of_full(session, places, file=None, records=(), consoles=()):
    """In a list of at most one line, what to do as most places are taken."""
    if places is None or places < ENOUGH:
        return []
    try:
        command = renewal(session, file, records, consoles)
    except OSError:
        command = renewal(session, None, records, consoles)
    share = 100 * places // PLACES
    return [f"{share} % of the places are taken: stop all nodes, then type: {command}"]


def told_of_machines(session, places, hosts, file=None, taken=None):
    """In a list of lines, what to do on each of these machines, in order of the nodes, as most
    places are taken. `taken` has the words of a supervisor's file, or is None."""
    least = min(ENOUGH, taken and taken.renew_at or ENOUGH)
    if places is None or places < least:
        return []
    mine = taken.id if taken else None
    records = [taken.record if it == mine else f"RECORD{it}" for it in range(1, len(hosts) + 1)]
    console = taken and taken.console or "CONSOLE"
    lines = [f"{100 * places // PLACES} % of the places are taken, and the nodes are on several "
             "machines. Stop all nodes; then type"]
    for host, it in zip(hosts, records):
        lines.append(f"on {host}: {quoted(script('renew'), '--yes', '--retire', it)}")
    try:
        words = words_before(session, file)
    except OSError:
        words = words_before(session, None)
    retired = [f"{it}.retired-{session}" for it in records]
    words += [*retired, "--to", *records, "--consoles", console]
    frozen = words[2]
    lines.append(f"on {hosts[(mine or 1) - 1]}, where the retired records were brought: "
                 + quoted(*words))
    lines.append(f"Take {frozen}, each RECORD and a copy of {console} to its machine once, and "
                 f"start the nodes with --file {frozen} and the session that is told")
    return lines
