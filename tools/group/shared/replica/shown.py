"""What `sim` prints of a group at the end of a script, and what of it is known without the
program."""

import collections
import subprocess

from ..record import text_of_ballot
from .datagram import value_text

# The line of a node, its console as bytes; and all that a `show` prints.
NodeLine = collections.namedtuple("NodeLine", "is_up known promised console")
Shown = collections.namedtuple("Shown", "nodes places sent")


class SimFailed(Exception):
    """What `sim` has said, where it did not end as it should."""


class SimHangs(SimFailed):
    """It has not ended in the time that it was given."""


def run_sim(program, file, script, seconds=None):
    """The bytes that `sim` prints on a script, which is the path of a file or its bytes. It is
    killed after so many seconds, if that is said."""
    given = {"input": script} if isinstance(script, bytes) else {"stdin": subprocess.DEVNULL}
    path = "/dev/stdin" if isinstance(script, bytes) else script
    words = [program, "sim", file, path]
    given.update(check=False, capture_output=True, timeout=seconds)
    try:
        done = subprocess.run(words, **given)
    except subprocess.TimeoutExpired:
        raise SimHangs(f"it has not ended in {seconds} seconds")
    if done.returncode != 0:
        said = done.stderr.decode("utf-8", "replace").strip() or f"status {done.returncode}"
        raise SimFailed(said.split("\n")[0])
    return done.stdout.decode("ascii")


def sim_lines(program, file, script):
    """The lines that `sim` prints on a script, an open file that is read from its begin, one after
    the other. SimFailed where it does not end as it should."""
    script.seek(0)
    words = [program, "sim", file, "/dev/stdin"]
    pipe = subprocess.PIPE
    process = subprocess.Popen(words, stdin=script, stdout=pipe, stderr=pipe, encoding="utf-8",
                               errors="replace")
    try:
        yield from process.stdout
        said = process.stderr.read().strip()
        if process.wait() != 0:
            raise SimFailed((said or f"status {process.returncode}").split("\n")[0])
    finally:
        process.kill()
        process.communicate()


def node_line_of(words, console_of):
    console = b"" if words[8] == "-" else bytes.fromhex(words[8])
    return NodeLine(words[2] == "up", words[4], words[6], console_of(console))


def each_show(lines, console_of=bytes):
    """All that was shown, one after the other, the consoles as `console_of` has them. Lines of what
    nodes refused are left out."""
    nodes, places = {}, {}
    for line in lines:
        words = line.rstrip("\n").split(" ")
        if words[0] == "node":
            nodes[int(words[1])] = node_line_of(words, console_of)
        elif words[0] == "place":
            places[int(words[1])] = " ".join(words[2:])
        elif words[0] == "sent":
            yield Shown(nodes, places, int(words[1]))
            nodes, places = {}, {}


def shows_of(printed):
    return list(each_show(printed.splitlines()))


def nodes_of(group, consoles):
    """The lines of nodes that `sim` should print of a group, with these consoles."""
    nodes = {}
    for number, node in group.nodes.items():
        front = "-" if node is None else str(node.learner.front)
        promised = text_of_ballot(group.stored[number].promised)
        nodes[number] = NodeLine(node is not None, front, promised, consoles[number])
    return nodes


def known_of(group, consoles):
    """What `sim` should print of a group, with these consoles."""
    places = {}
    for node in filter(None, group.nodes.values()):
        places.update((at, value_text(it)) for at, it in node.learner.learned.items())
    return Shown(nodes_of(group, consoles), places, len(group.sent))


def difference_of(wanted, came):
    """In which line two of what is shown differ, or None: its name, and both of them."""
    for number, line in wanted.nodes.items():
        for name, one, other in zip(line._fields, line, came.nodes[number]):
            if one != other:
                return f"node {number} {name.replace('_', ' ')}", one, other
    for place in sorted(wanted.places.keys() | came.places.keys()):
        one, other = wanted.places.get(place, "none"), came.places.get(place, "none")
        if one != other:
            return f"place {place}", one, other
    return None if wanted.sent == came.sent else ("sent", wanted.sent, came.sent)
