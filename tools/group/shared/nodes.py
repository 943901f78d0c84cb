"""The command line of a node, free addresses, and what the system says of UDP ports and processes.
The scripts of `tools/group` share it with the tests and benches of groups."""

import itertools
import os
import random
import socket

from .words import text_of_address

# The greatest number of turns: a node that is to run until it is ended.
TURNS = 4294967295
# What goes through a range of ports, by the text of the range.
WALKS = {}


def command_of(program, file, node, session, record, addresses, *more, turns=TURNS):
    """Returns the command line of a node. `addresses` has the address of each node of the group,
    and `more` the words after them."""
    words = [program, "node", file, node, len(addresses), session, record, turns]
    return [str(it) for it in [*words, *map(text_of_address, addresses), *more]]


def walk_of(text):
    """Returns what goes through a range of ports again and again, from a random one on. So none is
    given twice by this process before all were: who has got one may not have bound it yet."""
    if text not in WALKS:
        first, last = map(int, text.split("-"))
        begin = random.SystemRandom().randint(first, last)
        WALKS.setdefault(text, itertools.cycle([*range(begin, last + 1), *range(first, begin)]))
    return WALKS[text]


def free_addresses(count):
    """Returns `count` loopback addresses whose ports nobody has bound. They are below the range
    from which the system gives ports to those that ask for any: a node that is started again finds
    its own still free. PGROUP_PORTS has the first port and the last, as `20000-25999`: scripts that
    run at the same time get ports of their own."""
    ports, found = walk_of(os.environ.get("PGROUP_PORTS", "20000-31999")), []
    while len(found) < count:
        address = ("127.0.0.1", next(ports))
        with socket.socket(socket.AF_INET, socket.SOCK_DGRAM) as probe:
            try:
                probe.bind(address)
            except OSError:
                continue
        if address not in found:
            found.append(address)
    return found


def socket_at(port, path="/proc/net/udp"):
    """Returns the words of the line of this table for the socket with this port that is connected
    to nobody, or None if there is no such socket."""
    with open(path, encoding="ascii") as table:
        for line in table:
            words = line.split()
            if words[1].endswith(f":{port:04X}") and words[2] == "00000000:0000":
                return words
    return None


def dropped_at(port, path="/proc/net/udp"):
    """Returns how many datagrams the socket with this port has dropped, or None if there is
    none. The table is that of this network namespace, or of another one."""
    words = socket_at(port, path)
    return int(words[-1]) if words else None


def is_empty_at(port, path="/proc/net/udp"):
    """Returns true if there is a socket with this port and no datagram waits in it."""
    words = socket_at(port, path)
    return words is not None and words[4].endswith(":00000000")


def children_of(pid):
    """Returns the processes that this process has started and that still run."""
    try:
        with open(f"/proc/{pid}/task/{pid}/children", encoding="ascii") as children:
            return [int(it) for it in children.read().split()]
    except OSError:
        return []


def stat_of(pid):
    """Returns the fields of a process's /proc/PID/stat after its name. The first is its state, the
    second the process that has started it."""
    with open(f"/proc/{pid}/stat", encoding="ascii", errors="replace") as stat:
        return stat.read().rpartition(")")[2].split()
