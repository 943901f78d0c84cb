"""Whose a UDP port of this machine is, and whose a process. While a node is down anybody may take
the port of its keys, and would get what others type there."""

import os
import socket
import struct

# The addresses of any host, and what stands before one of IPv4 in the table of IPv6.
ANY, ANY6, MAPPED = "0" * 8, "0" * 32, "0000000000000000FFFF0000"


def is_local(address):
    """Whether an address is this machine's."""
    with socket.socket(socket.AF_INET, socket.SOCK_DGRAM) as probe:
        try:
            probe.bind((address[0], 0))
        except OSError:
            return False
    return True


def users_in(path, hosts, port):
    """The users of the sockets of a table that have one of these hosts and this port."""
    ends = {f"{it}:{port:04X}" for it in hosts}
    try:
        with open(path, encoding="ascii") as table:
            lines = [it.split() for it in table]
    except OSError:
        return set()
    return {int(it[7]) for it in lines if it[1] in ends}


def users_at(address, folder="/proc/net"):
    """The users whose sockets may get what is sent to this address, by the tables of this network
    namespace, or of another one. A socket of IPv6 gets it if no other one has the port."""
    host, port = address
    # What is sent to 0.0.0.0 comes to this machine.
    number = socket.inet_aton("127.0.0.1" if host == "0.0.0.0" else host)
    mine = f"{struct.unpack('=I', number)[0]:08X}"
    found = users_in(f"{folder}/udp", (mine, ANY), port)
    return found or users_in(f"{folder}/udp6", (ANY6, MAPPED + mine, MAPPED + ANY), port)


def owner_of(path):
    """The user whose a file is, or None."""
    try:
        return os.stat(path).st_uid if path else None
    except OSError:
        return None


def user_of(pid):
    """The user as whom a process runs, or None."""
    try:
        with open(f"/proc/{pid}/status", encoding="ascii", errors="replace") as status:
            return int(next(it for it in status if it.startswith("Uid:")).split()[2])
    except (OSError, StopIteration):
        return None


def is_owners(pid, path):
    """Whether a process is that of a file's owner, or root's. Anybody can give a process the words
    of a node. Of a file that cannot be seen nothing is known."""
    owner = owner_of(path)
    return owner is None or user_of(pid) in (0, owner)
