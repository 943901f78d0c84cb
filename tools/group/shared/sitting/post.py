"""Sends keys to a node. Each datagram has a socket of its own, so that a refusal is about that very
one."""

import socket

from ..ports import is_local

# How many sockets are kept, since a refusal may come late.
KEPT = 32
SENT, REFUSED, UNSENT = "sent", "refused", "unsent"


def is_refused(it):
    """Whether the machine there has answered that nobody has the port."""
    try:
        it.recv(1)
    except ConnectionRefusedError:
        return True
    except OSError:
        pass
    return False


class Post:
    def __init__(self):
        self.recent = []

    def send(self, address, keys):
        """What has become of the keys, and why. Where they are refused, or were not sent, no node
        has them. On this machine the refusal is there when the call returns; that of another one
        comes later, and may be about a copy."""
        it = socket.socket(socket.AF_INET, socket.SOCK_DGRAM)
        try:
            it.connect(address)
            it.setblocking(False)
            it.send(keys)
        except OSError as fault:
            it.close()
            return UNSENT, fault.strerror
        if is_local(address) and is_refused(it):
            it.close()
            return REFUSED, "nobody receives there"
        self.recent.append((address, it))
        for _, old in self.recent[:-KEPT]:
            old.close()
        del self.recent[:-KEPT]
        return SENT, None

    def is_refused_late(self, address):
        """Whether one of the last datagrams to this address was refused since it was sent. Whether
        a node has it nobody knows."""
        refused = [it for it in self.recent if it[0] == address and is_refused(it[1])]
        for it in refused:
            it[1].close()
            self.recent.remove(it)
        return bool(refused)

    def close(self):
        for _, it in self.recent:
            it.close()
        self.recent.clear()
