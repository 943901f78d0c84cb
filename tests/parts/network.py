"""A network between the nodes of a group on this machine, which tests/faults, tests/slow and
bench/slow/run share. It passes datagrams on late, several times or not at all, and counts them.
What the system counts is here too.

Between two nodes there are two sockets. Each of the nodes takes one of them for the other node,
since a node drops what comes from an address that it does not know. So each node has its own list
of addresses, in which only its own address is a node's.
"""

import dataclasses
import heapq
import itertools
import select
import socket
import threading
import time

from shared.replica.datagram import KINDS, kind_of

# The kinds of datagrams that carry keys which wait to be shown.
KEYED = ("submit", "accept", "accepted", "tell")
# The bytes that may wait in a socket, the greatest datagram that is taken, and how many are taken
# from one socket before the others have their turn.
ROOM, GREATEST, AT_ONCE = 1 << 22, 2048, 16


class Network:
    """The ways between all nodes. `delays_of` says what happens to each datagram."""

    def __init__(self, addresses):
        """`addresses` has the address of each node, in order."""
        self.addresses = addresses
        self.numbers = range(1, len(addresses) + 1)
        # For each ordered pair of nodes the socket that the first takes for the second.
        self.seen = {pair: new_socket() for pair in itertools.permutations(self.numbers, 2)}
        self.waiting, self.count = [], itertools.count()
        self.passed = self.lost = 0
        # By how many seconds a datagram was passed on later than it was due, at most.
        self.late = 0.0
        self.is_over = False
        self.thread = threading.Thread(target=self.run, daemon=True)

    def list_for(self, node):
        """Returns the address of each node for the list of this one."""
        there = [self.seen[node, it].getsockname() if it != node else None for it in self.numbers]
        there[node - 1] = self.addresses[node - 1]
        return there

    def ports(self):
        """Returns the ports of the network's own sockets."""
        return [it.getsockname()[1] for it in self.seen.values()]

    def delays_of(self, pair, data):
        """Returns the delay in seconds of each copy of a datagram that gets from the first node of
        a pair to the second. If there is none, it is lost."""
        raise NotImplementedError

    def take_some(self, pair):
        """Takes what the first node of a pair has sent to the second."""
        receive, sender = self.seen[pair].recvfrom, self.addresses[pair[0] - 1]
        for _ in range(AT_ONCE):
            try:
                data, source = receive(GREATEST)
            except OSError:
                return
            delays = self.delays_of(pair, data) if source == sender else ()
            self.lost += not delays
            now = time.monotonic()
            for delay in delays:
                heapq.heappush(self.waiting, (now + delay, next(self.count), pair, data))

    def pass_on(self):
        """Passes on all datagrams that are due, each from the socket that its receiver takes for
        its sender. Returns the seconds until the next is due."""
        now = time.monotonic()
        while self.waiting and self.waiting[0][0] <= now:
            due, _, (sender, receiver), data = heapq.heappop(self.waiting)
            self.late = max(self.late, now - due)
            self.passed += 1
            try:
                self.seen[receiver, sender].sendto(data, self.addresses[receiver - 1])
            except OSError:
                pass  # What cannot be sent is lost.
            now = time.monotonic()
        return max(0.0, self.waiting[0][0] - now) if self.waiting else 0.05

    def run(self):
        poll = select.epoll()
        pairs = {it.fileno(): pair for pair, it in self.seen.items()}
        for number in pairs:
            poll.register(number, select.EPOLLIN)
        while not self.is_over:
            for number, _ in poll.poll(self.pass_on()):
                self.take_some(pairs[number])
                self.pass_on()

    def end(self):
        self.is_over = True
        if self.thread.is_alive():
            self.thread.join()
        for it in self.seen.values():
            it.close()


def udp_counts(*names):
    """Returns what this network namespace has counted of UDP so far, by names of /proc/net/snmp."""
    with open("/proc/net/snmp", encoding="ascii") as table:
        there, counts = [line.split() for line in table if line.startswith("Udp:")]
    return [int(counts[there.index(it)]) for it in names]


def new_socket():
    made = socket.socket(socket.AF_INET, socket.SOCK_DGRAM)
    made.setsockopt(socket.SOL_SOCKET, socket.SO_RCVBUF, ROOM)
    made.bind(("127.0.0.1", 0))
    made.setblocking(False)
    return made


@dataclasses.dataclass
class Loss:
    """Datagrams that are lost: of those from one node to another that are of this kind and have
    these bytes at their end, the first so many from now on."""

    sender: int
    receiver: int
    kind: str
    end: bytes = b""
    count: int = 1
    seen: int = 0

    def is_met(self, pair, data):
        """Returns true if a datagram is lost. Each has to be shown to it."""
        is_between = pair == (self.sender, self.receiver)
        if not is_between or self.kind != kind_of(data) or not data.endswith(self.end):
            return False
        self.seen += 1
        return self.seen <= self.count

    def has_come(self):
        """Returns true if a datagram was lost."""
        return self.seen > 0


class SlowNetwork(Network):
    """A network on which every datagram takes equally long, and none is lost but those that
    `losses` name. It counts what each node sends to each other one."""

    def __init__(self, addresses, delay):
        """The delay is in seconds, from one node to another."""
        super().__init__(addresses)
        self.delays = (delay,)
        self.sent = {(*pair, kind): 0 for pair in self.seen for kind in (None, *KINDS)}
        self.losses = []

    def count_of(self, *kinds):
        """Returns how many datagrams of these kinds, or of all, the nodes have sent to others."""
        return sum(count for name, count in self.sent.items() if not kinds or name[2] in kinds)

    def delays_of(self, pair, data):
        self.sent[(*pair, kind_of(data))] += 1
        # Each loss counts for itself, also where another is met.
        met = [it for it in self.losses if it.is_met(pair, data)]
        return () if met else self.delays
