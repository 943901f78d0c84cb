"""Hosts that are namespaces of this machine, with a pair of virtual cards between each two of them.
tests/partitions and tests/walk share them. They want root, `ip` of iproute2, and util-linux."""

import itertools
import os
import signal
import subprocess
import sys

from shared.nodes import children_of

from .checks import main_of_checks
from .program import Broken, system


class Network:
    """A namespace for each host, named by this process, and the ways between them. The hosts are 1
    and so on, and the address of host N is PREFIX.N."""

    def __init__(self, size, prefix):
        self.hosts, self.prefix = range(1, size + 1), prefix

    def name(self, host):
        return f"pgroup{os.getpid()}-{host}"

    def address(self, host):
        return f"{self.prefix}.{host}"

    def make(self):
        for host in self.hosts:
            system("ip", "netns", "add", self.name(host))
            self.ip_at(host, "link", "set", "lo", "up")
            self.ip_at(host, "address", "add", f"{self.address(host)}/32", "dev", "lo")
        for one, two in itertools.combinations(self.hosts, 2):
            ends = [f"to{two}", "netns", self.name(one)], [f"to{one}", "netns", self.name(two)]
            system("ip", "link", "add", *ends[0], "type", "veth", "peer", "name", *ends[1])
            self.ip_at(one, "link", "set", f"to{two}", "up")
            self.ip_at(two, "link", "set", f"to{one}", "up")
        self.heal()

    def ip_at(self, host, *words):
        system("ip", "-n", self.name(host), *words)

    def heal(self):
        for host in self.hosts:
            self.heal_host(host)

    def heal_host(self, host):
        """All gets to this host again, and from it."""
        for other in self.hosts:
            if other != host:
                for one, two in ((host, other), (other, host)):
                    way = [f"{self.address(two)}/32", "dev", f"to{two}", "src", self.address(one)]
                    self.ip_at(one, "route", "replace", *way)

    def cut(self, *pairs):
        """Nothing gets from the first to the second of each pair."""
        for one, two in pairs:
            self.ip_at(one, "route", "replace", "blackhole", f"{self.address(two)}/32")

    def inside(self, host):
        """Returns the words before a command that run it in the namespace of a host."""
        return ["ip", "netns", "exec", self.name(host)]

    def remove(self):
        for host in self.hosts:
            words = ["ip", "netns", "del", self.name(host)]
            subprocess.run(words, check=False, capture_output=True)


# The bytes of a host's disk, which take room only where they are written.
DISK = 256 << 20
# A host begins by this: it mounts its disk, says so, and waits to be killed.
BEGIN = 'mount $0 "$1" "$2" 2>&1 && echo up && exec sleep infinity'


class Host:
    """A machine: a host of a network, with a disk of its own and mounts of its own, and with a
    namespace of processes, so that all of them are killed at once."""

    def __init__(self, number, network, folder):
        self.number, self.network = number, network
        # The disk is at the same place at each host.
        self.image, self.disk = os.path.join(folder, f"image{number}"), os.path.join(folder, "disk")
        self.process, self.pid = None, None
        self.has_loop = os.path.exists("/dev/loop-control")
        os.makedirs(self.disk, exist_ok=True)

    def make_disk(self):
        """Makes an ext4 file system in a file, or a folder in memory where there are no loop
        devices."""
        if self.has_loop:
            with open(self.image, "wb") as file:
                file.truncate(DISK)
            system("mkfs.ext4", "-q", "-F", self.image)
        else:
            os.mkdir(self.image)
            system("mount", "-t", "tmpfs", "none", self.image)

    def start(self):
        how = "-oloop" if self.has_loop else "--bind"
        spaces = ["unshare", "--mount", "--pid", "--fork", "--kill-child", "--mount-proc"]
        words = [*self.network.inside(self.number), *spaces, "bash", "-c", BEGIN, how]
        self.process = subprocess.Popen(
            [*words, self.image, self.disk], stdin=subprocess.DEVNULL, stdout=subprocess.PIPE,
            stderr=subprocess.DEVNULL,
        )
        said = self.process.stdout.readline().decode()
        if said != "up\n":
            raise Broken(f"host {self.number} does not start: {said}")
        self.pid = children_of(self.process.pid)[0]

    def inside(self, *words, user=0):
        """Returns the words that run a command at this host, at the top of its disk. Ctrl-C at its
        terminal is for the command alone, and its status is that of `nsenter` too."""
        spaces = [f"--target={self.pid}", "--mount", "--net", "--pid"]
        enter = ["nsenter", *spaces, f"--setuid={user}", f"--setgid={user}"]
        signals = "env", "--ignore-signal=INT", *enter, "env", "--default-signal=INT"
        return [*signals, "-C", self.disk, *words]

    def kill(self):
        """Kills all processes of the host."""
        if self.process:
            os.kill(self.pid, signal.SIGKILL)
            self.process.wait()
            self.process = None

    def end(self):
        self.kill()
        if not self.has_loop and os.path.ismount(self.image):
            system("umount", self.image)


def must_be_root(name):
    """Says what the script wants if this is not root."""
    if os.geteuid() != 0:
        print(f"{name}: it wants root, for namespaces", file=sys.stderr)
    return os.geteuid() == 0


def main_as_root(name, *checks):
    """Runs the checks of a script that wants root. Returns the status."""
    return main_of_checks(name, *checks) if must_be_root(name) else 2
