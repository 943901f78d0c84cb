"""The machines of tests/recipes: folders, with programs in the place of systemctl, sudo and chown;
and the blocks of commands of a page."""

import glob
import os
import re
import shutil
import socket
import subprocess
import textwrap

from .files import bytes_of, file_with
from .group import await_that, type_at
from .program import PROGRAM, TOP, Broken
from .scripts import SCRIPTS, path_of, run, session_of

SYSTEMCTL = """#!/bin/bash
# start, stop, restart, and both of enable and disable, for units pgroup@NAME.
word=$1; shift; [ "$1" != --now ] || shift
for unit; do
  name=${unit#pgroup@} pid=$ROOT/$name.pid
  if [ "$word" != start ] && [ "$word" != enable ] && [ -f "$pid" ]; then
    old=$(cat "$pid")
    kill "$old"
    # It has ended once it has only to be waited for, which process 1 may do much later.
    while read -r _ _ state _ 2> /dev/null < "/proc/$old/stat" && [ "$state" != Z ]; do
      sleep 0.02
    done
    rm "$pid"
  fi
  if [ "$word" != stop ] && [ "$word" != disable ]; then
    PGROUP_LOG=1 setsid COMMAND < /dev/null > /dev/null 2>> "$ROOT/$name.log" &
    echo $! > "$pid"
  fi
done
"""
SUDO = '#!/bin/bash\n[ "$1 $2" = "-u pgroup" ] || exit 1\nshift 2\nexec "$@"\n'
NODES = (1, 2, 3)
PORTS = NODE, KEYS, BEATS = 7001, 7101, 7201


def section_of(title, page):
    text = bytes_of(os.path.join(TOP, "docs", page)).decode()
    found = re.search(rf"^##+ {title}\n(.*?)(?=^##|\Z)", text, re.M | re.S)
    if not found:
        raise Broken(f"{page} has no section {title}")
    return found[1]


def blocks_of(title, count, page="OPERATE.md"):
    """The blocks of commands of a section."""
    found = re.findall(r"(?:^ {4}.*\n)+", section_of(title, page), re.M)
    if len(found) != count:
        raise Broken(f"{page}: {title} has {len(found)} blocks, and not {count}")
    return [textwrap.dedent(it) for it in found]


def is_bound(host, port):
    """Whether a socket has this address."""
    here = f"{socket.inet_aton(host)[::-1].hex().upper()}:{port:04X}"
    with open("/proc/net/udp", encoding="ascii") as table:
        return any(line.split()[1] == here for line in table)


class Machine:
    """A folder that stands for a machine with these nodes."""

    def __init__(self, folder, nodes, network):
        self.folder, self.nodes, self.network = folder, nodes, network
        for name in ("etc/pgroup", "var/lib/pgroup", "mnt/new", "mnt/backup", "bin"):
            os.makedirs(os.path.join(folder, name))
        unit = bytes_of(path_of("pgroup@.service")).decode()
        command = re.search(r"^ExecStart=/usr/bin/(.*)$", unit, re.M)[1].replace("%i", "$name")
        self.put("systemctl", SYSTEMCTL.replace("COMMAND", self.here(command)))
        self.put("sudo", SUDO)
        self.put("chown", "#!/bin/bash\n")
        for name in ("renew", "supervise", "status"):
            os.symlink(os.path.join(SCRIPTS, name), os.path.join(folder, "bin", f"pgroup-{name}"))
        # What the shell of a recipe has.
        self.env = {**os.environ, "PGROUP": PROGRAM, "ROOT": folder,
                    "PATH": f"{folder}/bin:{os.environ['PATH']}",
                    "NODES": " ".join(map(str, nodes))}

    def put(self, name, text):
        os.chmod(file_with(os.path.join(self.folder, "bin"), name, text.encode()), 0o755)

    def here(self, text):
        """Commands of OPERATE as they are here."""
        text = re.sub(r"(?<![\w/])/(etc/pgroup|var/lib/pgroup|mnt/\w+)", rf"{self.folder}/\1", text)
        return text.replace("10.7.0.", self.network)

    def path(self, name):
        """The path here of a name such as etc/pgroup/node1."""
        return os.path.join(self.folder, name)

    def run(self, commands, typed=""):
        """Types commands. Returns what they print."""
        done = subprocess.run(["bash", "-euc", self.here(commands)], check=False, env=self.env,
                              input=typed.encode(), capture_output=True, timeout=60)
        if done.returncode != 0:
            raise Broken(f"status {done.returncode} of {commands}: {done.stderr.decode()}")
        return done.stdout.decode()


class Group:
    """Three nodes, all on one machine or each on its own."""

    def __init__(self, folder, is_one):
        # All addresses are of this system, and those of another process differ.
        self.folder, pid = folder, os.getpid()
        self.network = f"127.{1 + pid // 250 % 250}.{1 + pid % 250}."
        shares = [NODES] if is_one else [(it,) for it in NODES]
        self.machines = [
            Machine(os.path.join(folder, f"machine{it[0]}"), it, self.network) for it in shares]
        self.hosts = dict(zip(NODES, NODES))

    def at(self, node):
        """The machine of a node."""
        return next(it for it in self.machines if node in it.nodes)

    def is_one(self):
        return len(self.machines) == 1

    def replace(self, node):
        """Gives a node a new machine, if there are several, with its arguments, and with the code
        files of another machine. Returns the old machine."""
        old = self.at(node)
        if not self.is_one():
            new = Machine(f"{old.folder}new", old.nodes, self.network)
            other = self.at(node % 3 + 1)
            for path in glob.glob(other.path("etc/pgroup/*.code")):
                shutil.copy(path, new.path("etc/pgroup"))
            words = bytes_of(old.path(f"etc/pgroup/node{node}")).decode()
            words = words.replace(f"{old.folder}/", f"{new.folder}/")
            file_with(new.path("etc/pgroup"), f"node{node}", words.encode())
            self.machines[self.machines.index(old)] = new
        return old

    def each(self, commands, without=None):
        """Types commands at each machine, but not at the one of this node alone."""
        for it in self.machines:
            if it.nodes != (without,):
                it.run(commands)

    def name(self, commands):
        """Types commands at machine 1, and at all machines what their last line prints."""
        first = self.machines[0]
        said = first.run(commands).splitlines()[-1]
        for it in self.machines:
            there = said.replace(f"{first.folder}/", f"{it.folder}/")
            it.env.update(word.split("=") for word in there.split())

    def gather(self, names="mnt/new/*"):
        """Brings files to /mnt/new of machine 1."""
        for it in self.machines:
            bring(it, self.machines[0], names)

    def give(self, *names):
        """Brings files of /mnt/new of machine 1 to the others: those of its nodes, or these."""
        for it in self.machines[1:]:
            for name in names or [f"record{node}*" for node in it.nodes]:
                bring(self.machines[0], it, f"mnt/new/{name}")

    def make(self, name, text):
        """Compiles a program, for all machines."""
        source = file_with(self.folder, f"{name}.pas", text.encode())
        codes = [it.path(f"etc/pgroup/{name}.code") for it in self.machines]
        for it in codes:
            subprocess.run([os.path.join(TOP, "tools", "compile"), "-o", it, source], check=True)
        return codes[0]

    def words(self, node):
        at = lambda port: " ".join(f"10.7.0.{it}:{port}" for it in NODES)
        code = self.at(node).path("etc/pgroup/game.code")
        return self.at(node).here(
            f"--file /etc/pgroup/game.code --id {node} --size 3 --session {session_of(code)}\n"
            f"--record /var/lib/pgroup/record{node} --console /var/lib/pgroup/console{node}\n"
            f"--nodes {at(NODE)} --beats {at(BEATS)} --keys 10.7.0.{node}:{KEYS}\n"
            "--silent 0.5 --asked-by 127.0.0.1\n")

    def begin(self):
        """Starts all nodes for the first time."""
        for node in NODES:
            it, name = self.at(node), f"node{node}"
            file_with(it.path("etc/pgroup"), name, self.words(node).encode())
            it.run(f"setsid pgroup-supervise @/etc/pgroup/{name} --new < /dev/null > /dev/null "
                   f"2> $ROOT/{name}.log & echo $! > $ROOT/{name}.pid")

    def host(self, node):
        return f"{self.network}{self.hosts[node]}"

    def type(self, node, keys):
        type_at((self.host(node), KEYS), keys)

    def consoles(self):
        paths = [self.at(it).path(f"var/lib/pgroup/console{it}") for it in NODES]
        return [bytes_of(it) if os.path.exists(it) else None for it in paths]

    def await_shown(self, wanted, nodes=NODES):
        shown = lambda: [self.consoles()[it - 1] for it in nodes]
        await_that(lambda: shown() == [wanted] * len(nodes), f"nodes {nodes} show {wanted}")

    def await_keys(self, node, keys, wanted):
        """Waits until a node can be typed at, and all show this."""
        words = ["--check", "--group", self.at(node).path(f"etc/pgroup/node{node}")]
        are_up = lambda: b"3 of 3 nodes are up, a majority; node " in run("status", *words).stdout
        await_that(are_up, "all are up, and one leads")
        await_that(lambda: is_bound(self.host(node), KEYS), f"node {node} can be typed at")
        self.type(node, keys)
        self.await_shown(wanted)

    def lose(self, *nodes):
        """Nodes lose their disks. Others are there in their place, with the arguments and code."""
        for node in nodes:
            self.at(node).run(f"systemctl stop pgroup@node{node}\n"
                              f"rm /var/lib/pgroup/record{node}* /var/lib/pgroup/console{node}*")
            self.replace(node)

    def end(self):
        for node in NODES:
            self.at(node).run(f"systemctl stop pgroup@node{node}")


def bring(one, other, names):
    """Brings files of a machine to /mnt/new of another one."""
    for path in glob.glob(one.path(names)):
        if os.path.dirname(path) != other.path("mnt/new"):
            shutil.copy2(path, other.path("mnt/new"))
