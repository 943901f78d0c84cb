"""The port of a node that is down: who takes it as another user gets nothing that is typed."""

import contextlib
import os
import socket
import subprocess
import sys

from shared.words import text_of_address

from ..checks import expect
from ..echo_code import ECHO
from ..files import bytes_of, file_with
from ..group import await_that
from ..scripts import path_of
from ..supervised import group_of
from ..terminals import Terminal

NOBODY = 65534
# Has the name and the words of a node. It takes a port, and prints what comes there.
TAKER = """
import os, socket
host, port = os.environ["HOST"], int(os.environ["PORT"])
it = socket.socket(socket.AF_INET6 if ":" in host else socket.AF_INET, socket.SOCK_DGRAM)
if ":" in host:
    it.setsockopt(socket.IPPROTO_IPV6, socket.IPV6_V6ONLY, 0)
it.bind((host, port))
print("bound", flush=True)
while True:
    print(it.recv(65536).decode(), flush=True)
"""


class Taker:
    """Another user, who has taken the port of a node, and says that it is the node."""

    def __init__(self, folder, node, host):
        self.address = node.keys
        file_with(folder, "node", TAKER.encode())
        words = [sys.executable, "node", ECHO, "1", "1", "7", node.record, "9"]
        words += [text_of_address(node.nodes[0]), "--keys", text_of_address(node.keys)]
        self.process = subprocess.Popen(
            ["setpriv", f"--reuid={NOBODY}", f"--regid={NOBODY}", "--clear-groups", *words],
            cwd=folder, env={**os.environ, "HOST": host, "PORT": str(node.keys[1])},
            stdin=subprocess.DEVNULL, stdout=subprocess.PIPE)
        self.process.stdout.readline()

    def got(self):
        """What has come to it before a word of the test."""
        with socket.socket(socket.AF_INET, socket.SOCK_DGRAM) as sender:
            sender.sendto(b"the end", self.address)
        return b"".join(iter(self.process.stdout.readline, b"the end\n"))

    def close(self):
        self.process.kill()
        self.process.wait()
        self.process.stdout.close()


def typed(words, text, said, then=lambda: None):
    """Types at `attach` with these words, until it has said this and something else is done."""
    terminal = Terminal([path_of("attach"), "--lf", *words])
    try:
        terminal.await_ready()
        terminal.type(text)
        terminal.await_shown(said)
        then()
        terminal.type(b"\x03")
        terminal.end(0)
    finally:
        terminal.close()
    return terminal.shown


def check_port(folder):
    """A node is down, and nobody has its port. Then the node runs again."""
    it = group_of(1, folder, silent=0.3)[0]
    address = text_of_address(it.keys)
    one, several = [address, it.console], [f"{address},{it.console},{it.record}"]
    try:
        it.start("--new")
        await_that(lambda: bytes_of(it.console) == b"> ", "the node shows a prompt")
        it.kill()
        for host in ("127.0.0.1", "0.0.0.0", "::"):
            with contextlib.closing(Taker(folder, it, host)) as taker:
                typed(one, b"secret", b"nothing is typed at " + address.encode())
                for words in (several, [it.record]):
                    typed(words, b"secret", b"6 keys wait")
                got = taker.got()
                expect(f"who has taken the port at {host} gets nothing", got == b"", got)
        it.start()
        typed(one, b"one\n", b"one\r\n> ")
        typed([it.record], b"two\n", b"two")
        await_that(lambda: b"two" in bytes_of(it.console), "the node shows it")
        expect("the node gets what is typed", b"> one\n> two\n" in bytes_of(it.console))
    finally:
        it.end()


def check_unseen(folder):
    """Whose a port is that nobody can see is said, and keys are sent."""
    with socket.socket(socket.AF_INET, socket.SOCK_DGRAM) as receiver:
        receiver.bind(("127.0.0.1", 0))
        receiver.settimeout(60)
        address = text_of_address(receiver.getsockname())
        said, got = f"whose port {address} is cannot be seen here".encode(), []
        words = [address, os.path.join(folder, "none")]
        # It says so before it sends.
        shown = typed(words, b"keys", said, lambda: got.append(receiver.recv(100)))
        is_so = shown.count(said) == 1 and got == [b"keys"]
        expect("where the owner cannot be seen keys are sent, with a line", is_so, shown)
