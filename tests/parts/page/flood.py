"""Many connections to a page, and slow ones."""

import select
import socket
import time

from shared.paging.server import CONNECTIONS, STREAMS, WATCHED

from ..checks import expect, passed
from ..program import Broken
from .hostile import Maker

# More than a page takes.
MANY = 300
# How long a slow one is waited for at most; the page gives up long before.
SECONDS = 60.0


def connected(port):
    it = socket.create_connection(("127.0.0.1", port), SECONDS)
    it.setblocking(False)
    return it


def is_ended(it):
    try:
        return it.recv(1) == b""
    except BlockingIOError:
        return False
    except ConnectionError:
        return True


def check_connections(page, visitor):
    """Who is there goes on while others take all connections."""
    visitor.post("/go", {"at": 99})  # So that it has a connection.
    many = [connected(page.port) for _ in range(MANY)]
    try:
        await_all(lambda: sum(map(is_ended, many)) >= MANY // 4, "those too many are ended")
        status, _ = visitor.post("/go", {"at": 99})
        expect(f"with {MANY} connections who is there is answered", status == 400, status)
    finally:
        for it in many:
            it.close()

    def is_free():
        try:
            return visitor.post("/go", {"at": 99})[0] == 400
        except OSError:
            return False

    visitor.leave()
    await_all(is_free, "a new connection is taken again")


def held(page, data, count):
    """So many connections that have asked for this, and the status of each. They stay open."""
    sockets = [socket.create_connection(("127.0.0.1", page.port), SECONDS) for _ in range(count)]
    statuses = []
    for it in sockets:
        it.sendall(data)
        statuses.append(it.recv(12)[9:])
    return sockets, statuses


def check_strangers(page, visitor):
    """Who comes while strangers hold all connections gets the place of one of them."""
    make = Maker(page, visitor, visitor)
    sockets, statuses = held(page, make.get("/page.css", Cookie=None), CONNECTIONS)
    try:
        expect("strangers hold all connections", statuses.count(b"200") >= CONNECTIONS - 20,
               statuses)
        more, statuses = held(page, make.get("/", Cookie=None), 1)
        sockets += more
        expect("who comes then is answered", statuses == [b"200"], statuses)
        status, _ = visitor.ask("/go", {"at": 99})
        expect("and so is who types", status == 400, status)
    finally:
        for it in sockets:
            it.close()


def check_streams(page, visitor, watcher):
    """Those who watch take no stream of those who type."""
    make = Maker(page, visitor, watcher)
    sockets, statuses = held(page, make.get(Cookie=make.watching), STREAMS)
    more, typing = held(page, make.get(), 1)
    for it in sockets + more:
        it.close()
    count = statuses.count(b"200")
    is_so = WATCHED // 2 < count <= WATCHED and set(statuses) == {b"200", b"503"}
    expect("of many who watch only some listen", is_so, statuses)
    expect("and who types does", typing == [b"200"], typing)


def await_all(is_so, what):
    end = time.monotonic() + SECONDS
    while not is_so():
        if time.monotonic() > end:
            raise Broken(f"it did not come in {SECONDS:.0f} seconds: {what}")
        time.sleep(0.05)


def check_slow(page, visitor):
    """Connections at which little comes at a time, or nothing, or nothing is read, are ended."""
    make = Maker(page, visitor, visitor)
    head, whole = make.get(), make.post()
    slow = {
        "says nothing": (b"", 0), "sends a head byte by byte": (head, 0),
        "sends a body byte by byte": (whole, whole.index(b"\r\n\r\n") + 4),
        "says nothing behind a request": (make.get("/page.css"), 10**6),
    }
    sockets = {what: connected(page.port) for what in slow}
    sent = dict.fromkeys(slow, 0)
    for what, (data, begin) in slow.items():
        sockets[what].send(data[:begin])
        sent[what] = min(begin, len(data))
    left, end = set(slow), time.monotonic() + SECONDS
    while left and time.monotonic() < end:
        for what in list(left):
            if is_over(sockets[what]):
                left.remove(what)
                continue
            data = slow[what][0]
            try:
                sent[what] += sockets[what].send(data[sent[what] : sent[what] + 1])
            except OSError:
                left.discard(what)
        # A byte a second: the whole request would take minutes.
        time.sleep(1)
    for it in sockets.values():
        it.close()
    expect(f"{len(slow)} slow connections are ended within {SECONDS:.0f} seconds", not left, left)


def check_unread(page, visitor):
    """A stream that nobody reads is ended, and does not hold up the others."""
    it = socket.socket()
    it.setsockopt(socket.SOL_SOCKET, socket.SO_RCVBUF, 4096)
    it.connect(("127.0.0.1", page.port))
    it.sendall(Maker(page, visitor, visitor).get())
    for number in range(60):
        visitor.press(f"{number:04}" * 200 + "\n")
    visitor.await_that(lambda: "0059" in visitor.text(), "another one is shown all")

    def is_ended():
        try:
            it.send(b".")
        except OSError:
            return True
        return False

    await_all(is_ended, "the stream that is not read is ended")
    it.close()
    passed("a stream that is not read is ended, and others go on")


def is_over(it):
    """Whether a connection has ended, behind what came on it."""
    try:
        while select.select([it], [], [], 0)[0]:
            if not it.recv(65536):
                return True
    except ConnectionError:
        return True
    return False
