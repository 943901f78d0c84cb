"""The web server of a page: its limits, its files, and how requests are read and answered."""

import http.server
import json
import os
import socketserver
import ssl
import threading
import time
import urllib.parse

from .guard import TYPES, WATCHES, Refused

FOLDER = os.path.join(os.path.dirname(os.path.realpath(__file__)), "static")
KINDS = {
    ".html": "text/html", ".css": "text/css", ".js": "text/javascript", ".svg": "image/svg+xml",
}
HEADERS = {
    "Content-Security-Policy": "default-src 'none'; script-src 'self'; style-src 'self'; "
    "connect-src 'self'; img-src 'self'; base-uri 'none'; form-action 'none'; "
    "frame-ancestors 'none'",
    "X-Content-Type-Options": "nosniff", "Referrer-Policy": "no-referrer",
    "Cross-Origin-Opener-Policy": "same-origin", "Cross-Origin-Resource-Policy": "same-origin",
    "Cache-Control": "no-store",
}
# The most bytes of a request's head and of its body, connections, and streams of events; and how
# many of these those have who watch, so that some are left for those who type.
HEAD, BODY, CONNECTIONS, STREAMS, WATCHED = 16384, 65536, 200, 64, 48
# How long a request may take until it is read, an answer until it is taken, and a connection may
# rest, in seconds; and how long the end of one is waited for whose place another one gets.
SLOW, ROOM = 10.0, 1.0
# Who loses a connection first where all are taken: those without a token, then those who watch.
# Those who type lose none.
RANKS = {None: 0, WATCHES: 1}


class Server(http.server.ThreadingHTTPServer):
    """The `gets` and `posts` of a site have a function for each path, which answers: it gets the
    handler, and of a GET who asks and the words, of a POST its JSON."""

    daemon_threads = True
    request_queue_size = 64

    def __init__(self, address, guard, files, site, context=None):
        self.guard, self.files, self.gets, self.posts = guard, files, site.gets, site.posts
        self.context = context
        self.streams = threading.Semaphore(STREAMS)
        self.watched = threading.Semaphore(WATCHED)
        self.connections = threading.Semaphore(CONNECTIONS)
        # The connections that may be ended for others: the rank of each, and since when it waits.
        self.idle = {}
        # The connections of which a request is awaited, each with its end.
        self.awaited, self.has_awaited = {}, threading.Event()
        super().__init__(address, Handler)
        threading.Thread(target=self.end_slow, daemon=True).start()

    def server_bind(self):
        # http.server would look for a name of the address.
        socketserver.TCPServer.server_bind(self)
        self.server_name, self.server_port = self.server_address[:2]

    def get_request(self):
        connection, address = super().get_request()
        if self.context:
            # The handshake comes with the first read, in the connection's own thread.
            connection = self.context.wrap_socket(
                connection, server_side=True, do_handshake_on_connect=False
            )
        return connection, address

    def verify_request(self, request, client_address):
        return self.connections.acquire(blocking=False) or self.makes_room()

    def makes_room(self):
        """Ends the connection that waits longest without a request, of those that may be ended.
        Whether there is room then."""
        found = min(list(self.idle.items()), key=lambda it: it[1], default=None)
        if found is None:
            return False
        self.idle.pop(found[0], None)
        shut(found[0])
        return self.connections.acquire(timeout=ROOM)

    def note_role(self, connection, role):
        """Notes who asks by a connection."""
        if role in RANKS:
            self.idle[connection] = RANKS[role], time.monotonic()
        else:
            self.idle.pop(connection, None)

    def takes_stream(self, role):
        """Whether one of this role gets a stream."""
        if role == WATCHES and not self.watched.acquire(blocking=False):
            return False
        is_free = self.streams.acquire(blocking=False)
        if role == WATCHES and not is_free:
            self.watched.release()
        return is_free

    def end_stream(self, role):
        self.streams.release()
        if role == WATCHES:
            self.watched.release()

    def process_request_thread(self, request, client_address):
        try:
            super().process_request_thread(request, client_address)
        finally:
            self.awaited.pop(request, None)
            self.idle.pop(request, None)
            self.connections.release()

    def handle_error(self, request, client_address):
        """A browser that has gone is no fault."""

    def end_slow(self):
        """Ends connections whose request takes too long, however little comes at a time."""
        while True:
            self.has_awaited.wait()
            self.has_awaited.clear()
            while self.awaited:
                time.sleep(1)
                for connection, end in list(self.awaited.items()):
                    if time.monotonic() > end:
                        self.awaited.pop(connection, None)
                        shut(connection)

    def wait_for(self, connection):
        self.awaited[connection] = time.monotonic() + SLOW
        self.has_awaited.set()


def shut(connection):
    try:
        connection.shutdown(2)
    except OSError:
        pass  # It has ended by itself.


class Head:
    """Reads a connection, and of a request's head no more than it may have."""

    def __init__(self, file):
        self.file, self.room = file, HEAD

    def readline(self, limit=-1):
        line = self.file.readline(self.room + 1 if limit < 0 else min(limit, self.room + 1))
        self.room -= len(line)
        if self.room < 0:
            raise OSError("the head of a request is too long")
        return line

    def read(self, size):
        return self.file.read(size)

    def close(self):
        self.file.close()

    @property
    def closed(self):
        return self.file.closed


class Handler(http.server.BaseHTTPRequestHandler):
    protocol_version, server_version, sys_version = "HTTP/1.1", "pgroup-page", ""
    timeout = SLOW
    disable_nagle_algorithm = True

    def setup(self):
        self.request.settimeout(SLOW)
        self.server.note_role(self.request, None)
        self.server.wait_for(self.request)
        if isinstance(self.request, ssl.SSLSocket):
            self.request.do_handshake()
        super().setup()
        self.rfile = Head(self.rfile)

    def handle_one_request(self):
        self.rfile.room, self.is_read = HEAD, False
        self.server.wait_for(self.request)
        super().handle_one_request()

    def parse_request(self):
        if not super().parse_request():
            return False
        # A name before the path is for proxies, and 0.9 has no headers.
        if self.request_version == "HTTP/0.9" or not self.path.startswith("/"):
            self.send_error(400)
            return False
        return True

    def handle_expect_100(self):
        self.send_error(417)
        return False

    def send_error(self, code, message=None, explain=None):
        """What http.server refuses by itself."""
        self.close_connection = True
        # What has no version that is known is answered as the others are.
        self.command, self.request_version = self.command or "GET", self.protocol_version
        code = 405 if code == 501 else code
        more = {"Allow": "GET, HEAD, POST"} if code == 405 else {}
        self.answer(code, "text/plain", b"That is no request of this page.\n", **more)

    def log_message(self, *_):
        """Nothing is logged of requests."""

    # Answers.

    def answer(self, status, kind, body, **more):
        self.send_response(status)
        self.send_header("Content-Type", f"{kind}; charset=utf-8")
        self.send_header("Content-Length", str(len(body)))
        if self.close_connection:
            self.send_header("Connection", "close")
        for name, value in {**HEADERS, **more}.items():
            self.send_header(name, value)
        self.end_headers()
        if self.command != "HEAD":
            self.wfile.write(body)

    def answer_json(self, status, value, **more):
        self.answer(status, "application/json", json.dumps(value).encode(), **more)

    def refuse(self, status, why):
        # What was not read of a body would be taken for the next request.
        self.close_connection = self.close_connection or not self.is_read
        if self.command == "POST":
            self.answer_json(status, {"text": why})
        else:
            self.answer(status, "text/plain", why.encode() + b"\n")

    # Requests.

    def do(self, what):
        try:
            self.server.guard.check(self.command, self.headers)
            self.server.note_role(self.request, self.server.guard.role(self.headers))
            what(urllib.parse.urlsplit(self.path))
        except Refused as why:
            self.refuse(*why.args)
        except OSError:
            self.close_connection = True

    def do_GET(self):
        self.do(self.get)

    do_HEAD = do_GET

    def do_POST(self):
        self.do(self.post)

    def get(self, url):
        if self.headers.get("Content-Length", "0") != "0" or "Transfer-Encoding" in self.headers:
            raise Refused(400, "A GET has no body.")
        self.server.awaited.pop(self.request, None)
        if url.path in self.server.files:
            return self.file(url.path)
        if url.path not in self.server.gets:
            raise Refused(404, "There is no such page.")
        if self.command == "HEAD":
            raise Refused(405, "Of this there is no head alone.")
        role = self.server.guard.must_be(self.headers, TYPES, WATCHES)
        words = dict(urllib.parse.parse_qsl(url.query, max_num_fields=20))
        return self.server.gets[url.path](self, role, words)

    def file(self, path):
        """A file of the page. Nothing in it is secret."""
        name = self.server.files[path]
        if callable(name):
            kind, body = name()
            return self.answer(200, kind, body)
        with open(os.path.join(FOLDER, name), "rb") as file:
            return self.answer(200, KINDS[os.path.splitext(name)[1]], file.read())

    def body(self):
        size = self.server.guard.only(self.headers, "Content-Length")
        if "Transfer-Encoding" in self.headers:
            raise Refused(411, "A body has to say its length.")
        if size is None or not (size.isascii() and size.isdigit() and len(size) < 10):
            raise Refused(411, "A body has to say its length.")
        if int(size) > BODY:
            raise Refused(413, "That is too much at once.")
        kind = self.server.guard.only(self.headers, "Content-Type") or ""
        if kind.split(";")[0].strip().lower() != "application/json":
            raise Refused(415, "A request of this page is JSON.")
        data = self.rfile.read(int(size))
        if len(data) < int(size):
            raise OSError("the connection has ended")
        self.server.awaited.pop(self.request, None)
        self.is_read = True
        return data

    def post(self, url):
        if url.path not in self.server.posts:
            raise Refused(404, "There is no such request.")
        try:
            asked = json.loads(self.body())
        except (ValueError, RecursionError):
            raise Refused(400, "That is no JSON.")
        if not isinstance(asked, dict):
            raise Refused(400, "That is no request of this page.")
        if url.path != "/enter":
            self.server.guard.must_be(self.headers, TYPES)
        self.server.posts[url.path](self, asked)

    def enter(self, asked):
        """Gives a browser that has a token its cookie."""
        token = asked.get("token")
        role = self.server.guard.role_of_token(token) if isinstance(token, str) else None
        if role is None:
            raise Refused(403, "That is not the token: it is another one each time `page` starts.")
        self.answer_json(200, {"role": role},
                         **{"Set-Cookie": self.server.guard.set_cookie(role)})
