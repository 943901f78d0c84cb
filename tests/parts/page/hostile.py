"""Requests that a page has to refuse: what they are, their bytes, and the status that is due. A
status of None means that the connection is ended without an answer."""

import json

BIG = 70000
DEEP = "[" * 40000


class Maker:
    """Makes requests for a page at which a visitor types and another one watches."""

    def __init__(self, page, visitor, watcher):
        self.host = f"127.0.0.1:{page.port}"
        self.cookie, self.watching = visitor.cookie, watcher.cookie
        self.client, self.page = visitor.client, page

    def request(self, line, body=None, **changes):
        """The bytes of a request that would be answered, but for these headers: None leaves one
        out, and a list has it several times."""
        head = {"Host": self.host, "Cookie": self.cookie}
        if body is not None:
            head.update({"Origin": f"http://{self.host}", "Content-Type": "application/json",
                         "Content-Length": str(len(body))})
        head.update({name.replace("_", "-"): it for name, it in changes.items()})
        lines = [line if " HTTP/" in line else f"{line} HTTP/1.1"]
        for name, it in head.items():
            lines += [f"{name}: {one}" for one in (it if isinstance(it, list) else [it])
                      if one is not None]
        return "\r\n".join([*lines, "", ""]).encode("latin-1") + (body or b"")

    def get(self, path="/events", **changes):
        return self.request(f"GET {path}", **changes)

    def post(self, path="/keys", asked=None, **changes):
        body = json.dumps(self.keys() if asked is None else asked).encode()
        return self.request(f"POST {path}", body, **changes)

    def body(self, body, path="/keys", **changes):
        return self.request(f"POST {path}", body, **changes)

    def keys(self, **changes):
        return {"client": self.client, "number": 1, "keys": "hostile", **changes}

    def all(self):
        return [*self.names(), *self.origins(), *self.secrets(), *self.lines(), *self.lengths(),
                *self.bodies()]

    def names(self):
        port = self.host.split(":")[1]
        for host in (None, "", "evil.example", f"127.0.0.1.evil.example:{port}", "[::1]", "127.1",
                     f"evil@127.0.0.1:{port}", f"localhost.evil:{port}", f"127.0.0.1:80:{port}",
                     f"evil.example/127.0.0.1:{port}"):
            yield f"the host {host}", self.get(Host=host), 403
        yield "two hosts", self.get(Host=[self.host, "evil.example"]), 400
        yield "a key at a wrong host", self.post(Host="evil.example"), 403

    def origins(self):
        for origin in (None, "null", "http://evil.example", f"https://{self.host}",
                       "http://127.0.0.1:1", f"http://{self.host}.evil.example"):
            yield f"a key of the origin {origin}", self.post(Origin=origin), 403
        yield "two origins", self.post(Origin=[f"http://{self.host}"] * 2), 400
        yield "the stream for another origin", self.get(Origin="http://evil.example"), 403
        for site in ("cross-site", "same-site"):
            yield f"a key of a page that is {site}", self.post(Sec_Fetch_Site=site), 403
            yield f"the stream for a page that is {site}", self.get(Sec_Fetch_Site=site), 403
        yield "a key by a visit of another page", self.post(
            Sec_Fetch_Site="cross-site", Sec_Fetch_Mode="navigate"), 403

    def secrets(self):
        name, _, value = self.cookie.partition("=")
        token = self.page.tokens["type"]
        for what, cookie in (
            ("no cookie", None), ("a wrong cookie", f"{name}={value[:-1]}"), ("a cookie without a "
            "value", f"{name}="), ("the token as a cookie", f"{name}={token}"), ("the cookie of "
            "another server", f"pgroup-00000000={value}"), ("no words as a cookie", "\x01;=;;\xff"),
        ):
            yield f"the stream with {what}", self.get(Cookie=cookie), 403
            yield f"a key with {what}", self.post(Cookie=cookie), 403
        for path, asked in (("/keys", None), ("/lead", {"at": 0}), ("/go", {"at": 0})):
            yield f"{path} of who watches", self.post(path, asked, Cookie=self.watching), 403
        for wrong in ("", token[:-1], token + "x", 7, None, [token], "\u20ac" * 32):
            yield f"the token {wrong!r}", self.post("/enter", {"token": wrong}), 403
        yield "the token in the address", self.get(f"/events?token={token}", Cookie=None), 403

    def lines(self):
        for method in ("PUT", "DELETE", "OPTIONS", "TRACE", "PATCH", "get", "PROPFIND"):
            yield f"the method {method}", self.request(f"{method} /keys"), 405
        yield "CONNECT", self.request("CONNECT 127.0.0.1:80"), 400
        yield "the head of the stream", self.request("HEAD /events"), 405
        for path in ("/keys", "/../../etc/passwd", "/%2e%2e/%2e%2e/etc/passwd", "/page.css%00",
                     "//evil.example/page", "/static/page.js", "/events/"):
            yield f"GET {path}", self.get(path), 404
        yield "POST /", self.post("/"), 404
        yield "another machine's address", self.get(f"http://{self.host}/events"), 400
        yield "a line of HTTP 0.9", b"GET /\r\n\r\n", 400
        yield "HTTP 3", self.request("GET / HTTP/3.0"), 505
        yield "no version", self.request("GET / HTTP/x"), 400
        yield "the begin of TLS", b"\x16\x03\x01\x02\x00\x01\x00\x01\xfc\x03\x03\r\n\r\n", 400
        yield "a line of 20,000 bytes", self.get("/" + "a" * 20000), None
        yield "60,000 bytes of headers", self.get(
            **{f"X_{it}": "a" * 1000 for it in range(60)}), None

    def lengths(self):
        for length in (None, "-1", "+5", "1e3", "5 5", "\xb2", "9" * 30):
            yield f"the length {length}", self.post(Content_Length=length), 411
        yield "two lengths", self.post(Content_Length=["5", "6"]), 400
        yield "a length that is too great", self.post(Content_Length=str(BIG)), 413
        yield "a body in chunks", self.post(Transfer_Encoding="chunked"), 411
        yield "chunks without a length", self.post(
            Transfer_Encoding="chunked", Content_Length=None), 411
        yield "a body that is cut", self.post(Content_Length="1000"), None
        yield "a GET with a body", self.get(Content_Length="5"), 400
        yield "a GET in chunks", self.get(Transfer_Encoding="chunked"), 400
        yield "Expect", self.post(Expect="100-continue"), 417

    def bodies(self):
        for kind in (None, "text/plain", "application/x-www-form-urlencoded", "application/jsonx"):
            yield f"a body of the kind {kind}", self.post(Content_Type=kind), 415
        for body in (b"", b"{", b"\xff\xfe", DEEP.encode(), b"[]", b"7", b'"keys"', b"null",
                     b"{\"keys\": \"a\"} more", b"\x1f\x8b\x08\x00gzip"):
            yield f"the body {body[:20]!r}", self.body(body), 400
        for changes in ({"keys": 7}, {"keys": ""}, {"keys": None}, {"keys": ["a"]},
                        {"keys": "a" * 5000}, {"number": True}, {"number": 0}, {"number": -1},
                        {"number": 1.5}, {"number": "1"}, {"number": None}, {"client": 7}):
            yield f"keys with {str(changes)[:30]}", self.post(asked=self.keys(**changes)), 400
        yield "keys of an unknown browser", self.post(asked=self.keys(client="nobody")), 409
        yield "a number too soon", self.post(asked=self.keys(number=9)), 409
        for path in ("/lead", "/go"):
            for at in (None, True, -1, 99, "0", 0.0):
                yield f"{path} {at!r}", self.post(path, {"at": at}), 400
