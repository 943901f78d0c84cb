"""Who may ask a page's server for something: tokens, cookies, and what a request has to be."""

import hmac
import http.cookies
import secrets

# The bytes of a token and of a cookie's secret: 192 bits.
SECRET = 24
TYPES, WATCHES = "type", "watch"
LOOPBACK = ("127.0.0.1", "localhost")


class Refused(Exception):
    """A status, and a sentence that says why."""


class Guard:
    """`hosts` are the names by which the page may be reached, and `scheme` how."""

    def __init__(self, hosts, scheme, is_read_only):
        self.hosts, self.scheme = hosts, scheme
        roles = (WATCHES,) if is_read_only else (TYPES, WATCHES)
        self.tokens = {it: secrets.token_urlsafe(SECRET) for it in roles}
        # A cookie never has the token itself. Cookies know no ports: the name tells this server
        # from others of the same machine.
        self.secrets = {it: secrets.token_urlsafe(SECRET) for it in roles}
        self.cookie = f"pgroup-{secrets.token_hex(4)}"

    def check(self, method, headers):
        """Refuses a request that no browser sends for this page itself: one of another page, or of
        a name that was made to lead here (DNS rebinding)."""
        host = self.only(headers, "Host")
        # The port may be another one: that of a tunnel.
        if host is None or host.rsplit(":", 1)[0] not in self.hosts:
            names = " and ".join(self.hosts)
            raise Refused(403, f"This page answers to {names} alone: open the printed address.")
        origin, site = self.only(headers, "Origin"), self.only(headers, "Sec-Fetch-Site")
        if origin not in (None, f"{self.scheme}://{host}"):
            raise Refused(403, "This page answers no other page.")
        if method == "POST" and origin is None:
            raise Refused(403, "A POST has to say its origin, as browsers do.")
        is_visit = method == "GET" and self.only(headers, "Sec-Fetch-Mode") == "navigate"
        if site not in (None, "none", "same-origin") and not is_visit:
            raise Refused(403, "This page answers no other page.")

    def only(self, headers, name):
        """The value of a header that may be there once."""
        found = headers.get_all(name, [])
        if len(found) > 1:
            raise Refused(400, f"The header {name} is there more than once.")
        return found[0] if found else None

    def role_of_token(self, word):
        return role_in(self.tokens, word)

    def role(self, headers):
        """Who asks, by the cookie, or None."""
        jar = http.cookies.SimpleCookie()
        try:
            jar.load("; ".join(headers.get_all("Cookie", [])))
        except http.cookies.CookieError:
            return None
        found = jar.get(self.cookie)
        return found and role_in(self.secrets, found.value)

    def must_be(self, headers, *roles):
        role = self.role(headers)
        if role is None:
            raise Refused(403, "This page needs its token, which is new each time `page` starts: "
                          "open the address that it has given.")
        if role not in roles:
            raise Refused(403, "You watch: keys and buttons are for those who have the other "
                          "address.")
        return role

    def set_cookie(self, role):
        """The header that gives a browser its cookie."""
        secure = "; Secure" if self.scheme == "https" else ""
        return f"{self.cookie}={self.secrets[role]}; HttpOnly; SameSite=Strict; Path=/{secure}"


def role_in(table, word):
    """Whose secret a word is, found in a time that does not tell it."""
    found = None
    for role, mine in table.items():
        if hmac.compare_digest(mine.encode(), word.encode("utf-8", "replace")):
            found = role
    return found
