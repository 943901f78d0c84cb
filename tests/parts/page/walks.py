"""The page of a run that is over: what it says beside the files of the run."""

import http.client
import json
import os

from shared.nodes import free_addresses

from ..checks import expect, passed
from ..echo_code import ECHO
from ..files import bytes_of
from ..group import Group
from .visitor import Page

# How many moments are looked at.
LOOKS = 60


def made_run(folder, seed):
    """A run with traces in which node 1 leads, is killed, and node 2 is asked. Its consoles."""
    addresses = free_addresses(6)
    group = Group(folder, seed, ECHO, addresses[:3], [addresses[3:]] * 3, is_traced=True)
    try:
        for it in group.nodes:
            group.start(it, it.number == 1)
        for it in group.nodes:
            it.await_keys()
        group.type_for(0.5)
        group.kill(group.nodes[0])
        group.ask(group.nodes[1])
        group.type_for(0.5)
        group.start(group.nodes[0], False)
        group.nodes[0].await_keys()
        group.settle(group.ask, 5, 20)
    finally:
        group.end()
    return [bytes_of(it.console) for it in group.nodes]


class Walker:
    """Who walks through a run."""

    def __init__(self, page):
        self.page, self.cookie = page, None
        status, _ = self.ask("POST", "/enter", {"token": page.tokens["watch"]})
        expect("the token is taken", status == 200, status)

    def ask(self, method, path, asked=None):
        connection = http.client.HTTPConnection("127.0.0.1", self.page.port, timeout=30)
        headers = {"Origin": f"http://127.0.0.1:{self.page.port}"} if asked is not None else {}
        headers.update({"Content-Type": "application/json"} if asked is not None else {})
        headers.update({"Cookie": self.cookie} if self.cookie else {})
        body = None if asked is None else json.dumps(asked)
        connection.request(method, path, body, headers)
        answer = connection.getresponse()
        data = answer.read()
        self.cookie = (answer.headers["Set-Cookie"] or self.cookie or "").split(";")[0]
        connection.close()
        is_json = answer.headers["Content-Type"].startswith("application/json")
        return answer.status, json.loads(data) if is_json else data

    def part(self, at):
        return self.ask("GET", f"/part?at={at}")[1]


def stamps(folder):
    files = [os.path.join(folder, it) for it in sorted(os.listdir(folder))]
    return [(it, os.stat(it).st_mtime_ns, bytes_of(it)) for it in files if "page-errors" not in it]


def check_walk(folder, seed):
    consoles = made_run(folder, seed)
    before = stamps(folder)
    page = Page(folder, "--traces", folder)
    try:
        expect("there is no address to type", list(page.tokens) == ["watch"], page.tokens)
        walker = Walker(page)
        run = walker.ask("GET", "/run")[1]
        check_run(run)
        check_moments(walker, run, consoles)
        for at in ("", "-1", "x", str(run["moments"]), "9" * 30, "1.5"):
            status, _ = walker.ask("GET", f"/part?at={at}")
            expect(f"the moment {at!r} is refused", status == 400, status)
        for path in ("/keys", "/lead", "/go"):
            status, _ = walker.ask("POST", path, {"at": 0})
            expect(f"there is no {path}", status == 404, status)
        expect("no file has changed", stamps(folder) == before)
        expect("nothing is said on standard error", page.said() == "", page.said())
    finally:
        page.end()


def check_run(run):
    leading = [it[0] for it in sorted(run["spans"], key=lambda it: it[1]) if it[3]]
    expect("node 1 leads first, and node 2 later", leading[0] == 1 and 2 in leading, leading)
    crashes = [it[1] for it in run["flags"] if it[0] == "crash"]
    starts = [it[1] for it in run["flags"] if it[0] == "start"]
    expect("node 1 was started twice and killed", crashes.count(1) >= 1 and starts.count(1) == 2
           and starts.count(2) == 1, run["flags"])
    expect("all is there up to the end", run["ended"] is None, run["ended"])


def check_moments(walker, run, consoles):
    last = run["moments"] - 1
    sizes, heard, wrong = [0] * len(consoles), 0, []
    for look in range(LOOKS + 1):
        part = walker.part(last * look // LOOKS)
        found = [it[1] for it in part["consoles"]]
        if any(now < then for now, then in zip(found, sizes)):
            wrong.append((part["at"], found, sizes))
        sizes = found
        for it, whole in zip(part["consoles"], consoles):
            line = whole[: it[1]].decode().rpartition("\n")[2]
            # A row has no spaces at its end, also where the line goes on in the next one. A line of
            # 80 characters is one row.
            rows = it[2][-(-(-len(line) // 80) or 1) :]
            shown = "".join(row.ljust(80) for row in rows)
            if line.rstrip() != shown.rstrip():
                wrong.append((part["at"], line, shown))
        for it in part["arrows"]:
            if it["fate"] == "heard":
                heard += 1
                if it["begin"] >= it["end"]:
                    wrong.append(it)
        if "hears" in part["text"].split(";")[0] and not part["mine"]:
            wrong.append(part["text"])
    expect("consoles only grow, and show what the files have; messages are heard behind where they "
           "were sent", not wrong and heard > 100, heard, *wrong[:5])
    expect("at the last moment the consoles are whole", sizes == [len(it) for it in consoles],
           sizes, [len(it) for it in consoles])
    passed(f"{LOOKS + 1} of {last + 1} moments were looked at")
