"""docs/NIGHT.md has each message that a person may meet: those of the scripts of groups, ./run and
tools/console, the codes and answers of the program, and the lines of a node's log.

A message of a Python script is any text in it of two words or more, whichever call prints it. A
message of a bash script is a quoted text of two words or more in a line that has `say`, `echo`,
`printf`, `why=` or `what=`, or that begins with the quote. What is filled in may be anything in the
page. A text of the page that ends with `..` has the beginning of a message, at least three words.

Not seen: messages of one word, the sentences of the system (`No space left on device`), what the
page says in a browser by its own scripts (`paging/static`), and what is said of wrong arguments.
"""
import ast
import os
import re

from . import pages, tree, widths
from .tree import fault, text_of

PATH = "docs/NIGHT.md"
PYTHON, BASH = "tools/group", ("run", "tools/console", "tools/bash")
# The functions whose texts are no messages: patterns, fields, and what is said of wrong arguments,
# each with `usage:` before it, for which the page has one row.
SPARED_CALLS = {
    "error", "ArgumentTypeError", "namedtuple", "compile", "match", "fullmatch", "search", "sub",
    "findall",
}
SPARED_KEYWORDS = {"help", "metavar", "description"}
# The modules without messages, and why.
OTHER_MODULES = {
    "tools/group/shared/codes.py": "the sentences of the codes, of which the page has the codes",
    "tools/group/shared/drawing/": "what stands in a picture",
    "tools/group/shared/asking/forms.py": "the help of metrics, for other programs",
    "tools/group/shared/asking/texts.py": "the bytes of questions and answers",
}
# Single texts that are no messages, and why. A NUL stands for what is filled in.
BYTES = "the bytes of a datagram or a file, which FORMATS has"
ANSWER = "the head of an answer to a browser"
OTHER_TEXTS = {
    "pgroup beat": BYTES,
    "pgroup seen": BYTES,
    "pgroup console synced \0 boot": BYTES,
    "=\0; HttpOnly; SameSite=Strict; Path=/": ANSWER,
    "text/event-stream; charset=utf-8": ANSWER,
    "event: \0 data": ANSWER,
    "GET, HEAD, POST": ANSWER,
    "default-src 'none'; script-src 'self'; style-src 'self'; connect-src 'self'; img-src 'self'; "
    "base-uri 'none'; form-action 'none'; frame-ancestors 'none'": ANSWER,
    "usage: screens.py \0 [--lf]": "`console` alone calls that, and with right arguments",
    "line 1 refused script": "it stands in the page with N for the number",
}
# The texts in the first column of the page's tables that are no such messages, and why.
SHORT = "it has one word that is not filled in"
SYSTEMD = "systemd prints it"
TOOL = "the name of a tool, whose messages are not looked at"
OTHER_ROWS = {
    "last source ADDR": "the end of the line about dropped datagrams",
    "process P (..)": SHORT, "RECORD is a folder": SHORT, ".. is a pipe": SHORT,
    "program frozen N times, after N keys and N bytes": "the library of tools/freeze says it",
    "node N: down; ..": SHORT, "RECORD: damaged: ..": SHORT, "programs": SHORT, "sizes": SHORT,
    "usage: ..": "Python's argparse prints it",
    "pgroup-compile": TOOL, "pgroup-translate": TOOL, "pgroup-volume": TOOL,
    "status=1/FAILURE": SYSTEMD, "status=2/INVALIDARGUMENT": SYSTEMD,
    "status=3/NOTIMPLEMENTED": SYSTEMD, "Dependency failed for ..": SYSTEMD,
}
# The tables of FORMATS with the lines of a node's log, and with the answers of the program.
LOG = "| What it says | Its fields |\n|---|---|\n"
ANSWERS = "| Answer | Meaning | What to do |\n|---|---|---|\n"
LEAST = 3
FILL = re.compile("\0|\\{\\w+\\}")
WORD = re.compile(r"[A-Za-z]{2,}")


class Message:
    """A text, with a NUL for what is filled in, and where it stands."""

    def __init__(self, place, text):
        self.place = place
        self.text = " ".join(FILL.sub("\0", text).split()).strip(" \0,.:;()\n")

    def shown(self):
        return self.text.replace("\0", "..")

    def is_one(self):
        return len(WORD.findall(self.text)) > 1 and " " in self.text

    def is_in(self, spans):
        whole, longest = pattern_of(self.text), max(self.text.split("\0"), key=len)
        found = any(longest in it and re.search(whole, it) for it in spans)
        return found or self.begins_in(spans)

    def begins_in(self, spans):
        """Whether a text of the page that ends with `..` has the beginning of it."""
        words = self.text.split(" ")
        begin = [it for it in words[:LEAST] if "\0" not in it]
        for span in spans:
            head = span[:-2].rstrip(" ,:;.")
            if span.endswith("..") and all(it in head for it in begin):
                for count in range(len(words) - 1, LEAST - 1, -1):
                    part = " ".join(words[:count]).rstrip(",:;.")
                    is_enough = len(WORD.findall(part)) >= LEAST
                    if is_enough and re.search(pattern_of(part) + "$", head):
                        return True
        return False


def pattern_of(text):
    pattern = re.escape(text).replace(re.escape("\0"), ".*").replace("\0", ".*")
    return rf"(?<!\w){pattern}(?!\w)"


def name_of_call(node):
    return getattr(node.func, "attr", getattr(node.func, "id", ""))


def spared_by_call(node):
    """What goes to some calls and keywords."""
    if name_of_call(node) in SPARED_CALLS:
        yield from node.args
    yield from (it.value for it in node.keywords if it.arg in SPARED_KEYWORDS)


def names_for_help(nodes):
    """The names of variables that go to `help=` and the like."""
    given = [it.value for it in nodes if isinstance(it, ast.keyword) and it.arg in SPARED_KEYWORDS]
    return {it.id for value in given for it in ast.walk(value) if isinstance(it, ast.Name)}


def spared_names(function, names):
    """The help texts that a function gives names before it hands them on."""
    found = [it for it in function.body
             if isinstance(it, ast.Assign) and getattr(it.targets[0], "id", None) in names]
    own = names_for_help(ast.walk(function)) if found else ()
    return [it for it in found if it.targets[0].id in own]


def spared_in(parsed):
    """The nodes of a parsed script that are no messages: docstrings, help texts, and what goes to
    some calls."""
    found, nodes = set(), list(ast.walk(parsed))
    names = names_for_help(nodes)
    for node in nodes:
        if isinstance(node, (ast.Module, ast.ClassDef, ast.FunctionDef)):
            if ast.get_docstring(node, clean=False) is not None:
                found.add(node.body[0])
        if isinstance(node, ast.FunctionDef):
            found.update(spared_names(node, names))
        if isinstance(node, ast.Call):
            found.update(spared_by_call(node))
    return found


def texts_in(node, spared):
    """The texts below a node of a parsed script, each with its line."""
    if node in spared:
        return
    if isinstance(node, ast.Constant) and isinstance(node.value, str):
        yield node.lineno, node.value
    elif isinstance(node, ast.JoinedStr):
        parts = [it.value if isinstance(it, ast.Constant) else "\0" for it in node.values]
        yield node.lineno, "".join(parts)
    for it in ast.iter_child_nodes(node):
        # The parts of a text are no texts of their own, but what is filled in may have some.
        if not (isinstance(node, ast.JoinedStr) and isinstance(it, ast.Constant)):
            yield from texts_in(it, spared)


def messages_of_python(path):
    parsed = ast.parse(text_of(path))
    for line, text in texts_in(parsed, spared_in(parsed)):
        yield Message(f"{path}:{line}", text)


SAYS = re.compile(r"""(?:\b(?:say|echo|printf)\b|\bwhy=|\bwhat\+?=|^ +(?=["']))""")
QUOTED = re.compile(r""""((?:[^"\\]|\\.)*)"|'([^']*)'""")
FILLED = re.compile(r"\$\((?:[^()]|\([^()]*\))*\)|\$\{[^}]*\}|\$[\w*@#]+")
# A text that stands in if a variable is empty.
INSTEAD = re.compile(r"""\$\{\w+:-(".*")\}""")


def messages_of_bash(path):
    for number, line in enumerate(text_of(path).split("\n"), 1):
        if SAYS.search(line) and not line.lstrip().startswith("#"):
            # What is filled in may have quotes of its own.
            line = FILLED.sub("\0", INSTEAD.sub(r"\1", line))
            for it in QUOTED.finditer(line):
                text = (it[1] or it[2] or "").replace("%s", "\0").replace("\\n", " ")
                yield Message(f"{path}:{number}", text)


def messages():
    """The messages of all scripts."""
    for path, language in widths.scripts():
        if language == "python" and path.startswith(f"{PYTHON}/"):
            if not path.startswith(tuple(OTHER_MODULES)):
                yield from messages_of_python(path)
        elif language == "sh" and (path in BASH or os.path.dirname(path) in BASH):
            yield from messages_of_bash(path)


def lines_of(head):
    """The texts of the first column of the table of FORMATS that begins so."""
    table = text_of("docs/FORMATS.md").partition(head)[2].partition("\n\n")[0]
    for line in table.split("\n"):
        yield from re.findall(r"`([^`]+)`", line.split(" | ")[0])


def spans_in(text):
    """The texts between backticks."""
    found = re.findall(r"(?<!`)(`+)(?!`)(.+?)(?<!`)\1(?!`)", text)
    return [" ".join(it[1].split()) for it in found]


def codes_of_program():
    return {code for code, _ in pages.codes_of_program() if code}


def check_rows():
    """What stands in the first column of the page's tables is printed by something."""
    first = [tree.cells_of(it)[0] for it in text_of(PATH).split("\n") if it.startswith("|")]
    known = {*codes_of_program(), *lines_of(LOG), *lines_of(ANSWERS), *OTHER_ROWS}
    all_messages, spans = [it for it in messages() if it.is_one()], spans_in("\n".join(first))
    for span in spans:
        if span not in known and not any(it.is_in([span]) for it in all_messages):
            fault(f"{PATH}: has a row for `{span}`, which nothing prints")
    for span in sorted(OTHER_ROWS.keys() - set(spans)):
        fault(f"tools/doc_checks/night.py: {PATH} has no row for `{span}`, an exception")


def check():
    spans, seen = spans_in(text_of(PATH)), set()
    for it in messages():
        if not it.is_one() or it.text in seen:
            continue
        seen.add(it.text)
        if it.text not in OTHER_TEXTS and not it.is_in(spans):
            fault(f"{it.place}: {PATH} has no row for the message `{it.shown()}`")
    for text in sorted(OTHER_TEXTS.keys() - seen):
        shown = text.replace("\0", "..")
        fault(f"tools/doc_checks/night.py: no script has the text `{shown}`, which is no message")
    check_program(spans)


def check_program(spans):
    """The page has what the program prints: its codes, its answers, and the lines of a log."""
    codes = codes_of_program()
    for code in sorted(codes):
        if not any(re.search(rf"(?<!\w){code}(?!\w)", it) for it in spans):
            fault(f"{PATH}: has no row for the code {code}")
    log, answers = list(lines_of(LOG)), list(lines_of(ANSWERS))
    for line in log + [it for it in answers if it.split(" ")[-1] not in codes]:
        if line not in spans:
            fault(f"{PATH}: has no row for the line `{line}` of the program")
    if not (codes and log and answers):
        fault("tools/doc_checks/night.py: finds no codes, no lines of a log, or no answers")
