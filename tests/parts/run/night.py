"""What tools/check-docs says of docs/NIGHT.md if a message, a code or a line of a node's log is new
or has changed: of a copy of some of what it reads of this repository."""

import os
import shutil
import sys

from ..checks import Checks
from ..files import bytes_of
from ..program import TOP
from .clones import append, replace

sys.path.insert(0, os.path.join(TOP, "tools"))
from doc_checks import night, tree

PAGE, FORMATS = "docs/NIGHT.md", "docs/FORMATS.md"
CODES = "crates/command_line/src/codes.rt"
LEAD, LOCKS = "tools/group/lead", "tools/group/shared/locks.py"
SERVER = "tools/group/shared/paging/server.py"
# The scripts that are changed here, and those with the exceptions of the rule.
FILES = [
    PAGE, FORMATS, CODES, "run", "tools/console", "tools/bash/provide.bash", "tools/group/attach",
    LEAD, LOCKS, SERVER,
    *(f"tools/group/shared/{it}.py" for it in (
        "paging/guard", "paging/live", "replica/script", "screens", "seen", "sitting/session",
        "sitting/sitting", "supervising/beats", "synced",
    )),
]
# What is put at the end of a file, and the message that has no row then, or None.
ADDED = [
    ("a message", LEAD, 'print(f"lead: {fault} burns")', "lead: .. burns"),
    ("a text that is returned", LOCKS, "def why(): return 'the lock has rusted'",
     "the lock has rusted"),
    ("a text in what is filled in", LOCKS, "say(f'{\"it rusts\" if x else 1}')", "it rusts"),
    ("a refusal of a class of its own", LOCKS, "raise InUse('the lock ' 'has rusted')",
     "the lock has rusted"),
    ("a message of ./run", "run", 'say "no $crate is at $(date "+%s")"', "no .. is at"),
    ("a message of console", "tools/console", "echo 'console: it burns' >&2", "console: it burns"),
    ("a text for an empty variable", "tools/bash/provide.bash", 'why=${why:-"it burns"}',
     "it burns"),
    ("a message that is a part of a word", LOCKS, "say('odes that')", "odes that"),
    ("a message with a row", LOCKS, "say(f'{name} runs at the record {one} already')", None),
    ("a help text", LOCKS, "add('--one', help='an option of fire')", None),
    ("a help text with a name", LOCKS,
     "def words(add):\n    text = 'an option of fire'\n    add('--one', help=text)", None),
    ("a docstring", LOCKS, 'def burn():\n    """The lock burns."""', None),
    ("a comment", LOCKS, "# 'The lock burns.'", None),
    ("a line about wrong arguments", LOCKS, "parser.error('there is fire')", None),
    ("one word", LOCKS, "say('fire')", None),
]
ROW = "has no row for"
# A change of a file, and what is said of it.
CHANGES = [
    ("a message that has changed", LEAD, "nobody receives at", "nobody is at",
     [f"{PAGE} {ROW} the message `lead: nobody is at`"]),
    ("a row that is gone", PAGE, r"^\| `attach: CONSOLE was cut .*\n", "",
     [f"{PAGE} {ROW} the message `was cut to .. bytes: the rest is shown again`"]),
    ("a row with too short a beginning", PAGE, "`of the console of node N the bytes .*?`",
     "`of the ..`", [f"{PAGE} {ROW} the message `of the console of .. the bytes up to .. are no "
                     "longer kept`"]),
    ("a row with the beginning", PAGE, "`N typed keys are given up: .*?`", "`N typed keys are ..`",
     []),
    ("a new code", CODES, "^  D12 ", "  D13     the node burns\n  D12 ",
     [f"{ROW} the code D13"]),
    ("a new line of a log", FORMATS, r"^\| `program ended` \| \|$",
     "| `program ended` | |\n| `burns at PATH` | |",
     [f"{ROW} the line `burns at PATH` of the program"]),
    ("a new answer", FORMATS, r"^\| `waits`, status 0 \|", "| `burns`, status 5 | | |\n\\g<0>",
     [f"{ROW} the line `burns` of the program"]),
    ("a log that is not found", FORMATS, r"^\| What it says \| Its fields \|$", "| Line | |",
     ["finds no codes, no lines of a log, or no answers"]),
    ("an exception that nothing needs", SERVER, "GET, HEAD, POST", "GET",
     ["no script has the text `GET, HEAD, POST`, which is no message"]),
]


class OfCopy(Checks):
    """A copy of some files of this repository, at which tools/check-docs looks."""

    maxDiff = None

    def setUp(self):
        super().setUp()
        self.addCleanup(setattr, tree, "TOP", tree.TOP)
        self.addCleanup(tree.FAULTS.clear)
        tree.TOP = self.room
        for name in FILES:
            os.makedirs(os.path.dirname(self.at(name)), exist_ok=True)
            shutil.copy(os.path.join(TOP, name), self.at(name))

    def at(self, name):
        return os.path.join(self.room, name)

    def says(self, what, faults, look=night.check):
        """Checks what is said, without the place at the begin of each line."""
        with self.check(f"docs/NIGHT.md: {what}"):
            tree.FAULTS.clear()
            look()
            self.assertEqual([it.partition(": ")[2] for it in tree.FAULTS], faults)


class OfMessages(OfCopy):

    def put_back(self, path, data):
        with open(self.at(path), "wb") as file:
            file.write(data)

    def test_added(self):
        self.says("as it is", [])
        for what, path, text, message in ADDED:
            before = bytes_of(self.at(path))
            append(self.at(path), f"\n{text}\n")
            self.says(what, [f"{PAGE} {ROW} the message `{message}`"] if message else [])
            self.put_back(path, before)

    def test_changes(self):
        for what, path, old, now, faults in CHANGES:
            before = bytes_of(self.at(path))
            replace(self.at(path), old, now)
            self.says(what, faults)
            self.put_back(path, before)


class OfRows(OfCopy):
    """All scripts are there, since a row may be for any of them."""

    def setUp(self):
        super().setUp()
        for name in ("tools/group", "tools/bash"):
            shutil.rmtree(self.at(name))
            shutil.copytree(os.path.join(TOP, name), self.at(name))

    def test_rows(self):
        self.says("its rows", [], night.check_rows)
        row = "| `the node burns`, `D99`, `no room for ..` | It burns | `put it out` |"
        replace(self.at(PAGE), r"^\| `program ended`", f"{row}\n\\g<0>")
        nothing = "which nothing prints"
        self.says("rows for what nothing prints",
                  [f"has a row for `the node burns`, {nothing}", f"has a row for `D99`, {nothing}"],
                  night.check_rows)
        shutil.copy(os.path.join(TOP, PAGE), self.at(PAGE))
        replace(self.at(PAGE), r"^\| `usage: \.\.`.*\n", "")
        self.says("an exception without its row",
                  [f"{PAGE} has no row for `usage: ..`, an exception"], night.check_rows)
