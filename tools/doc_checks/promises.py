"""Promises: those of docs/promises.txt, which a person writes, and those of calls and laws, by the
comments in the sources. reference.py makes the pages of docs/reference of them."""
import re

from . import bent, definitions, reference, tree, turns
from .tree import fault, text_of

PATH = "docs/promises.txt"
# The sections that are no crate's: calls of several crates, what tests alone show, and clauses that
# no edit turns.
MAIN, BY_TESTS, NOT_TURNED = "main_theorem", "by_tests", "not_turned"
MOST = 400


class Entry:
    """An entry of the file: a text, and the lines below it."""

    def __init__(self, section, number, text, below):
        self.section, self.where = section, f"{PATH}:{number}"
        self.text, self.below = text, below


class Row:
    """A promise: its text, the calls with their clauses, and the tests and edits of these."""

    def __init__(self, text, calls, crate, keys):
        self.text, self.calls, self.crate, self.keys = text, calls, crate, keys
        self.tests, self.edits = [], []


def entries():
    """The entries of the file. A line below one that is indented by four goes on with the line
    before it."""
    section, found, is_new = None, [], True
    for number, line in enumerate(text_of(PATH).split("\n"), 1):
        if line.startswith("== "):
            section = line[3:]
        elif not line.strip() or line.startswith("#"):
            is_new = True
        elif line.startswith("    ") and found[-1].below:
            found[-1].below[-1] += " " + line.strip()
        elif line.startswith("  "):
            found[-1].below.append(line.strip())
        elif is_new:
            found.append(Entry(section, number, line, []))
            is_new = False
        else:
            found[-1].text += " " + line
    return found


def check_sections(all_entries):
    known = {*tree.all_crates(), MAIN, BY_TESTS, NOT_TURNED}
    for it in all_entries:
        if it.section not in known:
            fault(f"{it.where}: the section {it.section} is no crate")


def rows_of(functions, all_entries):
    """The promises about several calls, of the crates and of the main theorem."""
    rows = []
    for it in all_entries:
        if it.section in (BY_TESTS, NOT_TURNED):
            continue
        calls = " ".join(it.below)
        crate = None if it.section == MAIN else it.section
        plain = calls.replace("`", "")
        keys = turns.keys_of(functions, crate, plain, it.where) if calls else set()
        rows.append(Row(it.text, calls, it.section, keys))
        if len(it.text) > MOST:
            fault(f"{it.where}: the promise has more than {MOST} characters")
    return rows


def spared_of(functions, all_entries):
    """The clauses that are listed as not turned."""
    spared = set()
    for it in all_entries:
        for line in it.below if it.section == NOT_TURNED else ():
            crate, _, calls = line.partition(": ")
            calls = calls.split(". ")[0].replace("`", "")
            spared |= turns.keys_of(functions, crate, calls, it.where)
    return spared


def place(named, rows, column):
    """Puts an edit or a test into the rows of what it names; the first rows that name the most of
    it."""
    most = max((len(row.keys & named.keys) for row in rows), default=0)
    if most == 0:
        if named.keys:
            names = ", ".join(sorted({f"{it.title()} ({clause})" for it, clause in named.keys}))
            fault(f"{PATH}: no promise names what {named.path} ({named.name}) is about: {names}")
        return
    wanted = set(named.keys)
    for row in sorted(rows, key=lambda row: -len(row.keys & named.keys)):
        if row.keys & wanted:
            getattr(row, column).append(named.name)
            wanted -= row.keys


def add_bent(rows):
    """Adds to each promise of the main theorem the edits that bend the claim that its text names,
    in parentheses."""
    edits = {}
    for crate in tree.crates():
        for name, found in bent.benders(crate, list(definitions.definitions_of(crate))).items():
            edits.setdefault(name, set()).update(found)
    for row in rows:
        for name in re.findall(r"\(`(\w+)`\)", row.text) if row.crate == MAIN else ():
            row.edits.extend(edits.get(name, ()))


def check_turned(functions, named, spared):
    """Refuses a clause of a public call that no edit, test or law names, and that is not listed as
    not turned."""
    covered = set().union(spared, *(it.keys for it in named))
    missing = {}
    for it in functions:
        for clause in it.promises() if it.is_public and not it.is_law else ():
            if (it, clause) not in covered:
                missing.setdefault(it.crate, {}).setdefault(it.title(), []).append(clause)
    for crate, calls in missing.items():
        for call, clauses in calls.items():
            unnamed = f"no edit or test names {call} ({', '.join(clauses)})"
            fault(f"crates/{crate}: {unnamed}, and {PATH} does not list it as not turned")


def comment_of(function, what):
    """The first paragraph of the comment of a call or a law."""
    comment = function.comment()
    if not re.match(r"[A-Z`].*\.\)?$", comment):
        fault(f"{function.path}: the comment of the {what} {function.name} is no sentence")
    if len(comment) > MOST:
        first = f"the first paragraph of the comment of {function.name}"
        fault(f"{function.path}: {first} has more than {MOST} characters")
    return comment


class Call(Row):
    """What the comment of a public call says of those of its clauses that no promise names."""

    def __init__(self, function, clauses):
        keys = {(function, it) for it in clauses}
        super().__init__(comment_of(function, "call"), "", function.crate, keys)
        self.title, self.clauses = function.title(), [it for it in clauses if it]


class Law(Row):
    """What the comment of a law says that no promise names."""

    def __init__(self, function):
        module = "laws" if "laws" in function.modules else min(function.modules)
        keys = {(function, clause) for clause in function.promises()}
        super().__init__(comment_of(function, "law"), "", function.crate, keys)
        self.title = f"{module}::{function.name}"
        self.clauses = [it for it in function.promises() if it]


def by_type(functions):
    """The functions, those of one type together: first those of the file that defines it, in its
    order."""
    home = {}
    for it in functions:
        if it.owner and re.search(rf"\b(?:struct|enum|trait) {it.owner}\b", text_of(it.path)):
            home[it.crate, it.owner] = it.path
    for it in functions:
        home.setdefault((it.crate, it.owner), it.path)
    crates = tree.all_crates()

    def key(it):
        place = home[it.crate, it.owner] if it.owner else it.path
        return crates.index(it.crate), place, it.owner or "", it.path != place

    return sorted(functions, key=key)


def calls_of(functions, rows):
    """The public calls with clauses that no promise names. An `impl` of a trait may leave the
    comment to the trait."""
    named = set().union(*(row.keys for row in rows))
    found = []
    for it in by_type([it for it in functions if it.is_public and not it.is_law]):
        clauses = [name for name in it.promises() if (it, name) not in named]
        if clauses and (it.is_inherent or it.comment()):
            found.append(Call(it, clauses))
    return found


def laws_of(functions, rows):
    named = {it for row in rows for it, _ in row.keys}
    return [Law(it) for it in functions if it.is_public and it.is_law and it not in named]


def check(functions, is_write):
    all_entries = entries()
    check_sections(all_entries)
    rows, spared = rows_of(functions, all_entries), spared_of(functions, all_entries)
    edits = [it for crate in tree.all_crates() for it in turns.edits_of(functions, crate)]
    tests = turns.tests_of(functions)
    calls, laws = calls_of(functions, rows), laws_of(functions, rows)
    for it in edits:
        place(it, rows + calls + laws, "edits")
    for it in tests:
        place(it, rows + calls + laws, "tests")
    add_bent(rows)
    check_turned(functions, edits + tests, spared)
    of = lambda section: [it for it in all_entries if it.section == section]
    parts = reference.Parts(rows, calls, laws, of(BY_TESTS), of(NOT_TURNED))
    reference.check(parts, is_write)
