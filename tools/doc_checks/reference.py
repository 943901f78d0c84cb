"""docs/reference, a page for each crate: its promises, calls and laws, with the tests and edits of
each. tools/check-docs --write makes them; nobody writes there."""
import os
import re
import textwrap

from . import links, tree
from .tree import fault, text_of

FOLDER = "docs/reference"
# How many columns a line may have, but for a single word.
MOST = 100
MAIN, BY_TESTS = "main_theorem", "by_tests"
HEAD = {
    MAIN: """# The main theorem, clause by clause

[THEOREM](../THEOREM.md#the-sentence) has the theorem, in words and word for word. That its claims
hold of processes over disks is `disks_headline` ([group_disk](group_disk.md)); `tests/kill` and
`tests/power` try records and consoles on real files.
""",
    BY_TESTS: """# By tests alone

What no clause says, with the tests that show it. A call is named to say where to look.
""",
}
OF_CRATE = """# `{0}`

- [Its sources](../../crates/{0})
- [What is not promised](../PROMISES.md#{1})
"""
PROMISES = "docs/PROMISES.md"
INDEX = """# Every promise

A page for each crate has each of its promises: the public call and the clauses that state it, the
tests that show it, and the must-fail edits that turn it. `tools/check-docs --write` writes these pages
from the comments in the sources and from [promises.txt](../promises.txt).

| In a page | Where it is |
|---|---|
| a call with its clauses | `crates/CRATE/src` |
| a definition that a clause names | [DEFINITIONS](../DEFINITIONS.md) |
| a test | a crate of tests, `crates/*_tests`, or `tests/cases/NAME.case` |
| an edit | `crates/CRATE/must-fail/NAME.edit` |

"""


class Parts:
    """What the pages are made of."""

    def __init__(self, rows, calls, laws, by_tests, not_turned):
        self.rows, self.calls, self.laws = rows, calls, laws
        self.by_tests, self.not_turned = by_tests, not_turned


def wrapped(text, first="", other=""):
    lines = textwrap.wrap(text, MOST, initial_indent=first, subsequent_indent=other,
                          break_long_words=False, break_on_hyphens=False)
    return "\n".join(lines) + "\n"


def rows_for(name, items):
    """The rows of a table of two columns; items that have no room go on in the next row."""
    rows, room = [], MOST - len("|  |  |") - len(name)
    for it in items:
        if rows and len(rows[-1]) + len(it) + 2 <= room:
            rows[-1] += f", {it}"
        else:
            rows.append(it)
    return [f"| {name if number == 0 else ''} | {it} |" for number, it in enumerate(rows)]


def table_of(clauses, row):
    """The table of a promise: clauses, tests and edits. Empty where there is none of them."""
    quoted = lambda names: [f"`{it}`" for it in sorted(set(names))]
    rows = [*rows_for("Clauses", [f"`{it}`" for it in clauses]),
            *rows_for("Tests", quoted(row.tests)), *rows_for("Edits", quoted(row.edits))]
    return "\n".join(["| | |", "|---|---|", *rows, ""]) if rows else ""


def text_of_titled(row):
    table = table_of(row.clauses, row)
    return f"### `{row.title}`\n\n{wrapped(row.text)}" + (f"\n{table}" if table else "")


def text_of_promise(row):
    """A promise about several calls, as a point of a list."""
    quoted = lambda names: ", ".join(f"`{it}`" for it in sorted(set(names)))
    found = wrapped(row.text, "- ", "  ")
    for name, text in (("Calls", row.calls), ("Tests", quoted(row.tests)),
                       ("Edits", quoted(row.edits))):
        if text:
            found += wrapped(f"{name}: {text}", "  - ", "    ")
    return found


def text_of_reason(crate, entry):
    """Why clauses of a crate are not turned, with these clauses."""
    reason, _, more = entry.text.partition(". ")
    lines = [it.partition(": ")[2] for it in entry.below if it.startswith(f"{crate}: ")]
    return "".join(
        wrapped(f"{reason}: {it}{'' if it.endswith('.') else '.'} {more}".strip(), "- ", "  ")
        for it in lines)


def head_of(crate):
    """The head of a page, with a link to the section of PROMISES whose heading names the crate."""
    if crate in HEAD:
        return HEAD[crate]
    heading = re.search(rf"^## (.*`{crate}`.*)$", text_of(PROMISES), re.M)
    if not heading:
        fault(f"{PROMISES}: no section names the crate {crate}")
        return ""
    return OF_CRATE.format(crate, links.anchor_of(heading[1]))


def page_of(crate, parts):
    """The page of a crate, or nothing if it promises nothing."""
    of = lambda rows: [it for it in rows if it.crate == crate]
    sections = (
        ("Promises about several calls", [text_of_promise(it) for it in of(parts.rows)], ""),
        ("Calls", [text_of_titled(it) for it in of(parts.calls)], "\n"),
        ("Laws, over the definitions alone", [text_of_titled(it) for it in of(parts.laws)], "\n"),
        ("Clauses that no edit turns", [text_of_reason(crate, it) for it in parts.not_turned], ""),
    )
    sections = [(title, [it for it in texts if it], between) for title, texts, between in sections]
    found = [f"\n## {title}\n\n{between.join(it)}" for title, it, between in sections if it]
    return "".join([head_of(crate), *found]) if found else ""


def page_of_tests(entries):
    found = HEAD[BY_TESTS]
    for it in entries:
        calls, _, tests = " ".join(it.below).partition(". Tests: ")
        tests = re.sub(r"`(tests/\w+)`", r"[\1](../../\1)", tests)
        found += "\n" + wrapped(it.text + ("" if it.text.endswith(".") else "."), "- ", "  ")
        found += wrapped(f"Calls: {calls}", "  - ", "    ")
        found += wrapped(f"Tests: {tests}", "  - ", "    ")
    return found


def pages_of(parts):
    """The names of the pages with their texts."""
    pages = {it: page_of(it, parts) for it in (MAIN, *tree.crates())}
    pages = {name: text for name, text in pages.items() if text}
    links = "".join(
        f"- [{'the main theorem' if it == MAIN else f'`{it}`'}]({it}.md)\n" for it in pages)
    links += f"- [what tests alone show]({BY_TESTS}.md)\n"
    return {**pages, BY_TESTS: page_of_tests(parts.by_tests), "README": INDEX + links}


def check(parts, is_write):
    pages = {f"{FOLDER}/{name}.md": text for name, text in pages_of(parts).items()}
    old = set(tree.files_below(FOLDER, ".md")) - set(pages)
    if is_write:
        os.makedirs(f"{tree.TOP}/{FOLDER}", exist_ok=True)
        for path in old:
            os.remove(f"{tree.TOP}/{path}")
        for path, text in pages.items():
            with open(f"{tree.TOP}/{path}", "w", encoding="utf-8") as file:
                file.write(text)
        return
    for path in sorted(old):
        fault(f"{path}: is the page of no crate")
    for path, text in pages.items():
        if not tree.is_file(path) or text_of(path) != text:
            fault(f"{path}: is not what tools/check-docs --write writes")
