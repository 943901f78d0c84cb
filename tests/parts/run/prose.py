"""What tools/check-docs says of pages that are too long, of lines that are too wide, of links that
lead nowhere, of sources that a page shows, and of commands that a list lacks: of pages that are
made here."""

import os
import sys

from ..checks import Checks
from ..program import TOP

sys.path.insert(0, os.path.join(TOP, "tools"))
from doc_checks import commands, lengths, links, pages, tree, wrapped

WORD = "word "


class OfPages(Checks):
    """A folder with pages, at which tools/check-docs looks."""

    def setUp(self):
        super().setUp()
        self.addCleanup(setattr, tree, "TOP", tree.TOP)
        self.addCleanup(tree.FAULTS.clear)
        self.addCleanup(links.ANCHORS.clear)
        tree.TOP = self.room
        for name in ("README.md", "CHANGELOG.md", "docs/PROMISES.md"):
            self.put(name, "# A page\n")

    def put(self, name, text):
        path = os.path.join(self.room, name)
        os.makedirs(os.path.dirname(path), exist_ok=True)
        with open(path, "w", encoding="utf-8") as file:
            file.write(text)

    def faults(self, look):
        tree.FAULTS.clear()
        look()
        return list(tree.FAULTS)


class OfLinks(OfPages):
    """Links to files and to sections."""

    def said(self, text):
        links.ANCHORS.clear()
        self.put("docs/ONE.md", "# One\n\n## A `b` (c), d\n\n## Twice\n\n## Twice\n")
        self.put("docs/TWO.md", text)
        return self.faults(lambda: links.check("docs/TWO.md"))

    def test_links(self):
        for text, is_right in (
            ("[a](ONE.md#a-b-c-d)", True), ("[a](ONE.md#twice-1)", True), ("[a](ONE.md)", True),
            ("# T\n[a](#t)", True), ("[a](https://x.org/#y)", True),
            ("[a](ONE.md#a-b-c)", False), ("[a](ONE.md#twice-2)", False), ("[a](#t)", False),
            ("[a](NONE.md)", False), ("```\n# T\n```\n[a](#t)", False),
        ):
            with self.check(f"a link: {text!r}"):
                self.assertEqual(self.said(text) == [], is_right)


class OfWrapping(OfPages):
    """What is wrapped, and what stays."""

    def test_wrapping(self):
        long = (WORD * 30).strip()
        code, row = f"    {long}\n", f"| {long} |\n"
        for what, text, is_kept in (
            ("a paragraph", f"{long}\n", False), ("a point", f"- {long}\n", False),
            ("a short paragraph", "word\n", True), ("two short lines", "word\nword\n", False),
            ("code", code, True), ("a row of a table", row, True),
            ("a fence", f"```text\n{long}\n```\n", True), ("a heading", f"# {long}\n", True),
            ("one long word", "w" * 120 + "\n", True), ("long code", f"`{long}`\n", True),
        ):
            with self.check(f"wrapping: {what}"):
                self.assertEqual(wrapped.page_of(text) == text, is_kept)
                again = wrapped.page_of(wrapped.page_of(text))
                self.assertEqual(again, wrapped.page_of(text))
        for sign in ("-", "1.", "#", "|", "+", ">"):
            text = f"{'word ' * 19}last {sign} more words\n"
            with self.check(f"no line begins with {sign} that did not"):
                lines = wrapped.page_of(text).split("\n")
                self.assertTrue(all(not it.startswith(sign) for it in lines), lines)

    def test_writes(self):
        self.put("docs/ONE.md", WORD * 30 + "\n")
        look = lambda is_write: self.faults(lambda: wrapped.check(is_write))
        with self.check("a page that is not wrapped is refused, and wrapped"):
            self.assertEqual(look(False), [
                "docs/ONE.md:1: is not wrapped at 100 columns; tools/check-docs --write wraps it"])
            self.assertEqual(look(True) + look(False), [])


class OfCommands(OfPages):
    """The lists of commands, of a program that has `run` and `sim`."""

    def said(self, variants=("Run", "Sim"), known=("Run", "Sim"), listed=("run", "sim"),
             rows=("run", "sim")):
        enum = "".join(f"    {it},\n" for it in variants)
        names = "".join(f"    Name::{it},\n" for it in known)
        source = f"pub enum Name {{\n{enum}}}\nstatic ALL: [Name; 2] = [\n{names}];\n"
        self.put(commands.SOURCE, source)
        self.put(commands.LISTS[0], f"COMMANDS = {listed!r}\n")
        self.put(commands.LISTS[1], "COMMANDS = ('run', 'sim')\n")
        self.put("docs/FORMATS.md", "".join(f"| `{it} FILE` | what it does |\n" for it in rows))
        return self.faults(commands.check)

    def test_commands(self):
        with self.check("lists that have each command"):
            self.assertEqual(self.said(), [])
        with self.check("a list that lacks a command"):
            self.assertEqual(self.said(listed=("run",)), [
                "tools/packing/manual.py: COMMANDS has run, and the program run, sim"])
        with self.check("a list in another order"):
            self.assertEqual(len(self.said(listed=("sim", "run"))), 1)
        with self.check("a command that is not in ALL"):
            self.assertIn(f"{commands.SOURCE}: net is not in ALL, so that it is no command",
                          self.said(variants=("Run", "Sim", "Net")))
        with self.check("a command without a row"):
            self.assertEqual(self.said(rows=("run",)), [
                "docs/FORMATS.md: has no row for the command sim"])


class OfLengths(OfPages):
    """Lines of README, and words of the pages."""

    def test_lengths(self):
        with self.check("short pages"):
            self.assertEqual(self.faults(lengths.check), [])
        self.put("README.md", "line\n" * 130)
        with self.check("README has 130 lines"):
            self.assertEqual(self.faults(lengths.check),
                             ["README.md: has 130 lines, more than 129"])
        self.put("README.md", "# A page\n")
        self.put("docs/reference/ONE.md", WORD * lengths.MOST)
        with self.check("what is made is not counted"):
            self.assertEqual(self.faults(lengths.check), [])
        self.put("docs/ONE.md", WORD * lengths.MOST)
        with self.check("too many words"):
            self.assertEqual(self.faults(lengths.check), [
                f"README.md and docs: have {lengths.MOST + 6} words that a person writes, more "
                f"than {lengths.MOST}"])


LAW = "pub fn law()\n    ensures one { A }\n    ensures two { B }\n{}\n"
SPEC = "record R : Type 0 where\n  pub one : A\n  pub two : B\n\nabbrev S = R\n"


class OfParts(OfPages):
    """What a page shows of sources."""

    def said(self, path, part):
        for page in pages.WITH_PARTS:
            self.put(page, f"```text\n-- {path}\n{part}```\n")
        page = pages.WITH_PARTS[0]
        return [it for it in self.faults(pages.check_contracts_shown) if it.startswith(page)]

    def test_parts(self):
        law, spec, page = "crates/a/src/laws.rt", "crates/a/specs/A.antt", pages.WITH_PARTS[0]
        self.put(law, LAW)
        self.put(spec, SPEC)
        other = f"{page}: a part that it shows is not in "
        for what, path, part, says in (
            ("a whole contract", law, LAW[:-3], []),
            ("a contract without its last clause", law, LAW[:LAW.index("    ensures two")],
             [f"{page}: what it shows of {law} goes on there"]),
            ("another contract", law, LAW[:-3].replace("A", "C"), [other + law]),
            ("lines of a body", law, "{}\n", []),
            ("a whole definition", spec, SPEC[:SPEC.index("\nabbrev")], []),
            ("the last definition", spec, "abbrev S = R\n", []),
            ("a definition without its last field", spec, SPEC[:SPEC.index("  pub two")],
             [f"{page}: what it shows of {spec} goes on there"]),
            ("another definition", spec, "abbrev S = Q\n", [other + spec]),
        ):
            with self.check(f"a page shows {what}"):
                self.assertEqual(self.said(path, part), says)
        with self.check("a page shows nothing"):
            self.put(page, "# A page\n")
            self.assertIn(f"{page}: it shows no part of a source",
                          self.faults(pages.check_contracts_shown))
