"""docs/surface.txt: the names and types that the crates export, a line for each. A change of them
is a decision, so tools/check-docs --write leaves this file alone, and --write-surface writes it."""
import re

from . import tree
from .tree import fault, text_of

PATH = "docs/surface.txt"
HEAD = """\
# What each crate exports, as its sources have it: functions, methods, structs with their public
# fields, enums with their variants, traits with their methods, and constants, all with their types.
# Laws are here by name alone. Contracts, and the traits that a type implements, are not here.
# `{ .. }` stands for private fields. `NAME = CRATE::NAME` is a name of another crate.
#
# tools/check-docs refuses each difference between this list and the sources. If a difference is meant,
# write the decision into docs/DECISIONS.md and run tools/check-docs --write-surface, which writes this
# file.

"""
READER = "tools/doc_checks/surface.py"
DECIDE = "or write the decision into docs/DECISIONS.md and run tools/check-docs --write-surface"
# The modules whose functions are listed by name alone.
LAWS = ("laws::", "instruction_laws::")

# What has no part in an item: comments, texts and characters. A lifetime has no second quote.
UNREAD = re.compile(r"""//[^\n]*|"(?:[^"\\]|\\.)*"|'(?:[^'\\\n]|\\.[^'\n]*)'""", re.S)
ATTRIBUTE = re.compile(r"#!?\[[^\[\]]*(?:\[[^\[\]]*\][^\[\]]*)*\]\s*")
OF_TESTS = re.compile(r"#\[cfg\(test\)\]\s*(?:#\[[^\n]*\]\s*)*(?:pub )?(?=\w)")

MODULE = re.compile(r"^(?:pub(?:\(\w+\))? )?mod (\w+);", re.M)
# A public item of a module, and one of an `impl` or a trait, as rt fmt indents them.
PUBLIC = re.compile(r"^pub (?!\().*", re.M)
ITEM = re.compile(r"^pub (?:(?:const|unsafe) (?=fn ))?(\w+) (\w+)", re.M)
MEMBER = re.compile(r"^    (pub )?(?:(?:const|final|unsafe) (?=fn ))?(const|fn|type) (\w+)", re.M)
# Where the part of an item ends that is listed.
ENDS = {
    "fn": {"requires", "ensures", "ghost", "{", ";"}, "const": {"=", ";"}, "static": {"=", ";"},
    "type": {";"}, "trait": {"{"}, "struct": {"{", "(", ";"}, "enum": {"{"},
}
TOKEN = re.compile(r"->|\w+|[(\[{<>}\])=,;]")
NAME = re.compile(rf"(?:(?:{'|'.join(ENDS)}) )?([\w:.]+)")
DEPTHS = {**dict.fromkeys("([{<", 1), **dict.fromkeys(">}])", -1)}


def plain(text):
    """The text without comments, attributes, and what texts say. An item for tests alone gets
    another word in front, so that it is none."""
    text = UNREAD.sub(lambda it: "" if it[0].startswith("//") else '""', text)
    return ATTRIBUTE.sub("", OF_TESTS.sub("test_", text))


def end_of(text, at, ends):
    """The index of the first of these words and signs from `at` on that is in no bracket."""
    depth = 0
    for it in TOKEN.finditer(text, at):
        if depth == 0 and it[0] in ends:
            return it.start()
        depth += DEPTHS.get(it[0], 0)
    return len(text)


def parts_in(text):
    """The parts of a text between the commas that are in no bracket."""
    parts, at = [], 0
    while at < len(text):
        end = end_of(text, at, {","})
        parts.append(text[at:end].strip())
        at = end + 1
    return [it for it in parts if it]


def one_line(text):
    """The text in one line, without what says nothing to a caller: a comma before a closing
    bracket, and that a parameter may be changed."""
    text = re.sub(r"([(\[<]) ", r"\1", " ".join(text.split()))
    text = re.sub(r",? ([)\]>])", r"\1", text).replace(", }", " }")
    return re.sub(r"([(,] ?)mut (?=\w)", r"\1", text)


def line_of(kind, shown, text, at):
    """The line of an item by the name `shown`; what follows its name stands at `at`."""
    word = "" if kind == "fn" else f"{kind} "
    return one_line(f"{word}{shown}{text[at : end_of(text, at, ENDS[kind])]}")


def parts_of(kind, shown, text, at):
    """The lines of a struct with its fields, or of an enum with its variants."""
    start = end_of(text, at, ENDS[kind])
    is_tuple = text[start] == "("
    inside = text[start + 1 : end_of(text, start + 1, {")", "}"})] if text[start] != ";" else ""
    parts = parts_in(inside)
    is_whole = kind == "enum" or all(it.startswith("pub ") for it in parts)
    yield line_of(kind, shown, text, at) + ("" if is_whole else " { .. }")
    for number, part in enumerate(parts):
        if kind == "enum":
            yield one_line(f"{shown}::{part}")
        elif part.startswith("pub "):
            name = f"{number}: " if is_tuple else ""
            yield one_line(f"{shown}.{name}{part[len('pub ') :]}")


def arguments_of(head):
    """What follows the type's name in the head of an `impl`, with the bounds of each argument:
    `<'a, S: Store>` of `impl<'a, S: Store> Host<'a, S>`."""
    head, bounds = head[len("impl") :], {}
    if head.startswith("<"):
        end = end_of(head, 1, {">"})
        bounds = {it.split(":")[0].strip(): it for it in parts_in(head[1:end])}
        head = head[end + 1 :]
    names = parts_in(head.strip().partition("<")[2][:-1])
    return f"<{', '.join(bounds.get(it, it) for it in names)}>" if names else ""


def paths_of(text):
    """The paths of a `use`, each with the name that it gives."""
    before, _, names = text.partition("{")
    for it in names.rstrip("} \n").split(","):
        path, _, name = f"{before}{it}".partition(" as ")
        path = "".join(path.split())
        if not path.endswith("::"):
            yield path, name.strip() or path.rpartition("::")[2]


def members_of(block, owner):
    """The lines of the public members of an `impl`, or of all members of a trait."""
    is_trait = block.startswith("pub trait ")
    for it in MEMBER.finditer(block):
        if it[1] or is_trait:
            yield line_of(it[2], f"{owner}::{it[3]}", block, it.end())


class Crate:
    """A crate's modules, as plain texts by the names that lead to them, and its types' methods."""

    def __init__(self, name):
        self.name, self.texts, self.methods = name, {}, {}
        self.read(())
        for text in self.texts.values():
            for start, end, owner, kind in tree.owners_in(text):
                if kind == "impl":
                    self.methods.setdefault(owner, []).append(text[start:end])

    def read(self, modules):
        path = f"crates/{self.name}/src/{'/'.join(modules) or 'lib'}.rt"
        self.texts[modules] = plain(text_of(path))
        for name in MODULE.findall(self.texts[modules]):
            self.read((*modules, name))

    def fault(self, what):
        text = f"crates/{self.name}: {what}: teach it this form"
        if text not in tree.FAULTS:
            fault(text)

    def lines(self):
        return {f"{self.name}: {it}" for it in self.exported((), "")}

    def items(self, modules):
        """The public items of a module, as `ITEM` finds them, each with the paths of a `use`."""
        text = self.texts[modules]
        for public in PUBLIC.finditer(text):
            it = ITEM.match(text, public.start())
            if not it:
                self.fault(f"has `{public[0]}`, which {READER} does not know")
            elif it[1] == "use":
                yield it, list(paths_of(text[it.start(2) : text.index(";", it.start())]))
            else:
                yield it, []

    def exported(self, modules, before):
        """The lines of what a module exports; `before` leads to it."""
        for it, paths in self.items(modules):
            if it[1] != "use":
                yield from self.item(modules, it, before + it[2])
            for path, name in paths:
                yield from self.used(modules, path, before + name)

    def used(self, modules, path, shown):
        """The lines of what a module exports from another one, or from another crate."""
        *way, name = path.split("::")
        home = modules
        for it in way:
            ways = {"crate": (), "self": home, "super": home[:-1]}
            home = ways.get(it, (*home, it))
        if home not in self.texts and way[0] in tree.used_by(self.name):
            yield f"{shown} = {path}"
            return
        lines = []
        for it, paths in self.items(home) if home in self.texts else ():
            if it[1] != "use" and it[2] == name:
                lines += self.item(home, it, shown)
            for further, given in paths:
                lines += self.used(home, further, shown) if given == name else ()
        if not lines:
            self.fault(f"exports {path}, which {READER} does not find")
        yield from lines

    def item(self, modules, it, shown):
        """The lines of an item of a module that `ITEM` has found."""
        kind, text = it[1], self.texts[modules]
        if kind == "mod" and (*modules, it[2]) in self.texts:
            yield from self.exported((*modules, it[2]), f"{shown}::")
        elif kind not in ENDS:
            self.fault(f"has `pub {kind} {it[2]}`, which {READER} does not know")
        elif kind == "fn" and shown.startswith(LAWS):
            yield shown
        elif kind in ("struct", "enum"):
            yield from parts_of(kind, shown, text, it.end())
            for block in self.methods.get(it[2], ()):
                owner = shown + arguments_of(block[: block.index("{")])
                yield from members_of(block, owner)
        else:
            yield line_of(kind, shown, text, it.end())
            if kind == "trait":
                end = tree.closing(text, text.index("{", it.end()))
                yield from members_of(text[it.start() : end], shown)


def name_of(line):
    """The name of a line, with its crate and without what it is; of a line that is none, as a
    merge leaves it, the line itself."""
    crate, _, item = line.partition(": ")
    item, old = item.replace("->", ""), None
    while item != old:
        item, old = re.sub(r"<[^<>]*>", "", item), item
    found = NAME.match(item)
    return f"{crate}: {found[1].rstrip(':')}" if found else line


def check_lines(listed, found):
    """Refuses each line that is only in one of both. Two of one name are one change."""
    gone, new = {}, {}
    for lines, names in ((listed - found, gone), (found - listed, new)):
        for it in sorted(lines):
            names.setdefault(name_of(it), []).append(it)
    for name in sorted({*gone, *new}):
        was, now = gone.get(name, []), new.get(name, [])
        if len(was) == len(now) == 1:
            is_now = now[0].partition(": ")[2]
            fault(f"{was[0]} is in {PATH}, and is now {is_now}: put it back, {DECIDE}")
            continue
        for it in was:
            fault(f"{it} is in {PATH} and no longer public: put the name back, {DECIDE}")
        for it in now:
            fault(f"{it} is public and not in {PATH}: make it private, {DECIDE}")


def check(is_write):
    """Compares the list with the sources, or writes it."""
    names = [it for it in tree.crates() if tree.is_file(f"crates/{it}/src/lib.rt")]
    found = set().union(*(Crate(it).lines() for it in names))
    text = HEAD + "".join(f"{it}\n" for it in sorted(found, key=lambda it: (name_of(it), it)))
    there = text_of(PATH) if tree.is_file(PATH) else ""
    listed = {it for it in there.split("\n") if it and not it.startswith("#")}
    if is_write:
        with open(f"{tree.TOP}/{PATH}", "w", encoding="utf-8") as file:
            file.write(text)
        new, gone = len(found - listed), len(listed - found)
        print(f"docs: {PATH} is written. Lines that are new: {new}. Lines that are gone: {gone}.")
    elif not there:
        fault(f"{PATH}: is missing: get it back from git, or run tools/check-docs --write-surface")
    elif listed != found:
        check_lines(listed, found)
    elif there != text:
        other = "its head, its order or a line that it has twice"
        fault(f"{PATH}: {other} is not what tools/check-docs --write-surface writes: run that")
