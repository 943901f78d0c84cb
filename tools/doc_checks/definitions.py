"""docs/DEFINITIONS.md, which is written from the comments of the definitions."""
import os
import re

from . import bent, tree
from .tree import fault, text_of

PATH = "docs/DEFINITIONS.md"
HEAD = """# Definitions

The definitions that public contracts cite, and those with a source on which these rest, by crate and file. `tools/check-docs
--write` writes this page from the comments in `crates/*/specs`, which also say what a definition allows and forbids. "Bent
by" names the must-fail edits that change the definition; a law or a call refuses each. A type has none, since it claims
nothing. "Simple" is Lamport, "Paxos Made Simple" (2001); "manual" is the UCSD Pascal II.0 manual.
"""
COLUMNS = "| Name | What it is | Source | Bent by |\n|---|---|---|---|\n"
# Where the claims of the main theorem are defined.
HEADLINE = "crates/group_world/specs/Headline.antt"
WORDS = r"(?:(?:abbrev|unfoldable|opaque|pub|record|data|mixfix|infix[lr]?) +)+"
BEGINS = re.compile(rf"^({WORDS})(?:\d+ +)?([^\s:(){{}}]+)")
CASE = re.compile(r"^ +(?:pub )?([A-Z]\w*) :", re.M)
LABEL = re.compile(r"(?:^| )(?:Source|Allows|Forbids): ")
# A type of values, or one for each type of them.
TYPE = re.compile(rf"{WORDS}\S+ : (?:Type 0 → )*Type 0(?: where)?$")


class Definition:
    def __init__(self, crate, path, name, comment, body):
        self.crate, self.path, self.name, self.comment, self.body = crate, path, name, comment, body

    def sentence(self):
        """The first sentence of the comment, which is before what begins with a label."""
        text = LABEL.split(" ".join(self.comment))[0]
        it = re.match(r"(.*?[.?!])(?: (?=[A-Z`(])|$)", text)
        return it[1] if it else ""

    def is_type(self):
        return bool(TYPE.match(self.body.split("\n")[0]))

    def is_based_on(self):
        """Whether a promise rests on it: it has a source, or is a claim of the main theorem."""
        return bool(self.source()) or self.path == HEADLINE

    def source(self):
        text = " ".join(self.comment)
        it = re.search(r"\bSource: (.*?)(?= Allows: | Forbids: |$)", text)
        return it[1].rstrip(".") if it else ""


def definitions_of(crate):
    for path in tree.files_below(f"crates/{crate}/specs", ".antt"):
        lines = text_of(path).split("\n")
        for i, line in enumerate(lines):
            begins = BEGINS.match(line)
            if not begins or "pub" not in begins[1].split() or begins[2] in ("mod", "use"):
                continue
            first = i
            while first > 0 and lines[first - 1].startswith("--"):
                first -= 1
            comment = [it.lstrip("- ").rstrip() for it in lines[first:i]]
            end = next((j for j in range(i + 1, len(lines)) if BEGINS.match(lines[j])), len(lines))
            yield Definition(crate, path, begins[2], comment, "\n".join(lines[i:end]))


def imports_of(text):
    """The definitions of the repository that a source imports: the name here, and the module with
    the name there."""
    found = {}
    own = set(tree.crates())
    uses = re.findall(r"use Rattle\.(\w+\.specs\.(?!declared)[\w.]+)\.\{([^}]*)\}", text)
    for module, names in uses:
        if module.split(".")[0] in own:
            for name in filter(None, (it.strip() for it in names.split(","))):
                there, _, here = name.partition(" as ")
                found[here.strip() or there.strip()] = (module, there.strip())
    return found


def words_in(text):
    return set(re.findall(r"(?<![.\w'-])[A-Za-z_◌][\w'-]*", text))


def cited(functions):
    """The definitions that the clauses of public functions name, each with a call that names it."""
    found = {}
    for function in functions:
        imports = imports_of(text_of(function.path))
        for _, clause, _ in function.clauses:
            for word in words_in(clause) & imports.keys():
                found.setdefault(imports[word][1], f"{function.crate}::{function.name}")
    return found


def listed(functions):
    """The public definitions that public clauses cite, and the data whose cases they cite."""
    by_name, homes = by_names(), {}
    for of_name in by_name.values():
        for it in of_name:
            is_data = " data " in f" {it.body[:20]} "
            for case in CASE.findall(it.body) if is_data else ():
                homes.setdefault(case, []).append(it)
    found = []
    for name, place in sorted(cited(functions).items()):
        homes_of_name = by_name.get(name) or homes.get(name)
        if homes_of_name:
            found.extend(it for it in homes_of_name if it not in found)
        else:
            fault(f"{place} cites {name}, which is no public definition of specs")
    return found


def by_names():
    """All public definitions, by their names."""
    found = {}
    for crate in tree.crates():
        for it in definitions_of(crate):
            found.setdefault(it.name, []).append(it)
    return found


def below(definitions):
    """The definitions with a source on which these rest, by the names in their bodies."""
    by_name, found, open_ones = by_names(), [], list(definitions)
    seen = {it.name for it in definitions}
    while open_ones:
        for name in sorted(words_in(open_ones.pop().body) & by_name.keys() - seen):
            seen.add(name)
            open_ones.extend(by_name[name])
            found.extend(it for it in by_name[name] if it.source())
    return found


def bent_in(crate):
    """For the name of each definition of a crate, the edits that bend it, as a cell."""
    found = bent.benders(crate, list(definitions_of(crate)))
    return {name: ", ".join(f"`{it}`" for it in sorted(edits)) for name, edits in found.items()}


def page(definitions):
    parts = [HEAD]
    for crate in tree.crates():
        of_crate = [it for it in definitions if it.crate == crate]
        if not of_crate:
            continue
        edits = bent_in(crate)
        parts.append(f"\n## {crate}\n")
        for path in sorted({it.path for it in of_crate}):
            lines = text_of(path).split("\n")
            order = {
                it.name: lines.index(it.body.split("\n")[0]) for it in of_crate if it.path == path
            }
            parts.append(f"\n[{os.path.basename(path)}](../{path})\n\n{COLUMNS}")
            here = [it for it in of_crate if it.path == path]
            for it in sorted(here, key=lambda it: order[it.name]):
                sentence = it.sentence().replace("|", "\\|")
                parts.append(
                    f"| `{it.name}` | {sentence} | {it.source()} | {edits.get(it.name, '')} |\n"
                )
    return "".join(parts)


def not_bent(definitions):
    """Of these definitions those that a promise rests on, that are no types, and that no edit
    bends."""
    edits = {crate: bent_in(crate) for crate in tree.crates()}
    wanted = [it for it in definitions if it.is_based_on() and not it.is_type()]
    return [it for it in wanted if it.name not in edits[it.crate]]


def check(functions, is_write):
    definitions = listed(functions)
    for it in definitions:
        if not it.sentence():
            lacks = "has no first sentence that ends with a full stop"
            fault(f"{it.path}: the comment of {it.name} {lacks}")
    definitions = definitions + below(definitions)
    for it in not_bent(definitions):
        fault(f"{it.path}: no must-fail edit bends {it.name}")
    text = page(definitions)
    if is_write:
        with open(f"{tree.TOP}/{PATH}", "w", encoding="utf-8") as file:
            file.write(text)
    elif text_of(PATH) != text:
        fault(f"{PATH}: is not what tools/check-docs --write writes")
