"""What edits turn and tests show: their lines `Turns CALL (CLAUSE): ..` and
`Shows CALL (CLAUSE): ..`."""
import os
import re

from . import tree
from .tree import fault, text_of

CALL = r"`?[\w:]+`?(?: \([\w, `]*\))?"
LINE = re.compile(rf"(Turns|Shows) ({CALL}(?:, {CALL})*): (.+)", re.S)
UNSAID = "Shows what no clause says: "


class Named:
    """An edit or a test, with the promises that it names: sets of a function and the name of a
    clause."""

    def __init__(self, name, path, keys):
        self.name, self.path, self.keys = name, path, keys


def resolve(functions, crate, call):
    """The functions that a call names: those of `crate` if there are some, and the public ones if
    there are some."""
    *qualifiers, name = call.split("::")
    found = [it for it in functions if it.name == name and it.is_called(qualifiers)]
    found = [it for it in found if it.crate == crate] or found
    return [it for it in found if it.is_public] or found


def keys_of(functions, crate, text, place):
    """The promises that a text `CALL (CLAUSE, ..), ..` names."""
    keys = set()
    for call, clauses in re.findall(r"`?([\w:]+)`?(?: \(([\w, `]*)\))?(?:, |$)", text):
        found = resolve(functions, crate, call)
        if not found:
            fault(f"{place}: there is no call {call}")
            continue
        wanted = re.findall(r"\w+", clauses)
        for it in found:
            named = [clause for clause in wanted if clause in it.promises()]
            keys |= {(it, clause) for clause in (named if wanted else it.promises() or [""])}
        for clause in wanted:
            if not any(clause in it.promises() for it in found):
                fault(f"{place}: {call} has no clause {clause}")
    return keys


def check_applies(crate, path):
    """Refuses an edit of which an old text does not stand in its file exactly once. The prover
    would not try it, and its line in .ci/must-fail.tried may stay, since that does not rest on
    comments."""
    texts, file, old = {}, None, None
    for kind, text in re.findall(r"^(file|old|new): ?(.*)$", text_of(path), re.M):
        if kind == "file":
            file = f"crates/{crate}/{text.strip()}"
            texts.setdefault(file, text_of(file))
        elif kind == "old":
            old = text
            if texts[file].count(old) != 1:
                times = texts[file].count(old)
                fault(f"{path}: an old text stands in {file} {times} times, and not once")
        else:
            texts[file] = texts[file].replace(old, text)


def edits_of(functions, crate):
    found, old = [], []
    for path in tree.files_below(f"crates/{crate}/must-fail", ".edit"):
        check_applies(crate, path)
        first = re.sub(r"^# ", "", text_of(path).split("\n")[0])
        it = LINE.fullmatch(first)
        if not it or it[1] != "Turns":
            old.append(path)
            continue
        if " Here " not in it[3]:
            fault(f"{path}: its first line does not say what happens `Here`")
        name = os.path.basename(path)[: -len(".edit")]
        found.append(Named(name, path, keys_of(functions, crate, it[2], path)))
    if old:
        text = f"{len(old)} edits do not begin with `Turns CALL (CLAUSE): `"
        fault(f"crates/{crate}/must-fail: {text}, as {old[0]}")
    return found


# The comment and the attributes above a test, and its name.
TEST = re.compile(
    r"((?:^[ \t]*//[^\n]*\n)*^[ \t]*#\[test\]\n(?:^[ \t]*(?:#|//)[^\n]*\n)*)"
    r"[ \t]*(?:pub )?fn (\w+)", re.M,
)


def comments_of_tests(crate):
    """The comment above each test of a crate, as (name, path, text)."""
    for path in tree.files_below(f"crates/{crate}/src", ".rt"):
        for comment, name in TEST.findall(text_of(path)):
            lines = [re.sub(r"^[ \t]*///? ?", "", it) for it in comment.split("\n") if "//" in it]
            yield name, path, " ".join(it for it in lines if it).strip()


def comments_of_cases():
    for path in tree.files_below("tests/cases", ".case"):
        lines = [re.sub(r"^#+ ?", "", it) for it in text_of(path).split("\n") if it.startswith("#")]
        yield os.path.basename(path)[: -len(".case")], path, " ".join(lines).strip()


def tests_of(functions):
    found, old = [], {}
    comments = [it for crate in tree.all_crates() for it in comments_of_tests(crate)]
    for name, path, text in comments + list(comments_of_cases()):
        crate = path.split("/")[1] if path.startswith("crates/") else "tests/cases"
        if text.startswith(UNSAID):
            continue
        it = LINE.match(text)
        if not it or it[1] != "Shows":
            old.setdefault(crate, []).append(f"{path} ({name})")
            continue
        found.append(Named(name, path, keys_of(functions, None, it[2], f"{path} ({name})")))
    for crate, places in sorted(old.items()):
        text = f"{len(places)} tests do not begin with `Shows CALL (CLAUSE): `"
        fault(f"{crate}: {text}, as {places[0]}")
    return found
