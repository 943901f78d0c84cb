"""The repository as tools/check-docs sees it: files, crates, and the public functions with their
clauses."""
import os
import re

TOP = os.path.dirname(os.path.dirname(os.path.dirname(os.path.abspath(__file__))))
FAULTS = []


def fault(text):
    FAULTS.append(text)


def text_of(path):
    with open(f"{TOP}/{path}", encoding="utf-8") as file:
        return file.read()


def is_file(path):
    return os.path.isfile(f"{TOP}/{path}")


def files_below(folder, ending):
    for at, folders, names in os.walk(f"{TOP}/{folder}"):
        folders[:] = sorted(it for it in folders if it != "out")
        for name in sorted(names):
            if name.endswith(ending):
                yield os.path.relpath(f"{at}/{name}", TOP)


def all_crates():
    return re.findall(r"^([a-z_0-9]+)(?: [^:]*)?:", text_of("crates.txt"), re.M)


def used_by(crate):
    """The crates that this one names in crates.txt, also those of the toolchain."""
    line = re.search(rf"^{crate}(?: [^:]*)?:(.*)$", text_of("crates.txt"), re.M)
    return line[1].split() if line else []


def crates():
    """The crates without those of tests, which export nothing."""
    return [it for it in all_crates() if not it.endswith("_tests")]


def cells_of(line):
    return [it.strip() for it in line.strip().strip("|").split("|")] if line.startswith("|") else []


def closing(text, at):
    """The index after the brace that closes the one at `at`."""
    depth = 0
    for i in range(at, len(text)):
        depth += {"{": 1, "}": -1}.get(text[i], 0)
        if depth == 0:
            return i + 1
    return len(text)


def clauses_at(text, at):
    """The clauses of the function whose name ends at `at`: a list of names and texts."""
    found = []
    # An array type in the signature has a semicolon too.
    word = re.compile(r"\[[^\[\]]*\]|\b(requires|ensures|ghost)\b\*?\s*(\w*)\s*:?\s*(?=\{)|[{;]")
    while True:
        it = word.search(text, at)
        if it and it[0].startswith("["):
            at = it.end()
            continue
        if not it or not it[1]:
            return found
        end = closing(text, it.end())
        found.append((it[2], text[it.end() : end], it[1]))
        at = end


class Function:
    def __init__(self, crate, modules, owner, name, is_inherent, is_pub, is_law, clauses, path, at):
        self.crate, self.modules, self.owner, self.name = crate, modules, owner, name
        self.is_inherent, self.is_pub, self.is_law = is_inherent, is_pub, is_law
        self.is_at_top = False
        self.clauses, self.path, self.at = clauses, path, at

    def is_called(self, qualifiers):
        return all(it in (self.owner, self.crate, *self.modules) for it in qualifiers)

    def title(self):
        """The name by which docs call it: with its type, the crate that exports it at its top, or
        its module."""
        module = os.path.basename(self.path)[: -len(".rt")]
        return f"{self.owner or (self.crate if self.is_at_top else module)}::{self.name}"

    def comment(self):
        """The first paragraph of the comment above the function."""
        found = []
        for line in reversed(text_of(self.path)[: self.at].split("\n")[:-1]):
            if line.strip().startswith("///"):
                found.insert(0, line.strip()[3:].strip())
            elif not line.strip().startswith("#["):
                break
        return " ".join(found[: found.index("")] if "" in found else found)

    def promises(self):
        """The names of the clauses that say what the call does; the unnamed one is ''."""
        return [name for name, _, kind in self.clauses if kind != "requires"]


def without_comments(text):
    """The text with blanks in place of comments, so that offsets stay."""
    return re.sub(r"//[^\n]*", lambda it: " " * len(it[0]), text)


def owners_in(text):
    """The ranges of the `impl` blocks and traits of a text, each with the type's name and whether a
    trait has its functions."""
    found = []
    for it in re.finditer(r"^(?:pub )?(impl|trait)\b([^{;]*)\{", text, re.M):
        head = it[2].replace("->", "")
        head = re.sub(r"<[^<>]*>", "", re.sub(r"<[^<>]*(?:<[^<>]*>[^<>]*)*>", "", head))
        name = re.findall(r"\w+", head.split(" for ")[-1].split(":")[0].split(" where ")[0])
        kind = "trait" if " for " in head else it[1]
        found.append((it.start(), closing(text, it.end() - 1), name[0] if name else "", kind))
    return found


def functions_of(crate):
    found = []
    for path in files_below(f"crates/{crate}/src", ".rt"):
        text = without_comments(text_of(path))
        owners = owners_in(text)
        for it in re.finditer(r"(pub(?:\(crate\))? )?(?:const )?fn (\w+)", text):
            block = next((block for block in owners if block[0] < it.start() < block[1]), None)
            owner, kind = block[2:] if block else (None, None)
            # What an impl says in place of clauses, as an iterator's `next_gives`.
            inside = text[block[0] : block[1]] if block else ""
            members = [(name, "", "ghost") for name in re.findall(r"ghost (\w+) = ", inside)]
            is_pub = it[1] == "pub " or kind == "trait"
            modules = modules_of(path, owner or it[2])
            clauses = clauses_at(text, it.end()) + members
            # What returns nothing, and takes no reference, can only state a law.
            law = r"(?:<[^()]*>)?\([^()&]*\)\s*(?:ghost|requires|ensures)\b"
            is_law = re.match(law, text[it.end() :]) is not None
            found.append(Function(
                crate, modules, owner, it[2], it[1] == "pub ", is_pub, is_law, clauses, path,
                it.start(),
            ))
    return found


def names_used(path):
    """The names that a source exports by `pub use`."""
    uses = re.findall(r"pub use ([^;]*);", without_comments(text_of(path)))
    return set(re.findall(r"\w+", " ".join(it.rpartition("::")[2] for it in uses)))


def modules_of(path, name):
    """The modules under which a name of a source is reached: its own, and the one above, if that
    exports the name."""
    folder, module = os.path.dirname(path), os.path.basename(path)[: -len(".rt")]
    above = os.path.basename(folder)
    if above != "src" and is_file(f"{folder}.rt") and name in names_used(f"{folder}.rt"):
        return {module, above}
    return {module}


def exported_by(crate):
    """The names and the modules that a crate exports."""
    path = f"crates/{crate}/src/lib.rt"
    if not is_file(path):
        path = f"crates/{crate}/src/main.rt"
    return names_used(path) | set(re.findall(r"pub mod (\w+)", without_comments(text_of(path))))


def is_exported(function, exported):
    name = function.name if not function.owner else None
    is_in_lib = not function.owner and function.path.endswith("/lib.rt")
    names = {function.owner, name, *function.modules}
    return function.is_pub and (is_in_lib or bool(exported & names))


def all_functions():
    """The functions of all crates; `is_public` says whether one is exported by its crate."""
    found = []
    for crate in crates():
        exported = exported_by(crate)
        for it in functions_of(crate):
            it.is_public = is_exported(it, exported)
            is_here = it.name in exported or it.path.endswith("/lib.rt")
            it.is_at_top = it.is_public and not it.owner and is_here
            found.append(it)
    return found
