"""The commands of the program: the lists that tools and tests have of them name each one."""
import ast
import re

from .tree import fault, text_of

SOURCE = "crates/command_arguments/src/commands.rt"
# The scripts that have a list `COMMANDS`.
LISTS = ("tools/packing/manual.py", "tests/command")


def commands():
    """The commands, in the order of help."""
    return [it.lower() for it in re.findall(r"^    Name::(\w+),$", text_of(SOURCE), re.M)]


def variants():
    return [it.lower() for it in re.findall(r"^    (\w+),$", text_of(SOURCE), re.M)]


def list_of(path):
    """The list of a script."""
    for it in ast.parse(text_of(path)).body:
        if isinstance(it, ast.Assign) and getattr(it.targets[0], "id", "") == "COMMANDS":
            return list(ast.literal_eval(it.value))
    return []


def check():
    wanted = commands()
    for it in variants():
        if it not in wanted:
            fault(f"{SOURCE}: {it} is not in ALL, so that it is no command")
    for path in LISTS:
        found = list_of(path)
        if found != wanted:
            fault(f"{path}: COMMANDS has {', '.join(found)}, and the program {', '.join(wanted)}")
    for it in wanted:
        if not re.search(rf"^\| `{it}\b", text_of("docs/FORMATS.md"), re.M):
            fault(f"docs/FORMATS.md: has no row for the command {it}")
