"""docs/man, which is made from the help texts (tools/packing/manual.py): of the scripts always, and
of the program where it is at hand: the one that PGROUP names, or the recorded one if it was made of
these sources."""
import gzip
import hashlib
import importlib
import os
import subprocess
import sys
import tempfile

from . import tree
from .tree import fault

FOLDER = "docs/man"


def recorded(is_of_any_sources=False):
    """The bytes of the recorded program, or None where it is of other sources or for another
    machine."""
    if not tree.is_file("program/record"):
        return None
    lines = tree.text_of("program/record").splitlines()
    values = dict(line.split(" ", 1) for line in lines if line[:1] not in ("#", ""))
    script = '. "$0/tools/bash/sources.bash"; sum_of_sources "$0"'
    done = subprocess.run(["bash", "-c", script, tree.TOP], check=True, capture_output=True)
    is_of_these = values["sources"] == done.stdout.decode().strip()
    if values["machine"] != os.uname().machine or not (is_of_these or is_of_any_sources):
        return None
    with open(f"{tree.TOP}/program/pgroup.gz", "rb") as file:
        program = gzip.decompress(file.read())
    return program if hashlib.sha256(program).hexdigest() == values["program"] else None


def put(program, room):
    """Writes a program into a folder. Returns its path."""
    path = os.path.join(room, "pgroup")
    with open(path, "wb") as file:
        file.write(program)
    os.chmod(path, 0o755)
    return path


def pages_of_program(manual):
    """The pages of the program, or None where it is not at hand."""
    if os.environ.get("PGROUP"):
        return manual.program_pages(os.environ["PGROUP"])
    program = recorded()
    if program is None:
        return None
    with tempfile.TemporaryDirectory() as room:
        return manual.program_pages(put(program, room))


def check(is_write):
    sys.path.insert(0, f"{tree.TOP}/tools")
    manual = importlib.import_module("packing.manual")
    pages, of_program = manual.script_pages(), pages_of_program(manual)
    pages.update(of_program or {})
    os.makedirs(f"{tree.TOP}/{FOLDER}", exist_ok=True)
    for name, text in sorted(pages.items()):
        path = f"{FOLDER}/{name}"
        if is_write:
            with open(f"{tree.TOP}/{path}", "w", encoding="utf-8") as file:
                file.write(text)
        elif not tree.is_file(path) or tree.text_of(path) != text:
            fault(f"{path}: is not what tools/check-docs --write makes of the help text")
    there = {os.path.basename(it) for it in tree.files_below(FOLDER, ".1")}
    if of_program is None:
        lacks = "the program of these sources is not at hand"
        print(f"docs: {lacks}, so its man pages are not compared")
    elif there != set(pages):
        fault(f"{FOLDER}: has {', '.join(sorted(there ^ set(pages)))} too many or too few")
