"""docs/pictures, which tools/group/draw makes of scripts: with the program that PGROUP names, or
the recorded one, whatever its sources are. What `sim` prints of a script does not change with
them."""
import os
import subprocess
import tempfile

from . import manpages, tree
from .tree import fault

FOLDER = "docs/pictures"
PROGRAM = "examples/echo.code"
# The picture of each of these scripts has its name.
SCRIPTS = ("examples/group/leader_falls.script", "examples/group/key_twice.script",
           "examples/group/campaign.script")
# How wide a page is.
WIDTH = "860"


def picture_of(script, program):
    """What draw makes of a script."""
    words = [
        f"{tree.TOP}/tools/group/draw", f"{tree.TOP}/{script}", "--file", f"{tree.TOP}/{PROGRAM}",
        "--program", program, "--width", WIDTH,
    ]
    done = subprocess.run(words, capture_output=True)
    if done.returncode:
        fault(f"{script}: is not drawn: {done.stderr.decode().strip()}")
    return done.stdout.decode()


def check_with(program, is_write):
    os.makedirs(f"{tree.TOP}/{FOLDER}", exist_ok=True)
    for script in SCRIPTS:
        path = f"{FOLDER}/{os.path.basename(script).replace('.script', '.svg')}"
        text = picture_of(script, program)
        if is_write:
            with open(f"{tree.TOP}/{path}", "w", encoding="utf-8") as file:
                file.write(text)
        elif not tree.is_file(path) or tree.text_of(path) != text:
            fault(f"{path}: is not what tools/check-docs --write makes of {script}")


def check(is_write):
    if os.environ.get("PGROUP"):
        check_with(os.path.abspath(os.environ["PGROUP"]), is_write)
        return
    program = manpages.recorded(is_of_any_sources=True)
    if program is None:
        print("docs: there is no program for this machine, so the pictures are not compared")
        return
    with tempfile.TemporaryDirectory() as room:
        check_with(manpages.put(program, room), is_write)
