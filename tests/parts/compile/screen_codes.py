"""The codes of old terminals that GOTOXY and PAGE write."""

from ..checks import passed
from ..program import must
from .judging import Options, compile_text, run

TEXT = "PROGRAM P;\nBEGIN GOTOXY(4, 9); WRITE('X'); PAGE(OUTPUT); GOTOXY(79, 23) END.\n"
# By the terminals' manuals. Of the Soroc's codes ESC * clears, and 30 leads to the upper left.
WANTED = {
    "ansi": "\x1b[10;5HX\x1b[2J\x1b[1;1H\x1b[24;80H", "vt52": "\x1bY)$X\x1bH\x1bJ\x1bY7o",
    "adm3a": "\x1b=)$X\x1a\x1b=7o", "soroc": "\x1b=)$X\x1b*\x1e\x1b=7o",
    "apple": "\x1e$)X\x0c\x1eo7",
}
# What `console --screen` makes of them: the places of GOTOXY, and a clear screen between.
SHOWN = {
    "vt52": "\x1b[10;5HX\x1b[H\x1b[J\x1b[24;80H", "adm3a": "\x1b[10;5HX\x1b[H\x1b[2J\x1b[24;80H",
    "soroc": "\x1b[10;5HX\x1b[H\x1b[2J\x1b[H\x1b[24;80H",
    "apple": "\x1b[10;5HX\x1b[H\x1b[2J\x1b[24;80H",
}


def try_screens():
    """Each terminal's codes, and what `console` shows of them."""
    from shared.screens import Screen  # of tools/group
    for name, wanted in WANTED.items():
        found = run(compile_text(TEXT, "p.pas", Options(screen=name)).data, "")
        must(found == (wanted, ""), f"--screen {name}: {found} is not {wanted!r}")
        if name in SHOWN:
            shown = Screen(name).translated(wanted.encode()).decode()
            must(shown == SHOWN[name], f"console --screen {name} shows {shown!r}")
    passed("GOTOXY and PAGE write the codes of five terminals, and console shows them")


TESTS = (try_screens,)
