"""The table of docs/PASCAL.md: each name of the language stands in it, and what it says is refused
is refused with its words."""

import os
import re

from ..checks import passed
from ..program import TOP, must
from .judging import faults_of
from compiler.checking.symbols import STANDARD_FILES, STANDARD_FUNCTIONS, STANDARD_PROCEDURES
from compiler.checking.units import APPLESTUFF

PAGE = os.path.join(TOP, "docs", "PASCAL.md")
HEADING = "| Feature | Here | Details, or the message |"
CALLS = "VAR N: INTEGER; BEGIN N := {}(1) END."
# A program for each row that is refused, by the beginning of its first cell.
REFUSED = {
    "`{$IFDEF": ["{$IFDEF X} BEGIN END."],
    "USES of a unit whose": ["USES NAME; BEGIN END."],
    "USES TURTLEGRAPHICS": ["USES TURTLEGRAPHICS; BEGIN END."],
    "EXTERNAL": ["PROCEDURE P; EXTERNAL; BEGIN END."],
    "procedures as": ["PROCEDURE P(PROCEDURE Q); BEGIN END; BEGIN END."],
    "conformant": ["PROCEDURE P(A: ARRAY[M..N: INTEGER] OF CHAR); BEGIN END; BEGIN END."],
    "functions that": ["FUNCTION F: STRING; BEGIN END; BEGIN END."],
    "a file in": ["VAR A: ARRAY[1..2] OF TEXT; BEGIN END.", "VAR F: FILE OF TEXT; BEGIN END.",
                  "VAR R: RECORD F: FILE END; BEGIN END."],
    "OTHERWISE": ["BEGIN CASE 1 OF 1: ; OTHERWISE: END END.", "BEGIN CASE 1 OF 1: ; ELSE END END."],
    "PADDLE": [CALLS.format(it) for it in ("PADDLE", "BUTTON", "TTLOUT")],
    "IDSEARCH": [CALLS.format(it) for it in ("IDSEARCH", "TREESEARCH", "UNITSTATUS", "MEMLOCK",
                                             "MEMSWAP")],
}


def rows():
    with open(PAGE, encoding="utf-8") as page:
        text = page.read()
    lines = text[text.index(HEADING):].split("\n\n")[0].splitlines()[2:]
    return [[cell.strip() for cell in line.strip("|").split("|")] for line in lines]


def try_features():
    found = rows()
    must({row[1] for row in found} <= {"", "done", "differs", "refused"}, "another word there")
    names = set(re.findall(r"\w+", " ".join(row[0] for row in found if row[1] != "refused")))
    for name in [*STANDARD_PROCEDURES, *STANDARD_FUNCTIONS, *STANDARD_FILES, *APPLESTUFF]:
        must(name in names or name == "ARCTAN", f"{name} is not in the table of docs/PASCAL.md")
    refused = [row for row in found if row[1] == "refused"]
    must(len(refused) == len(REFUSED) > 8, f"{len(refused)} rows are refused")
    for feature, texts in REFUSED.items():
        row = [it for it in refused if it[0].startswith(feature)]
        must(len(row) == 1, f"{feature} is not refused in the table")
        for text in texts:
            told = faults_of(f"PROGRAM T;\n{text}")
            must(told and row[0][2] in told[0], f"{text!r} is refused with {told}, and not with "
                 f"{row[0][2]!r}")
    passed(f"the {len(found)} features of the table are as it says")


TESTS = (try_features,)
