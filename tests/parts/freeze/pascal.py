"""Random programs in Pascal that read keys in the middle of what they do, at any depth."""

import collections
import random
import re

from compiler.program import Options, Refused, compile_text

from ..checks import passed
from ..compile.random_programs import random_program
from ..program import must

WRITE = re.compile(r"WRITE(LN)?\(.*\);")
SHOWN = "BEGIN {} READ(KEYBOARD, QQ); WRITE('<', QQ, '>') END;"


def with_reads(text, source):
    """The program with a READ behind most of what it writes. None if it writes too little."""
    lines = [SHOWN.format(it) if WRITE.fullmatch(it) and source.random() < 0.6 else it
             for it in text.splitlines()]
    found = re.search(r"^VAR$", "\n".join(lines), re.M)
    if not found or lines == text.splitlines():
        return None
    text = "\n".join(lines) + "\n"
    return text[:found.end()] + "\nQQ: CHAR;" + text[found.end():]


def compiled(seed):
    """The code file of a random program, and its input. None if it breaks a rule by what is
    known."""
    source, program = random.Random(seed), random_program(seed)
    text = with_reads(program.ucsd, source)
    if text is None:
        return None
    try:
        data = compile_text(text, "t.pas", Options(is_echoed=source.random() < 0.5)).data
    except Refused:
        return None
    begin = bytes(source.randrange(33, 127) for _ in range(source.choice([5, 30, 60])))
    return data, begin + program.given.encode()


def try_pascal(cuts, first, count):
    tally = collections.Counter()
    for seed in range(first, first + count):
        found = compiled(seed)
        if found is None:
            tally["passed over"] += 1
            continue
        data, given = found
        source = random.Random(f"cuts/{seed}")
        places = sorted(source.choices(range(len(given) + 1), k=source.choice([1, 2, 5])))
        try:
            cuts.try_program(data, given, places)
        except AssertionError as why:
            must(False, f"the random program {seed}: {why}")
        tally["compared"] += 1
    told = ", ".join(f"{number} {what}" for what, number in sorted(tally.items()))
    passed(f"random programs in Pascal: {told}")
