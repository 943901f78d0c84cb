"""What `pgroup frozen` prints of frozen files, and what it refuses."""

from freezer.frozen import FOOTER, ROW, frozen_in
from freezer.making import frozen_after

from ..checks import expect, passed
from ..files import bytes_of
from ..program import PROGRAM, must
from . import odd_programs as odd
from .cuts import answered, put
from .examples import path_of

ECHO = bytes_of(path_of("echo"))
KEYS = b"AB"
MOST_COUNTED = 2 ** 64 - 1


def frozen_echo():
    return frozen_after(PROGRAM, put(ECHO), ECHO, KEYS).data


def with_footer(made, **changed):
    """The file with other numbers in its footer."""
    names = ("read", "wrote", "times", "rows", "original", "mark")
    old = dict(zip(names, FOOTER.unpack(made[-FOOTER.size:])))
    return made[:-FOOTER.size] + FOOTER.pack(*{**old, **changed}.values())


def parts_of(made):
    """The front, the rows and the original of a frozen file, and its footer."""
    frozen = frozen_in(made)
    end = len(made) - FOOTER.size
    middle = end - len(frozen.original)
    begin = middle - ROW.size * len(frozen.rows)
    return made[:begin], made[begin:middle], made[middle:end], made[end:]


def with_rows(made, procedure, further):
    """The file whose rows lead to another procedure of the original, so many bytes further."""
    front, rows, original, footer = parts_of(made)
    moved = (ROW.pack(*it[:3], procedure, it[4] + further) for it in ROW.iter_unpack(rows))
    return front + b"".join(moved) + original + footer


def with_another_original(made, other):
    """The file with another original of the same length behind its rows."""
    front, rows, original, footer = parts_of(made)
    must(len(other) == len(original), (len(other), len(original)))
    return front + rows + other + footer


def echo_until(byte):
    """The echo program that ends at another byte than a full stop, which its code has once."""
    front, code = ECHO[:512], ECHO[512:]
    must(code.count(b".") == 1, code.count(b"."))
    return front + code.replace(b".", byte)


def try_refusals():
    """Each refusal, by its code."""
    made = frozen_echo()
    front, rows, original, footer = parts_of(made)
    # Its program writes a prompt before it reads.
    prompts = ECHO + rows + original + footer
    ends = odd.file_of(odd.procedure(1, 0, 2, 3, "exit:\nRBP 0\n"))
    trials = (
        ("a file that was never frozen", ECHO, b"", "Z1"),
        ("37 bytes", made[-37:], b"", "Z1"),
        ("rows that are not there", with_footer(made, rows=2 ** 32 - 1), b"", "Z2"),
        ("a longer original than there is", with_footer(made, original=len(made)), b"", "Z2"),
        ("an original of zeros", with_another_original(made, bytes(len(original))), b"", "Z3 F2"),
        ("a program that is none", bytes(512) + rows + original + footer, b"", "F2"),
        ("a program that writes at first", prompts, b"", "Z4"),
        ("a program that ends at first", ends + rows + original + footer, b"", "Z4"),
        ("an end on the input", made, b"X.", "Z5"),
        ("rows of another procedure", with_rows(made, 2, 0), b"", "Z6"),
        ("rows that lead elsewhere", with_rows(made, 1, 1), b"", "Z7"),
        ("another original", with_another_original(made, echo_until(b",")), b"", "Z7"),
        ("more bytes read than are counted", with_footer(made, read=MOST_COUNTED), b"X", "Z8"),
        ("more bytes written", with_footer(made, wrote=MOST_COUNTED), b"X", "Z8"),
    )
    for what, data, given, code in trials:
        found = answered("frozen", data, given)
        expect(f"frozen refuses {what}: {code}", found == (b"", f"refused {code}\n", 1), found)
    steps = answered("frozen", made, b"", "3")
    expect("frozen prints nothing if its steps are spent", steps == (b"", "steps\n", 4), steps)


def try_later():
    """On more input it prints where the original then stands; numbers go on from the old ones."""
    made = frozen_echo()
    for given in (b"", b"C", b"CD\n\x7f\x7f", bytes(range(65, 91)) * 40):
        found, wanted = answered("frozen", made, given), answered("state", ECHO, KEYS + given)
        must(found == wanted and found[2] == 0, (given, found, wanted))
    most = with_footer(made, read=MOST_COUNTED)
    must(answered("frozen", most, b"")[0].splitlines()[2] == b"read %d" % MOST_COUNTED, "the most")
    passed("frozen prints where the original stands after more keys")


TESTS = (try_refusals, try_later)
