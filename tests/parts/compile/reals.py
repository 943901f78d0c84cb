"""REAL against exact arithmetic: operations on bits that are made here, what they come to by
fractions, and what a program makes of them."""

import math
import random
import struct
from fractions import Fraction

from ..checks import passed
from ..program import must
from .judging import Options, compile_text, run

QUIET = Options(is_echoed=False)

PROGRAM = """PROGRAM REALS;
TYPE CELL = RECORD CASE BOOLEAN OF TRUE: (R: REAL); FALSE: (L, H: INTEGER) END;
VAR A, B, C: CELL; K, OP: INTEGER;
PROCEDURE SHOW; BEGIN WRITELN(C.H, ' ', C.L) END;
BEGIN
  READ(OP);
  WHILE OP > 0 DO
    BEGIN
      READ(A.H, A.L, B.H, B.L);
      CASE OP OF
        1: BEGIN C.R := A.R + B.R; SHOW END;
        2: BEGIN C.R := A.R - B.R; SHOW END;
        3: BEGIN C.R := A.R * B.R; SHOW END;
        4: BEGIN C.R := A.R / B.R; SHOW END;
        5: WRITELN(ORD(A.R < B.R), ORD(A.R <= B.R), ORD(A.R = B.R), ORD(A.R <> B.R),
             ORD(A.R >= B.R), ORD(A.R > B.R));
        6: WRITELN(TRUNC(A.R), ' ', ROUND(A.R));
        7: BEGIN C.R := B.H; SHOW END;
        8: BEGIN C.R := SQR(A.R); SHOW END;
        9: BEGIN C.R := -ABS(A.R); SHOW END;
        10: WRITELN(A.R);
        11: WRITELN(A.R:B.H:B.L);
        12: BEGIN READ(C.R); SHOW END;
        13: BEGIN C.R := SQRT(A.R); SHOW END
      END;
      READ(OP)
    END
END.
"""
LEAST = Fraction(1, 2 ** 126)
GREATEST = Fraction(2 ** 128 - 2 ** 104)


class TooGreat(Exception):
    """A number has no REAL."""


def fraction(bits):
    """What the bits of a REAL mean, as any machine of today has it."""
    return Fraction(struct.unpack("<f", struct.pack("<I", bits))[0])


def nearest(number):
    """The bits of the REAL that is nearest to a fraction."""
    size = abs(number)
    if not size:
        return 0
    power = 0
    while size >= 2 ** (power + 1):
        power += 1
    while size < Fraction(2) ** power:
        power -= 1
    unit = Fraction(2) ** (power - 23)
    size = round(size / unit) * unit  # of two that are as near Python takes the even one
    if size > GREATEST:
        raise TooGreat
    if size < LEAST:
        return 0
    bits = struct.unpack("<I", struct.pack("<f", float(size)))[0]
    return bits | 1 << 31 if number < 0 else bits


def words(bits):
    """The second word and the first one, as INTEGERs."""
    return " ".join(str((word + 32768) % 65536 - 32768) for word in (bits >> 16, bits & 65535))


def scientific(number):
    """A fraction as WRITE shows it without a width."""
    size, power = abs(number), 0
    while size and size >= Fraction(10) ** (power + 1):
        power += 1
    while size and size < Fraction(10) ** power:
        power -= 1
    digits = half_up(size / Fraction(10) ** (power - 5))
    if digits == 10 ** 6:
        digits, power = digits // 10, power + 1
    text = f"{digits:06}"
    sign = "-" if number < 0 else " "
    return f"{sign}{text[0]}.{text[1:]}" + (f"E{power}" if power else "")


def half_up(number):
    return int(number + Fraction(1, 2))


def fixed(number, width, places):
    """A fraction as WRITE shows it with a width and places."""
    digits = str(half_up(abs(number) * 10 ** places)).rjust(places + 1, "0")
    point = len(digits) - places
    text = digits[:point] + ("." + digits[point:] if places else "")
    return ("-" * (number < 0) + text).rjust(width)


def some_real(source):
    """The bits of a REAL: of any size, near 1, or a number with few digits."""
    chance = source.random()
    if chance < 0.15:
        return nearest(Fraction(source.randrange(-9999, 10000), source.choice([1, 1, 8, 100])))
    exponent = source.randrange(1, 255) if chance < 0.4 else source.randrange(110, 144)
    mantissa = source.choice([source.randrange(1 << 23), 0, (1 << 23) - 1, 1 << 22,
                              source.randrange(1 << 12) << 11, source.randrange(4)])
    return source.randrange(2) << 31 | exponent << 23 | mantissa


def second(source, first):
    """A REAL that may be near the other one."""
    if source.random() < 0.3 and first:
        near = first ^ source.randrange(2) << 31
        near += source.choice([-1, 0, 1, 2, 1 << 23, -1 << 22, 12 << 23, -24 << 23, 25 << 23])
        if 1 <= near >> 23 & 255 <= 254 and near >> 32 == 0:
            return near
    return some_real(source)


def numeral(source):
    """A text for READ: of it a REAL comes."""
    digits = "".join(source.choice("0123456789") for _ in range(source.choice([1, 2, 7, 9, 17])))
    text = digits
    if source.random() < 0.7:
        text += "." + "".join(source.choice("0123456789") for _ in range(source.choice([1, 3, 9])))
    if source.random() < 0.5:
        text += source.choice("eE") + source.choice(["", "+", "-"]) + str(source.randrange(30))
    return source.choice(["", "", "-", "+"]) + text


def halfway(source):
    """A text that lies halfway between two REALs, or next to that."""
    bits = 127 + source.randrange(-3, 4) << 23 | source.randrange(1 << 23)
    number = fraction(bits) + Fraction(1, 2 ** 24) * Fraction(2) ** ((bits >> 23) - 127)
    digits = str(number.numerator * 10 ** 40 // number.denominator).rjust(41, "0")
    text = f"{digits[:-40]}.{digits[-40:]}".rstrip("0")
    return text + source.choice(["", "1", "0000001"])


def wanted(op, first, other):
    """The line that an operation writes."""
    left, right = fraction(first), fraction(other)
    if op in (1, 2, 3, 4):
        if op == 4 and not right:
            raise TooGreat
        return words(nearest([left + right, left - right, left * right,
                              left / right if right else 0][op - 1]))
    if op == 5:
        return "".join(str(int(it)) for it in (left < right, left <= right, left == right,
                                               left != right, left >= right, left > right))
    if op == 6:
        near = half_up(abs(left)) * (-1 if left < 0 else 1)
        if not (-32768 <= int(left) <= 32767 and -32768 <= near <= 32767):
            raise TooGreat
        return f"{int(left)} {near}"
    if op == 7:
        return words(nearest(Fraction(((other >> 16) + 32768) % 65536 - 32768)))
    if op == 8:
        return words(nearest(left * left))
    if op == 9:
        return words(nearest(-abs(left)))
    return scientific(left)


def root(number):
    """The REAL that is nearest to a square root; none lies halfway."""
    low = 0
    for bit in reversed(range(31)):
        if low | 1 << bit < 255 << 23 and fraction(low | 1 << bit) ** 2 <= number:
            low |= 1 << bit
    middle = (fraction(low) + fraction(low + 1)) / 2
    return low + (middle ** 2 < number)


def operations(source, count):
    """Lines of input, and the lines that are to come of them."""
    given, lines = [], []
    while len(lines) < count:
        op = source.choice([1, 1, 1, 2, 2, 3, 3, 4, 4, 4, 5, 6, 7, 8, 9, 10, 10, 11, 12, 12, 13])
        first = some_real(source)
        other, text = second(source, first), ""
        if op == 6:
            first = nearest(Fraction(source.randrange(-2 ** 18, 2 ** 18), 2 ** source.randrange(9)))
        try:
            if op == 11:
                width, places = source.randrange(20), source.choice([0, 1, 2, 5, 12])
                line, other = fixed(fraction(first), width, places), width << 16 | places
            elif op == 12:
                text = " " + source.choice([numeral, numeral, halfway])(source)
                line = words(nearest(Fraction(text.strip())))
            elif op == 13:
                first &= (1 << 31) - 1
                line = words(root(fraction(first)) if first else 0)
            else:
                line = wanted(op, first, other)
        except TooGreat:
            continue
        given.append(f"{op} {words(first)} {words(other)}{text}\n")
        lines.append(line)
    return "".join(given) + "0\n", lines


def compare(count, seed):
    """So many operations come to what they have to."""
    given, lines = operations(random.Random(seed), count)
    found, ending = run(compile_text(PROGRAM, "reals.pas", QUIET).data, given)
    shown = found.split("\n")
    for asked, line, is_so in zip(given.splitlines(), lines, shown):
        must(line == is_so, f"{asked} comes to {is_so!r}, and not {line!r}")
    must(ending == "" and len(shown) == count + 1, f"{len(shown)} lines and {ending!r}")


FUNCTIONS = {"SIN": math.sin, "COS": math.cos, "ATAN": math.atan, "EXP": math.exp,
             "LN": math.log, "LOG": math.log10}
CALLS = """PROGRAM CALLS;
TYPE CELL = RECORD CASE BOOLEAN OF TRUE: (R: REAL); FALSE: (L, H: INTEGER) END;
VAR A, C: CELL; OP: INTEGER;
BEGIN
  READ(OP);
  WHILE OP >= 0 DO
    BEGIN
      READ(A.H, A.L);
      CASE OP OF
        0: C.R := SIN(A.R); 1: C.R := COS(A.R); 2: C.R := ATAN(A.R);
        3: C.R := EXP(A.R); 4: C.R := LN(A.R); 5: C.R := LOG(A.R)
      END;
      WRITELN(C.H, ' ', C.L, ' ', C.R);
      READ(OP)
    END
END.
"""


def argument(source, name):
    """A REAL for a function: of any size; of angles such that are near a quarter of the circle."""
    if source.random() < 0.2:
        return nearest(Fraction(source.randrange(1, 1000), source.choice([1, 4, 10])))
    if name in ("SIN", "COS") and source.random() < 0.3:
        return nearest(Fraction(source.randrange(1, 100000) * math.pi / 2))
    bits = some_real(source)
    return bits & (1 << 31) - 1 if name in ("LN", "LOG") else bits


def compare_functions(count, seed):
    """So many values of functions are next to what Python has with 53 bits: less than one place of
    the last bit away, and what is shown less than one place of the last digit."""
    source, asked, given = random.Random(seed), [], []
    while len(asked) < count:
        number = source.randrange(len(FUNCTIONS))
        name = list(FUNCTIONS)[number]
        bits = argument(source, name)
        value = float(fraction(bits))
        if name == "EXP" and not -87 < value < 88 or name in ("LN", "LOG") and value <= 0:
            continue
        exact = FUNCTIONS[name](value)
        if abs(exact) >= LEAST:
            asked.append((name, value, exact))
            given.append(f"{number} {words(bits)}\n")
    found, ending = run(compile_text(CALLS, "calls.pas", QUIET).data, "".join(given) + "-1\n")
    lines = found.split("\n")
    must(ending == "" and len(lines) == count + 1, f"{len(lines)} lines and {ending!r}")
    for (name, value, exact), line in zip(asked, lines):
        high, low, shown = line.split()
        bits = (int(high) & 65535) << 16 | int(low) & 65535
        unit = 2.0 ** (math.floor(math.log2(abs(exact))) - 23)
        must(abs(float(fraction(bits)) - exact) < unit, f"{name}({value}) comes to {line}")
        digit = 10.0 ** (math.floor(math.log10(abs(exact))) - 5)
        must(abs(float(shown) - exact) < digit, f"{name}({value}) is shown as {shown}")


def steps_of(statement):
    """The steps of a program with REALs of 24 bits and a statement."""
    text = f"PROGRAM S; VAR X, Y, Z: REAL; BEGIN X := 3.14159; Y := -2.71828; {statement} END."
    data = compile_text(text, "s.pas", QUIET).data
    low, high = 1, 100000
    while low < high:
        middle = (low + high) // 2
        if run(data, "", "--steps", str(middle))[1].startswith("steps"):
            low = middle + 1
        else:
            high = middle
    return low


def try_arithmetic():
    compare(600, 1)
    passed("600 operations with REALs come to what exact arithmetic says")


def try_functions():
    compare_functions(300, 1)
    passed("300 values of SIN, COS, ATAN, EXP, LN and LOG are right to the last digit")


def try_steps():
    """A division takes at most twice the steps of a product."""
    least, product, quotient = steps_of(""), steps_of("Z := X * Y"), steps_of("Z := X / Y")
    is_so = 100 < product - least and quotient - least <= 2 * (product - least)
    must(is_so, f"a product takes {product - least} steps, a division {quotient - least}")
    passed("a division of REALs takes at most twice the steps of a product")


TESTS = (try_arithmetic, try_functions, try_steps)
