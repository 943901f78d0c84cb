"""Programs at the limits of the compiler and of the machine, and beyond them."""

DEPTH = 30


def program(declarations, statements):
    return f"PROGRAM T;\n{declarations}\nBEGIN\n{statements}\nEND.\n"


def nested_procedures(count):
    """Procedures within procedures, of which the innermost adds up a variable of each."""
    heads = "".join(f"PROCEDURE P{k}; VAR V{k}: INTEGER;\n" for k in range(count))
    total = " + ".join(f"V{k}" for k in range(count))
    bodies = "".join(
        f"BEGIN V{k} := {k}; {f'P{k + 1}' if k + 1 < count else f'WRITE({total})'} END;\n"
        for k in reversed(range(count)))
    return program(heads + bodies, "P0")


def procedures(count):
    """So many procedures, the program among them, of which each adds 1."""
    some = "".join(f"PROCEDURE P{k}; BEGIN N := N + 1 END;\n" for k in range(count - 1))
    return program("VAR N: INTEGER; C: CHAR;\n" + some,
                   "N := 64;\n" + "".join(f"P{k};\n" for k in range(count - 1))
                   + "C := CHR(N); UNITWRITE(1, C, 1)")


def far_jumps(count):
    """Loops behind one another, each of which jumps back, in one that holds them all."""
    loops = "".join(f"  I := 0; REPEAT I := I + 1; IF ODD(I) THEN N := N + {k} UNTIL I = 3;\n"
                    for k in range(count))
    return program("VAR I, J, N: INTEGER;",
                   f"N := 0;\nFOR J := 1 TO 2 DO\n BEGIN\n{loops} END;\nWRITE(N)")


def accepted():
    """Each with a name, an input and what it prints."""
    yield "nested procedures", nested_procedures(20), "", str(sum(range(20)))
    yield "255 procedures", procedures(255), "", chr((64 + 254) % 256)
    for count in (30, 70, 300):
        # Each adds its number twice, for 1 and 3, and all run twice.
        yield f"{count} loops", far_jumps(count), "", str(wrapped(4 * sum(range(count))))
    words = 16383 - 2
    yield "all words", program(f"VAR A: ARRAY[1..{words}] OF CHAR;",
                               f"A[{words}] := 'X'; UNITWRITE(1, A[{words}], 1)"), "", "X"
    chain = "\nELSE ".join(f"IF N = {k} THEN WRITE({k})" for k in range(200))
    yield "a chain of IFs", program("VAR N: INTEGER;", f"N := 199; {chain}"), "", "199"
    inner = "(" * DEPTH + "1" + ")" * DEPTH
    yield "parentheses", program("", f"WRITE({inner})"), "", "1"
    total = " + ".join(["1"] * 400)
    yield "a long sum", program("VAR N: INTEGER;", f"N := 0; WRITE(N + {total})"), "", "400"
    cases = "".join(f"{k}: WRITE('{k}');\n" for k in range(0, 1000, 2))
    yield "a long CASE", program("VAR N: INTEGER;", f"N := 998; CASE N OF\n{cases} END"), "", "998"


def wrapped(value):
    """A number of 16 bits."""
    return (value + 32768) % 65536 - 32768


def refused():
    """Each with a name and a part of what is said."""
    yield "256 procedures", procedures(256), "at most 255 procedures"
    yield "deep parentheses", program("", f"WRITE({'(' * 5000}1{')' * 5000})"), "nested too deeply"
    yield "deep statements", program("", "BEGIN " * 5000 + "END " * 5000), "nested too deeply"
    yield "deep procedures", nested_procedures(300), "nested too deeply"
    yield "a very long sum", program("", f"WRITE({' + '.join(['1'] * 5000)})"), "operators in a row"
    yield "many IFs", program("", "\nELSE ".join(["IF TRUE THEN"] * 5000)), "too many IFs"
    yield "one word too many", program("VAR A: ARRAY[1..16382] OF CHAR;", ""), "16383 words"
    yield "no room for the heap", program("VAR A: ARRAY[1..13000] OF CHAR; P: ^CHAR;", "NEW(P)"), (
        "leave no room for 4000 words of the library (for NEW it takes as many as --heap says)")
    yield "too much code", program("VAR N: INTEGER;", "N := N * 300 + 400;\n" * 9000), "65534 bytes"
