"""Adapts programs of Free Pascal mechanically to what UCSD Pascal has, for tests/borrowed."""

import re

TYPES = {name: kind for kind, names in (
    ("INTEGER", "LONGINT BYTE WORD SHORTINT SMALLINT CARDINAL INT64 DWORD QWORD LONGWORD COMP "
     "NATIVEINT NATIVEUINT PTRINT PTRUINT SIZEINT SIZEUINT INT8 UINT8 INT16 UINT16 INT32 UINT32 "
     "UINT64"),
    ("REAL", "SINGLE DOUBLE EXTENDED CURRENCY VALREAL"), ("CHAR", "ANSICHAR WIDECHAR"),
    ("STRING", "SHORTSTRING ANSISTRING WIDESTRING UNICODESTRING RAWBYTESTRING UTF8STRING"),
    ("BOOLEAN", "BYTEBOOL WORDBOOL LONGBOOL BOOLEAN8 BOOLEAN16 BOOLEAN32 BOOLEAN64"),
    ("PACKED", "BITPACKED")) for name in names.split()}
# What a unit of those tests has that many of them use.
ERRORS = ("PROCEDURE ERROR; BEGIN WRITELN('ERROR'); HALT END;\n"
          "PROCEDURE DOERROR(N: INTEGER); BEGIN WRITELN('ERROR ', N); HALT END;\n")
# A text in quotes, an option, a comment or a word.
WORD = re.compile(r"'(?:[^'\n]|'')*'|\{[^}]*\}|\(\*.*?\*\)|//[^\n]*|\w+", re.S)
CONDITION = re.compile(r"\{\$\s*(IFDEF|IFNDEF|IFOPT|IF|ELSE|ENDIF|IFEND|DEFINE|UNDEF)\b\s*(\w*)"
                       r"[^}]*\}", re.I)
SUM = re.compile(r"\b(INC|DEC)\s*\(\s*([\w.\[\]^]+)\s*(?:,\s*([^()\n]+?))?\s*\)", re.I)
HALT = re.compile(r"\bHALT\s*\(\s*([^()\n]+?)\s*\)", re.I)
HEADING = re.compile(r"\b(PROCEDURE|FUNCTION)\s+\w+\s*\(([^()]*)\)", re.I)
DIRECTIVE = re.compile(r";\s*(INLINE|OVERLOAD|REGISTER|CDECL|STDCALL|PASCAL|NEAR|FAR|LOCAL)\s*;",
                       re.I)
RANGE = r"(?:\d+|'[^'\n]')(?:\s*\.\.\s*(?:\d+|'[^'\n]'))?"
CASES = re.compile(rf"(?<![\w.\[,(])({RANGE}(?:\s*,\s*{RANGE})*)(?=\s*:[^=])")
ROUTINE = re.compile(r"\b(PROCEDURE|FUNCTION|OPERATOR)\b", re.I)
SECTION = re.compile(r"\b(CONST|VAR|TYPE|LABEL|BEGIN|PROCEDURE|FUNCTION|OPERATOR)\b", re.I)
VALUED = re.compile(r"(?:^|(?<=;))(\s*)(\w+)\s*:\s*([^;=()]+?)\s*=\s*([^;()]+?)\s*(?=;)")
BLOCKS = re.compile(r"\b(BEGIN|CASE|RECORD|OBJECT|CLASS|ASM|TRY|END)\b", re.I)
MOST_VALUES = 100  # of a range in a CASE


def chosen(text):
    """What is left of options for conditions, where FPC alone is defined."""
    out, names, at, taken = [], {"FPC"}, 0, [True]
    for found in CONDITION.finditer(text):
        if all(taken):
            out.append(text[at:found.start()])
        at, kind, name = found.end(), found[1].upper(), found[2].upper()
        if kind in ("IFDEF", "IFNDEF"):
            taken.append((name in names) == (kind == "IFDEF"))
        elif kind in ("IF", "IFOPT"):
            taken.append(False)
        elif kind == "ELSE" and len(taken) > 1:
            taken[-1] = not taken[-1]
        elif kind in ("ENDIF", "IFEND") and len(taken) > 1:
            taken.pop()
        elif kind == "DEFINE" and all(taken):
            names.add(name)
        elif kind == "UNDEF" and all(taken):
            names.discard(name)
    return "".join(out) + text[at:]


def word(found):
    it = found[0]
    if it.startswith(("{", "(*", "//")):
        return " "
    return TYPES.get(it.upper(), it)


def outside_texts(change, text):
    """Changes what stands between texts in quotes, with the quotes around it."""
    parts = re.split(r"('(?:[^'\n]|'')*')", text)
    return "".join(it if k % 2 else change(f"'{it}'")[1:-1] for k, it in enumerate(parts))


def plain(text):
    """Numbers and characters as UCSD Pascal writes them, and no word of other dialects."""
    text = re.sub(r"\$([0-9A-F]+)\b", lambda it: str(int(it[1], 16)), text, flags=re.I)
    text = re.sub(r"(?<![\w'#])#(\d+)(?![\w'#])", r"CHR(\1)", text)
    text = re.sub(r"(?<=[-+*/=<>(,\[\s])INTEGER\s*\(", "ORD(", text, flags=re.I)
    text = re.sub(r"(?<=[-+*/=<>(,\[\s])CHAR\s*\(", "CHR(", text, flags=re.I)
    text = re.sub(r"\b_+(?=[A-Z0-9])", "U", re.sub(r"\(\s*\)", "", text), flags=re.I)
    text = re.sub(r"\bSH([LR])\s+(\d)\b", lambda it: f"{'*' if it[1] in 'Ll' else 'DIV'} "
                  f"{2 ** int(it[2])}", text, flags=re.I)
    text = re.sub(r"\bDO_ERROR\b", "DOERROR", text, flags=re.I)
    return re.sub(r"\bUSES\b([^;]*);", lambda it: ERRORS if "ERRORU" in it[1].upper() else " ",
                  text, flags=re.I)


def heading(found):
    """A heading whose parameters are given by value in place of CONST."""
    start = found.start(2) - found.start()
    inner = re.sub(r"(^|;)(\s*)CONST\s+(\w+(\s*,\s*\w+)*\s*:)", r"\1\2\3", found[2], flags=re.I)
    return found[0][:start] + inner + ")"


def value_of(text):
    return ord(text[1]) if text[0] == "'" else int(text)


def cases(found):
    """Constants of a CASE with each value of its ranges."""
    out = []
    for item in re.findall(RANGE, found[1]):
        low, _, high = (it.strip() for it in item.partition(".."))
        if not high:
            out.append(low)
            continue
        values = range(value_of(low), value_of(high) + 1)
        if len(values) > MOST_VALUES:
            return found[0]
        out += [f"'{chr(it)}'" if low[0] == "'" and it != 39 else str(it) for it in values]
    return ", ".join(out) or found[0]


def with_values(text):
    """Variables and constants of a type that begin with a value get it when the program begins.
    Those of procedures stay, and are refused."""
    first = ROUTINE.search(text)
    main = main_begin(text)
    if main is None:
        return text
    end = min(first.start() if first else main, main)
    marks = [it for it in SECTION.finditer(text) if it.start() < end]
    out, at, given = [], 0, []
    for mark, behind in zip(marks, marks[1:] + [None]):
        if mark[1].upper() not in ("CONST", "VAR"):
            continue
        stop = behind.start() if behind else end
        body = text[mark.end():stop]
        moved = []

        def without(it, is_const=mark[1].upper() == "CONST", moved=moved):
            given.append(f"{it[2]} := {it[4]};")
            if not is_const:
                return f"{it[1]}{it[2]}: {it[3]}"
            moved.append(f"{it[2]}: {it[3]};")
            return it[1]

        body = VALUED.sub(without, body)
        body = re.sub(r"(^|;)(\s*;)+", r"\1", body)
        is_empty = not body.strip(" \t\n;")
        out += [text[at:mark.start()], " " if is_empty else mark[1] + body]
        if moved:
            out.append(" VAR " + " ".join(moved) + "\n")
        at = stop
    out += [text[at:main], "BEGIN ", " ".join(given)]
    return "".join(out) + text[main + len("BEGIN"):] if given else text


def main_begin(text):
    """Where the BEGIN of the program stands."""
    depth = 0
    for found in reversed(list(BLOCKS.finditer(text))):
        depth += 1 if found[1].upper() == "END" else -1
        if depth == 0 and found[1].upper() == "BEGIN":
            return found.start()
    return None


def adapted(text):
    """A program of Free Pascal's in what UCSD Pascal has."""
    text = WORD.sub(word, chosen(text.replace("\xef\xbb\xbf", "")))
    text = SUM.sub(lambda it: f"{it[2]} := {it[2]} {'+' if it[1].upper() == 'INC' else '-'} "
                   f"{it[3] or '1'}", text)
    text = HALT.sub(r"BEGIN WRITELN(\1); HALT END", text)
    text = HEADING.sub(heading, outside_texts(plain, text))
    text = CASES.sub(cases, DIRECTIVE.sub(";", DIRECTIVE.sub(";", text)))
    text = with_values(text)
    if not re.match(r"\s*PROGRAM\b", text, re.I):
        text = "PROGRAM BORROWED;\n" + text
    return text
