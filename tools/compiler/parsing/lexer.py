"""From text to tokens. Comments go, but for the compiler options in them."""

from __future__ import annotations

import os

from pcode.faults import Fault
from pcode.fields import Fields

from ..faults import Place
from .texts import included_path, read_text

# Of a word the first eight characters count.
KEYWORDS = {word[:8] for word in (
    "AND ARRAY BEGIN CASE CONST DIV DO DOWNTO ELSE END EXTERNAL FILE FOR FORWARD FUNCTION GOTO IF "
    "IMPLEMENTATION IN INTERFACE LABEL MOD NOT OF OR PACKED PROCEDURE PROGRAM RECORD REPEAT "
    "SEGMENT SET THEN TO TYPE UNIT UNTIL USES VAR WHILE WITH").split()}
END = "the end of the text"
BAD = "what is no token"
BLANKS = frozenset(" \t\f\n")
DIGITS = frozenset("0123456789")
LETTERS = frozenset("ABCDEFGHIJKLMNOPQRSTUVWXYZabcdefghijklmnopqrstuvwxyz")
OF_NAMES = LETTERS | DIGITS | {"_"}
SIGNS = frozenset("+-*/=<>()[],;:.^")
PAIRS = frozenset([":=", "<>", "<=", ">=", "..", "(.", ".)"])
NOTHING = "\0"  # stands behind the text, so that no look ahead has to ask for its end
BRACKETS = {"(.": "[", ".)": "]"}
MOST_DIGITS = 36  # of a long integer
MOST_INCLUDED = 20
MOST_TEXT = 255

# Options that change nothing in what a program does here, so that a note is enough.
IDLE = {"C": "a comment of the code file", "D": "of the debugger", "F": "of the compiler's files",
        "G": "GOTO is always there", "L": "a listing: --list makes one", "N": "native code",
        "P": "pages of a listing", "Q": "what the compiler shows", "S": "how it is loaded",
        "T": "of the compiler's tables", "U": "the user's programs", "V": "lengths of VAR strings"}

# Options of other Pascals. $IFDEF would be $I with the name FDEF.
CONDITIONS = frozenset("IFDEF IFNDEF IFOPT IF ELSE ELSEIF ENDIF IFEND DEFINE UNDEF".split())


class Token:
    """`kind` is name, number, long, real, text, or the keyword or symbol itself."""

    __slots__ = ("kind", "written", "value", "place")

    def __init__(self, kind, written, value, place):
        self.kind, self.written, self.value, self.place = kind, written, value, place

    def __str__(self):
        return self.written


def fold(word: str) -> str:
    """What counts of an identifier."""
    return word.upper().replace("_", "")[:8]


def first_word(text):
    """The letters, digits and _ that a text begins with."""
    end = 0
    while end < len(text) and (text[end].isalnum() or text[end] == "_"):
        end += 1
    return text[:end]


class Remark(Fields):
    """What the lexer says of a text: a fault, or a note. `at` is the number of tokens before it."""

    at: int
    what: object
    place: Place


class Lexer:
    """Takes the tokens of a text, and of the files that it includes. What stands behind the last
    END. of a program is no part of it, so the remarks wait until it is known where that is."""

    def __init__(self, text, file, around=None, line=1):
        self.text, self.size, self.file = text + NOTHING, len(text), file
        self.depth = around.depth + 1 if around else 0
        self.tokens: list[Token] = around.tokens if around else []
        self.remarks: list[Remark] = around.remarks if around else []
        self.options = around.options if around else {"R": True, "I": True}
        self.has_condition = False  # whether an option of a condition has been told
        self.at, self.line, self.start = 0, line, 0  # the offset, its line, the offset of the line

    def place(self):
        return Place(self.file, self.line, self.at - self.start + 1, self.options["R"],
                     self.options["I"])

    def put(self, kind, end, value=None):
        """Takes a token that stands from here to an offset of the same line."""
        self.tokens.append(Token(kind, self.text[self.at:end], value, self.place()))
        self.at = end

    def move(self, end):
        """Goes on at an offset, and counts the lines that lie between."""
        lines = self.text.count("\n", self.at, end)
        if lines:
            self.line += lines
            self.start = self.text.rindex("\n", self.at, end) + 1
        self.at = end

    def behind(self, some, at):
        """The first offset from `at` on whose character is none of some."""
        text = self.text
        while text[at] in some:
            at += 1
        return at

    def all(self) -> list[Token]:
        while self.at < self.size:
            first = self.text[self.at]
            try:
                if first in BLANKS:
                    self.move(self.behind(BLANKS, self.at))
                elif first in LETTERS:
                    self.name()
                elif first in SIGNS:
                    self.sign(first)
                elif first in DIGITS:
                    self.number()
                elif first == "{":
                    self.comment(first)
                elif first == "'":
                    self.quoted()
                else:
                    self.refuse_character(first)
            except Fault as fault:
                self.remark(fault, fault.place)
        if not self.depth:
            self.tokens.append(Token(END, END, None, self.place()))
        return self.tokens

    def remark(self, what, place):
        self.remarks.append(Remark(len(self.tokens), what, place))

    def refuse_character(self, character):
        place = self.place()
        second = self.text.find('"', self.at + 1, self.line_end())
        if character == '"' and second > 0:
            self.put("text", second + 1, self.text[self.at + 1:second])
            raise Fault("a text stands between ' and ', and not between double quotes", place)
        self.move(self.at + 1)
        self.put(BAD, self.at)
        shown = character if " " < character < "\x7f" else f"number {ord(character)}"
        raise Fault(f"the character {shown} is no part of Pascal", place)

    def line_end(self):
        """The offset of the end of this line."""
        end = self.text.find("\n", self.at)
        return self.size if end < 0 else end

    def name(self):
        end = self.behind(OF_NAMES, self.at)
        name = fold(self.text[self.at:end])
        self.put(name if name in KEYWORDS else "name", end, name)

    def sign(self, first):
        two = self.text[self.at:self.at + 2]
        if two == "(*":
            self.comment(two)
        elif two in PAIRS:
            self.put(BRACKETS.get(two, two), self.at + 2)
        else:
            self.put(first, self.at + 1)

    def number(self):
        end = self.behind(DIGITS, self.at)
        real_end = self.behind_real(end)
        if real_end > end:
            self.put("real", real_end, self.text[self.at:real_end])
            return
        digits, place = self.text[self.at:end].lstrip("0") or "0", self.place()
        if len(digits) > MOST_DIGITS:
            self.put("long", end, 0)
            raise Fault(f"a number has at most {MOST_DIGITS} digits", place)
        self.put("long" if int(digits) > 32768 else "number", end, int(digits))

    def behind_real(self, end):
        """Where a REAL ends of which the digits before the point end at an offset: that offset, if
        neither a point with digits nor an exponent follows."""
        text = self.text
        if text[end] == "." and text[end + 1] in DIGITS:
            end = self.behind(DIGITS, end + 1)
        if text[end] in ("e", "E"):
            at = end + 2 if text[end + 1] in ("+", "-") else end + 1
            end = self.behind(DIGITS, at) if text[at] in DIGITS else end
        return end

    def quoted(self):
        """A text in quotes."""
        place, end = self.place(), self.behind_quoted()
        if not end:
            self.move(self.line_end())
            self.put(BAD, self.at)
            raise Fault("this text has no second quote on its line", place)
        if end - self.at > MOST_TEXT + 2:
            self.at = end
            raise Fault(f"a text has at most {MOST_TEXT} characters", place)
        self.put("text", end, self.text[self.at + 1:end - 1].replace("''", "'"))

    def behind_quoted(self):
        """Where a text in quotes ends, in which two quotes stand for one. If its line has no quote
        alone, the text ends with the last one that is not the second of two; None without any."""
        end, line_end = None, self.line_end()
        quote = self.text.find("'", self.at + 1, line_end)
        while quote >= 0:
            end = quote + 1
            if self.text[end] != "'":
                break
            quote = self.text.find("'", end + 1, line_end)
        return end

    def comment(self, opening):
        place, closing = self.place(), "}" if opening == "{" else "*)"
        begin = self.at + len(opening)
        end = self.text.find(closing, begin)
        body = self.text[begin:end]
        self.move(self.size if end < 0 else end + len(closing))
        if end < 0:
            self.put(BAD, self.at)
            raise Fault(f"this comment has no {closing}", place)
        if body.startswith("$"):
            self.options_of(body[1:], place)

    def options_of(self, text, place):
        """`R+,I-` sets options; `I NAME` includes a file."""
        if first_word(text).upper() in CONDITIONS:
            self.refuse_condition(text, place)
            return
        included = text[1:].strip() if text[:1] in ("I", "i") else ""
        if included and included[0] not in "+-":
            self.include(included, place)
            return
        for word in text.split(","):
            letter, sign = word.strip()[:1].upper(), word.strip()[1:2]
            if letter in self.options and sign in ("+", "-"):
                self.options[letter] = sign == "+"
            elif letter in IDLE:
                self.remark(f"the option {letter} is not there ({IDLE[letter]}); it is passed over",
                            place)
            else:
                raise Fault(f"there is no option {word.strip()[:12]}: R, I and I NAME are there",
                            place)

    def refuse_condition(self, text, place):
        """Refuses {$IFDEF NAME} and the like, of which the first is told."""
        if not self.has_condition:
            self.has_condition = True
            raise Fault(f"nothing is compiled by condition, so that {{${text.strip()[:24]}}} is no "
                        "option: leave it out, with what is not to be compiled", place)

    def include(self, name, place):
        if ":" in name or name.startswith("*"):
            raise Fault(f"{name[:24]} is a file of a p-System's volume: put it beside this one, "
                        "and name it without a volume", place)
        if self.depth == MOST_INCLUDED:
            raise Fault(f"more than {MOST_INCLUDED} files include one another", place)
        if "\0" in name:
            raise Fault("the name of a file has no character 0", place)
        path = included_path(os.path.join(os.path.dirname(self.file), name), place)
        Lexer(read_text(path, place), path, self).all()
