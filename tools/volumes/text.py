"""The text files of a p-System, whose names end with .TEXT.

Behind two blocks of the editor's come pages of two blocks. A page has whole lines, and is filled up
with 0. A line ends with 13; 16 and a byte at its beginning stand for that byte - 32 blanks.
"""

BLOCK = 512
PAGE = 2 * BLOCK
HEADER = PAGE
END_OF_LINE, BLANKS = b"\r", 16
MOST_BLANKS = 255 - 32
# What a page may have in front of its filling: tab, form feed, 13, 16, and what is printed.
SIGNS = frozenset(b"\t\x0c\r\x10") | frozenset(range(32, 256))


def pages(data):
    """The pages, as far as they are filled."""
    for at in range(HEADER, len(data), PAGE):
        yield data[at:at + PAGE].split(b"\0", 1)[0]


def is_text_file(data):
    """Whether bytes are such a file. Its header has a 0, which no plain text has."""
    if len(data) < HEADER + BLOCK or len(data) % BLOCK or 0 not in data[:HEADER]:
        return False
    return END_OF_LINE in next(pages(data)) and all(SIGNS.issuperset(page) for page in pages(data))


def decoded(data):
    """The lines of such a file, each with a 10 at its end."""
    lines = b"".join(pages(data)).split(END_OF_LINE)
    if not lines[-1]:
        lines.pop()
    return b"".join(spread(line) + b"\n" for line in lines)


def spread(line):
    """A line with its blanks."""
    if line[:1] == bytes([BLANKS]) and len(line) > 1:
        return b" " * max(0, line[1] - 32) + line[2:]
    return line


def gathered(line):
    """A line with the blanks at its beginning put into two bytes, as the p-System's editor does."""
    rest = line.lstrip(b" ")
    count = min(len(line) - len(rest), MOST_BLANKS)
    return bytes([BLANKS, 32 + count]) + line[count:] if count else line


def encoded(text):
    """A text, of which each line ends with 10 or 13, as such a file. None if a line is too long for
    a page, or has a 0."""
    whole, page = bytes(HEADER), b""
    for line in text.replace(b"\r\n", b"\n").replace(b"\r", b"\n").splitlines():
        line = gathered(line) + END_OF_LINE
        if len(line) >= PAGE or 0 in line:
            return None
        if len(page) + len(line) >= PAGE:  # a 0 at least is behind the lines
            whole, page = whole + page.ljust(PAGE, b"\0"), b""
        page += line
    return whole + page.ljust(PAGE, b"\0")
