"""The files that texts are read from."""

import os

from pcode.faults import Fault
from volumes.text import BLOCK, decoded, is_text_file

BYTE_ORDER_MARK = b"\xef\xbb\xbf"  # which some editors put in front of a text
CONTROL_Z = b"\x1a"  # which ends a text of CP/M
# A code file begins with a block that says of each of 16 segments in two words where it is and how
# long, and then has their names, of 8 characters.
SEGMENTS, NAME = 16, 8


def read_text(file, place=None) -> str:
    """The text of a file, a character for each byte, with \n at the end of each line."""
    try:
        with open(file, "rb") as stream:
            data = stream.read()
    except OSError as fault:
        what = file if place else "it"
        raise Fault(f"{what} cannot be read: {fault.strerror}", place or file) from None
    if is_text_file(data):
        data = decoded(data)
    elif is_code_file(data):
        what = f"{file} is" if place else "this is"
        raise Fault(f"{what} a code file, and no text: give the text that it was made of",
                    place or file)
    elif 0 in data[:BLOCK].rstrip(b"\0") and file.upper().endswith(".TEXT"):
        what = f"{file} is" if place else "this is"
        raise Fault(f"{what} a p-System's text file that is damaged: behind its first 1,024 bytes "
                    "come no lines", place or file)
    if data.startswith(BYTE_ORDER_MARK):
        data = data[len(BYTE_ORDER_MARK):]
    text = data.split(CONTROL_Z, 1)[0].rstrip(b"\0").decode("latin-1")
    return text.replace("\r\n", "\n").replace("\r", "\n")


def is_code_file(data):
    """Whether bytes begin as a code file does, with its low or its high byte first."""
    names = data[4 * SEGMENTS:4 * SEGMENTS + NAME * SEGMENTS]
    if len(data) < 2 * BLOCK or not all(byte == 0 or 32 <= byte < 127 for byte in names):
        return False
    return any(is_directory(data, order) for order in ("little", "big"))


def is_directory(data, order):
    """Whether the words of a code file's first block name segments that lie in it."""
    words = [int.from_bytes(data[at:at + 2], order) for at in range(0, 4 * SEGMENTS, 2)]
    segments = [(at, length) for at, length in zip(words[::2], words[1::2]) if length]
    return bool(segments) and all(at > 0 and at * BLOCK + length <= len(data)
                                  for at, length in segments)


def included_path(path, place):
    """The file that {$I NAME} means: this one, or one that differs in capitals or by .TEXT."""
    if os.path.isfile(path):
        return path
    folder, name = os.path.split(path)
    name = name.upper()
    try:
        names = sorted(os.listdir(folder or "."))
    except OSError:
        return path
    other = name[:-5] if name.endswith(".TEXT") else name + ".TEXT"
    for wanted in (name, other):
        found = [it for it in names if it.upper() == wanted]
        if len(found) > 1:
            raise Fault(f"{name} may be {found[0]} or {found[1]}: write it as the file is named",
                        place)
        if found:
            return os.path.join(folder, found[0])
    return path
