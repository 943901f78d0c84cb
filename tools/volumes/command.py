"""The command line of tools/volume."""

import argparse
import fnmatch
import os
import re
import sys

from pcode.faults import Fault
from pcode.files import drop_output, read_whole, write_whole
from pcode.words import Parser

from . import directory
from .image import DISK, in_sectors, volume_of
from .text import decoded, encoded, is_text_file

ABOUT = """Lists a p-System's volume in the image of a disk. It writes the files of the volume out,
or makes a volume of files."""
EXAMPLES = """examples:
  volume old.dsk                       lists the files of the volume
  volume old.dsk --get                 writes all of them into this folder
  volume old.dsk --get "*.TEXT" --to src    those of these names, into the folder src
  volume old.dsk --get SYSTEM.PASCAL --raw  the bytes as they are
  volume new.po --put game.pas INV.DATA     makes a volume, of GAME.TEXT and INV.DATA

The image has its blocks in order (.po, .vol), or is one of 140 KB in the order of DOS 3.3 (.dsk);
its words have their low or their high byte first; and it may have the volume further on, as the
image of a larger disk has. A text file becomes a plain text: its lines, with their blanks. No file
is written over, and none outside the folder: signs of a name that may not be in a file's become _.
--put takes .pas, .txt and .text for texts, .code for code, and all else for data.

Status 0: done. 1: an image, its directory or a file has a fault, which is told; what has none is
listed, or written. 2: other words than these, or an older Python."""
TEXT_ENDS = (".PAS", ".TXT", ".TEXT")
NO_NAME = re.compile(r"[^A-Za-z0-9._+$-]")


def count_of(least, most):
    def number(text):
        if not (text.isascii() and text.isdigit() and least <= int(text[:9]) <= most):
            raise argparse.ArgumentTypeError(f"a number from {least} to {most} is wanted")
        return int(text)
    return number


def words_parser():
    parser = Parser(
        prog="volume", description=ABOUT, epilog=EXAMPLES, allow_abbrev=False,
        formatter_class=argparse.RawDescriptionHelpFormatter)
    parser.add_argument("image", metavar="IMAGE", help="the image of a disk")
    modes = parser.add_mutually_exclusive_group()
    modes.add_argument("--get", metavar="NAME", nargs="*",
                       help="writes these files out, or all; * stands for any characters")
    modes.add_argument("--put", metavar="FILE", nargs="+",
                       help="makes the image, with a volume of these files")
    parser.add_argument("--to", metavar="FOLDER", default=".", help="where --get writes files")
    parser.add_argument("--raw", action="store_true", help="--get changes no text file")
    parser.add_argument("--at", metavar="BLOCK", type=count_of(0, 999999999),
                        help="the block at which the volume begins")
    parser.add_argument("--name", metavar="VOLUME", default="PGROUP",
                        help="the name of a volume that --put makes; PGROUP without")
    parser.add_argument("--blocks", metavar="COUNT", type=count_of(8, 32767), default=280,
                        help="how many blocks of 512 bytes --put makes; 280 without")
    parser.add_argument("--dos", action="store_true", help="--put makes the order of DOS 3.3")
    return parser


def tell(text, file):
    print(f"{file}: {text}", file=sys.stderr)


def show(found):
    """Lists a directory."""
    print(f"{found.name}:")
    for file in found.files:
        print(f"{file.name:<15} {file.last - file.first:>5} blocks at {file.first:>5}  "
              f"{file.kind_name():<9} {file.day()}")
    used = sum(file.last - file.first for file in found.files)
    print(f"{len(found.files)} files with {used} of {found.blocks} blocks")


def chosen(found, names, image):
    """The files that are named, and whether each name means one."""
    if not names:
        return found.files, True
    wanted = [name.upper() for name in names]
    files = [file for file in found.files
             if any(fnmatch.fnmatchcase(file.name.upper(), name) for name in wanted)]
    lost = [name for name in wanted
            if not any(fnmatch.fnmatchcase(file.name.upper(), name) for file in files)]
    for name in lost:
        tell(f"it has no file {name}", image)
    return files, not lost


def write_out(file, volume, folder, is_raw):
    """Writes a file of the volume into a folder, where none of that name may be."""
    data = file.bytes_in(volume)
    if file.kind == directory.TEXT and not is_raw and is_text_file(data):
        data = decoded(data)
    name = NO_NAME.sub("_", file.name)
    path = os.path.join(folder, name if name.strip(".") else name.replace(".", "_"))
    try:
        with open(path, "xb") as stream:
            stream.write(data)
    except OSError as fault:
        raise Fault(f"it cannot be written: {fault.strerror}", path) from None


def get(found, volume, words):
    """Writes files out; answers whether all could be."""
    files, is_right = chosen(found, words.get, words.image)
    for file in files:
        try:
            write_out(file, volume, words.to, words.raw)
        except Fault as fault:
            tell(fault, fault.place)
            is_right = False
    return is_right


def entry_of(path):
    """The name, the kind and the bytes of a file in a volume."""
    data, (stem, end) = read_whole(path), os.path.splitext(os.path.basename(path).upper())
    kind = directory.CODE if end == ".CODE" else directory.DATA
    if end in TEXT_ENDS:
        end, kind = ".TEXT", directory.TEXT
        data = data if is_text_file(data) else encoded(data)
        if data is None:
            raise Fault("it is no text: it has a 0, or a line of more than 1,000 characters", path)
    name = stem + end
    if len(name) > directory.MOST_NAME or NO_NAME.search(name):
        raise Fault(f"{name} is no name in a volume: it has 1 to {directory.MOST_NAME} letters, "
                    "digits and . _ + $ -", path)
    return name, kind, data


def put(words):
    """Makes an image."""
    name = words.name.upper()
    if not re.fullmatch(r"[A-Z0-9.]{1,7}", name):
        raise Fault(f"{name} is no name of a volume: it has 1 to 7 letters and digits", words.image)
    if os.path.lexists(words.image):
        raise Fault("it is there already: --put makes a new one", words.image)
    if words.dos and words.blocks * directory.BLOCK != DISK:
        raise Fault("the order of DOS 3.3 is one of 280 blocks", words.image)
    contents = [entry_of(path) for path in words.put]
    titles = [title for title, _, _ in contents]
    twice = [title for title in titles if titles.count(title) > 1]
    if twice:
        raise Fault(f"two files would have the name {twice[0]}", words.image)
    volume = directory.make(name, words.blocks, contents)
    if volume is None:
        raise Fault(f"the files do not fit {words.blocks} blocks: --blocks makes more", words.image)
    write_whole(words.image, in_sectors(volume) if words.dos else volume)
    return True


def do(words):
    """Does what the words say; answers whether nothing was wrong."""
    if words.put:
        return put(words)
    volume, order = volume_of(read_whole(words.image), words.at, words.image)
    found = directory.read(volume, order)
    for damage in found.damages:
        tell(damage, words.image)
    if words.get is None:
        show(found)
        return not found.damages
    return get(found, volume, words) and not found.damages


def main(arguments):
    """Runs the command, and answers its status."""
    words = words_parser().parse_args(arguments)
    try:
        is_right = do(words)
        sys.stdout.flush()
        return 0 if is_right else 1
    except Fault as fault:
        tell(fault, fault.place or words.image)
    except BrokenPipeError:  # whoever reads the lines has enough
        drop_output()
    return 1
