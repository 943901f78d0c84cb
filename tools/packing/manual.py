"""Man pages, made from the help texts: of the program's commands from what they print, and of the
scripts from their own text and the words that they take. So a page says nothing that help does not.
docs/man has them, and tools/check-docs refuses a page that is another one."""

import argparse
import importlib
import importlib.machinery
import importlib.util
import os
import re
import subprocess
import sys
import textwrap

TOP = os.path.join(os.path.dirname(os.path.realpath(__file__)), "..", "..")
TOOLS = os.path.join(TOP, "tools")
GROUP = os.path.join(TOOLS, "group")
# The commands of the program that have a page, beside the one of all.
COMMANDS = ("check", "list", "run", "state", "frozen", "show", "sim", "net", "node")
SCRIPTS = ("attach", "demo", "draw", "lead", "page", "renew", "replay", "status", "supervise")
# Pages that belong together name each other.
FAMILIES = (
    ("", *COMMANDS), ("node", *SCRIPTS),
    ("run", "console", "compile", "assemble", "translate", "volume", "files", "freeze"),
    ("node", "supervise", "renew", "freeze"),
)
# The columns of a page, by how many its text is indented, and from where on an indented line goes
# on in the second column of the one before.
COLUMNS, INDENT, FAR = 80, 7, 20


class Caught(Exception):
    """A script has made its parser of words, which is the argument."""


def escaped(line):
    """A line of text as roff has it."""
    line = line.replace("\\", "\\e").replace("-", "\\-")
    return f"\\&{line}" if line[:1] in (".", "'") else line


def columns_in(lines):
    """Pairs of the texts in two columns, or None where these lines have no such columns."""
    pairs = []
    for line in lines:
        found = re.fullmatch(r" {1,4}(\S.*?) {2,}(\S.*)", line)
        if found:
            pairs.append((found[1], found[2]))
        elif pairs and line.startswith(" " * FAR):
            pairs[-1] = pairs[-1][0], f"{pairs[-1][1]} {line.strip()}"
        else:
            return None
    return pairs


def verbatim(lines):
    """Lines that stay as they are. Those that would be too long are not indented; if that is not
    enough, two columns become a list, and other lines are parted."""
    pairs = columns_in(lines) if max(map(len, lines)) >= COLUMNS else None
    if pairs:
        return words_in(pairs)
    lines = [part for it in lines for part in textwrap.wrap(
        it, COLUMNS - 1, subsequent_indent=" " * 8, break_on_hyphens=False)]
    is_wide = max(map(len, lines)) + INDENT >= COLUMNS
    wide, end = ([".in 0"], [".in"]) if is_wide else ([], [])
    return [".PP", ".nf", *wide, *map(escaped, lines), *end, ".fi"]


def listed(lines):
    """Lines of which those with a hyphen begin an item."""
    return [part for it in lines for part in (
        (r".IP \(bu 2", escaped(it[2:])) if it.startswith("- ") else (escaped(it.strip()),))]


def is_plain(line):
    return not line.startswith(" ")


def body(lines):
    """Lines as roff has them: paragraphs, which are filled, lists, and lines that are indented,
    which stay as they are."""
    out, block = [], []
    for line in [*lines, ""]:
        is_list = bool(block) and block[0].startswith("- ")
        if block and (not line or is_plain(line) != is_plain(block[0]) and not is_list):
            is_filled = is_plain(block[0])
            paragraph = [".PP", *map(escaped, block)]
            out += listed(block) if is_list else paragraph if is_filled else verbatim(block)
            block = []
        if line:
            block.append(line)
    return out


def words_in(pairs):
    """Words with what each is."""
    return [line for word, text in pairs for line in (".TP", escaped(word), escaped(text))]


def see_also(name):
    """The pages that belong to the one of this name."""
    short = name[len("pgroup-"):]
    others = sorted({it for family in FAMILIES if short in family for it in family} - {short})
    pages = [("pgroup-" + it if it else "pgroup") + "(1)" for it in others]
    docs = "The pages in /usr/share/doc/pgroup; README.md leads to them."
    return [", ".join(pages) + ".", "", docs]


def page(name, about, sections):
    """The page of a command: its name, what it does in a sentence, and its sections, each with a
    title and its lines."""
    lines = [f'.TH {name.upper()} 1 "" pgroup "pgroup manual"', ".nh", ".ad l", ".SH NAME"]
    lines.append(f"{escaped(name)} \\- {escaped(about.rstrip('.'))}")
    for title, text in sorted(sections, key=lambda it: it[0] != "Synopsis"):
        is_words = bool(text) and isinstance(text[0], tuple)
        lines += [f'.SH "{title.upper()}"', *(words_in(text) if is_words else body(text))]
    lines += ['.SH "SEE ALSO"', *body(see_also(name))]
    return "\n".join(lines) + "\n"


def sections_of(text):
    """The sections of a help text of the program. A line that ends in a colon, or `Usage: `, begins
    one."""
    sections = [("Description", [])]
    for line in text.split("\n"):
        begins = re.fullmatch(r"([A-Z][A-Za-z ]*)(, [^:]*)?:", line)
        if line.startswith("Usage: "):
            sections.append(("Synopsis", [line[len("Usage: ") :]]))
        elif begins:
            sections.append((begins[1] + (begins[2] or ""), []))
        elif line.startswith("                   <") and sections[-1][0] == "Synopsis":
            sections[-1][1].append(line[len("Usage: ") :])
        elif line and not line.startswith(" ") and sections[-1][0] not in ("Description", "More"):
            sections.append(("More", [line]))
        else:
            sections[-1][1].append(line)
    return [(title, lines) for title, lines in sections if any(lines)]


def program_page(program, command=None):
    """The page of a command of the program, or of the program."""
    words = [program, "help", command] if command else [program, "help"]
    text = subprocess.run(words, check=True, capture_output=True).stdout.decode()
    about, _, rest = text.partition("\n")
    name = f"pgroup-{command}" if command else "pgroup"
    return page(name, about, sections_of(rest.strip("\n")))


def parser_of_script(path):
    """The parser of a script's words. The script is not run beyond it."""
    def caught(parser, *_words, **_more):
        raise Caught(parser)

    loader = importlib.machinery.SourceFileLoader("script", path)
    module = importlib.util.module_from_spec(importlib.util.spec_from_loader("script", loader))
    before = argparse.ArgumentParser.parse_args
    sys.path.insert(0, os.path.dirname(path))
    argparse.ArgumentParser.parse_args = caught
    try:
        loader.exec_module(module)
        module.main()
    except Caught as found:
        return found.args[0]
    finally:
        argparse.ArgumentParser.parse_args = before
        sys.path.remove(os.path.dirname(path))
    raise AssertionError(f"{path} reads no words")


def word_of(action):
    """How a word of a script is said."""
    choices = "{" + ",".join(action.choices) + "}" if action.choices else ""
    metavar = action.metavar or choices
    value = " ".join(metavar) if isinstance(metavar, tuple) else metavar
    value += ".." if action.nargs == "+" else ""
    if not action.option_strings:
        return f"[{value}]" if action.nargs == "?" else value
    return " ".join(filter(None, [action.option_strings[-1], value]))


def page_of_words(name, parser):
    """The page of a script with this parser of words."""
    about, _, more = " ".join(parser.description.split()).partition(". ")
    # argparse has no other way to its list of words.
    actions = [it for it in parser._actions if it.dest != "help"]
    usage = [f"pgroup-{name} [OPTIONS] " + " ".join(
        word_of(it) for it in actions if not it.option_strings)]
    words = [(word_of(it), it.help) for it in actions]
    text = [more, ""] if more else []
    text += parser.epilog.strip("\n").split("\n")
    # The text names the script as it is called in the repository.
    text = [re.sub(rf"^( {{2,4}}){name}\b", rf"\1pgroup-{name}", it) for it in text]
    sections = [("Synopsis", usage), ("Words", words), ("Description", text)]
    return page(f"pgroup-{name}", about, sections)


def script_page(name):
    """The page of a script of tools/group."""
    return page_of_words(name, parser_of_script(os.path.join(GROUP, name)))


def module_of(name):
    """A module below tools."""
    if TOOLS not in sys.path:
        sys.path.insert(0, TOOLS)
    return importlib.import_module(name)


def assembler_page():
    """The page of the assembler."""
    about, _, more = module_of("assembler.command").HELP.partition("\n\n")
    first, _, rest = " ".join(about.split()).partition(". ")
    lines = re.sub(r"^(    )assemble\b", r"\1pgroup-assemble", more, flags=re.M).split("\n")
    return page("pgroup-assemble", first, [("Description", [rest, "", *lines])])


def console_page():
    """The page of the script `console`."""
    words = [os.path.join(TOOLS, "console"), "--help"]
    text = subprocess.run(words, check=True, capture_output=True).stdout.decode()
    about, _, more = text.partition("\n\n")
    first, _, rest = " ".join(about.split()).partition(": ")
    rest = rest[:1].upper() + rest[1:]
    lines = [rest, "", *more.replace("./console", "pgroup-console").split("\n")]
    usage = next(it.strip() for it in lines if it.startswith("  pgroup-console "))
    return page("pgroup-console", first, [("Synopsis", [usage]), ("Description", lines)])


def script_pages():
    """The pages that need no program, by their names."""
    pages = {f"pgroup-{it}.1": script_page(it) for it in SCRIPTS}
    compiler = module_of("compiler.command").words_parser()
    pages["pgroup-compile.1"] = page_of_words("compile", compiler)
    volume = module_of("volumes.command").words_parser()
    pages["pgroup-volume.1"] = page_of_words("volume", volume)
    translator = module_of("translator.command").words_parser()
    pages["pgroup-translate.1"] = page_of_words("translate", translator)
    freezer = module_of("freezer.command").words_parser()
    pages["pgroup-freeze.1"] = page_of_words("freeze", freezer)
    files = parser_of_script(os.path.join(TOOLS, "files"))
    pages["pgroup-files.1"] = page_of_words("files", files)
    return {**pages, "pgroup-assemble.1": assembler_page(), "pgroup-console.1": console_page()}


def program_pages(program):
    """The pages of the program, by their names."""
    pages = {f"pgroup-{it}.1": program_page(program, it) for it in COMMANDS}
    return {**pages, "pgroup.1": program_page(program)}
