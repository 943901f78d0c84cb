"""How a picture looks, and the lines below it that say what its signs mean."""

from ..replica.datagram import KINDS
from . import svg
from .colours import COLOURS, LANES

FONT = "font-family: DejaVu Sans, Helvetica, Arial, sans-serif"
MONO = "font-family: DejaVu Sans Mono, Menlo, Consolas, monospace"
# What a line below the picture needs.
LINE = 20


def style_of_kinds():
    rules = []
    for kind, colour in COLOURS.items():
        rules.append(f".m.{kind}{{stroke:{colour}}} .h.{kind},.label.{kind}{{fill:{colour}}}")
    return "\n".join(rules)


ON = {name.replace("-", "_"): light for name, (light, _) in LANES.items()}
STYLE = f"""
text{{{FONT};font-size:10px;fill:#222}} .back{{fill:#fff}} .none{{fill:none}}
.when{{font-size:9px;fill:#888}} .title{{font-size:15px;font-weight:bold}}
.name{{font-size:12px;font-weight:bold}}
.strip{{fill:{ON["strip"]}}} .console,.value,.keyed{{{MONO};font-size:10px}}
.down{{stroke:{ON["down"]};stroke-width:1;stroke-dasharray:1 4}} .up{{stroke:{ON["up"]};stroke-width:2}}
.leads{{stroke:{ON["leads"]};stroke-width:8}} .save{{fill:#111;stroke:#fff;stroke-width:0.7}}
.failed{{fill:#fff;stroke:#c62828;stroke-width:2}} .start{{fill:{ON["start"]}}}
.rest{{fill:#fff;stroke:none}} .resting{{font-size:9px;fill:#888;font-style:italic}}
.crash{{fill:none;stroke:{ON["crash"]};stroke-width:3}}
.m{{fill:none;stroke-width:1.2}} .s0{{opacity:0.22}} .m.s1{{opacity:0.4;stroke-width:0.8}}
.label{{font-size:9px;paint-order:stroke;stroke:#fff;stroke-width:3px;stroke-linejoin:round}}
.label.s0{{opacity:0.5}} .lost{{stroke-width:1.6}}
.flag{{font-weight:bold;paint-order:stroke;stroke:#fff;stroke-width:3px}}
.flag.leads{{fill:#b06f00}} .flag.refused,.flag.failing{{fill:#c62828}}
.key{{fill:#fff;stroke:#222}} .learned{{fill:{ON["learned_back"]};stroke:{ON["learned"]};stroke-width:0.8}}
.tick{{stroke:{ON["learned"]};stroke-width:0.8}} .place{{font-size:9px;fill:#1b6e34}}
{style_of_kinds()}
"""


# What stands on lanes, each drawn from its left edge on, on a line of text at y.
SIGNS = {
    "leads": lambda x, y: svg.line((x, y - 4), (x + 20, y - 4), "leads"),
    "up": lambda x, y: svg.line((x, y - 4), (x + 20, y - 4), "up"),
    "down": lambda x, y: svg.line((x, y - 4), (x + 20, y - 4), "down"),
    "stopped": lambda x, y: svg.line((x, y - 4), (x + 20, y - 4), "stopped"),
    "unknown": lambda x, y: svg.line((x, y - 4), (x + 20, y - 4), "unknown"),
    "start": lambda x, y: svg.path(f"M{x} {y - 10}l8 6l-8 6z", "start"),
    "crash": lambda x, y: svg.cross(x + 5, y - 4, 5, "crash"),
    "save": lambda x, y: svg.element("circle", cx=x + 4, cy=y - 4, r=3.5, class_="save"),
    "learned": lambda x, y: svg.rect(x, y - 10, 13, 12, "learned", rx=2),
    "votes": lambda x, y: svg.path(f"M{x + 4} {y - 9}v9m5-9v9m5-9v9", "tick"),
    "console": lambda x, y: svg.rect(x, y - 10, 20, 12, "strip"),
    "key": lambda x, y: svg.rect(x, y - 10, 13, 12, "key", rx=3),
}
# Where the signs of a picture and their words begin.
ON_PICTURES = {
    "leads": (0, 26), "up": (70, 96), "down": (124, 150), "start": (195, 208),
    "crash": (248, 264), "save": (308, 320), "key": (358, 376), "learned": (440, 458),
}
# Those of the two kinds of pages.
ON_PAGES = {
    "live": ("leads", "up", "down", "stopped", "unknown", "start", "crash", "votes", "console"),
    "past": ("leads", "up", "down", "start", "crash", "save"),
}
WORDS = {"votes": "votes at a place"}


def signs(x, y, is_detailed):
    """The signs on lanes, each with what it means."""
    places = "a place and its value, when the node learns it" if is_detailed else "a learned place"
    parts = []
    for name, (at, words) in ON_PICTURES.items():
        said = {"learned": places, "key": "typed key"}.get(name, name)
        parts += [SIGNS[name](x + at, y), svg.text(x + words, y, said, "said")]
    return parts


def page_legend(kind):
    """The same signs for a page, in HTML."""
    parts = []
    for name in ON_PAGES[kind]:
        sign = svg.element("svg", SIGNS[name](1, 10), viewBox="0 0 22 12", aria_hidden="true")
        parts.append(f"<span>{sign}{WORDS.get(name, name)}</span>")
    return "".join(parts)


def kinds(x, y):
    """The kinds of messages with their colours."""
    parts = []
    for kind in KINDS:
        parts.append(svg.line((x, y - 4), (x + 16, y - 4), f"m {kind} s2"))
        parts.append(svg.text(x + 20, y, kind.capitalize(), "said"))
        x += 34 + 6 * len(kind)
    parts += [svg.line((x, y - 4), (x + 16, y - 4), "m accept s2"),
              svg.cross(x + 16, y - 4, 4, "m accept s2 lost"),
              svg.text(x + 25, y, "not heard", "said")]
    return parts


def legend(x, y, is_detailed, notes):
    """What the signs mean, and notes on the picture."""
    parts = [*kinds(x, y + 30), *signs(x, y + 30 + LINE, is_detailed)]
    faint = "Faint: a message that changed nothing at the node that heard it."
    strip = "Grey strip: what the console shows."
    for index, note in enumerate([f"{faint} {strip}", *notes]):
        parts.append(svg.text(x, y + 30 + (2 + index) * LINE, note, "said"))
    return parts


def legend_height(notes):
    return 30 + (3 + len(notes)) * LINE
