"""The colours of pictures and pages by what they mean, in one place for both. Pictures have those
for a light ground, and pages also those for a dark one."""

# By the kinds of messages.
COLOURS = {
    "prepare": "#1d4fa8", "promise": "#4d8fe0", "accept": "#1b6e34", "accepted": "#3fa35a",
    "refused": "#c62828", "submit": "#7b3fa0", "ask": "#8a8a8a", "tell": "#9a6a2c",
}
# By what a lane has: a light ground, and a dark one.
LANES = {
    "up": ("#444", "#b9b9b4"), "down": ("#bbb", "#5d6068"), "leads": ("#f2a81d", "#f2a81d"),
    "crash": ("#c62828", "#ef6b6b"), "start": ("#111", "#eee"), "strip": ("#f1f1ec", "#2a2c31"),
    "learned": ("#3fa35a", "#5cc27a"), "learned-back": ("#e8f5e4", "#1d3325"),
    "flag-leads": ("#8a5600", "#f7c463"),
}
DARK = {
    "prepare": "#7fb0ff", "promise": "#8fbaf5", "accept": "#5cc27a", "accepted": "#7fd498",
    "refused": "#ef6b6b", "submit": "#c99be6", "ask": "#a5a5a5", "tell": "#d8a657",
}


def css_of():
    """The colours as variables of CSS, for both grounds."""
    light = {**COLOURS, **{name: it[0] for name, it in LANES.items()}}
    dark = {**DARK, **{name: it[1] for name, it in LANES.items()}}
    return (f":root{{{variables(light)}}}\n:root[data-theme=dark]{{{variables(dark)}}}\n")


def variables(colours):
    return ";".join(f"--{name}:{it}" for name, it in colours.items())
