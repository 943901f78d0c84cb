"""A group of nodes apart from the program, and what is compared with it: `replay` and `draw`."""
