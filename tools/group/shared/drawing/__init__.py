"""Draws what a script or traces of a group say, as an SVG picture: `draw`."""
