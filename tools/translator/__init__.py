"""Translates a code file of UCSD Pascal II.0 or Apple Pascal 1.1 to one that pgroup runs."""
