"""A compiler of UCSD Pascal II.0. ../../docs/PASCAL.md says which Pascal.

It works in three steps, each a folder with a tree of its own at its end:

    parsing      text -> tokens -> the syntax tree: what is written
    checking     the syntax tree -> the checked tree: what it means, with all names and types known
    generating   the checked tree -> the procedures of a code file

`library` has the run-time library, in Pascal. `program.py` puts the steps together.
"""
