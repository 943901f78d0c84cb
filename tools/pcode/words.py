"""Words of the command line of a tool."""

import argparse

from .files import drop_output


class Parser(argparse.ArgumentParser):
    """A parser that says if its help cannot be written: argparse would say nothing."""

    def print_help(self, file=None):
        try:
            print(self.format_help(), end="", file=file, flush=True)
        except BrokenPipeError:
            raise
        except OSError as fault:
            drop_output()
            self.exit(1, f"{self.prog}: standard output: {fault.strerror}\n")
