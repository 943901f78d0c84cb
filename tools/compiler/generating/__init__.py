"""From the checked tree to the procedures of a code file."""
