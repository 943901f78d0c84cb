"""Freezes a program where it waits for a key: makes a code file that waits there when started."""
