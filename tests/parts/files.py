"""Files that are read and written whole, and the numbers in them."""

import os


def bytes_of(path):
    with open(path, "rb") as file:
        return file.read()


def file_with(folder, name, data):
    """Writes a file into a folder. Returns its path."""
    path = os.path.join(folder, name)
    with open(path, "wb") as out:
        out.write(data)
    return path


def number(value, size=4):
    """A number as records and datagrams have it: with its high byte first."""
    return value.to_bytes(size, "big")
