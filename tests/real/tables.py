"""Tables of rows for the program crates/c2_test_rows: where they lie, and how they are written.

A line `# NAME` names the rows behind it, a line `KEY: VALUE` sets something for them, and a line `FILES => WANTED` is a row: a file in
hex, or two with a bar between them, and what the run comes to.
"""

import pathlib
import re

class Approving(dict):
    """A judge who approves every question, and counts them."""

    def __init__(self):
        self.asked = 0

    def __getitem__(self, identity):
        return "approved"

    def __contains__(self, identity):
        self.asked += 1
        return True


DATA = pathlib.Path(__file__).resolve().parent.parent.parent / "crates" / "c2_test_rows" / "data"


def head(what, writer, **given):
    """The first lines of a table that a program writes."""
    return f"# {what} Written by tests/real/{writer}, which computes the answers: not to be edited.\n" + settings(**given)


def settings(**given):
    """Lines that set something."""
    return "".join(f"{key}: {value}".rstrip() + "\n" for key, value in given.items())


def row(what, files, status, lines, asked=None):
    """A row with its name. Where judges are there, it says how often they are asked."""
    asked = "" if asked is None else f", asked {asked}"
    lines = lines.replace("\n", " / ")
    return f"# {what}\n{files} => {status} {lines}{asked}\n"


def folded(contents):
    """Hex of bytes, in which `COUNT*PIECE` between spaces stands for a piece that comes many times."""
    found = re.search(rb"(.{4,32}?)\1{99,}", contents, re.DOTALL)
    if found is None:
        return contents.hex()
    count = len(found[0]) // len(found[1])
    return f"{contents[: found.start()].hex()} {count}*{found[1].hex()} {contents[found.end() :].hex()}"


def path(name):
    return DATA / f"{name}.rows"


def write(name, text):
    path(name).write_bytes(text.encode())


def is_written(name, text):
    """Whether the table is the one that would be written."""
    return path(name).read_bytes() == text.encode()
