#!/usr/bin/env python3
"""Runs `plan-front` and `embed-front` over films whose tables are made to take much time or memory: costly_tables.py C2 FOLDER [SCALE].

A scale of 100 gives the full size, a smaller one a hundredth of places and boxes for each point. Prints the status, the processor time and the peak
memory of each; the status is 1 where one is above 20 s or 300 MB, or an answer or a new file isn't as it must be. The new files are compared with
what each case knows of its own places.
"""

import os
import sys
import tempfile

from made_films import FTYP, headed, nested, new_file_is_wrong, run, table, write, write_inputs
from front_rows import END, LENGTH, TREE

MOST_SECONDS, MOST_MEMORY = 20, 300
MOST_ROOTS = 1_048_576
EMBEDDED = f"embedded {END} {LENGTH}"
BUILD_REFUSED = 11
MDAT = b"\0\0\0\x09mdatA"
FREE = b"\0\0\0\x08free"


def of_tables(*tables, behind=MDAT):
    """The pieces of a film with such tables, each a call that gives it with places that are greater by so much."""

    def pieces(by=0):
        inner = b"".join(each(by) for each in tables)
        yield FTYP
        yield nested(TREE, len(inner))
        yield inner
        yield behind

    return pieces


def of_index(kinds, inner):
    """The pieces of a film whose index holds boxes of such kinds around some bytes, which a call gives."""

    def pieces(by=0):
        contents = inner(by)
        yield FTYP
        yield nested(kinds, len(contents))
        yield contents
        yield MDAT

    return pieces


def films(count):
    """What each film shows, its pieces, and the answer."""
    places = range(END, END + count(10_000_000))
    yield "ten million places", of_tables(lambda by: table(b"stco", places, by)), EMBEDDED
    yield "ten million places of 8", of_tables(lambda by: table(b"co64", places, by)), EMBEDDED
    staying = [0] * count(10_000_000)
    yield "ten million that stay", of_tables(lambda by: table(b"stco", staying, by)), EMBEDDED
    last = END + 40 + 16 + 4 * len(places)
    too_great = f"build Overflow {last}"
    yield "the last doesn't fit", of_tables(lambda by: table(b"stco", [*places, 2**32 - 1])), too_great
    number = count(1_000_000)
    yield "a million empty tables", of_tables(lambda by: table(b"stco", []) * number), EMBEDDED
    yield "a million tables of one", of_tables(lambda by: table(b"stco", [END], by) * number), EMBEDDED
    yield "a million tracks of nothing", of_index(TREE[:1], lambda by: headed(b"trak", 0) * number), EMBEDDED
    track = lambda by: nested(TREE[1:], 20) + table(b"stco", [END], by)
    yield "a million tracks", of_index(TREE[:1], lambda by: track(by) * number), EMBEDDED
    lists = lambda by: headed(b"stbl", 20) + table(b"stco", [END], by)
    yield "a million lists of tables", of_index(TREE[:4], lambda by: lists(by) * number), EMBEDDED
    yield "a million other tables", of_tables(lambda by: FREE * number, lambda by: table(b"stco", [END], by)), EMBEDDED
    roots = count(MOST_ROOTS)
    yield "as many roots as fit", of_tables(lambda by: table(b"stco", [END], by), behind=FREE * (roots - 3)), EMBEDDED
    bad = nested(TREE, 20 * number + 19) + table(b"stco", [END]) * number + headed(b"stco", 11) + bytes(11)
    refused = f"build BadTable {END + 40 + 20 * number}"
    yield "the last hasn't its form", lambda by=0: iter((FTYP, bad, MDAT)), refused


def measured(program, folder, what, film, answer):
    """Prints a line for each command, and says whether both are as they must be."""
    path = lambda name: os.path.join(folder, name)
    write(path("film"), *film())
    size, given = os.path.getsize(path("film")) / 1e6, write_inputs(folder)
    commands = {"plan-front": [path("film"), given[0]], "embed-front": [path("film"), *given, path("new")]}
    all_right = True
    for name, words in commands.items():
        seconds, _, memory, told = run([program, name, *words], allowed=(0, BUILD_REFUSED))
        wrong = "" if seconds <= MOST_SECONDS and memory <= MOST_MEMORY else "  above"
        is_planned = name == "plan-front" and answer == EMBEDDED
        if not (told.startswith("tbs ") if is_planned else told == answer):
            wrong += f"  {told[:100]}"
        elif told == EMBEDDED:
            wrong += new_file_is_wrong(program, folder, path("new"), film)
        all_right = all_right and not wrong
        print(f"{what:28} {size:6.1f} {name:12} {seconds:6.2f} {memory:6.0f}{wrong}", flush=True)
    return all_right


def main():
    program, folder, *scale = sys.argv[1:]
    program, percent = os.path.abspath(program), float(scale[0]) if scale else 100
    print(f"{'film':28} {'MB':>6} {'command':12} {'s':>6} {'MB':>6}")
    all_right = True
    for each in films(lambda number: max(4, int(number * percent / 100))):
        with tempfile.TemporaryDirectory(dir=folder) as work:
            all_right &= measured(program, work, *each)
    sys.exit(not all_right)


if __name__ == "__main__":
    main()
