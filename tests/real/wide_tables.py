#!/usr/bin/env python3
"""Writes a film anew whose chunk tables have eight bytes a place (`co64`) in place of four (`stco`): wide_tables.py FILM NEW.

The index grows, and what stands behind it moves, so the places are moved too; the film is otherwise as it was.
"""

import sys

from bmff import boxes_between, root_boxes
from chunks import PATH


def widened(contents, box, path):
    """The bytes of a box on the path to chunk tables, with wide tables."""
    if not path:
        if box.kind != b"stco":
            return contents[box.start : box.end]
        count = int.from_bytes(contents[box.inside + 4 : box.inside + 8], "big")
        fields = (contents[at : at + 4] for at in range(box.inside + 8, box.end, 4))
        wide = b"".join(bytes(4) + field for field in fields)
        assert len(wide) == 8 * count
        return boxed(b"co64", contents[box.inside : box.inside + 8] + wide)
    if box.kind != path[0]:
        return contents[box.start : box.end]
    inner = boxes_between(contents, box.inside, box.end)
    return boxed(box.kind, b"".join(widened(contents, each, path[1:]) for each in inner))


def boxed(kind, payload):
    return (8 + len(payload)).to_bytes(4, "big") + kind + payload


def wide_film(contents):
    """The film with wide tables, in which each place is moved that stands behind an index which grew."""
    roots = root_boxes(contents)
    made = [widened(contents, box, PATH) for box in roots]
    grown = [(box.end, len(new) - box.length()) for box, new in zip(roots, made)]
    return b"".join(moved(new, 0, PATH, grown) if box.kind == PATH[0] else new for box, new in zip(roots, made))


def moved(contents, at, path, grown):
    """The bytes of a box with its tables' places moved, each by what stands before it and grew."""
    new = bytearray(contents)

    def move(start, end, path):
        for box in boxes_between(contents, start, end):
            if path and box.kind == path[0]:
                move(box.inside, box.end, path[1:])
            elif not path and box.kind == b"co64":
                for field in range(box.inside + 8, box.end, 8):
                    place = int.from_bytes(contents[field : field + 8], "big")
                    new[field : field + 8] = (place + sum(more for end, more in grown if end <= place)).to_bytes(8, "big")

    move(at, len(contents), path)
    return bytes(new)


def main():
    name, new = sys.argv[1:]
    with open(name, "rb") as film, open(new, "xb") as made:
        made.write(wide_film(film.read()))


if __name__ == "__main__":
    main()
