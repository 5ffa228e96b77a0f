"""The chunk tables of a BMFF file (ISO/IEC 14496-12, `stco` and `co64`), whose fields tell places in the file: where they lie, why places can't be
moved, and the file in which they are.

Only these tables are known. Which file a chunk is said to lie in (`dref`) isn't looked at, nor are the boxes in `udta`. Nothing here was taken from
c2's own code.
"""

from collections import namedtuple

from bmff import boxes_between

PATH = b"moov", b"trak", b"mdia", b"minf", b"stbl"
WIDTHS = {b"stco": 4, b"co64": 8}
# Root boxes that tell places too, and one that does so among the tables of a track.
OTHER_ROOTS = b"moof", b"mfra", b"meta"
OTHER_TABLE = b"saio"

# The place of the first field, how many fields there are, and how many bytes each has.
Table = namedtuple("Table", "first count width")
Field = namedtuple("Field", "at width place")


class NotMoved(Exception):
    """Why places can't be moved: the name of a refusal, and the place of what causes it."""


def chunk_tables(data, roots):
    """The chunk tables of a file, by its root boxes, in their order; or the first refusal."""
    for box in roots:
        if box.kind in OTHER_ROOTS:
            raise NotMoved("OffsetTable", box.start)
    return list(tables_below(data, roots, PATH))


def tables_below(data, boxes, path):
    """The tables below the boxes of a list that stand on a path; at the path's end the list's own."""
    for box in boxes:
        if path and box.kind == path[0]:
            inner = boxes_between(data, box.inside, box.end)
            if inner is None:
                raise NotMoved("BadTree", box.start)
            yield from tables_below(data, inner, path[1:])
        elif not path and box.kind == OTHER_TABLE:
            raise NotMoved("OffsetTable", box.start)
        elif not path and box.kind in WIDTHS:
            yield table_in(data, box)


def table_in(data, box):
    """The table that a box is: 4 bytes, the number of its fields in 4 bytes, the fields, and nothing else."""
    width, first = WIDTHS[box.kind], box.inside + 8
    count = int.from_bytes(data[box.inside + 4 : first], "big")
    if first > box.end or first + count * width != box.end:
        raise NotMoved("BadTable", box.start)
    return Table(first, count, width)


def fields(data, tables):
    for first, count, width in tables:
        for at in range(first, first + count * width, width):
            yield Field(at, width, int.from_bytes(data[at : at + width], "big"))


def check_room(data, tables, start, by):
    """Whether each place from `start` on fits its field when it is greater by `by`."""
    for field in fields(data, tables):
        if field.place >= start and field.place + by >= 256**field.width:
            raise NotMoved("Overflow", field.at)


def moved(data, tables, start, by):
    """The file in whose tables the places from `start` on are greater by `by`."""
    new = bytearray(data)
    for at, width, place in fields(data, tables):
        if place >= start:
            new[at : at + width] = (place + by).to_bytes(width, "big")
    return bytes(new)
