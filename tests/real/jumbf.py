"""Boxes (ISO/IEC 19566-5): the tree that a store's bytes spell, or the first test that they fail and its place.

Refused besides what the standard rules out: superboxes deeper than 16, control bytes in labels, and equal labels of sibling
superboxes.
"""

import struct

from locate import Refused

DEEPEST = 16


class Box:
    """A box by its kind and its places in the store. A superbox has a type, a label (or None) and children as well."""

    __slots__ = ("kind", "start", "inside", "end", "uuid", "label", "children")

    def __init__(self, kind, start, inside, end):
        self.kind, self.start, self.inside, self.end = kind, start, inside, end
        self.uuid, self.label, self.children = None, None, ()

    def is_super(self):
        return self.kind == b"jumb"

    def superboxes(self):
        return [child for child in self.children if child.is_super()]


def read(data):
    """The root of the tree that all the bytes spell."""
    root = box_at(data, 0, len(data))
    if root.is_super():
        read_superbox(data, root, 1, set())
    if root.end != len(data):
        raise Refused("Trailing", root.end)
    return root


def box_at(data, at, end):
    """The box at a place, by its header alone; it has to end by `end`."""
    if end - at < 8:
        raise Refused("BadHead", at)
    total, kind = struct.unpack_from(">I4s", data, at)
    header = 8
    if total == 1:
        header = 16
        if end - at < header:
            raise Refused("BadHead", at)
        (total,) = struct.unpack_from(">Q", data, at + 8)
    if total < header:
        raise Refused("BadHead", at)
    if at + total > end:
        raise Refused("Overrun", at)
    return Box(kind, at, at + header, at + total)


def read_superbox(data, box, depth, labels):
    """Reads a superbox's description and children; `labels` are those of its siblings so far."""
    if depth > DEEPEST:
        raise Refused("TooDeep", box.start)
    if box.inside == box.end:
        raise Refused("NoDescription", box.start)
    described = box_at(data, box.inside, box.end)
    if described.kind != b"jumd":
        raise Refused("NoDescription", box.start)
    box.uuid, box.label = read_description(data, described)
    if box.label is not None:
        if box.label in labels:
            raise Refused("DuplicateLabel", box.start)
        labels.add(box.label)
    box.children = [described]
    inner, at = set(), described.end
    while at < box.end:
        child = box_at(data, at, box.end)
        if child.is_super():
            read_superbox(data, child, depth + 1, inner)
        box.children.append(child)
        at = child.end


def read_description(data, box):
    """The type UUID and the label of a description box; the label is None where there is none."""
    fields = data[box.inside : box.end]
    bad = Refused("BadDescription", box.start)
    if len(fields) < 17:
        raise bad
    toggles, label, rest = fields[16], None, fields[17:]
    if toggles & 0xE0:
        raise bad
    if toggles & 0x02:
        spelled, zero, rest = rest.partition(b"\0")
        if not zero or any(byte < 0x20 or byte == 0x7F for byte in spelled):
            raise bad
        try:
            label = spelled.decode("utf-8")
        except UnicodeDecodeError:
            raise bad from None
    carried = (4 if toggles & 0x04 else 0) + (32 if toggles & 0x08 else 0)
    if len(rest) < carried or not is_private(rest[carried:], toggles & 0x10):
        raise bad
    return fields[:16], label


def is_private(rest, toggled):
    """Whether what is left of a description is one private box where there must be one, and nothing where not."""
    if not toggled:
        return not rest
    try:
        return box_at(rest, 0, len(rest)).end == len(rest)
    except Refused:
        return False
