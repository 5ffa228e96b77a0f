"""BMFF files (ISO/IEC 14496-12): their boxes, the C2PA box and its store, and what a BMFF hash covers (C2PA Technical Specification).

Nothing here was taken from c2's own code.
"""

import re
from bisect import bisect_left

import cbor
from fields import BadBinding, maps_in, string, unsigned, wrong_form
from locate import LARGEST_STORE, Refused

MOST_ROOT_BOXES = 1_048_576
MOST_NTH = 1_048_576
PROVENANCE = bytes.fromhex("d8fec3d61b0e483c92975828877ec481")
PURPOSE = b"manifest\0"
ENTERED = b"moov trak edts mdia minf dinf stbl mvex moof traf mfra".split()
STEP = re.compile(r"/([^/\[]{4})(?:\[([1-9][0-9]*)\])?", re.DOTALL)
# Fields of an exclusion that say more of its box, which isn't supported.
TESTS = "version", "flags", "exact"


# Boxes


class Box:
    """A box by its type and its places: where it starts, where its payload starts, where it ends."""

    __slots__ = ("kind", "start", "inside", "end")

    def __init__(self, kind, start, inside, end):
        self.kind, self.start, self.inside, self.end = kind, start, inside, end

    def length(self):
        return self.end - self.start


def box_at(data, at, end):
    """The box at a place of a list of boxes that ends at `end`; one of size 0 runs to there."""
    number = lambda place, width: int.from_bytes(data[place : place + width], "big")
    size, header = number(at, 4), 8
    if end - at < 8 or size == 1 and end - at < 16:
        raise Refused("Truncated", end)
    if size == 1:
        size, header = number(at + 8, 8), 16
    elif size == 0:
        size = end - at
    if size < header:
        raise Refused("BadBox", at)
    if size > end - at:
        raise Refused("Truncated", end)
    box = Box(bytes(data[at + 4 : at + 8]), at, at + header, at + size)
    if box.kind == b"uuid" and size < header + 16:
        raise Refused("BadBox", at)
    return box


def root_boxes(data):
    """The boxes that a file is, one behind the other."""
    boxes, at = [], 0
    while at < len(data):
        if len(boxes) == MOST_ROOT_BOXES:
            raise Refused("TooManyBoxes", MOST_ROOT_BOXES)
        boxes.append(box_at(data, at, len(data)))
        at = boxes[-1].end
    return boxes


def boxes_between(data, start, end):
    """The boxes that fill a part of a file, one behind the other; None where no such boxes do, or one of them runs to the end."""
    boxes, at = [], start
    while at < end:
        try:
            boxes.append(box_at(data, at, end))
        except Refused:
            return None
        if data[at : at + 4] == bytes(4):
            return None
        at = boxes[-1].end
    return boxes


def children_of(data, box):
    """The boxes that fill the payload of a box; none where it isn't filled by boxes, or is of a type that no path enters."""
    return boxes_between(data, box.inside, box.end) or [] if box.kind in ENTERED else []


# The store


def find_store(data, roots):
    """The root box with the store and the store's bytes, or None."""
    found = None
    for box in roots:
        if box.kind != b"uuid" or data[box.inside : box.inside + 16] != PROVENANCE:
            continue
        content = data[box.inside + 16 : box.end]
        if content[:4] != bytes(4):
            raise Refused("BadProvenanceBox", box.start)
        if content[4:13] != PURPOSE:
            continue
        if found is not None:
            raise Refused("TwoStores", box.start)
        found = box, store_in(content[13:], box.start)
    return found


def store_in(rest, place):
    """The store behind 8 bytes that are an offset; `place` is that of its root box."""
    most = len(rest) - 8
    total = stated_length(rest[8:24]) if most >= 0 else None
    if total is None or total > most:
        raise Refused("BadProvenanceBox", place)
    if total > LARGEST_STORE:
        raise Refused("StoreTooLarge", total)
    return bytes(rest[8 : 8 + total])


def stated_length(front):
    """The length that the header of a JUMBF box (ISO/IEC 19566-5) states at the front of at most 16 bytes; None where it's no header."""
    length = int.from_bytes(front[:4], "big")
    if len(front) < 8 or length == 1 and len(front) < 16:
        return None
    header = 16 if length == 1 else 8
    if length == 1:
        length = int.from_bytes(front[8:16], "big")
    return length if length >= header else None


# What a BMFF hash excludes


def read_path(text):
    """The steps of a path, each a type and which of its siblings of that type it means, None for all; None for another text."""
    steps, at = [], 0
    while at < len(text) or not steps:
        step = STEP.match(text, at)
        if step is None or not step[0].isascii():
            return None
        nth = int(step[2]) if step[2] else None
        if nth is not None and nth > MOST_NTH:
            return None
        steps.append((step[1].encode("ascii"), nth))
        at = step.end()
    return tuple(steps)


class Exclusion:
    """An entry of a BMFF hash: which boxes it means, and which parts of them."""

    def __init__(self, item):
        self.steps = read_path(string(item, "xpath", "text"))
        if self.steps is None:
            raise wrong_form()
        self.length = None if cbor.field(item, "length") is None else unsigned(item, "length")
        self.tests = [(unsigned(test, "offset"), string(test, "value", "bytes")) for test in maps_in(item, "data") or ()]
        subset = maps_in(item, "subset")
        if subset is not None and not subset:
            raise wrong_form()
        self.subset = subset and [(unsigned(part, "offset"), unsigned(part, "length")) for part in subset]
        self.has_tests = any(cbor.field(item, key) is not None for key in TESTS)

    def enters_another(self):
        return any(kind not in ENTERED for kind, _ in self.steps[:-1])

    def means(self, data, box):
        """Whether a box on the path has the stated length, and the bytes at their offsets."""
        if self.length is not None and self.length != box.length():
            return False
        whole = lambda offset, value: offset + len(value) <= box.length()
        at = lambda offset, value: data[box.start + offset : box.start + offset + len(value)]
        return all(whole(*test) and at(*test) == test[1] for test in self.tests)

    def parts_of(self, box):
        """Start and end of the parts of a box that it excludes."""
        for offset, length in [(0, 0)] if self.subset is None else self.subset:
            start = box.start + offset
            if start < box.end:
                yield start, min(start + length, box.end) if length else box.end


def read_exclusions(item):
    """The exclusions of a BMFF hash, which must be there."""
    maps = maps_in(item, "exclusions")
    if maps is None:
        raise wrong_form()
    return [Exclusion(each) for each in maps]


def check_support(exclusions):
    if any(exclusion.has_tests for exclusion in exclusions):
        raise BadBinding("unsupported.exclusionTest")
    if any(exclusion.enters_another() for exclusion in exclusions):
        raise BadBinding("unsupported.exclusionPath")


class Paths:
    """The boxes of a file by paths. What stands below one path is looked up once."""

    def __init__(self, data, roots):
        self.data, self.below = data, {(): [by_kind(roots)]}

    def families(self, steps):
        """For each box on a path its children by their types."""
        if steps not in self.below:
            self.below[steps] = [by_kind(children_of(self.data, box)) for box in self.boxes(steps)]
        return self.below[steps]

    def boxes(self, steps):
        """The boxes on a path."""
        *above, (kind, nth) = steps
        for siblings in self.families(tuple(above)):
            same = siblings.get(kind, [])
            yield from same if nth is None else same[nth - 1 : nth]

    def excluded(self, exclusions):
        """The parts of the file that exclusions exclude, each in one root box, by their starts."""
        parts = set()
        for exclusion in exclusions:
            for box in self.boxes(exclusion.steps):
                if exclusion.means(self.data, box):
                    parts.update(exclusion.parts_of(box))
        return sorted(parts)


def by_kind(boxes):
    """Boxes by their types, those of one type in their order."""
    found = {}
    for box in boxes:
        found.setdefault(box.kind, []).append(box)
    return found


# What it covers


def covered_parts(data, roots, exclusions):
    """Each root box with its parts that aren't excluded, in order."""
    excluded = Paths(data, roots).excluded(exclusions)
    for box in roots:
        first, behind = (bisect_left(excluded, (place,)) for place in (box.start, box.end))
        yield box, gaps(box.start, box.end, excluded[first:behind])


def gaps(start, end, excluded):
    """The parts of a range that others, by their starts, leave over."""
    left, at = [], start
    for other, behind in excluded:
        if at < other:
            left.append((at, other))
        at = max(at, behind)
    if at < end:
        left.append((at, end))
    return left


def covered_text(data, kept):
    """The pieces of the covered text: before what is left of a root box its start in 8 bytes."""
    for box, parts in kept:
        if parts:
            yield box.start.to_bytes(8, "big")
        for start, end in parts:
            yield data[start:end]


def counts(kept, store_place):
    """The number of covered bytes, and that of excluded ones outside the root box at a place."""
    covered = outside = 0
    for box, parts in kept:
        length = sum(end - start for start, end in parts)
        covered += length
        outside += 0 if box.start == store_place else box.length() - length
    return covered, outside
