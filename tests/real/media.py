"""Media files: the store that one holds, and what a binding covers of the file (C2PA Technical Specification, hard bindings).

JPEGs are read by locate.py, BMFF files by bmff.py. Nothing here was taken from c2's own code.
"""

import bmff
import cbor
import hashing
from fields import BadBinding, maps_in, string, unsigned, wrong_form
from locate import Refused, locate
from manifests import BMFF_HASH

MOST_EXCLUSIONS = 1_024
LARGEST_FILE = 2**62 - 1


class Media:
    """A media file with a store: its bytes, where the store lies in the file, and the root boxes (None for a JPEG)."""

    def __init__(self, data, start, length, store, roots):
        self.data, self.start, self.length, self.store, self.roots = data, start, length, store, roots


def is_jpeg(data):
    return data[:2] == b"\xff\xd8"


def media_of(data):
    """The media file that bytes are, or None where it holds no store."""
    if len(data) > LARGEST_FILE:
        raise Refused("FileTooLarge", len(data))
    if is_jpeg(data) or data[4:8] != b"ftyp":
        found = locate(data)
        return Media(data, *found, None) if found else None
    roots = bmff.root_boxes(data)
    found = bmff.find_store(data, roots)
    if found is None:
        return None
    box, store = found
    return Media(data, box.start, box.length(), store, roots)


def without(contents, start, length):
    return contents[:start] + contents[start + length :]


def kept_of(contents):
    """What a media is without its store: in a BMFF file the store's box is taken out, or says nothing."""
    found = media_of(contents)
    if found is None:
        return [contents]
    taken = without(contents, found.start, found.length)
    if found.roots is None:
        return [taken]
    place = next(box for box in found.roots if box.start == found.start)
    is_last = [box.kind for box in found.roots if box.start >= place.end] in ([], [b"mfra"])
    freed = contents[: place.start + 4] + b"free" + contents[place.start + 8 : place.inside] + bytes(place.end - place.inside) + contents[place.end :]
    return [taken if is_last else freed]


class Binding:
    """A hash assertion of the active manifest, by its item. What it excludes is a list of Exclusion, or of starts and lengths."""

    def __init__(self, kind, item, media):
        self.is_bmff = kind == BMFF_HASH
        if self.is_bmff and cbor.field(item, "merkle") is not None:
            raise BadBinding("unsupported.merkle")
        if self.is_bmff and media.roots is None:
            raise wrong_form()
        self.exclusions = bmff.read_exclusions(item) if self.is_bmff else read_ranges(item)
        self.alg = None if cbor.field(item, "alg") is None else string(item, "alg", "text")
        self.hash = string(item, "hash", "bytes")
        if len(self.exclusions) > MOST_EXCLUSIONS:
            raise BadBinding("unsupported.tooManyExclusions")
        if self.is_bmff:
            bmff.check_support(self.exclusions)

    def covered(self, media):
        """The pieces of the covered text, the number of covered bytes, and that of excluded ones outside the store's range."""
        # parts of a view take no memory
        view = memoryview(media.data)
        if self.is_bmff:
            kept = list(bmff.covered_parts(media.data, media.roots, self.exclusions))
            return bmff.covered_text(view, kept), bmff.counts(kept, media.start)
        check_ranges(self.exclusions, len(view))
        pieces = (view[start:end] for start, end in kept_by(self.exclusions, len(view)))
        return pieces, data_counts(self.exclusions, media)

    def cover(self, media, algorithm):
        """The digest of the covered text by an algorithm, and the two numbers."""
        pieces, numbers = self.covered(media)
        state = hashing.begin(name=algorithm)
        for piece in pieces:
            state.update(piece)
        return state.digest(), *numbers


def read_ranges(item):
    """The ranges of a data hash."""
    return [(unsigned(each, "start"), unsigned(each, "length")) for each in maps_in(item, "exclusions") or ()]


def check_ranges(ranges, size):
    """Each range begins behind the one before it, and ends in the file."""
    before = 0
    for start, length in ranges:
        if start < before or start + length > size:
            raise wrong_form()
        before = start + length


def kept_by(ranges, size):
    """Start and end of what lies between ranges."""
    at = 0
    for start, length in [*ranges, (size, 0)]:
        yield at, start
        at = start + length


def data_counts(ranges, media):
    """The number of covered bytes, and that of excluded ones outside the store's range."""
    excluded = sum(length for _, length in ranges)
    end = media.start + media.length
    inside = sum(max(0, min(start + length, end) - max(start, media.start)) for start, length in ranges)
    return len(media.data) - excluded, excluded - inside
