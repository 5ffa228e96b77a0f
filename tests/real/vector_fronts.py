"""The builds of vectors/ whose store stands in front of the film: films, definitions and messages under `plan-front` and `embed-front`, the rows of
front_rows.py, whose answers are written by hand."""

from collections import namedtuple

import front_rows
from bmff import MOST_ROOT_BOXES
from build_rows import Vast
from front_rows import FTYP, OVERFLOWING, QUESTIONED, stco, tree
from make_store import box
from worked_builds import DEFINITION, MESSAGE

Front = namedtuple("Front", "what media definition message known")

# What is refused of such a build alone (docs/RULES.md).
REFUSALS = "NotBmff HasStore OpenBox OffsetTable BadTree BadTable Overflow".split()
# It is long, and shows what another JPEG shows too.
LEFT_OUT = {"a JPEG that has ftyp at byte 4"}
FREE = box(b"free", b"")


def rows():
    """The builds, each of another name."""
    for each in front_rows.rows():
        if each.what not in LEFT_OUT:
            yield Front(each.what, media_as_pieces(each.media), each.definition, each.message, each.known)
    yield from long_rows()


def media_as_pieces(media):
    """The bytes of a row's media; the pieces of one that no memory holds."""
    return [(media.front, 1), media.size] if isinstance(media, Vast) else media


def long_rows():
    """Films with as many root boxes as there may be, by pieces."""
    full = "build MediaRefused TooManyBoxes 1048576"
    many = lambda first, roots: [(first, 1), (FREE, MOST_ROOT_BOXES - roots)]
    yield Front("a root box more than there may be", many(FTYP + tree(stco(16)), 2), DEFINITION, MESSAGE, full)
    yield Front("root boxes before places that don't fit", many(OVERFLOWING, 3), DEFINITION, MESSAGE, full)
    other = many(QUESTIONED + box(b"meta", b""), 4)
    yield Front("a box that is refused before root boxes", other, DEFINITION, MESSAGE, "build OffsetTable 85")
