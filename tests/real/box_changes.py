"""Changes of a BMFF file at random: of its boxes' sizes, types and order, or of bytes anywhere. Half of them make no right file."""

from bmff import ENTERED, children_of, root_boxes
from drafts import provenance_box
from locate import Refused
from make_store import box
from vary import varied

TYPES = *ENTERED, b"ftyp", b"free", b"uuid", b"mdat", b"meta", b"udta", b"styp"
SIZES = 0, 0, 1, 2, 7, 8, 9, 15, 16, 17, 1 << 31, (1 << 32) - 1
SMALL = (
    box(b"free", b""),
    box(b"free", b"x", wide=True),
    box(b"uuid", bytes(15)),
    box(b"uuid", bytes(16)),
    box(b"moov", box(b"trak", b"")),
    bytes(4) + b"free",
    provenance_box(b"manifest\0" + bytes(8)),
    provenance_box(b"merkle\0"),
    provenance_box(b"", b"\0\0\0\1"),
    b"\0",
)


def roots_of(contents):
    """The root boxes of a file, none where it isn't boxes."""
    try:
        return root_boxes(contents)
    except Refused:
        return []


def drawn_box(chance, contents, roots):
    """A box of a file: any that a path can name, any root box, or one of a user's type, as the store's is."""
    pending, found = list(roots), []
    while pending:
        found.append(pending.pop())
        pending += children_of(contents, found[-1])
    users = [box for box in roots if box.kind == b"uuid"]
    return chance.choice(chance.choice((found, roots, users or roots)))


def other_size(chance, contents, at):
    """Another size in the header of a box at a place."""
    size = int.from_bytes(contents[at.start : at.start + 4], "big")
    other = chance.choice((*SIZES, size + 1, max(size - 1, 0), size + 8, max(size - 8, 0)))
    return contents[: at.start] + min(other, (1 << 32) - 1).to_bytes(4, "big") + contents[at.start + 4 :]


def other_type(chance, contents, at):
    return contents[: at.start + 4] + chance.choice(TYPES) + contents[at.start + 8 :]


def left_out(_, contents, at):
    return contents[: at.start] + contents[at.end :]


def doubled(_, contents, at):
    return contents[: at.end] + contents[at.start :]


def put_last(_, contents, at):
    return contents[: at.start] + contents[at.end :] + contents[at.start : at.end]


def put_before(chance, contents, at):
    return contents[: at.start] + chance.choice(SMALL) + contents[at.start :]


def varied_front(chance, contents, at):
    """A change in the first bytes of a box."""
    behind = min(at.start + 48, at.end)
    return contents[: at.start] + varied(chance, contents[at.start : behind]) + contents[behind:]


def other_byte(chance, contents, at):
    """A byte of a box is another."""
    place = chance.randrange(at.start, at.end)
    return contents[:place] + bytes([chance.randrange(256)]) + contents[place + 1 :]


CHANGES = other_size, other_type, left_out, doubled, put_last, put_before, varied_front, other_byte


def changed_boxes(chance, contents):
    """A file with a change, sometimes two."""
    for _ in range(chance.choice((1, 1, 1, 2))):
        roots = roots_of(contents)
        if not roots:
            return varied(chance, contents)
        contents = chance.choice(CHANGES)(chance, contents, drawn_box(chance, contents, roots))
    return contents
