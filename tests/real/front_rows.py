#!/usr/bin/env python3
"""What `plan-front` and `embed-front` must say of small media, definitions and messages: worked out by hand, and computed by front.py.

    front_rows.py check [large]     computes each row, and tells what differs from the answers that are written by hand here, from what rules.py says of
                                    the new file, and from the promise on chunk places; counts the answers

`large` means the rows with a million root boxes, which take some seconds. A row has what it shows, the line of `embed-front` by hand, media,
definition, message, and the fields of its chunk tables by hand: the place of each in the media, and the place that it tells in the new file.
"""

import sys
from collections import Counter, namedtuple

import builder
import cbor
import front
import jumbf
from bmff import MOST_ROOT_BOXES, Paths, root_boxes
from build_rows import Vast, definition, message, target
from builder import line_of
from built_films import FTYP, MDAT, film_in_front, film_with_table
from chunks import WIDTHS
from drafts import APP0, Bmff, DataHash, Jpeg, Manifest, provenance_box
from make_store import box, superbox
from manifests import Manifest as Read
from manifests import manifests_of
from media import LARGEST_FILE, media_of
from store import report
from tables import Approving
from worked_builds import ASSERTIONS, DEFINITION, FILM, LABEL, MESSAGE, SMALL, URL, changed, with_redactions, with_reserve

Row = namedtuple("Row", "what known media definition message fields")
# The length of the new box, by the algorithm of digests, and the end of the file type box.
LENGTH, LONGER = 1_220, {"sha256": 0, "sha384": 16, "sha512": 32}
END = 16
TREE = b"moov", b"trak", b"mdia", b"minf", b"stbl"
EMBEDDED = "embedded 16 1220"


def row(what, known, media, fields=(), given=DEFINITION, signature=MESSAGE):
    return Row(what, known, media, given, signature, fields)


# Films


def table(kind, *places, count=None, more=b"", wide=False):
    """A chunk table of places, which says how many they are unless it shall say something else."""
    number = (len(places) if count is None else count).to_bytes(4, "big")
    return box(kind, bytes(4) + number + b"".join(place.to_bytes(WIDTHS[kind], "big") for place in places) + more, wide)


def stco(*places, **more):
    return table(b"stco", *places, **more)


def co64(*places, **more):
    return table(b"co64", *places, **more)


def tree(*tables, kinds=TREE):
    """The boxes of kinds around tables, each alone in the one before it."""
    inner = b"".join(tables)
    for kind in reversed(kinds):
        inner = box(kind, inner)
    return inner


def film(*tables, behind=MDAT):
    """A film whose chunk tables begin at place 56: file type box, the boxes of the path, and the film's bytes."""
    return FTYP + tree(*tables) + behind


QUESTIONED = film(stco(84))


def built(**more):
    """The answer over the film of one table with other fields in the definition."""
    return f"embedded 16 {LENGTH + 3 * LONGER[more.get('alg', 'sha256')]}"


# Rows


def table_rows():
    """Which tables there are, and what the new file has in them."""
    yield row("a table of one chunk", EMBEDDED, QUESTIONED, {72: 1_304})
    yield row("a film without an index", EMBEDDED, FILM)
    yield row("a file type box alone", EMBEDDED, FTYP)
    behind = FTYP + MDAT + tree(stco(24))
    yield row("the index behind the film's bytes", EMBEDDED, behind, {81: 1_244})
    yield row("a table of eight bytes a place", EMBEDDED, film(co64(88)), {72: 1_308})
    yield row("both kinds of tables in one list", EMBEDDED, film(stco(24, 108), co64(25)), {72: 1_244, 76: 1_328, 96: 1_245})
    yield row("tables without places", EMBEDDED, film(stco(), co64()))
    yield row("a header of eight bytes of length", EMBEDDED, film(stco(92, wide=True)), {80: 1_312})
    two = tree(stco(130), kinds=TREE[1:]) + tree(co64(131), kinds=TREE[1:])
    yield row("two tracks", EMBEDDED, FTYP + box(b"moov", two) + MDAT, {72: 1_350, 124: 1_351})
    yield row("two root boxes `moov`", EMBEDDED, FTYP + tree(stco(16)) + tree(stco(16)) + MDAT, {72: 1_236, 132: 1_236})
    lists = tree(box(b"stbl", stco(16)) * 2, kinds=TREE[:4])
    yield row("two lists of tables in one track", EMBEDDED, FTYP + lists + MDAT, {72: 1_236, 100: 1_236})
    yield row("a wide root box", EMBEDDED, FTYP + box(b"moov", tree(stco(92), kinds=TREE[1:]), wide=True) + MDAT, {80: 1_312})
    yield row("a wide file type box", "embedded 24 1220", box(b"ftyp", FTYP[8:], wide=True) + tree(stco(23, 24)) + MDAT, {80: 23, 84: 1_244})
    yield row("a longer file type box", "embedded 32 1220", box(b"ftyp", FTYP[8:] + bytes(16)) + tree(stco(31, 32)) + MDAT, {88: 31, 92: 1_252})
    yield row("two file type boxes", EMBEDDED, FTYP + FTYP + tree(stco(16)) + MDAT, {88: 1_236})
    other = provenance_box(b"merkle\0" + bytes(9))
    yield row("a C2PA box of another purpose", EMBEDDED, FTYP + other + tree(stco(16)), {72 + len(other): 1_236})
    yield from open_rows()
    yield from passing_rows()


def open_rows():
    """Last boxes that state no size and run to the end, which stay last."""
    yield row("a last `mdat` that runs to the end", EMBEDDED, film(stco(84), behind=bytes(4) + MDAT[4:]), {72: 1_304})
    yield row("a last `moov` that runs to the end", EMBEDDED, FTYP + MDAT + bytes(4) + tree(stco(24))[4:], {81: 1_244})
    yield row("a file type box that runs to the end", "build OpenBox 0", bytes(4) + FTYP[4:])


def passing_rows():
    """What isn't looked at."""
    odd = stco(16, count=9)
    beside = lambda kinds, *more: FTYP + tree(*more, kinds=kinds) + MDAT
    yield row("a table in `udta`", EMBEDDED, beside((b"moov",), box(b"udta", odd) + tree(stco(16), kinds=TREE[1:])), {72 + 8 + len(odd): 1_236})
    yield row("a whole tree in `udta`", EMBEDDED, beside((b"moov", b"udta"), tree(stco(16))))
    steps = box(b"moov", odd + box(b"trak", odd + box(b"mdia", odd + box(b"minf", odd))))
    yield row("a table at each step of the path but the last", EMBEDDED, FTYP + odd + steps)
    yield row("a table in another list", EMBEDDED, beside((*TREE[:4], b"dinf"), odd))
    yield row("a path whose steps stand in another order", EMBEDDED, beside((b"moov", b"mdia", b"trak", b"minf", b"stbl"), odd))
    yield row("another table of the list", EMBEDDED, film(box(b"stsz", bytes(3)) + stco(16)), {83: 1_236})
    yield row("a `saio` that stands in no `stbl`", EMBEDDED, FTYP + box(b"saio", b"") + beside(TREE[:4], box(b"saio", bytes(8)))[16:])
    yield row("a `meta` below the root", EMBEDDED, beside((b"moov",), box(b"meta", b"") + box(b"udta", box(b"meta", b"x")) + box(b"moof", b"")))
    others = box(b"edts", b"x") + box(b"udta", bytes(4))
    yield row("a box off the path that isn't a list", EMBEDDED, beside((b"moov",), others + tree(stco(16), kinds=TREE[1:])), {93: 1_236})
    empty = box(b"moov", box(b"trak", b"") + box(b"trak", box(b"mdia", box(b"minf", b""))))
    yield row("steps without boxes", EMBEDDED, FTYP + empty + box(b"moov", b"") + tree())
    elsewhere = box(b"dinf", box(b"dref", bytes(7) + b"\1" + box(b"url ", bytes(4) + b"http://x\0")))
    yield row("an entry of `dref` that names another file", EMBEDDED, beside(TREE[:4], elsewhere + box(b"stbl", stco(16))), {117: 1_236})


def place_rows():
    """Places around the end of the file type box, around the end of the file, and around the most that a field takes."""
    yield row("the byte before the end of the file type box, and the end", EMBEDDED, film(stco(0, 15, 16, 17)), {72: 0, 76: 15, 80: 1_236, 84: 1_237})
    yield row("the same in eight bytes", EMBEDDED, film(co64(0, 15, 16)), {72: 0, 80: 15, 88: 1_236})
    behind = {72: 1_292, 76: 1_296, 80: 1_317, 84: 1_318, 88: 1_001_220}
    yield row("places in a table, and behind the end of the file", EMBEDDED, film(stco(72, 76, 97, 98, 1_000_000)), behind)
    for alg, more in LONGER.items():
        length = LENGTH + 3 * more
        given = definition(alg=alg)
        most = 2**32 - 1 - length
        yield row(f"the most that four bytes take, by {alg}", built(alg=alg), film(stco(most)), {72: 2**32 - 1}, given)
        yield row(f"one more by {alg}", "build Overflow 72", film(stco(most + 1)), (), given)
        wide = film(co64(2**64 - 1 - length, 2**32 - length))
        yield row(f"the most that eight bytes take, by {alg}", built(alg=alg), wide, {72: 2**64 - 1, 80: 2**32}, given)
        yield row(f"one more in eight bytes by {alg}", "build Overflow 80", film(co64(16, 2**64 - length)), (), given)
    yield row("the greatest place of four bytes", "build Overflow 72", film(stco(2**32 - 1)))
    yield row("the greatest place of eight bytes", "build Overflow 72", film(co64(2**64 - 1)))
    yield row("the first of two that don't fit", "build Overflow 76", film(stco(16, 2**32 - 1, 2**32 - 2)))
    yield row("the first in the order of the file", "build Overflow 80", film(co64(16, 2**64 - 1), stco(2**32 - 1)))
    yield row("the first of two tracks", "build Overflow 72", FTYP + tree(stco(2**32 - 1)) + tree(stco(2**32 - 1)))
    yield row("one that would fit eight bytes", "build Overflow 72", film(stco(2**32 - 1_220), co64(2**32)))


def table_refusals():
    """Tables that haven't their form: all are the first in the list, at place 56."""
    bad = "build BadTable 56"
    yield row("a place less than the table says", bad, film(stco(84, count=2)))
    yield row("a place more", bad, film(stco(84, 85, count=1)))
    yield row("a byte more", bad, film(stco(84, more=b"\0")))
    yield row("four bytes more in a table of eight", bad, film(co64(84, more=bytes(4))))
    yield row("places of four bytes in a table of eight", bad, film(box(b"co64", bytes(7) + b"\1" + bytes(4))))
    yield row("more places than a file has", bad, film(stco(84, count=2**32 - 1)))
    yield row("more places of eight bytes than a file has", bad, film(co64(84, count=2**32 - 1)))
    yield row("places without their number", bad, film(stco(84, count=0)))
    for length in 0, 3, 4, 7:
        yield row(f"a table of {length} bytes", bad, film(box(b"stco", bytes(length))))
    yield row("a table that has a header of eight bytes of length", bad, film(stco(84, count=0, wide=True)))
    yield row("a second table", "build BadTable 76", film(stco(84), co64(84, count=0)))


def tree_refusals():
    """A box of the path whose payload isn't a list of boxes."""
    for at, kind in enumerate(TREE):
        place = END + 8 * at
        odd = box(kind, stco(16) + b"\0" if kind == b"stbl" else tree(stco(16), kinds=TREE[at + 1 :]) + b"\0")
        yield row(f"a byte behind the boxes of `{kind.decode()}`", f"build BadTree {place}", FTYP + tree(odd, kinds=TREE[:at]) + MDAT)
        open_end = tree(box(kind, bytes(4) + b"free"), kinds=TREE[:at])
        yield row(f"a box in `{kind.decode()}` that runs to its end", f"build BadTree {place}", FTYP + open_end + MDAT)
    inside = lambda more: FTYP + tree(more, kinds=TREE[:2]) + MDAT
    yield row("a box that ends behind its parent", "build BadTree 24", inside(b"\0\0\0\x09free"))
    yield row("a box that is too short", "build BadTree 24", inside(b"\0\0\0\7free"))
    yield row("a header that is cut", "build BadTree 24", inside(b"\0\0\0\1free" + bytes(7)))
    yield row("a user's box without all of its type", "build BadTree 24", inside(box(b"uuid", bytes(15))))
    yield row("a user's box with it", EMBEDDED, inside(box(b"uuid", bytes(16))))
    yield row("an open last `moov` that isn't a list", "build BadTree 25", FTYP + MDAT + bytes(4) + b"moov" + b"\0")


def other_refusals():
    """Boxes that tell places in other ways."""
    for kind in "moof", "mfra", "meta":
        yield row(f"a last root box `{kind}`", "build OffsetTable 85", QUESTIONED + box(kind.encode(), b""))
        yield row(f"a root box `{kind}` between others", "build OffsetTable 16", FTYP + box(kind.encode(), b"x") + tree(stco(84)))
    yield row("the first of two of them", "build OffsetTable 85", QUESTIONED + box(b"mfra", b"") + box(b"moof", b""))
    yield row("a picture in HEIC", "build OffsetTable 16", box(b"ftyp", b"heic" + bytes(4)) + box(b"meta", bytes(4)) + MDAT)
    yield row("a `saio` among the tables", "build OffsetTable 76", film(stco(84), box(b"saio", bytes(8))))
    yield row("a `saio` alone", "build OffsetTable 56", film(box(b"saio", b"")))


def media_refusals():
    yield row("a JPEG", "build NotBmff", SMALL)
    yield row("a JPEG with a store", "build NotBmff", Jpeg(b"\xff\xd8" + APP0).file([Manifest("m", DataHash())]))
    yield row("a JPEG that has ftyp at byte 4", "build NotBmff", b"\xff\xd8\xff\xfeftyp" + bytes(0x6674 - 4) + b"\xff\xd9")
    yield row("a film with its store at the end", "build HasStore", signed(FILM))
    yield row("a film with its store in front", "build HasStore", film_in_front())
    yield row("a film with a store in front of a table of chunks", "build HasStore", film_with_table())
    yield row("a film that was changed behind its store", "build HasStore", changed(signed(FILM), 24))
    yield row("a film with a store by a data hash", "build HasStore", Bmff(FTYP, MDAT).file([Manifest("m", DataHash())]))
    yield row("an empty file", "build MediaRefused NotMedia 0", b"")
    yield row("a JPEG cut short", "build MediaRefused Truncated 2", b"\xff\xd8")
    yield row("a film cut short", "build MediaRefused Truncated 84", QUESTIONED[:-1])
    yield row("a bad box", "build MediaRefused BadBox 16", FTYP + b"\0\0\0\7mdat")
    yield row("a C2PA box with a version", "build MediaRefused BadProvenanceBox 16", FTYP + provenance_box(b"manifest\0", b"\1\0\0\0"))
    empty = superbox(b"c2pa", "c2pa")
    yield row("a film with a store without a manifest", "build MediaRefused NoManifest 0", Bmff(FTYP, MDAT).around(empty))
    yield row("a JPEG with one", "build MediaRefused NoManifest 0", Jpeg().around(empty))
    yield row("a file of 2^62 bytes", f"build MediaRefused FileTooLarge {2**62}", Vast(b"", 2**62))


def signed(media):
    """A film with a store at its end, as `embed` builds it."""
    return builder.embed(media, DEFINITION, MESSAGE)[0]


def definition_rows():
    """Definitions and messages, which are those of `embed`."""
    yield row("a title and another label", "embedded 16 1232", QUESTIONED, {72: 1_316}, definition(title="ä", label=LABEL[:-1] + "7"))
    yield row("no assertions", "embedded 16 1044", QUESTIONED, {72: 1_128}, definition(assertions=...))
    yield row("a reserve that the message fills", "embedded 16 1038", QUESTIONED, {72: 1_122}, with_reserve(74))
    for reserve, needed in (73, 74), (75, 79), (78, 79):
        yield row(f"a reserve of {reserve}", f"build ReserveTooSmall {needed}", QUESTIONED, (), with_reserve(reserve))
    yield row("an empty object", "build BadDefinition label", QUESTIONED, (), b"{}")
    yield row("a key more", "build BadDefinition other", QUESTIONED, (), definition(comment=""))
    yield row("an algorithm that isn't known", "build BadDefinition alg", QUESTIONED, (), definition(alg="md5"))
    yield row("no message", "build BadSignature form", QUESTIONED, (), DEFINITION, b"")
    yield row("another protected header", "build BadSignature protected", QUESTIONED, (), DEFINITION, message(protected=b"\xa0"))
    for entry, code in (
        ("x", "profile.redaction.uri"),
        (target(LABEL, "test.note"), "assertion.selfRedacted"),
        (target("m", "c2pa.actions"), "assertion.action.redacted"),
        (target("m", "c2pa.hash.data"), "profile.redaction.binding"),
        (target("m", "c2pa.ingredient"), "unsupported.redactIngredient"),
        (target("m", "test.note"), "profile.redaction.target"),
    ):
        yield row(f"a redaction: {code}", f"build RedactionRefused {entry} {code}", QUESTIONED, (), with_redactions(entry))


# Media with two causes of a refusal, for the order of these.
ENTRY = f"{URL}m{ASSERTIONS}a"
REDACTING, REDACTED = with_redactions(ENTRY), f"build RedactionRefused {ENTRY} profile.redaction.target"
OPEN = bytes(4) + FTYP[4:]
OVERFLOWING = film(stco(2**32 - 1))


def vast(*tables, size=LARGEST_FILE):
    """A film that is as long as a file may be, of zeros behind its front."""
    inner = FTYP + tree(*tables)
    return Vast(inner + b"\0\0\0\1mdat" + (size - len(inner)).to_bytes(8, "big"), size)


def order_rows():
    """Two causes in one row: the answer is the earlier one's."""
    yield row("media before definition", "build MediaRefused NotMedia 0", b"", (), b"{}")
    yield row("the store's manifests before the definition", "build MediaRefused NoManifest 0", Bmff(FTYP, MDAT).around(superbox(b"c2pa", "c2pa")), (), b"{}")
    yield row("definition before message", "build BadDefinition label", QUESTIONED, (), b"{}", b"")
    yield row("definition before a JPEG", "build BadDefinition label", SMALL, (), b"{}")
    yield row("message before a JPEG", "build BadSignature form", SMALL, (), DEFINITION, b"")
    yield row("definition before a store", "build BadDefinition label", signed(FILM), (), b"{}")
    yield row("message before a store", "build BadSignature form", signed(FILM), (), DEFINITION, b"")
    yield row("message before an open file type box", "build BadSignature form", OPEN, (), DEFINITION, b"")
    yield row("a JPEG before redactions", "build NotBmff", SMALL, (), REDACTING)
    yield row("a store before redactions and tables", "build HasStore", signed(FILM) + box(b"meta", b""), (), REDACTING)
    yield row("an open file type box before redactions", "build OpenBox 0", OPEN, (), REDACTING)
    yield row("an open file type box before the reserve", "build OpenBox 0", OPEN, (), with_reserve(64))
    yield row("redactions before other tables", REDACTED, QUESTIONED + box(b"meta", b""), (), REDACTING)
    yield row("redactions before tables", REDACTED, film(stco(84, count=2)), (), REDACTING)
    yield row("redactions before the reserve", REDACTED, QUESTIONED, (), definition(redact=[ENTRY], reserve=64))
    yield row("root boxes before the tree", "build OffsetTable 16", FTYP + box(b"meta", b"") + box(b"moov", b"x"))
    yield row("root boxes behind the tree before it", "build OffsetTable 25", FTYP + box(b"moov", b"x") + box(b"mfra", b""))
    yield row("a table before a tree behind it", "build BadTable 56", FTYP + tree(stco(84, count=2)) + box(b"moov", b"x"))
    yield row("a tree before a table behind it", "build BadTree 16", FTYP + box(b"moov", b"x") + tree(stco(84, count=2)))
    yield row("a list before what is in it", "build BadTree 48", film(stco(84, count=2), b"\0"))
    tracks = tree(stco(16), b"x", kinds=(b"trak",)) + tree(stco(16, count=2), kinds=TREE[1:])
    yield row("a track before the one behind it", "build BadTree 24", FTYP + box(b"moov", tracks))
    yield row("a table before a `saio`", "build BadTable 56", film(stco(84, count=2), box(b"saio", b"")))
    yield row("a `saio` before a table", "build OffsetTable 56", film(box(b"saio", b""), stco(84, count=2)))
    yield row("tables before places that don't fit", "build BadTable 76", film(stco(2**32 - 1), stco(84, count=2)))
    yield row("tables before the reserve", "build BadTable 56", film(stco(84, count=2)), (), with_reserve(64))
    yield row("tables before the file's length", "build BadTable 56", vast(stco(84, count=2)))
    yield row("the file's length", f"build MediaRefused FileTooLarge {LARGEST_FILE + 1_220}", vast(stco(84)))
    yield row("the same by one byte", f"build MediaRefused FileTooLarge {LARGEST_FILE + 1}", vast(stco(84), size=LARGEST_FILE + 1 - LENGTH))
    yield row("the file's length before places that don't fit", f"build MediaRefused FileTooLarge {LARGEST_FILE + 1_220}", vast(stco(2**32 - 1)))
    yield row("the file's length before the reserve", f"build MediaRefused FileTooLarge {LARGEST_FILE + 1_220 - 192}", vast(stco(84)), (), with_reserve(64))
    yield row("places that don't fit before the reserve", "build Overflow 72", OVERFLOWING, (), with_reserve(64))
    yield row("places that fit by the reserve's length", "build ReserveTooSmall 74", film(stco(2**32 - LENGTH)), (), with_reserve(64))


def large_rows():
    """Films of as many root boxes as there may be."""
    many = FTYP + tree(stco(16)) + box(b"free", b"") * (MOST_ROOT_BOXES - 2)
    yield row("a root box more than there may be", "build MediaRefused TooManyBoxes 1048576", many)
    yield row("root boxes before places that don't fit", "build MediaRefused TooManyBoxes 1048576", OVERFLOWING + box(b"free", b"") * (MOST_ROOT_BOXES - 3))
    other = FTYP + tree(stco(16)) + box(b"meta", b"") + box(b"free", b"") * (MOST_ROOT_BOXES - 3)
    yield row("a box that is refused before root boxes", "build OffsetTable 76", other)
    yield row("as many root boxes as there may be", EMBEDDED, many[:-8], {72: 1_236})


GROUPS = (
    table_rows,
    place_rows,
    table_refusals,
    tree_refusals,
    other_refusals,
    media_refusals,
    definition_rows,
    order_rows,
)


# What a new file must be


def fields_of(contents):
    """Places and widths of the fields of chunk tables, found by the paths that a BMFF hash has."""
    paths = Paths(contents, root_boxes(contents))
    for kind, width in WIDTHS.items():
        for found in paths.boxes((*((step, None) for step in TREE), (kind, None))):
            yield from ((at, width) for at in range(found.inside + 8, found.end, width))


def wrong_in(media, made, planned):
    """What isn't as it must be in a new file: made are its bytes, and start and length of its new box; planned is the answer of `plan-front`."""
    contents, start, length = made
    found = media_of(contents)
    if (found.start, found.length, start) != (start, length, root_boxes(media)[0].end):
        yield f"the store stands at {found.start}, {found.length} bytes"
    said = report("validate", contents, [judge := Approving()])[0]
    if not said.startswith("valid manifests=1 ") or judge.asked != 1:
        yield f"{said}, asked {judge.asked} times"
    if planned != ("tbs", signed_bytes(found.store)):
        yield f"{line_of(planned)[0][:100]} was to be signed"
    yield from wrong_places(media, contents[:start] + contents[start + length :], start, length, contents)


def signed_bytes(store):
    """The Sig_structure (RFC 9052, section 4.4) of a store's last manifest."""
    read = Read(store, manifests_of(jumbf.read(store))[-1])
    members = ("text", "Signature1"), ("bytes", read.sign.protected), ("bytes", b""), ("bytes", read.claim.encoded)
    return cbor.encode(("list", members))


def wrong_places(media, rest, start, length, contents):
    """What isn't as it must be in the fields of chunk tables, and elsewhere: a place behind the new box finds the byte that it found, unless that is
    one of a field."""
    fields = list(fields_of(media))
    inside = {place for at, width in fields for place in range(at, at + width)}
    others = [at for at in range(len(media)) if media[at] != rest[at] and at not in inside] if media != rest else []
    if len(rest) != len(media) or others:
        yield f"other bytes at {others[:5]}"
    for at, width in fields:
        old, new = (int.from_bytes(each[at : at + width], "big") for each in (media, rest))
        if new != old + length * (old >= start):
            yield f"the field at {at} says {new} in place of {old}"
        elif start <= old < len(media) and old not in inside and contents[new] != media[old]:
            yield f"the field at {at} finds another byte"


def told_fields(media, made):
    """What a new file has in the fields of its chunk tables, by their places in the media."""
    contents, start, length = made
    rest = contents[:start] + contents[start + length :]
    return {at: int.from_bytes(rest[at : at + width], "big") for at, width in fields_of(media)}


class Computed:
    """A row with what front.py says."""

    def __init__(self, each):
        self.row = each
        self.planned = front.plan(each.media, each.definition)
        self.embedded = front.embed(each.media, each.definition, each.message)
        self.line, self.status = line_of(self.embedded)
        self.new = self.embedded[0] if isinstance(self.embedded[0], bytes) else None

    def differences(self):
        """What of the row isn't as it is written by hand, or as it must be."""
        if self.line != self.row.known:
            yield f"{self.line}, not {self.row.known}"
        if self.new is not None:
            yield from wrong_in(self.row.media, self.embedded, self.planned)
            if (told := told_fields(self.row.media, self.embedded)) != dict(self.row.fields):
                yield f"the fields {told}, not {self.row.fields}"
        elif line_of(self.planned)[0] != self.line and not self.line.startswith(("build BadSignature", "build ReserveTooSmall")):
            yield f"{line_of(self.planned)[0][:60]} is planned"


def rows():
    return (each for group in GROUPS for each in group())


def requested():
    """What of the first row is known beside its answer."""
    contents, _, _ = front.embed(QUESTIONED, DEFINITION, MESSAGE)
    _, tbs = front.plan(QUESTIONED, DEFINITION)
    facts = {
        "the media": (len(QUESTIONED), QUESTIONED[56:76].hex(), 85, "000000147374636f000000000000000100000054"),
        "the new file": (contents, contents[1_304:], film_with_table(), b"A"),
        "to be signed": (len(tbs.hex()), tbs.hex()[:40], 750, "846a5369676e61747572653143a1012640590163"),
        "validated": (report("validate", contents, [Approving()])[0], 0, "valid manifests=1 assertions=2 covered=69 outside=16", 0),
    }
    return [what for what, (*found, one, other) in facts.items() if found != [one, other]]


def check(large):
    answers, wrong = Counter(), [f"DIFFERS {what}" for what in requested()]
    for each in large_rows() if large else rows():
        computed = Computed(each)
        answers[" ".join(computed.line.split()[: 3 if "MediaRefused" in computed.line or "BadDefinition" in computed.line else 2])] += 1
        wrong += [f"{each.what}: {difference}" for difference in computed.differences()]
    for line in wrong:
        print(line)
    for kind, times in sorted(answers.items()):
        print(f"{times:4} {kind}")
    print(f"{sum(answers.values())} rows, {len(wrong)} differences")
    return 1 if wrong else 0


def main():
    command, *more = sys.argv[1:]
    if command != "check":
        raise SystemExit(__doc__)
    return check(more == ["large"])


if __name__ == "__main__":
    sys.exit(main())
