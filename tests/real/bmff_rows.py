#!/usr/bin/env python3
"""Small BMFF files and what c2 must print of each, written by hand from the formats; store.py must come to the same.

    bmff_rows.py [C2]      asks store.py, and C2 where it is given; tells what differs

A row has what it shows, a file, a command and the line that it prints. A judge approves all questions.
"""

import hashlib
import os
import subprocess
import sys
import tempfile

import store
from bmff import MOST_ROOT_BOXES, PROVENANCE, Exclusion, covered_parts, covered_text, read_path, root_boxes
from built_films import built_rows
from cbor import read_whole
from chance_stores import questions_in
from drafts import ALL_EXCLUDED, Assertion, Bmff, BmffHash, DataHash, Manifest, exclusion, provenance_box, subset, tested
from locate import LARGEST_STORE
from make_store import NULL, array, box, data, mapping, text, uint

FTYP = bytes.fromhex("00000010 66747970 69736F6D 00000000")
MDAT = bytes.fromhex("00000009 6D646174 41")
FREE = bytes.fromhex("00000008 66726565")
# A store of one manifest `m` without boxes.
STORE = bytes.fromhex(
    "00000049 6A756D62 0000001E 6A756D64 63327061 00110010800000AA00389B71 03 6332706100"
    "00000023 6A756D62 0000001B 6A756D64 63326D61 00110010800000AA00389B71 03 6D00"
)
BINDING = "self#jumbf=/c2pa/m/c2pa.assertions/c2pa.hash.bmff.v2"


def changed(contents, place, more):
    return contents[:place] + more + contents[place + len(more) :]


# Root boxes


def root_rows():
    """What, file, and what each reading command prints."""
    film = FTYP + MDAT
    yield "a film without a store", film, "none"
    yield "one that is cut in the header of a box", film[:23], "refused Truncated 23"
    yield "one that is cut in a box", film[:24], "refused Truncated 24"
    yield "no bytes", b"", "refused NotMedia 0"
    yield "seven bytes", FTYP[:7], "refused NotMedia 0"
    yield "another first type", changed(film, 4, b"styp"), "refused NotMedia 0"
    yield "no more than a header", box(b"ftyp", b""), "none"
    yield "a first box that runs to the end", changed(film, 0, bytes(4)), "none"
    yield "a first box with a length in 8 bytes", box(b"ftyp", b"", wide=True), "none"
    yield "a first box that says that its length follows", box(b"ftyp", b"", wide=True)[:15], "refused Truncated 15"
    yield "a picture that begins as a JPEG does", b"\xff\xd8\xff\xd9ftyp", "none"
    for size in 2, 7:
        yield f"a size of {size}", changed(film, 16, size.to_bytes(4, "big")), "refused BadBox 16"
    for size in 0, 8, 15:
        yield f"a size of {size} in 8 bytes", FTYP + changed(box(b"mdat", b"", wide=True), 8, size.to_bytes(8, "big")), "refused BadBox 16"
    yield "the greatest size", FTYP + b"\0\0\0\1mdat" + b"\xff" * 8, "refused Truncated 32"
    yield "a size of a byte too many", FTYP + changed(MDAT, 3, b"\x0a"), "refused Truncated 25"
    yield "a length in 8 bytes", FTYP + box(b"mdat", b"A", wide=True), "none"
    yield "fifteen bytes of a header of 16", FTYP + box(b"mdat", b"", wide=True)[:15], "refused Truncated 31"
    yield "a box that runs to the end", FTYP + changed(MDAT, 0, bytes(4)), "none"
    yield "a byte behind the last box", film + b"\0", "refused Truncated 26"
    yield "a user's box without all of its type", FTYP + box(b"uuid", bytes(15)), "refused BadBox 16"
    yield "a wide one", FTYP + box(b"uuid", bytes(15), wide=True), "refused BadBox 16"
    yield "one that runs to the end", FTYP + b"\0\0\0\0uuid" + bytes(15), "refused BadBox 16"
    yield "one that is cut as well", FTYP + box(b"uuid", bytes(15))[:-1], "refused Truncated 38"
    yield "one of another user", FTYP + box(b"uuid", bytes(16)), "none"


# The C2PA box


def box_rows():
    """What, file, and what each reading command prints."""
    bad = "refused BadProvenanceBox 16"
    file = lambda content, version=bytes(4): FTYP + provenance_box(content, version) + MDAT
    held = lambda store_bytes: file(b"manifest\0" + bytes(8) + store_bytes)
    yield "three bytes of content", FTYP + provenance_box(b"", bytes(3)), bad
    yield "no content", FTYP + provenance_box(b"", b""), bad
    yield "a version of 1", file(b"manifest\0" + bytes(8) + STORE, b"\1\0\0\0"), bad
    yield "flags", file(b"merkle\0", b"\0\0\0\1"), bad
    yield "no purpose", file(b""), "none"
    yield "a purpose that is cut", file(b"manifest"), "none"
    yield "another purpose", file(b"merkle\0" + bytes(8) + STORE), "none"
    yield "a longer purpose", file(b"manifests\0" + bytes(8) + STORE), "none"
    yield "no offset", file(b"manifest\0"), bad
    yield "seven bytes of an offset", file(b"manifest\0" + bytes(7)), bad
    yield "no store", held(b""), bad
    yield "seven bytes of a store", held(STORE[:7]), bad
    for size in 0, 2, 7:
        yield f"a store of size {size}", held(changed(STORE, 0, size.to_bytes(4, "big"))), bad
    yield "fifteen bytes of a wide header", held(box(b"jumb", b"", wide=True)[:15]), bad
    yield "a wide header that says 15", held(changed(box(b"jumb", b"", wide=True), 8, (15).to_bytes(8, "big"))), bad
    yield "a store that ends behind its box", held(STORE[:-1]), bad
    yield "a store of a length behind every end", held(b"\0\0\0\1jumb" + b"\xff" * 8), bad
    good = provenance_box(b"manifest\0" + bytes(8) + STORE)
    yield "two stores", FTYP + good + MDAT + good, f"refused TwoStores {16 + len(good) + 9}"
    yield "a second without a store", FTYP + good + provenance_box(b"manifest\0"), f"refused TwoStores {16 + len(good)}"
    second = FTYP + good + provenance_box(b"manifest\0", b"\0\0\0\1")
    yield "a second of another version", second, f"refused BadProvenanceBox {16 + len(good)}"
    yield "a bad box before one that is cut", FTYP + provenance_box(b"", b"") + MDAT[:-1], "refused Truncated 48"
    yield "a store inside another box", FTYP + box(b"moov", good), "none"
    yield "a store in a box that runs to the end", FTYP + b"\0\0\0\0mdat" + good, "none"


def large_rows():
    """Boxes and stores at the limits: what, file, and what `digest` prints."""
    most = FTYP + FREE * (MOST_ROOT_BOXES - 1)
    yield "as many boxes as there may be", most, "none"
    yield "and a byte", most + b"\0", "refused TooManyBoxes 1048576"
    yield "and one box", most + FREE, "refused TooManyBoxes 1048576"
    for length in LARGEST_STORE, LARGEST_STORE + 1:
        file = FTYP + provenance_box(b"manifest\0" + bytes(8) + length.to_bytes(4, "big") + b"free" + bytes(length - 8))
        told = f"16 33554477 {hashlib.sha256(FTYP).hexdigest()}" if length == LARGEST_STORE else "refused StoreTooLarge 33554433"
        yield f"a store of {length} bytes", file, told


def store_rows():
    """What, file, command, and what it prints."""
    digest = hashlib.sha256(FTYP + MDAT).hexdigest()
    listed = "1 0 73 6a756d62 c2pa\n2 8 30 6a756d64 -\n2 38 35 6a756d62 m\n3 46 27 6a756d64 -"
    shown = '{"active":"m","manifests":[{"boxes":[],"claim":null,"label":"m","update":false}]}'
    good = Bmff(FTYP, MDAT).around(STORE)
    for command, told in (
        ("digest", f"16 118 {digest}"),
        ("list", listed),
        ("show", shown),
        ("questions", "- m none"),
        ("validate", "failing claim.missing self#jumbf=/c2pa/m"),
    ):
        yield "a store with a manifest without boxes", good, command, told
    yield "a wide C2PA box", Bmff(FTYP, MDAT, wide=True).around(STORE), "digest", f"16 126 {digest}"
    yield "any offset", Bmff(FTYP, MDAT, offset=b"\xff" * 8).around(STORE), "list", listed
    yield "padding behind the store", Bmff(FTYP, MDAT, padding=b"\1\2\3").around(STORE), "digest", f"16 121 {digest}"
    yield "the same, listed", Bmff(FTYP, MDAT, padding=b"\1\2\3").around(STORE), "list", listed
    last = Bmff(FTYP + MDAT).around(STORE)
    yield "behind the film", last, "digest", f"25 118 {digest}"
    yield "in a box that runs to the end", changed(last, 25, bytes(4)), "digest", f"25 118 {digest}"
    other = provenance_box(b"merkle\0" + bytes(4))
    yield "beside a box of another purpose", good + other, "digest", f"16 118 {hashlib.sha256(FTYP + MDAT + other).hexdigest()}"
    leaf = Bmff(FTYP, MDAT).around(box(b"free", b""))
    yield "a store that is no superbox", leaf, "list", "1 0 8 66726565 -"
    yield "the same, validated", leaf, "validate", "refused NotStore 0"
    empty = Bmff(FTYP, MDAT).around(box(b"jumb", b""))
    yield "an empty superbox", empty, "list", "refused NoDescription 0"
    yield "its digest", empty, "digest", f"16 53 {digest}"


# Paths


def path_rows():
    """A text, and the steps of the path that it is."""
    yield "/free", ((b"free", None),)
    yield "/moov/trak[1]", ((b"moov", None), (b"trak", 1))
    yield "/moov[2]/trak", ((b"moov", 2), (b"trak", None))
    yield "/free[1048576]", ((b"free", 1_048_576),)
    yield "/a]\n\x7f", ((b"a]\n\x7f", None),)
    yield "/1234[12]", ((b"1234", 12),)
    yield "/[1]]", None
    for none in "", "/", "free", "//free", "/free/", "/fre", "/frees", "/fr[e", "/fr\xe9e", "/free/tra", "/free\n":
        yield none, None
    for number in "[]", "[0]", "[01]", "[1", "[1]x", "[1048577]", "[-1]", "[+1]", "[ 1]", "[1][2]", "[\u0661]", "1]":
        yield f"/free{number}", None


# Covered texts


MOST = (1 << 64) - 1


def film_cover_rows():
    """What, file, exclusions, and the covered text in hex, for the film of two boxes."""
    film, mdat, ftyp = FTYP + MDAT, "0000000000000010 000000096D64617441", "0000000000000000 00000010 66747970 69736F6D 00000000"
    yield "nothing excluded", film, [], ftyp + mdat
    yield "a box excluded", film, [exclusion("/ftyp")], mdat
    rest = exclusion("/mdat", subset((8, 0)))
    yield "the rest of a box besides", film, [exclusion("/ftyp"), rest], "0000000000000010 000000096D646174"
    yield "all of a box by its rest", film, [exclusion("/ftyp"), exclusion("/mdat", subset((0, 0)))], ""
    wide, open_end = FTYP + box(b"mdat", b"A", wide=True), FTYP + changed(MDAT, 0, bytes(4))
    yield "a length in 8 bytes", wide, [exclusion("/ftyp")], "0000000000000010 000000016D646174 0000000000000011 41"
    yield "a box that runs to the end", open_end, [exclusion("/ftyp")], "0000000000000010 000000006D64617441"
    for nth, left in (1, ""), (2, mdat), (1_048_576, mdat):
        yield f"box {nth} of a type", film, [exclusion("/ftyp"), exclusion(f"/mdat[{nth}]")], left
    at_end = lambda *test: [exclusion("/ftyp"), exclusion("/mdat", tested(*test))]
    yield "a test that holds", film, at_end((4, b"mdatA")), ""
    yield "a test that doesn't", film, at_end((4, b"mdatB")), mdat
    yield "a test that ends behind the box", film, at_end((4, b"mdatAA")), mdat
    yield "one that would hold in the next box", FTYP + FREE + MDAT, [exclusion("/free", tested((8, MDAT[:4])))], ftyp + (
        "0000000000000010 0000000866726565 0000000000000018 000000096D64617441"
    )
    yield "an empty test at the end", film, at_end((9, b"")), ""
    yield "an empty test behind it", film, at_end((10, b"")), mdat
    yield "a test at the greatest offset", film, at_end((MOST, b"A")), mdat
    yield "two tests of which one holds", film, at_end((8, b"A"), (8, b"B")), mdat
    yield "no tests", film, [exclusion("/ftyp"), exclusion("/mdat", ("data", array()))], ""
    yield "tests that are null", film, [exclusion("/ftyp"), exclusion("/mdat", ("data", NULL))], ""
    yield "its length", film, [exclusion("/ftyp"), exclusion("/mdat", ("length", uint(9)))], ""
    yield "the length of its payload", film, [exclusion("/ftyp"), exclusion("/mdat", ("length", uint(1)))], mdat
    yield "the length of a box that says none", open_end, [exclusion("/ftyp"), exclusion("/mdat", ("length", uint(9)))], ""


def part_cover_rows():
    """The same for parts of a box: its four bytes of size, four of type, and `A` are covered or not."""
    film, at = FTYP + MDAT, "0000000000000010 "
    parts = lambda *given: [exclusion("/ftyp"), exclusion("/mdat", subset(*given))]
    yield "a byte", film, parts((3, 1)), at + "0000006D64617441"
    yield "a part that is longer than the box", film, parts((4, MOST)), at + "00000009"
    yield "a part behind the box", film, parts((9, 1), (9, 0), (MOST, MOST)), at + "000000096D64617441"
    yield "parts in no order, over each other", film, parts((6, 2), (0, 1), (5, 2), (6, 0)), at + "0000096D"
    yield "parts side by side", film, parts((0, 4), (4, 4)), at + "41"
    yield "parts that are all of it", film, parts((4, 0), (0, 4)), ""
    two = [exclusion("/ftyp"), exclusion("/mdat", subset((0, 4))), exclusion("/mdat", subset((8, 1)))]
    yield "parts of two exclusions", film, two, at + "6D646174"
    both = exclusion("/mdat", subset((0, 1)), tested((8, b"B"))), exclusion("/mdat", subset((8, 0)), ("length", uint(9)))
    yield "parts where a test holds", film, [exclusion("/ftyp"), *both], at + "000000096D646174"


def child_cover_rows():
    """The same for boxes in boxes."""
    first, second = box(b"trak", box(b"tkhd", b"1")), box(b"trak", box(b"tkhd", b"2") + box(b"tkhd", b"3"))
    moov = box(b"moov", first + FREE + second)
    film, at, head = moov, "0000000000000000 ", moov[:8].hex()
    tkhd = lambda byte: box(b"tkhd", byte).hex()
    trak, trak_2, free = first[:8].hex(), second[:8].hex(), FREE.hex()
    yield "a type in a box", film, [exclusion("/moov/trak")], at + head + free
    yield "the second of its type, behind one of another", film, [exclusion("/moov/trak[2]")], at + head + first.hex() + free
    each = at + head + trak + free + trak_2 + tkhd(b"3")
    yield "the first in each", film, [exclusion("/moov/trak/tkhd[1]")], each
    left = at + head + first.hex() + free + trak_2 + tkhd(b"2")
    yield "the second in each", film, [exclusion("/moov/trak/tkhd[2]")], left
    yield "one in the second", film, [exclusion("/moov/trak[2]/tkhd[1]")], at + head + first.hex() + free + trak_2 + tkhd(b"3")
    longer = exclusion("/moov/trak[1]", subset((4, 9), (8, MOST)))
    yield "a part that is longer than its box", film, [longer], at + head + trak[:8] + free + second.hex()
    yield "a box inside an excluded one", film, [exclusion("/moov/trak"), exclusion("/moov/trak/tkhd"), exclusion("/moov")], ""
    yield "a type at another depth", film, [exclusion("/trak")], at + film.hex()
    yield "a box behind the deepest", film, [exclusion("/moov/trak/mdia/minf")], at + film.hex()
    for what, payload in (
        ("bytes behind its children", FREE + b"\0"),
        ("a child of size 0", FREE + b"\0\0\0\0free"),
        ("a child that ends behind it", FREE + b"\0\0\0\x09free"),
        ("a user's box without its type", FREE + box(b"uuid", bytes(15))),
        ("a child of size 7", FREE + b"\0\0\0\x07free"),
    ):
        # what would make a last child whole stands behind the box
        odd = box(b"moov", payload) + FREE * 2
        end = len(odd) - 16
        rest = "".join(f"{place:016x}" + free for place in (end, end + 8))
        yield f"a box with {what}", odd, [exclusion("/moov/free"), exclusion("/moov/uuid")], at + odd[:end].hex() + rest
    open_end = changed(moov, 0, bytes(4))
    yield "children of a box that runs to the end", open_end, [exclusion("/moov/trak")], at + "000000006d6f6f76" + free
    wide = box(b"moov", FREE + box(b"trak", b"", wide=True), wide=True)
    yield "children with lengths in 8 bytes", wide, [exclusion("/moov/trak")], at + wide[:16].hex() + free
    yield "an empty box", box(b"moov", b""), [exclusion("/moov/trak")], at + box(b"moov", b"").hex()
    yield "a type that no path enters", box(b"udta", FREE), [exclusion("/udta/free")], at + box(b"udta", FREE).hex()


def cover_rows():
    yield from film_cover_rows()
    yield from part_cover_rows()
    yield from child_cover_rows()


# Items of a BMFF hash


def hash_rows():
    """What, a draft of the binding, and what `validate` prints of the film of two boxes with it."""
    yield from supported_rows()
    yield from form_rows()
    yield from unsupported_rows()


OWN = ALL_EXCLUDED[0]
FORM = f"failing profile.hash.form {BINDING}"


def valid(covered, outside):
    return f"valid manifests=1 assertions=1 covered={covered} outside={outside}"


def made(*exclusions, more=(), alg="sha256"):
    """A binding that excludes the store's box and others."""
    draft = BmffHash([OWN, *exclusions], alg)
    draft.more = list(more)
    return draft


def supported_rows():
    yield "the exclusions that there must be", BmffHash(ALL_EXCLUDED), valid(9, 16)
    yield "the store's box alone", made(), valid(25, 0)
    yield "all boxes", made(exclusion("/ftyp"), exclusion("/mdat")), valid(0, 25)
    yield "other fields", made(more=[("name", uint(1)), ("pad", data(b"x"))]), valid(25, 0)
    yield "a null Merkle map", made(more=[("merkle", NULL)]), valid(25, 0)
    yield "no algorithm", made(alg=None), valid(25, 0)
    yield "a null algorithm", made(alg=None, more=[("alg", NULL)]), valid(25, 0)
    for key in "version", "flags", "exact", "length", "data", "subset":
        yield f"a null {key}", made(exclusion("/ftyp", (key, NULL))), valid(9, 16)
    yield "another field of an exclusion", made(exclusion("/ftyp", ("name", uint(0)))), valid(9, 16)
    yield "1,024 exclusions", made(*[exclusion("/free")] * 1_023), valid(25, 0)
    for entered in "moov trak edts mdia minf dinf stbl mvex moof traf mfra".split():
        yield f"a path through {entered}", made(exclusion(f"/{entered}/meta")), valid(25, 0)
    yield "a number in eight bytes", made(exclusion("/ftyp", ("length", uint(16, 8)))), valid(9, 16)


def form_rows():
    item = lambda *pairs: Assertion("c2pa.hash.bmff.v2", mapping(*pairs))
    with_digest = lambda *pairs: item(("hash", data(bytes(32))), *pairs)
    yield "a list in place of a map", Assertion("c2pa.hash.bmff.v2", array()), FORM
    yield "no exclusions", with_digest(), FORM
    yield "null exclusions", with_digest(("exclusions", NULL)), FORM
    yield "a map of exclusions", with_digest(("exclusions", mapping())), FORM
    yield "no digest", item(("exclusions", array())), FORM
    yield "a digest that is a text", item(("exclusions", array()), ("hash", text("x"))), FORM
    yield "an algorithm that is a number", made(alg=None, more=[("alg", uint(1))]), FORM
    yield "no CBOR", Assertion("c2pa.hash.bmff.v2", b"\xff"), f"failing assertion.cbor.invalid {BINDING}"
    part = lambda *pairs: exclusion("/ftyp", ("subset", array(mapping(*pairs))))
    test = lambda *pairs: exclusion("/ftyp", ("data", array(mapping(*pairs))))
    for what, wrong in (
        ("an exclusion that is no map", array()),
        ("no path", mapping()),
        ("a path that is no text", mapping(("xpath", data(b"/ftyp")))),
        ("a path without its slash", exclusion("ftyp")),
        ("a length that is a text", exclusion("/ftyp", ("length", text("16")))),
        ("a negative length", exclusion("/ftyp", ("length", b"\x20"))),
        ("tests that are no list", exclusion("/ftyp", ("data", mapping()))),
        ("a test that is no map", exclusion("/ftyp", ("data", array(uint(0))))),
        ("a test without a value", test(("offset", uint(0)))),
        ("a test without an offset", test(("value", data(b"")))),
        ("a test of a text", test(("offset", uint(0)), ("value", text("a")))),
        ("an empty subset", exclusion("/ftyp", ("subset", array()))),
        ("a part without a length", part(("offset", uint(0)))),
        ("a part without an offset", part(("length", uint(0)))),
        ("a part from a negative offset", part(("offset", b"\x20"), ("length", uint(1)))),
    ):
        yield what, made(wrong), FORM


def with_another_digest(spelled):
    """The digest is the last field."""
    return spelled[:-1] + bytes([spelled[-1] ^ 1])


def unsupported_rows():
    """Codes of what isn't supported, and which of two faults comes first."""
    failing = lambda code: f"failing {code} {BINDING}"
    free, merkle = exclusion("/free"), [("merkle", array())]
    yield "a Merkle map", made(more=merkle), failing("unsupported.merkle")
    yield "one in an item of another form", made(exclusion("x"), more=merkle), failing("unsupported.merkle")
    for key in "version", "flags", "exact":
        yield f"{key} of an exclusion", made(free, exclusion("/ftyp", (key, uint(0)))), failing("unsupported.exclusionTest")
    for path in "/meta/iloc", "/moov/udta/meta", "/ftyp/free", "/uuid/free", "/free[2]/free":
        yield f"the path {path}", made(exclusion(path)), failing("unsupported.exclusionPath")
    many = failing("unsupported.tooManyExclusions")
    yield "1,025 exclusions", made(*[free] * 1_024), many
    yield "1,025, the last one of another form", made(*[free] * 1_023, mapping()), FORM
    yield "1,025 with flags", made(*[exclusion("/free", ("flags", uint(0)))] * 1_024), many
    both = exclusion("/meta/iloc"), exclusion("/free", ("flags", uint(0)))
    yield "another path before an exclusion with flags", made(*both), failing("unsupported.exclusionTest")
    yield "another path and an unknown algorithm", made(both[0], alg="md5"), failing("unsupported.exclusionPath")
    yield "an unknown algorithm", made(alg="md5"), failing("algorithm.unsupported")
    yield "an unknown algorithm and flags", made(both[1], alg="md5"), failing("unsupported.exclusionTest")
    wrong = made(alg="md5")
    wrong.change = with_another_digest
    yield "an unknown algorithm and another digest", wrong, failing("algorithm.unsupported")
    other = BmffHash(ALL_EXCLUDED)
    other.change = with_another_digest
    yield "another digest", other, failing("assertion.bmffHash.mismatch")
    yield "a BMFF hash of version 3", BmffHash([OWN], label="c2pa.hash.bmff.v3"), failing("unsupported.hashKind")[:-1] + "3"


def holder_rows():
    """What, file, and what `validate` prints: how the store's own box meets the test on its bytes."""
    profile, mismatch = [Manifest("m", BmffHash(ALL_EXCLUDED))], f"failing assertion.bmffHash.mismatch {BINDING}"
    wide = Bmff(FTYP, MDAT, wide=True)
    yield "a store's box whose length has 8 bytes, so that the test meets another place", wide.file(profile), mismatch
    other = [exclusion("/uuid", tested((16, PROVENANCE))), *ALL_EXCLUDED[1:]]
    yield "a test at that place", wide.file([Manifest("m", BmffHash(other))]), valid(9, 16)
    last = Bmff(FTYP + MDAT).file(profile)
    yield "a store's box that runs to the end", changed(last, 25, bytes(4)), valid(9, 16)
    yield "padding behind the store", Bmff(FTYP, MDAT, padding=bytes(9)).file(profile), valid(9, 16)
    user = box(b"uuid", bytes(16) + b"A")
    yield "another user's box", Bmff(FTYP, user).file(profile), valid(25, 16)
    yield "a box of another purpose", Bmff(FTYP, provenance_box(b"merkle\0") + MDAT).file(profile), valid(9, 51)
    yield "a data hash", Bmff(FTYP, MDAT).file([Manifest("m", DataHash())]), valid(25, 0)


# All rows


class Approving(dict):
    """A judge who approves every question."""

    def __contains__(self, identity):
        return True

    def __getitem__(self, identity):
        return "approved"


def rows():
    """What, file, command, and what it prints."""
    for what, contents, told in [*root_rows(), *box_rows()]:
        for command in store.COMMANDS:
            yield what, contents, command, told
    for what, contents, told in large_rows():
        yield what, contents, "digest", told
    yield from store_rows()
    for what, draft, told in hash_rows():
        yield what, Bmff(FTYP, MDAT).file([Manifest("m", draft)]), "validate", told
    for what, contents, told in [*holder_rows(), *built_rows()]:
        yield what, contents, "validate", told


def differences_of_parts():
    """Paths and covered texts, which no command prints."""
    for text_given, steps in path_rows():
        if read_path(text_given) != steps:
            yield f"the path {text_given!r}: {read_path(text_given)}"
    for what, contents, exclusions, told in cover_rows():
        roots, read = root_boxes(contents), [Exclusion(read_whole(each)) for each in exclusions]
        covered = b"".join(covered_text(contents, covered_parts(contents, roots, read)))
        if covered != bytes.fromhex(told):
            yield f"{what}: covers {covered.hex()}"


def told_by(program, folder, contents, command):
    """What c2 prints with a verdict file that approves all questions."""
    names = [os.path.join(folder, name) for name in ("media", "verdicts")]
    rows_of_file = "".join(f"{identity} approved\n" for identity in questions_in(contents))
    for name, written in zip(names, (contents, rows_of_file.encode())):
        with open(name, "wb") as file:
            file.write(written)
    words = [command, *names[: 2 if command in ("questions", "validate") else 1]]
    done = subprocess.run([program, *words], stdout=subprocess.PIPE, check=False)
    return done.stdout.decode("utf-8").removesuffix("\n")


def main():
    program = os.path.abspath(sys.argv[1]) if len(sys.argv) > 1 else None
    wrong, count = list(differences_of_parts()), 0
    with tempfile.TemporaryDirectory() as folder:
        for what, contents, command, told in rows():
            count += 1
            answers = [("store.py", store.report(command, contents, [Approving()])[0])]
            if program:
                answers.append(("c2", told_by(program, folder, contents, command)))
            wrong += [f"{what}: {command} of {name} prints\n{answer}\nand not\n{told}" for name, answer in answers if answer != told]
    for difference in wrong:
        print(difference)
    parts = len(list(path_rows())) + len(list(cover_rows()))
    print(f"{count} rows and {parts} of paths and covered texts, {len(wrong)} differences")
    sys.exit(len(wrong) > 0)


if __name__ == "__main__":
    main()
