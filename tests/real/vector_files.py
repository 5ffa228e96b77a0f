"""The media files of vectors/: what each shows, and what it must come to, written by hand; vectors.py computes all that is said of it.

A file is bytes, or pieces where it is too long to be kept: hex and how often it comes, or the numbers that it has in turn in two bytes at
a place; a last piece without hex says how long the file is, with zeros up to there.
"""

import built_films
import compare_rows
import film_rows
import question_rows
import rule_rows
import show_rows
from bmff import MOST_ROOT_BOXES, PROVENANCE
from drafts import ALL_EXCLUDED, APP0, Bmff, BmffHash, DataHash, Jpeg, Manifest, exclusion, provenance_box, subset
from make import other_segments, packets, segment
from make_store import assertion, box, description, item, jpeg, manifest, store, superbox
from media import media_of
from rule_rows import note, old, one, pair, with_
from validate_rows import photographed

START, END = b"\xff\xd8", b"\xff\xd9"
SMALL = START + APP0 + END
FTYP, MDAT = built_films.FTYP, built_films.MDAT
FILM = FTYP + MDAT
LARGEST = 33_554_432
# One byte more than a file may have.
VAST = 1 << 62


def media():
    """Which group a file is of, what it shows, the answer of `validate` under a judge (None where it isn't written by hand), the file."""
    for what, known, drafts in rule_rows.rows():
        yield "jpg", what, known, Jpeg().file(drafts)
    for what, known, film in film_rows.rows():
        yield "mp4", what, known, film
    for what, film, known in built_films.built_rows():
        yield "mp4", f"a film: {what}", known, film
    yield from forms()
    yield from film_forms()
    yield from readings()
    yield from absent()
    yield from refused_jpegs()
    yield from refused_films()
    for rows in show_rows.refused_trees, show_rows.refused_stores:
        for what, contents in rows():
            yield "jpg", what, None, jpeg(contents)
    yield "jpg", "TooMany: 1,025 manifests", "refused TooMany 1025", jpeg(store(*(manifest(str(number)) for number in range(1_025))))


# Valid files in each form


def forms():
    """Forms of a JPEG around a store, and of the store's boxes."""
    valid = rule_rows.valid
    around = lambda front, rest: Jpeg(front, rest).file(one())
    yield "jpg", "APP0 before the store", valid(1, 1, 22), around(START + APP0, END)
    scan = segment(0xDA, bytes(10)) + b"\0picture\xff\xd9trailer"
    yield "jpg", "a scan, an end, and bytes behind it", valid(1, 1, 2 + len(scan)), around(START, scan)
    filled = START + segment(0xE1, b"Exif", fill=3)
    yield "jpg", "fill bytes before a marker", valid(1, 1, len(filled) + 2), around(filled, END)
    others = b"".join(other_segments()[:4])
    yield "jpg", "APP11 segments of others before and behind the store", None, around(START + others, others + END)
    yield "jpg", "markers that have no length", valid(1, 1, 8), around(START + b"\xff\x01\xff\xd0", END)
    yield "jpg", "ftyp at byte 4: a JPEG all the same", None, around(START + b"\xff\xfeftyp" + bytes(0x6674 - 4), END)
    yield "jpg", "a store in many packets", None, Packets(50).file(one())
    yield "jpg", "a store in packets with a length of eight bytes", None, Packets(50, wide=True).file(one())
    yield "jpg", "packets with fill bytes between them", None, Packets(300, fill=2).file(one())
    yield "jpg", "a store in two packets, both as long as they may be", None, Jpeg().file(one(note("test.note", given=b"\x59\xf9\xe0" + bytes(63_968))))
    yield "jpg", "a manifest with boxes of other types", valid(1, 1), Jpeg().file([other_boxes()])
    yield "jpg", "a store whose manifest has a length of eight bytes", valid(1, 1), Jpeg().file([wide_manifest()])
    yield "jpg", "a salt, an ID and a digest in descriptions", valid(1, 2), Jpeg().file(one(described()))
    contents, (known, _) = photographed([None])
    yield "pieces", "a photograph as a camera may write it", known, photograph_pieces(contents)


class Packets(Jpeg):
    """A JPEG whose store is in packets of so many bytes, each with fill bytes before it; a wide store states its length in eight bytes."""

    def __init__(self, most, wide=False, fill=0):
        super().__init__(START + APP0, END)
        self.most, self.wide, self.fill = most, wide, fill

    def around(self, contents):
        header, body = contents[:8], contents[8:]
        if self.wide:
            header = b"\0\0\0\1jumb" + (16 + len(body)).to_bytes(8, "big")
        pieces = [body[at : at + self.most] for at in range(0, len(body), self.most)]
        numbered = (b"JP\x02\x11" + (z + 1).to_bytes(4, "big") + header + piece for z, piece in enumerate(pieces))
        return self.front + b"".join(segment(0xEB, payload, self.fill) for payload in numbered) + self.rest


def other_boxes():
    """A manifest with a credential store, data boxes and leaf boxes beside what is read of it."""
    draft = Manifest("m", DataHash())
    write = draft.write

    def written(into):
        contents = write(into)
        more = superbox(b"c2vc", "c2pa.credentials", assertion("a")), superbox(b"c2db", "c2pa.databoxes"), box(b"free", b"leaf")
        return box(b"jumb", contents[8:] + b"".join(more))

    draft.write = written
    return draft


def wide_manifest():
    draft = Manifest("m", DataHash())
    write = draft.write
    draft.write = lambda into: box(b"jumb", write(into)[8:], wide=True)
    return draft


def described():
    """A note whose box has all that a description may have."""
    given = note()
    more = b"\0\0\0\7" + bytes(range(32)) + box(b"c2sh", b"0123456789abcdef")
    given.box = lambda written: box(b"jumb", description(b"cbor", given.label, 0x1C, more) + item(given.encoded(written)))
    return given


def photograph_pieces(contents):
    """A photograph, its picture by the piece that comes many times."""
    piece, count = bytes(range(251)), 12_532
    at = contents.index(piece * count)
    return [(contents[:at], 1), (piece, count), (contents[at + len(piece) * count :], 1)]


def film_forms():
    """Forms of a BMFF file around a store."""
    valid = rule_rows.valid
    bound = lambda around, **more: around.file([Manifest("m", with_(BmffHash(ALL_EXCLUDED), **more))])
    yield "mp4", "the store between other boxes", valid(1, 1, 9, 16), bound(Bmff(FTYP, MDAT))
    index = box(b"mfra", b"index")
    yield "mp4", "the store before an index of fragments", valid(1, 1, 9, 29), bound(Bmff(FILM, index))
    yield "mp4", "an offset of the first Merkle box, which isn't read", valid(1, 1, 9, 16), bound(Bmff(FILM, b"", offset=b"\0\0\0\0\0\0\1\0"))
    yield "mp4", "a last box that runs to the end", valid(1, 1, 9, 16), bound(Bmff(FTYP, bytes(4) + MDAT[4:]))
    yield "mp4", "boxes of eight bytes of length", valid(1, 1, 17, 16), bound(Bmff(FTYP, box(b"mdat", b"A", wide=True)))
    other = provenance_box(b"merkle\0" + bytes(9))
    yield "mp4", "a C2PA box of another purpose besides", valid(1, 1, 9, 16 + len(other)), bound(Bmff(FTYP + other, MDAT))
    short = provenance_box(b"manif")
    yield "mp4", "a C2PA box whose purpose is cut short", valid(1, 1, 9, 16 + len(short)), bound(Bmff(FTYP + short, MDAT))
    wide = Bmff(FTYP, MDAT, wide=True).file([Manifest("m", BmffHash(ALL_EXCLUDED))])
    yield "mp4", "a C2PA box of eight bytes of length isn't the one that /uuid excludes by its user type at 8", None, wide
    heic = Bmff(box(b"ftyp", b"heic\0\0\0\0mif1"), box(b"meta", bytes(4)) + MDAT).file([Manifest("m", BmffHash(ALL_EXCLUDED))])
    yield "heic", "a picture in HEIC", valid(1, 1, 21, 20), heic
    deep = box(b"trak", box(b"mdia", box(b"minf", box(b"stbl", box(b"stco", bytes(8))))))
    moov = box(b"moov", box(b"trak", b"") + deep)
    path = "/moov/trak[2]/mdia/minf/stbl/stco"
    entered = BmffHash([*ALL_EXCLUDED, exclusion(path, subset((8, 4)))])
    yield "mp4", "a part of a table below the second track", None, Bmff(FTYP, moov + MDAT).file([Manifest("m", entered)])
    yield "mp4", "an update and a redaction in a film", valid(3, 4, 9, 16), Bmff(FILM, b"").file(updated())


def updated():
    """A manifest with a redacted note, an update of it, and the active one, which redacts."""
    active = Manifest("m", rule_rows.Ingredient("u", "parentOf"), BmffHash(ALL_EXCLUDED))
    active.redactions = [f"{rule_rows.URL}d{rule_rows.STORE}/test.note"]
    below = Manifest("d", note(is_there=False), BmffHash(ALL_EXCLUDED))
    return [below, Manifest("u", rule_rows.Ingredient("d", "parentOf"), update=True), active]


def readings():
    """Spellings of claims, messages and boxes, which `list`, `show` and `questions` read."""
    for rows in show_rows.claim_values, show_rows.claim_spellings:
        for what, encoded in rows():
            yield "jpg", f"shown: {what}", None, jpeg(show_rows.claimed(encoded))
    for rows in show_rows.claim_boxes, show_rows.assertion_boxes:
        for what, boxes in rows():
            yield "jpg", f"shown: {what}", None, jpeg(store(manifest("m", *boxes)))
    for what, contents in show_rows.stores():
        yield "jpg", f"shown: {what}", None, jpeg(contents)
    for rows in question_rows.questions, question_rows.places, question_rows.chains:
        for what, contents in rows():
            yield "jpg", f"asked: {what}", None, jpeg(contents)
    for what, header in question_rows.headers():
        yield "jpg", f"asked: {what}", None, jpeg(question_rows.asked(question_rows.sign1(unprotected=header)))


def absent():
    """Media without a store."""
    yield "jpg", "none: a JPEG of a start and an end", "none", START + END
    yield "jpg", "none: a JPEG with APP0", "none", SMALL
    other = bytearray(jpeg(store()))
    other[other.index(b"jumdc2pa") + 7] += 1
    yield "jpg", "none: packets of a box of another type", "none", bytes(other)
    yield "jpg", "none: a first packet with a body of 23 bytes", "none", START + packets(store(), most=23)[0] + END
    yield "jpg", "none: packets behind the scan", "none", START + segment(0xDA, b"") + jpeg(store())[2:]
    yield "mp4", "none: a film", "none", FILM
    yield "mp4", "none: ftyp alone", "none", FTYP
    yield "mp4", "none: a C2PA box of another purpose", "none", FILM + provenance_box(b"merkle\0" + bytes(9))
    inside = FTYP + box(b"moov", provenance_box(b"manifest\0" + bytes(8) + store(manifest("m"))))
    yield "mp4", "none: a C2PA box inside another box", "none", inside


# Refused containers


def refused_jpegs():
    refused = lambda what, reason, number, contents: ("jpg", f"{reason}: {what}", f"refused {reason} {number}", contents)
    yield refused("an empty file", "NotMedia", 0, b"")
    yield refused("half a marker", "NotMedia", 0, b"\xff")
    yield refused("a text", "NotMedia", 0, b"not a picture")
    yield refused("ftyp at byte 5", "NotMedia", 0, b"\0" + FILM)
    yield "pieces", "FileTooLarge: 2^62 bytes", f"refused FileTooLarge {VAST}", [(b"", 1), VAST]
    yield "pieces", "FileTooLarge: a JPEG of 2^62 bytes", f"refused FileTooLarge {VAST}", [(SMALL, 1), VAST]
    yield refused("nothing behind the start", "Truncated", 2, START)
    yield refused("the end in fill bytes", "Truncated", 4, START + b"\xff\xff")
    yield refused("half a length", "Truncated", 5, START + b"\xff\xe0\0")
    yield refused("the end in a segment", "Truncated", 19, SMALL[:19])
    yield refused("the end behind a segment", "Truncated", 20, SMALL[:20])
    yield refused("no marker", "BadMarker", 20, SMALL[:20] + b"\0\xd9")
    yield refused("the marker 00", "BadMarker", 20, SMALL[:20] + b"\xff\0" + END)
    yield refused("a second start", "BadMarker", 20, SMALL[:20] + SMALL)
    yield refused("a length of 1", "BadSegment", 2, START + b"\xff\xe0\0\1" + END)
    yield refused("a length of 0", "BadSegment", 2, START + b"\xff\xe0\0\0" + END)
    contents = Jpeg().file(one())
    kept = contents[2:-2]
    yield refused("a second one", "TwoStores", 2 + len(kept), START + kept * 2 + END)
    yield from refused_packets(refused, media_of(contents).store)


def refused_packets(refused, contents):
    """Packets of a store that aren't as they must be, in a JPEG without other segments."""
    small = packets(contents, most=200)
    put = lambda *pieces: START + b"".join(pieces) + END
    second, third = 2 + len(small[0]), 2 + len(small[0]) + len(small[1])
    yield refused("a comment between packets", "BadPacket", second, put(small[0], segment(0xFE, b"x"), *small[1:]))
    yield refused("a packet before its turn", "BadPacket", second, put(small[0], small[2], small[1], *small[3:]))
    yield refused("a packet twice", "BadPacket", third, put(*small[:2], *small[1:]))
    yield refused("the last packet isn't there", "BadPacket", len(put(*small[:-1])) - 2, put(*small[:-1]))
    scan = segment(0xDA, b"")
    yield refused("a scan while bytes are missing", "BadPacket", second, START + small[0] + scan + small[1] + END)
    yield refused("a number of another box", "BadPacket", second, put(small[0], small[1].replace(b"JP\2\x11", b"JP\2\x12"), *small[2:]))
    other = small[1][:16] + b"junb" + small[1][20:]
    assert small[1][16:20] == b"jumb", small[1][:24]
    yield refused("another header", "BadPacket", second, put(small[0], other, *small[2:]))
    empty = segment(0xEB, small[1][4:20])
    yield refused("a packet without a body", "BadPacket", second, put(small[0], empty, *small[1:]))
    last = segment(0xEB, small[-1][4:] + b"\0")
    yield refused("a body past the store's end", "BadPacket", len(put(*small[:-1])) - 2, put(*small[:-1], last))
    first = lambda header: segment(0xEB, b"JP\2\x11\0\0\0\1" + header + contents[8:])
    for size in 0, 7:
        yield refused(f"a stated length of {size}", "BadPacket", 2, put(first(size.to_bytes(4, "big") + b"jumb")))
    yield refused("a stated length of 15 in eight bytes", "BadPacket", 2, put(first(b"\0\0\0\1jumb" + (15).to_bytes(8, "big"))))
    yield refused("a stated length that the first packet passes", "BadPacket", 2, put(first((len(contents) - 1).to_bytes(4, "big") + b"jumb")))
    yield refused("a packet more behind the whole store", "BadPacket", 2 + sum(map(len, small)), put(*small, small[-1]))
    zero = segment(0xEB, b"JP\2\x11" + bytes(4) + contents[:9])
    yield refused("a packet with the sequence number 0 behind the store", "BadPacket", 2 + sum(map(len, small)), put(*small, zero))
    short = b"\xff\xe0\0\1"
    yield refused("a length of 1 while bytes are missing", "BadSegment", second, put(small[0], short, *small[1:]))
    for wide, header in ("", (LARGEST + 1).to_bytes(4, "big") + b"jumb"), (" in eight bytes", b"\0\0\0\1jumb" + (LARGEST + 1).to_bytes(8, "big")):
        yield refused(f"33,554,433 bytes{wide}", "StoreTooLarge", LARGEST + 1, put(first(header)))
    longest = 1 << 63
    yield refused("2^63 bytes", "StoreTooLarge", longest, put(first(b"\0\0\0\1jumb" + longest.to_bytes(8, "big"))))


def refused_films():
    refused = lambda what, reason, number, contents: ("mp4", f"{reason}: {what}", f"refused {reason} {number}", contents)
    yield refused("a box cut short", "Truncated", 24, FILM[:-1])
    yield refused("a header cut short", "Truncated", 23, FILM[:23])
    yield refused("a length of eight bytes cut short", "Truncated", 31, FTYP + b"\0\0\0\1mdat" + bytes(7))
    yield refused("a size of 7", "BadBox", 16, FTYP + b"\0\0\0\7mdat")
    yield refused("a size of 15 in eight bytes", "BadBox", 16, FTYP + b"\0\0\0\1mdat" + (15).to_bytes(8, "big"))
    yield refused("a uuid box without room for a user type", "BadBox", 16, FTYP + box(b"uuid", PROVENANCE[:15]))
    yield "pieces", "TooManyBoxes: 1,048,577 root boxes", f"refused TooManyBoxes {MOST_ROOT_BOXES}", [(FTYP, 1), (box(b"free", b""), MOST_ROOT_BOXES)]
    bad = lambda what, contents, version=bytes(4): refused(what, "BadProvenanceBox", 16, FTYP + provenance_box(contents, version) + MDAT)
    whole = store(manifest("m"))
    yield bad("another version", b"manifest\0" + bytes(8) + whole, b"\1\0\0\0")
    yield bad("flags", b"manifest\0" + bytes(8) + whole, b"\0\0\0\1")
    yield refused("three bytes", "BadProvenanceBox", 16, FTYP + box(b"uuid", PROVENANCE + bytes(3)))
    yield bad("no room for the offset", b"manifest\0" + bytes(7))
    yield bad("no store", b"manifest\0" + bytes(8))
    yield bad("a store cut short", b"manifest\0" + bytes(8) + whole[:-1])
    yield bad("a stated length of 7", b"manifest\0" + bytes(8) + b"\0\0\0\7jumb" + bytes(8))
    twice = provenance_box(b"manifest\0" + bytes(8) + whole)
    yield refused("a second one", "TwoStores", 16 + len(twice), FTYP + twice * 2)
    bad_version = FTYP + box(b"uuid", PROVENANCE + b"\1\0\0\0")
    yield refused("a box behind a C2PA box that is refused: the root boxes come first", "BadBox", len(bad_version), bad_version + b"\0\0\0\7free")
    front = FTYP + (41 + LARGEST + 9).to_bytes(4, "big") + b"uuid" + PROVENANCE + bytes(4) + b"manifest\0" + bytes(8)
    large = front + (LARGEST + 1).to_bytes(4, "big") + b"jumb"
    rest = 16 + 41 + LARGEST + 9 - len(large)
    yield "pieces", "StoreTooLarge: 33,554,433 bytes in a film", f"refused StoreTooLarge {LARGEST + 1}", [(large, 1), (b"\0", rest)]


# Pairs


def pairs():
    """What two files show under `compare`, and the files."""
    valid, other = Jpeg().file(one()), Jpeg().file(one(note()))
    yield "a file and itself", valid, valid
    label = lambda text: Jpeg().file([Manifest(text, DataHash())])
    yield "another label of the active manifest", label("m"), label("n")
    signed = lambda signature: Jpeg().file([with_(Manifest("m", DataHash()), signature=signature)])
    yield "another signature", signed(b"one"), signed(b"two")
    yield "other claims", valid, other
    yield "the second has no store", valid, SMALL
    yield "the first has no store", SMALL, valid
    yield "the second is refused", valid, valid[:-1]
    changed = valid[:-2] + END + b"x"
    yield "a byte that is covered more", valid, changed
    yield "the first fails, and so does the second", changed, changed
    redacted = pair(rule_rows.Ingredient("d"), below=old(note(is_there=False)), redactions=[f"{rule_rows.URL}d{rule_rows.STORE}/test.note"])
    yield "redactions", Jpeg().file(redacted), Jpeg().file(redacted)
    titles = next(row for row in compare_rows.rows() if row[0] == "other titles under one signature")
    yield "other titles under one signature: evidence", *titles[2:4]
    yield "a film and itself", film_rows.signed_film(), film_rows.signed_film()
    padded = film_rows.signed_film(bytes(7))
    yield "a film, and the same with padding behind its store", film_rows.signed_film(), padded
