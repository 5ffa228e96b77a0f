"""BMFF files as the profile's builder writes them, byte for byte, and what `validate` prints of each.

Deterministic CBOR, relative URLs of assertions, a message that is padded to 256 bytes, a C2PA box without padding.
"""

import hashlib

import cbor
from bmff import PROVENANCE
from drafts import ACTIONS, ALL_EXCLUDED
from make_store import array, assertion, assertions, box, claim_box, data, item, manifest, mapping, sign1, signature_box, store, tag, text

LABEL = "urn:c2pa:00000000-0000-4000-8000-000000000000"
LATER = LABEL[:-1] + "1"
RESERVE = 256
FTYP = bytes.fromhex("00000010 66747970 69736F6D 00000000")
MDAT = bytes.fromhex("00000009 6D646174 41")


def sorted_map(*pairs):
    return cbor.encode(cbor.read_whole(mapping(*pairs)))


def digest(contents):
    return hashlib.sha256(contents).digest()


def reference(url, contents):
    """A hashed URI of a box, by what stands behind its header."""
    return sorted_map(("url", text(url)), ("hash", data(digest(contents[8:]))))


def bmff_hash(covered):
    exclusions = array(*(sorted_map(*read) for read in map(pairs_of, ALL_EXCLUDED)))
    return sorted_map(("alg", text("sha256")), ("hash", data(digest(covered))), ("exclusions", exclusions))


def pairs_of(spelled):
    return [(cbor.encode(key), cbor.encode(value)) for key, value in cbor.read_whole(spelled)[1]]


def claim(label, listed):
    created = [reference(f"self#jumbf=c2pa.assertions/{name}", contents) for name, contents in listed]
    return sorted_map(
        ("alg", text("sha256")),
        ("signature", text(f"self#jumbf=/c2pa/{label}/c2pa.signature")),
        ("instanceID", text("xmp:iid:sample")),
        ("created_assertions", array(*created)),
        ("claim_generator_info", mapping(("name", text("c2")))),
    )


def message():
    """A message of RESERVE bytes, with zeros for a signature; the length of `pad` needs one byte."""
    plain = len(tag(18, sign1(unprotected=mapping(), signature=bytes(64))))
    made = tag(18, sign1(unprotected=mapping(("pad", data(bytes(RESERVE - plain - 6)))), signature=bytes(64)))
    assert len(made) == RESERVE
    return made


def built_manifest(label, covered, ingredient=()):
    listed = [(name, assertion(name, encoded)) for name, encoded in (
        ("c2pa.actions.v2", ACTIONS), *ingredient, ("c2pa.hash.bmff.v2", bmff_hash(covered)),
    )]
    boxes = assertions(*(contents for _, contents in listed)), claim_box(item(claim(label, listed))), signature_box(item(message()))
    return manifest(label, *boxes)


def parent(carried):
    """The ingredient for a manifest of LABEL: its digest, and that of its signature box, the last box in it."""
    signature = signature_box(item(message()))
    assert carried.endswith(signature)
    url = f"self#jumbf=/c2pa/{LABEL}"
    references = ("activeManifest", reference(url, carried)), ("claimSignature", reference(url + "/c2pa.signature", signature))
    return "c2pa.ingredient.v3", sorted_map(("relationship", text("parentOf")), *references)


def provenance(*manifests):
    return box(b"uuid", PROVENANCE + bytes(4) + b"manifest\0" + bytes(8) + store(*manifests))


def word(place):
    return place.to_bytes(8, "big")


def film_behind():
    """A film of two boxes with a store behind it."""
    new = provenance(built_manifest(LABEL, word(16) + MDAT))
    assert (len(bmff_hash(b"")), len(new)) == (140, 1_220)
    return FTYP + MDAT + new


def film_in_front():
    """The same with the store behind its first box; the box with the film's bytes stands later by 1,220 bytes."""
    return FTYP + provenance(built_manifest(LABEL, word(16 + 1_220) + MDAT)) + MDAT


def film_twice():
    """The last one signed again: its first C2PA box is free, and the new one stands behind."""
    carried = built_manifest(LABEL, word(1_236) + MDAT)
    free = box(b"free", bytes(1_212))
    covered = word(16) + free + word(1_236) + MDAT
    new = provenance(carried, built_manifest(LATER, covered, [parent(carried)]))
    assert len(new) == 2_792
    return FTYP + free + MDAT + new


def film_with_table():
    """A film with a table of one chunk, and its store in front: the chunk's offset is that of the film's byte."""
    inner = box(b"stco", bytes(7) + b"\1" + (84 + 1_220).to_bytes(4, "big"))
    for kind in b"stbl", b"minf", b"mdia", b"trak", b"moov":
        inner = box(kind, inner)
    covered = word(1_236) + inner + word(1_296) + MDAT
    film = FTYP + provenance(built_manifest(LABEL, covered)) + inner + MDAT
    assert (len(film), film[1_304:]) == (1_305, b"A")
    return film


def built_rows():
    """What, file, and what `validate` prints."""
    yield "a store behind a film, as it is built", film_behind(), "valid manifests=1 assertions=2 covered=9 outside=16"
    yield "in front of it", film_in_front(), "valid manifests=1 assertions=2 covered=9 outside=16"
    yield "signed again", film_twice(), "valid manifests=2 assertions=5 covered=1229 outside=16"
    yield "in front of a table of chunks", film_with_table(), "valid manifests=1 assertions=2 covered=69 outside=16"
    changed = bytearray(film_behind())
    changed[24] ^= 1
    place = f"self#jumbf=/c2pa/{LABEL}/c2pa.assertions/c2pa.hash.bmff.v2"
    yield "a changed byte of the film", bytes(changed), f"failing assertion.bmffHash.mismatch {place}"
    moved = FTYP + box(b"free", b"") + film_behind()[16:]
    yield "a box put in before the film's bytes", moved, f"failing assertion.bmffHash.mismatch {place}"
    grown = bytearray(film_behind())
    grown[3:16] = b"\x14" + grown[4:16]
    yield "four bytes more of ftyp, so that the rest stands later", bytes(grown[:16]) + bytes(4) + bytes(grown[16:]), (
        f"failing assertion.bmffHash.mismatch {place}"
    )
    brand = bytearray(film_behind())
    brand[8:12] = b"mp42"
    yield "another brand", bytes(brand), "valid manifests=1 assertions=2 covered=9 outside=16"
