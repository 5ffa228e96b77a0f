"""Small BMFF files for crates/c2_test_cmd: a film of 25 bytes, the same with a store that binds it, and what is said of each."""

import hashlib

from drafts import ALL_EXCLUDED, Bmff, BmffHash, DataHash, Manifest, exclusion, provenance_box
from make_store import array, assertion, assertions, box, claim_box, data, head, item, manifest, mapping, signature_box, store, tag, text, uint

# A film without a store: a box `ftyp` of 16 bytes and a box `mdat` of 9.
FTYP = box(b"ftyp", b"isom\0\0\0\0")
FILM = FTYP + box(b"mdat", b"A")
LABEL = "urn:c2pa:00000000-0000-4000-8000-000000000000"
ACTIONS = bytes.fromhex("a167616374696f6e7381a166616374696f6e6c633270612e63726561746564")
RESERVE = 256


def hash_item(covered):
    """A BMFF hash whose keys stand in deterministic order, as those of the items below do."""
    return mapping(("alg", text("sha256")), ("hash", data(hashlib.sha256(covered).digest())), ("exclusions", array(*ALL_EXCLUDED)))


def entry(contents, label):
    """The hashed URI of an assertion box."""
    url = f"self#jumbf=c2pa.assertions/{label}"
    return mapping(("url", text(url)), ("hash", data(hashlib.sha256(contents[8:]).digest())))


def message():
    """A signature that no key has made, with a padding that fills its reserve."""
    protected, payload, signature = data(bytes.fromhex("a10126")), b"\xf6", data(bytes(64))
    short = len(tag(18, array(protected, mapping(), payload, signature)))
    pad = mapping(("pad", data(bytes(RESERVE - short - 6))))
    return tag(18, array(protected, pad, payload, signature))


def film_store(covered):
    """The store of a manifest with an action and a BMFF hash of this text."""
    actions = assertion("c2pa.actions.v2", ACTIONS)
    bound = assertion("c2pa.hash.bmff.v2", hash_item(covered))
    entries = array(entry(actions, "c2pa.actions.v2"), entry(bound, "c2pa.hash.bmff.v2"))
    claimed = mapping(
        ("alg", text("sha256")),
        ("signature", text(f"self#jumbf=/c2pa/{LABEL}/c2pa.signature")),
        ("instanceID", text("xmp:iid:sample")),
        ("created_assertions", entries),
        ("claim_generator_info", mapping(("name", text("c2")))),
    )
    assert len(claimed) == 355 and len(hash_item(covered)) == 140 and len(message()) == RESERVE
    return store(manifest(LABEL, assertions(actions, bound), claim_box(item(claimed)), signature_box(item(message()))))


def signed_film(padding=b""):
    """The film with a store behind it; nothing of the store's box is covered."""
    covered = len(FTYP).to_bytes(8, "big") + FILM[len(FTYP) :]
    return FILM + provenance_box(b"manifest\0" + bytes(8) + film_store(covered) + padding)


def failing(code, label="m"):
    return f"failing {code} self#jumbf=/c2pa/{label}/c2pa.assertions/c2pa.hash.bmff.v2"


def valid(assertions, covered, outside):
    return f"valid manifests=1 assertions={assertions} covered={covered} outside={outside}"


def changed(contents, place):
    place %= len(contents)
    return contents[:place] + bytes([contents[place] + 1]) + contents[place + 1 :]


def bound(exclusions=ALL_EXCLUDED, front=FTYP, **more):
    """A film of a box `moov` with a child, two boxes `mdat`, and a store in front of them."""
    rest = box(b"moov", box(b"udta", b"UU")) + box(b"mdat", b"AB") + box(b"mdat", b"CD")
    given = BmffHash(exclusions)
    for name, value in more.items():
        assert hasattr(given, name), name
        setattr(given, name, value)
    return Bmff(front, rest).file([Manifest("m", given)])


def plus(*more):
    return [*ALL_EXCLUDED, *more]


def parts(*pairs):
    return ("subset", array(*(mapping(("offset", uint(offset)), ("length", uint(length))) for offset, length in pairs)))


def byte_test(offset, value):
    return ("data", array(mapping(("offset", uint(offset)), ("value", data(value)))))


# How many bytes of that film stand outside the boxes that ALL_EXCLUDED excludes.
REST = 18 + 10 + 10


def rows():
    """What the row shows, what `validate` must say where a judge approves, and the film."""
    film = signed_film()
    yield "a film and its store", valid(2, 9, 16), film
    yield "padding behind the store", valid(2, 9, 16), signed_film(bytes(7))
    yield "a byte of an excluded box changed", valid(2, 9, 16), changed(film, 12)
    yield "a covered byte changed", failing("assertion.bmffHash.mismatch", LABEL), changed(film, 24)
    moved = FTYP[:3] + b"\x11" + FTYP[4:] + b"\0" + film[16:]
    yield "a covered box moved", failing("assertion.bmffHash.mismatch", LABEL), moved
    yield "a data hash in a film", valid(1, len(FILM), 0), Bmff(FTYP, FILM[16:]).file([Manifest("m", DataHash())])
    yield "all boxes of a type", valid(1, REST - 20, len(FTYP) + 20), bound(plus(exclusion("/mdat")))
    yield "the second of a type", valid(1, REST - 10, len(FTYP) + 10), bound(plus(exclusion("/mdat[2]")))
    yield "a box below", valid(1, REST - 10, len(FTYP) + 10), bound(plus(exclusion("/moov/udta")))
    yield "a part of a box to its end", valid(1, REST - 4, len(FTYP) + 4), bound(plus(exclusion("/mdat", parts((8, 0)))))
    yield "parts that overlap", valid(1, REST - 6, len(FTYP) + 6), bound(plus(exclusion("/mdat", parts((7, 2), (8, 9)))))
    yield "boxes that meet a test", valid(1, REST - 10, len(FTYP) + 10), bound(plus(exclusion("/mdat", byte_test(9, b"D"))))
    yield "a length that no box has", valid(1, REST, len(FTYP)), bound(plus(exclusion("/mdat", ("length", uint(9)))))
    yield "no exclusions", failing("assertion.bmffHash.mismatch"), bound([])
    yield "an item that is no CBOR", failing("assertion.cbor.invalid"), bound(given=b"\xff")
    yield "a Merkle map before the form", failing("unsupported.merkle"), bound(given=mapping(("merkle", array())))
    yield "a path without its slash", failing("profile.hash.form"), bound(plus(exclusion("mdat")))
    many = [exclusion("/mdat", ("version", uint(0)))] * 1_025
    yield "1,025 exclusions before their tests", failing("unsupported.tooManyExclusions"), bound(many)
    tests = plus(exclusion("/mdat/free"), exclusion("/mdat", ("flags", data(b""))))
    yield "a test that isn't known before a path", failing("unsupported.exclusionTest"), bound(tests)
    yield "a path through another box before the algorithm", failing("unsupported.exclusionPath"), bound(plus(exclusion("/mdat/free")), named_alg="md5")
    for name in "sha384", "sha512":
        yield f"a BMFF hash by {name}", valid(1, REST, len(FTYP)), bound(named_alg=name)
        yield f"a covered byte of it changed: {name}", failing("assertion.bmffHash.mismatch"), changed(bound(named_alg=name), -1)
    yield "an algorithm that isn't known", failing("algorithm.unsupported"), bound(named_alg="md5")
