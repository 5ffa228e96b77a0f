"""The media files and external stores of vectors/, for `validate-external`: what each pair shows and what it must come to, written
by hand; vectors.py computes all that is said of them."""

import external
import rule_rows
import show_rows
from builder import embed
from drafts import ALL_EXCLUDED, BmffHash, DataHash, Ingredient, Jpeg, Manifest, bound
from locate import Refused
from make_store import manifest, store
from media import media_of
from rule_rows import SIGNATURE, STORE, URL, failing, note, old, valid, with_
from vector_files import FILM, SMALL
from worked_builds import DEFINITION, MESSAGE

LARGEST = 33_554_432
# What is refused of a store (docs/FORMATS.md).
REASONS = "BadHead Overrun Trailing NoDescription BadDescription DuplicateLabel TooDeep NotStore ManifestType ManifestLabel NoManifest TooMany StoreTooLarge".split()


def unbound(alg="sha256"):
    """A data hash of all bytes."""
    return with_(DataHash(alg), ranges=[])


def beside(media, *manifests):
    """A store that is bound to a media file in which it does not lie."""
    return bound(manifests, (0, 0), lambda: external.apart(media))


def rows():
    """What a pair shows, the answer under a judge (None where it isn't written by hand), the media, and the store: bytes, or pieces."""
    yield from valid_rows()
    yield from own_rows()
    yield from failing_rows()
    yield from refused_rows()


def valid_rows():
    yield "a JPEG without a store", valid(1, 1, 22), SMALL, beside(SMALL, Manifest("m", unbound()))
    yield "a film without a store", valid(1, 1, 9, 16), FILM, beside(FILM, Manifest("m", BmffHash(ALL_EXCLUDED)))
    yield "a film by a data hash", valid(1, 1, 25), FILM, beside(FILM, Manifest("m", unbound()))
    by_sha512 = with_(Manifest("m", unbound(None)), claim_alg="sha512")
    yield "by sha512, which the claim names", valid(1, 1, 22), SMALL, beside(SMALL, by_sha512)
    part = with_(DataHash(), ranges=[(2, 4), (8, 1)])
    yield "parts that are excluded", valid(1, 1, 17, 5), SMALL, beside(SMALL, Manifest("m", part))
    two = beside(SMALL, old(note()), Manifest("m", Ingredient("d", "parentOf"), unbound()))
    yield "two manifests", valid(2, 4, 22), SMALL, two
    redacting = with_(Manifest("m", Ingredient("d", "parentOf"), unbound()), redactions=[f"{URL}d{STORE}/test.note"])
    yield "a redaction", valid(2, 3, 22), SMALL, beside(SMALL, old(note(is_there=False)), redacting)
    yield "a claim of version 1", valid(1, 1, 22), SMALL, beside(SMALL, with_(Manifest("m", unbound()), version=1))
    other = Jpeg().file([Manifest("other", DataHash())])
    yield "an embedded store passes unread", valid(1, 1, len(other)), other, beside(other, Manifest("m", unbound()))
    broken = Jpeg().around(store(manifest("other"), manifest("other")))
    yield "an embedded store that would be refused passes unread", valid(1, 1, len(broken)), broken, beside(broken, Manifest("m", unbound()))


def own_rows():
    """Stores that were taken out, beside the file that they were in, and beside what is left of it."""
    picture, film = (embed(media, DEFINITION, MESSAGE)[0] for media in (SMALL, FILM))
    for what, media, contents in ("a built JPEG", SMALL, picture), ("a built film", FILM, film):
        own = media_of(contents).store
        yield f"{what} and its own store", valid(1, 2, *((22, 1_141) if media == SMALL else (9, 16 + 1_220))), contents, own
        label = "urn:c2pa:00000000-0000-4000-8000-000000000000"
        hash_form = failing("profile.hash.form", f"{label}{STORE}/c2pa.hash.data")
        yield f"{what} without its store, and that", hash_form if media == SMALL else valid(1, 2, 9, 16), media, own
    long = SMALL + bytes(2_000)
    own = media_of(embed(long, DEFINITION, MESSAGE)[0]).store
    yield "a long JPEG without its store, and that", None, long, own


def failing_rows():
    yield "another byte", failing("assertion.dataHash.mismatch", f"m{STORE}/c2pa.hash.data"), SMALL[:-3] + b"\1" + SMALL[-2:], beside(SMALL, Manifest("m", unbound()))
    changed = failing("assertion.bmffHash.mismatch", f"m{STORE}/c2pa.hash.bmff.v2")
    yield "another byte of a film", changed, FILM[:-1] + b"B", beside(FILM, Manifest("m", BmffHash(ALL_EXCLUDED)))
    moved = FILM[:16] + bytes.fromhex("0000000866726565") + FILM[16:]
    yield "a box more in a film", changed, moved, beside(FILM, Manifest("m", BmffHash(ALL_EXCLUDED)))
    jpeg = failing("profile.hash.form", f"m{STORE}/c2pa.hash.bmff.v2")
    yield "a film's store beside a JPEG", jpeg, SMALL, beside(FILM, Manifest("m", BmffHash(ALL_EXCLUDED)))
    behind = with_(DataHash(), ranges=[(20, 3)])
    yield "a range behind the end", failing("profile.hash.form", f"m{STORE}/c2pa.hash.data"), SMALL, beside(SMALL, Manifest("m", behind))
    update = beside(SMALL, old(), Manifest("m", Ingredient("d", "parentOf"), update=True))
    yield "an active update", failing("unsupported.updateActive", "m"), SMALL, update
    for signature, code in (b"mism", "claimSignature.mismatch"), (b"untr", "signingCredential.untrusted"), (b"sile", "profile.verdict.missing"):
        said = with_(Manifest("m", unbound()), signature=signature)
        yield f"a signature of which the judge says {signature.decode()}", failing(code, f"m{SIGNATURE}"), SMALL, beside(SMALL, said)


def refused_rows():
    refused = lambda reason, number: f"refused store {reason} {number}"
    whole = beside(SMALL, Manifest("m", unbound()))
    yield "BadHead: no bytes", refused("BadHead", 0), SMALL, b""
    yield "BadHead: seven bytes", refused("BadHead", 0), SMALL, whole[:7]
    yield "Overrun: a store cut short", refused("Overrun", 0), SMALL, whole[:-1]
    yield "Trailing: a byte more", refused("Trailing", len(whole)), SMALL, whole + b"\0"
    yield "Trailing: the store twice", refused("Trailing", len(whole)), SMALL, whole * 2
    yield "Overrun: a JPEG in place of a store", refused("Overrun", 0), SMALL, SMALL
    seen = {"BadHead", "Overrun", "Trailing"}
    for group in show_rows.refused_trees, show_rows.refused_stores:
        for what, contents in group():
            reason = what.split(":")[0]
            if reason not in seen:
                seen.add(reason)
                yield what, None, SMALL, contents
    yield "TooMany: 1,025 manifests", refused("TooMany", 1_025), SMALL, store(*(manifest(str(number)) for number in range(1_025)))
    yield "StoreTooLarge: 33,554,433 bytes", refused("StoreTooLarge", LARGEST + 1), SMALL, [(b"", 1), LARGEST + 1]
    yield "the container before the store", "refused Truncated 21", SMALL[:-1], b""
    yield "no media", "refused NotMedia 0", b"no media", whole


def verdicts_in(contents):
    """The verdicts on the questions of a store, by its signatures; none where it is refused."""
    try:
        return rule_rows.verdicts_of_store(contents)
    except Refused:
        return {}
