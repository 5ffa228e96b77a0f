"""The table `sidecars` of crates/c2_test_rows: what `strip` and `extract` write of media files, and what `validate-external` says of a file and a
store that is another file. What the runs come to is computed by external.py; answers that are known by hand stand here and must be the same. rows.py
writes the table and checks it.
"""

import hashlib

from build_rows import Computed, judges_of
from build_tables import Lines, new_file, told
from built_films import film_in_front
from drafts import ALL_EXCLUDED, ACTIONS, Assertion, BmffHash, DataHash, Manifest, Written, write
from external import WRITERS, answer
from locate import LARGEST_STORE
from make_store import box, jpeg, store
from media import media_of
from rule_rows import with_
from tables import folded
from worked_builds import DEFINITION, FILM, LATER_DEFINITION, MESSAGE, SMALL

LABEL = "urn:c2pa:00000000-0000-4000-8000-000000000000"
MFRA, FREE = box(b"mfra", b""), box(b"free", b"")
VALID = "valid manifests=1 assertions=2 covered={} outside={}".format


def built(media=SMALL, given=DEFINITION):
    return Computed("", media, given, MESSAGE, "approved", None).embedded[2]


def failing(code, label, manifest=LABEL):
    return f"failing {code} self#jumbf=/c2pa/{manifest}/{label}"


# What is taken out of files


def taken_rows():
    """What, file, and what is known by hand of the lines of `strip` and of `extract`."""
    signed, film = built(), built(FILM)
    yield "a JPEG", signed, "stripped 20 1141", "extracted 1129"
    yield "a JPEG that was signed twice", built(signed, LATER_DEFINITION), "stripped 20 2667", "extracted 2655"
    yield "a film whose store is its last box", film, "stripped 25 1220", "extracted 1175"
    yield "a film with an `mfra` behind its store", film + MFRA, "stripped 25 1220", "extracted 1175"
    yield "a film with two of them", film + MFRA + MFRA, "strip Middle 25", "extracted 1175"
    yield "a film with another box behind that", film + MFRA + FREE, "strip Middle 25", "extracted 1175"
    yield "a film with another box behind its store", film + FREE, "strip Middle 25", "extracted 1175"
    yield "a film with its store between two boxes", film_in_front(), "strip Middle 16", "extracted 1175"
    yield "a JPEG without a store", SMALL, "none", "none"
    yield "a film without a store", FILM, "none", "none"
    bare = store()
    yield "a store without a manifest, which these commands don't look at", jpeg(bare), f"stripped 2 {len(jpeg(bare)) - 4}", f"extracted {len(bare)}"
    long = store(box(b"free", bytes(70_000)))
    yield "a store in two packets", jpeg(long), f"stripped 2 {len(jpeg(long)) - 4}", f"extracted {len(long)}"
    for what, contents, known in refused_rows():
        yield what, contents, known, known


def refused_rows():
    """Files that are refused as containers: what, file and line."""
    signed, film = built(), built(FILM)
    yield "no media", b"", "refused NotMedia 0"
    yield "a JPEG that is cut short", signed[:100], "refused Truncated 100"
    yield "a JPEG with two stores", signed[:-2] + signed[20:], "refused TwoStores 1161"
    yield "a JPEG with a byte that begins no marker", SMALL[:2] + bytes(2), "refused BadMarker 2"
    yield "a film with two stores", film + film[25:], "refused TwoStores 1245"
    yield "a film with a box that is too short", FILM[:16] + b"\0\0\0\7" + FILM[20:], "refused BadBox 16"
    yield "a film that is cut short", film[:1_000], "refused Truncated 1000"


def taken(lines):
    lines.set(judges="")
    for command, (what, contents, *known) in ((command, row) for row in taken_rows() for command in WRITERS):
        line, status, new = answer(command, contents)
        assert line == known[WRITERS.index(command)], (what, command, line)
        lines.set(words=f"{command} J OUT", pieces="1 7 65536" if len(contents) < 10_000 else "65536", out="none" if new is None else len(new))
        lines.row(f"{status} {line}" + ("" if new is None else new_file(new)), folded(contents), what=f"{command} of {what}")
    assert [answer("strip", built(media))[2] for media in (SMALL, FILM)] == [SMALL, FILM]
    assert answer("extract", built())[2] == media_of(built()).store


def full(lines):
    """A new file that takes one byte less than there is to be written."""
    lines.set(pieces="1 7 65536")
    for command in WRITERS:
        *_, new = answer(command, built())
        lines.set(words=f"{command} J OUT", out=len(new) - 1)
        lines.row(f"6 nothing, not finished{new_file(new[:-1])}, not finished", built().hex(), what=f"{command} into a new file that takes one byte too few")


# Files and stores beside them


def external(media, contents, judges=()):
    return answer("validate-external", media, lambda: contents, judges)


def apart(media, *given):
    """A store that isn't embedded, whose binding covers a text of the media."""
    covered = media if isinstance(given[-1], DataHash) else (16).to_bytes(8, "big") + media[16:]
    written = Written(covered=hashlib.sha256(covered).digest())
    return write([Manifest("m", Assertion("c2pa.actions.v2", ACTIONS), *given)], written)


def checked_rows():
    """What, media, store, judges, and the known line."""
    signed, film = built(), built(FILM)
    picture_store, film_store = media_of(signed).store, media_of(film).store
    data_hash, film_hash = "c2pa.assertions/c2pa.hash.data", "c2pa.assertions/c2pa.hash.bmff.v2"
    yield "a JPEG and its own store", signed, picture_store, "approved", VALID(22, 1_141)
    yield "the JPEG without it", SMALL, picture_store, "approved", failing("profile.hash.form", data_hash)
    yield "a film and its own store", film, film_store, "approved", VALID(9, 1_236)
    yield "the film without it", FILM, film_store, "approved", VALID(9, 16)
    yield "the film with another byte", FILM[:-1] + b"B", film_store, "approved", failing("assertion.bmffHash.mismatch", film_hash)
    yield "a JPEG and the store of a film", SMALL, film_store, "approved", failing("profile.hash.form", film_hash)
    yield "a film and the store of a JPEG", FILM, picture_store, "approved", failing("profile.hash.form", data_hash)
    twice = built(signed, LATER_DEFINITION)
    yield "a JPEG that was signed twice, and its first store", twice, picture_store, "approved", failing("assertion.dataHash.mismatch", data_hash)
    yield "it and its own store", twice, media_of(twice).store, "approved", "valid manifests=2 assertions=5 covered=22 outside=2667"
    beside = apart(SMALL, with_(DataHash(), ranges=[]))
    yield "a JPEG and a store that was never in it", SMALL, beside, "approved", VALID(22, 0)
    yield "another byte in that JPEG", SMALL[:19] + b"\1" + SMALL[20:], beside, "approved", failing("assertion.dataHash.mismatch", data_hash, "m")
    yield "that store beside a JPEG with another one", signed, beside, "approved", failing("assertion.dataHash.mismatch", data_hash, "m")
    yield "a film and a store that was never in it", FILM, apart(FILM, BmffHash(ALL_EXCLUDED)), "approved", VALID(9, 16)
    yield "no judges", signed, picture_store, "none", failing("profile.verdict.missing", "c2pa.signature")
    yield "the second of two judges, the first being silent", signed, picture_store, "silent approved", VALID(22, 1_141)
    yield "a judge who fails", signed, picture_store, "approved@1", ""
    yield from refused_stores(signed, picture_store)
    for what, contents, known in refused_rows():
        yield f"{what}, and a store", contents, picture_store, "approved", known


def refused_stores(media, contents):
    yield "a store with one byte more", media, contents + b"\0", "approved", "refused store Trailing 1129"
    yield "a store with one byte less", media, contents[:-1], "approved", "refused store Overrun 0"
    yield "no bytes for a store", media, b"", "approved", "refused store BadHead 0"
    yield "a JPEG for a store", media, SMALL, "approved", "refused store Overrun 0"
    yield "a store without a manifest", media, store(), "approved", "refused store NoManifest 0"
    yield "a box that is no store", media, FREE, "approved", "refused store NotStore 0"


def checked(lines):
    lines.set(out="none")
    for what, media, contents, names, known in checked_rows():
        judges = judges_of(names)
        line, status, _ = external(media, contents, judges)
        assert line == known, (what, line)
        lines.set(words="validate-external J S" + " V" * len(judges), judges="" if names == "none" else names, pieces="1 7 65536")
        lines.row(told((status, line), [judge.asked for judge in judges]), media.hex(), contents.hex(), what=f"validate-external: {what}")


def not_due(lines):
    """What isn't due isn't read: a store beside a file that is refused fails at its first call, one that is too long at its second, the first being
    for its length; and as long a store as there may be is read."""
    lines.set(words="validate-external J S", judges="", pieces="65536")
    for what, contents, known in refused_rows():
        lines.set(fault="second 1")
        lines.row(f"2 {known}", contents.hex(), SMALL.hex(), what=f"validate-external: {what}: the store isn't read")
    zeros = f"{LARGEST_STORE // 32}*{bytes(32).hex()}"
    known = f"refused store StoreTooLarge {LARGEST_STORE + 1}"
    assert external(SMALL, bytes(LARGEST_STORE + 1)) == (known, 2, None)
    lines.set(fault="second 2")
    lines.row(f"2 {known}", SMALL.hex(), f"{zeros} 00", what="validate-external: a store that is too long isn't read")
    assert external(SMALL, bytes(LARGEST_STORE)) == ("refused store BadHead 0", 2, None)
    lines.set(fault="second 0")
    lines.row("2 refused store BadHead 0", SMALL.hex(), zeros, what="validate-external: as many bytes as a store may have")


# Prefixes


def prefixes(lines):
    """What the commands say of each prefix of a JPEG and of a film, which is worked out by hand for `strip` and `extract`."""
    signed, film = built(), built(FILM)
    cut = "2 refused Truncated N"
    jpeg_known = [(0, "2 refused NotMedia 0"), (2, cut)]
    film_known = [(0, "2 refused NotMedia 0"), (8, cut), (16, "3 none"), (17, cut), (25, "3 none"), (26, cut)]
    lines.set(view="prefixes", pieces="1 7 65536", judges="", out="none")
    for command in WRITERS:
        for what, contents, known in ("a JPEG", signed, jpeg_known), ("a film", film, film_known):
            lines.set(words=f"{command} J OUT")
            said = said_of(contents, lambda front: answer(command, front)[:2])
            assert said == known, (command, what, said)
            lines.row(shown(said), contents.hex(), what=f"{command} of the prefixes of {what}")
    contents = media_of(film).store
    said = said_of(film, lambda front: external(front, contents)[:2])
    missing = f"1 {failing('profile.verdict.missing', 'c2pa.signature')}"
    assert said == [(at, missing if text == "3 none" else text) for at, text in film_known], said
    lines.set(words="validate-external J S")
    lines.row(shown(said), film.hex(), contents.hex(), what="validate-external: the prefixes of a film and its store")


def said_of(contents, call):
    """What a call says of the prefixes of a file, and from which length on."""
    said = []
    for length in range(len(contents)):
        line, status = call(contents[:length])
        front, _, last = line.rpartition(" ")
        text = f"{status} {front} N" if length and last == str(length) else f"{status} {line}"
        if not said or said[-1][1] != text:
            said.append((length, text))
    return said


def shown(said):
    return "; ".join(f"from {length} on {text}" for length, text in said)


def sidecars():
    lines = Lines("What `strip` and `extract` write of media files, and what `validate-external` says of a file beside a store.", "sidecar_tables.py")
    taken(lines)
    full(lines)
    checked(lines)
    not_due(lines)
    prefixes(lines)
    return lines.text
