#!/usr/bin/env python3
"""What `plan` and `embed` must say of small media, definitions and messages, computed by builder.py.

    build_rows.py print [large]     prints a module of tables: a line that says what the row shows, and the row: media, definition,
                                    message, judge, what `plan` says, what `embed` says, and the new file, with bars between
    build_rows.py check [large]     computes each row, tells what differs from the answers that are written by hand here and from
                                    what rules.py says of the new file, and counts the answers

`large` means the rows with media that are too long for a table; they take minutes. Bytes are in hex as rows.py folds it; a definition
that is a line of text without a bar stands as it is. A media `vast FRONT SIZE` has so many bytes, zeros behind its front; other names
are those of MADE. The judge is a verdict on every question, with `@N` behind it where he fails at the Nth, `none` for no judges, or
`broken` for one who fails at each; several have spaces between them. `plan` has `=` where
it is refused as `embed` is, and else status and line. The new file is in hex in the first row, else there is its SHA-256, and `-` where
there is none.
"""

import hashlib
import json
import sys
from collections import Counter
from functools import cache

import built_films
from bmff import MOST_ROOT_BOXES, PROVENANCE
from builder import BUILD_REFUSED, NUMBERS, embed, line_of, plan
from drafts import ALL_EXCLUDED, APP0, Assertion, Bmff, BmffHash, DataHash, Ingredient, Jpeg, Manifest, provenance_box
from make import segment
from make_store import array, box, claim_box, data, item, mapping, manifest, open_array, open_map, sign1, signature_box, superbox, tag, text, uint
from media import media_of
from tables import Approving, folded
from rule_rows import note, old, with_
from store import JUDGE_FAULT, JudgeFault, report
from worked_builds import ASSERTIONS, DEFINITION, FILM, LABEL, LATER, LATER_DEFINITION, MESSAGE, ODD_HEADER, SMALL, URL, changed, with_redactions, with_reserve

X = json.loads(DEFINITION)
BARE = 74
FTYP, MDAT = built_films.FTYP, built_films.MDAT
# By how many bytes a digest by an algorithm is longer than one by SHA-256.
LONGER = {"sha256": 0, "sha384": 16, "sha512": 32}
# Media that are too long for a table, each by its name.
MADE = {}


class Vast:
    """Bytes of which only the front isn't zero, as a list that is never made."""

    def __init__(self, front, size):
        self.front, self.size = front, size

    def __len__(self):
        return self.size

    def __getitem__(self, at):
        if isinstance(at, slice):
            return bytes(self[place] for place in range(*at.indices(self.size)))
        if at >= self.size:
            raise IndexError(at)
        return self.front[at] if at < len(self.front) else 0


class Says(Approving):
    """A judge who says one word to every question, and fails at one of them (0: at none; None: at each)."""

    def __init__(self, word, fails_at):
        super().__init__()
        self.word, self.fails_at = word, fails_at

    def __contains__(self, identity):
        self.asked += 1
        if self.fails_at in (None, self.asked):
            raise JudgeFault
        return self.word != "silent"

    def __getitem__(self, identity):
        return self.word


def judge_named(name):
    """A judge: `broken`, or a word with `@` and the number of the question at which he fails."""
    word, _, fails_at = name.partition("@")
    return Says(word, None if word == "broken" else int(fails_at or 0))


def judges_of(names):
    return [] if names == "none" else [judge_named(name) for name in names.split(" ")]


# Definitions and messages


def definition(**fields):
    """The plain definition with other fields; one of `...` is left out."""
    kept = {key: value for key, value in {**X, **fields}.items() if value is not ...}
    return json.dumps(kept, ensure_ascii=False, separators=(",", ":")).encode()


def later(**fields):
    return definition(label=LATER, **fields)


def new(label="test.note", kind="json", contents=b"{}"):
    return {"label": label, "kind": kind, "hex": contents.hex()}


def message(*pairs, protected=bytes.fromhex("a10126"), signature=bytes(64)):
    return tag(18, sign1(protected, mapping(*pairs), signature=signature))


def bare(spelled):
    """A message without its tag."""
    return spelled[1:]


def open_message():
    """The plain message with heads that are longer than they must be, and open lists."""
    header = open_map((uint(33, 4), text("x", 2)))
    return b"\xd8\x12" + open_array(b"\x58\x03" + bytes.fromhex("a10126"), header, b"\xf6", b"\x5f\x58\x20" + bytes(32) + b"\x41\1\xff")


def nested(depth):
    """An untagged message whose deepest item has a depth: three lists around it are the message, its header and the value."""
    lists = depth - 3
    return bare(message(("x", b"\x81" * lists + b"\0")))


# Media


def signed(media=SMALL, **fields):
    told = embed(media, definition(**fields), MESSAGE, judges_of("approved"))
    assert told[0] != "build", told
    return told[0]


def chain(count):
    """The small JPEG, signed so often, each time under another label."""
    media = SMALL
    for number in range(count):
        media = signed(media, label=LABEL[:-2] + f"{number:02}")
    return media


def redactable():
    """A JPEG whose manifest lists a note, actions and a data hash, and has below it one with two notes."""
    below = old(note(), note("test.other"), label="d")
    return Jpeg(b"\xff\xd8" + APP0).file([below, Manifest("m", Ingredient("d", "parentOf"), note(), DataHash())])


def unsigned():
    """One whose ingredient names the manifest below without its signature."""
    below = old(note(), label="d")
    return Jpeg().file([below, Manifest("m", Ingredient("d", "parentOf", is_signed=False), DataHash())])


def of_version_1():
    """One whose claims and ingredient are of version 1."""
    below = old(note(), label="d", version=1)
    return Jpeg().file([below, Manifest("m", Ingredient("d", "parentOf", label="c2pa.ingredient"), note(), DataHash(), version=1)])


def by_sha512():
    """One whose digests are by SHA-512, but for that of the manifest below, and whose manifest below has all by SHA-384."""
    below = with_(Manifest("d", note(), DataHash(None)), claim_alg="sha384")
    above = Manifest("m", with_(Ingredient("d", "parentOf"), algs=["sha256", None]), note(), DataHash(None))
    return Jpeg().file([below, with_(above, claim_alg="sha512")])


def unreached():
    """One with a manifest that nobody names."""
    return Jpeg().file([old(note(), label="d"), Manifest("m", DataHash())])


def wide_boxes():
    """A JPEG whose store, manifests and assertion store have lengths in 8 bytes, and a leaf box beside the manifests."""
    plain = Manifest("m", note(), DataHash())
    write = plain.write

    def written(into):
        contents = write(into)
        return box(b"free", b"leaf") + box(b"jumb", contents[8:], wide=True)

    plain.write = written
    return Jpeg().file([plain])


def numbered(*numbers):
    """A JPEG with small packets of these numbers, none of them of a C2PA store."""
    small = lambda number: segment(0xEB, b"JP" + number.to_bytes(2, "big") + (1).to_bytes(4, "big") + b"\0\0\0\x08free")
    return b"\xff\xd8" + APP0 + b"".join(map(small, numbers)) + b"\xff\xd9"


def made(name):
    """Keeps a media by its name."""

    def keep(function):
        MADE[name] = cache(function)
        return MADE[name]

    return keep


@made("packets of every number from 0x0211 to 0xFFFF")
def every_number():
    return numbered(*NUMBERS)


@made("a film of ftyp, 1,048,574 free boxes of 8 bytes, and mdat")
def many_boxes():
    return FTYP + box(b"free", b"") * (MOST_ROOT_BOXES - 2) + MDAT


@made("the same less one free box")
def fewer_boxes():
    return FTYP + box(b"free", b"") * (MOST_ROOT_BOXES - 3) + MDAT


# Two characters for each of many labels, in runs of numbers that follow each other.
RUNS = [range(256 * first + 0x30, 256 * first + 0x7F) for first in range(0x30, 0x3D)]


def empties(count):
    """So many manifests without anything."""
    numbers = [number for run in RUNS for number in run][:count]
    return [Manifest(number.to_bytes(2, "big").decode()) for number in numbers]


def filled(label, store_size, count=1):
    """A JPEG with a store of so many bytes: manifests without anything, and an active one with a long note."""
    empty = empties(count - 1)
    around = Jpeg()
    return around.file([*empty, with_note(label, store_size - len(media_of(around.file([*empty, with_note(label, 0)])).store))])


def with_note(label, count):
    return Manifest(label, Assertion("test.note", bytes(count), b"bidb"), DataHash())


@made("a store of 1,024 manifests")
def most_manifests():
    return Jpeg().file([*empties(1_023), Manifest("m", DataHash())])


@made("a store of 1,023 manifests")
def fewer_manifests():
    return Jpeg().file([*empties(1_022), Manifest("m", DataHash())])


@made("a store of 33,554,432 bytes with 1,024 manifests")
def most_of_all():
    return filled("m", 33_554_432, 1_024)


@made("a JPEG as short as can be")
def shortest():
    return SMALL[:2] + SMALL[20:]


@made("a store of 200,000 bytes")
def four_packets():
    return filled("m", 200_000)


@made("a store of 33,554,432 bytes")
def largest_store():
    return filled("m", 33_554_432)


@cache
def more():
    """How many bytes the store gets longer by LATER_DEFINITION over a manifest with the label m."""
    first = Jpeg().file([Manifest("m", DataHash())])
    second = embed(first, LATER_DEFINITION, MESSAGE, judges_of("approved"))[0]
    return len(media_of(second).store) - len(media_of(first).store)


@made("a store that has room for one manifest more")
def room():
    return filled("m", 33_554_432 - more())


@made("a store that has room for one manifest more less one byte")
def no_room():
    return filled("m", 33_554_433 - more())


def vast(front, size):
    return f"vast {front.hex()} {size}"


VAST = 2**62 - 1
# A film that ends with a box of nearly 2^62 bytes.
VAST_FILM = FTYP + b"\0\0\0\1mdat" + (VAST - 16).to_bytes(8, "big")


def media_named(name):
    """A media by its name, or its own bytes."""
    if isinstance(name, bytes):
        return name
    if name.startswith("vast "):
        _, front, size = name.split(" ")
        return Vast(bytes.fromhex(front), int(size))
    return MADE[name]()


# Rows: what, media, definition, message, judge, and what `embed` says


def row(what, known, media=SMALL, given=DEFINITION, signature=MESSAGE, judge="approved"):
    return what, media, given, signature, judge, known


def jpeg_rows():
    yield row("a small JPEG", "embedded 20 1141")
    yield row("no APP0", "embedded 2 1141", SMALL[:2] + SMALL[20:])
    yield row("two APP0 segments and a comment", "embedded 38 1141", SMALL[:20] + APP0 + segment(0xFE, b"x") + SMALL[20:])
    filling = SMALL[:2] + segment(0xE0, b"JFIF", fill=3) + segment(0xE1, b"Exif", fill=1) + SMALL[20:]
    yield row("fill bytes before markers", "embedded 13 1141", filling)
    yield row("an APP0 segment behind another one", "embedded 20 1141", SMALL[:20] + segment(0xE1, b"Exif") + APP0 + SMALL[20:])
    yield row("a marker without a length in front", "embedded 2 1141", b"\xff\xd8\xff\x01" + SMALL[2:])
    yield row("a scan and what stands behind the end", "embedded 20 1141", SMALL[:20] + b"\xff\xda\0\2\xff\0xyz\xff\xd9trailer")
    yield row("numbers that are taken", "embedded 20 1141", numbered(0x0211, 0x0213, 0x0212))
    yield row("a number that is free between others", "embedded 20 1141", numbered(0x0211, 0x0213, 7))
    zero = segment(0xEB, b"JP\x02\x11" + bytes(4) + b"\0\0\0\x08free")
    yield row("a packet whose sequence number is 0 takes its number", "embedded 20 1141", SMALL[:20] + zero + SMALL[20:])
    short = segment(0xEB, b"JP\x02\x11" + bytes(3) + b"\1" + b"\0\0\0\1free")
    yield row("an APP11 segment that is no packet takes none", "embedded 20 1141", SMALL[:20] + short + SMALL[20:])
    yield row("a JPEG that has ftyp at byte 4", "embedded 2 1141", b"\xff\xd8\xff\xfeftyp" + bytes(0x6674 - 4) + b"\xff\xd9")


def reserve_rows():
    for reserve in (BARE, BARE + 5, BARE + 28, BARE + 29, BARE + 30, BARE + 261, BARE + 262, BARE + 263, 65_542 + BARE):
        yield row(f"a reserve of {reserve}", f"embedded 20 {put_in(reserve)}", given=with_reserve(reserve))
    for reserve in 65_543 + BARE, 65_544 + BARE, 65_545 + BARE, 1_048_576:
        yield row(f"a reserve of {reserve}", f"embedded 20 {put_in(reserve)}", given=with_reserve(reserve))
    for reserve in 64, BARE - 1:
        yield row(f"a reserve of {reserve}", f"build ReserveTooSmall {BARE}", given=with_reserve(reserve))
    for reserve in BARE + 1, BARE + 4:
        yield row(f"a reserve of {reserve}", f"build ReserveTooSmall {BARE + 5}", given=with_reserve(reserve))
    long = message(signature=bytes(1_048_576 - 13))
    yield row("a message as long as one may be", "embedded 20 1049781", given=with_reserve(1_048_576), signature=long)
    needed = message(signature=bytes(1_048_575 - 13))
    yield row("a reserve that there can't be", "build ReserveTooSmall 1048580", given=with_reserve(1_048_576), signature=needed)


def put_in(reserve):
    """The length of the packets of the small store with a reserve."""
    size = 1_129 - 256 + reserve
    return 20 * -(-(size - 8) // 63_984) + size - 8


def message_rows():
    yield row("a message without its tag", "embedded 20 1141", signature=bare(MESSAGE))
    yield row("a message in another spelling", "embedded 20 1141", signature=open_message())
    yield row("an empty signature", "embedded 20 1141", signature=message(signature=b""))
    yield row("keys that are sorted", "embedded 20 1141", signature=message(("x5chain", data(b"c")), ("b", b"\xf5"), (uint(33), b"\x80"), (b"\x20", b"\xf6")))
    twenty = [(uint(number), b"\0") for number in range(20)]
    yield row("twenty entries", "embedded 20 1141", signature=message(*twenty))
    yield row("a float that keeps its width", "embedded 20 1141", signature=message(("f", b"\xfb" + bytes(8))))
    yield row("a depth of 63 without the tag", "embedded 20 1141", signature=nested(63))
    yield row("a key `pad` of bytes", "embedded 20 1141", signature=message((data(b"pad"), b"\0")))
    yield row("a signature that isn't asked about", "embedded 20 1141", judge="none")
    given = definition(protected="")
    yield row("an empty protected header", "embedded 20 1141", given=given, signature=message(protected=b""))


def definition_rows():
    yield row("a title", "embedded 20 1153", given=definition(title="ä"))
    yield row("an empty title", "embedded 20 1151", given=definition(title=""))
    yield row("no assertions", "embedded 20 965", given=definition(assertions=...))
    yield row("an empty list of assertions and of redactions", "embedded 20 965", given=definition(assertions=[], redact=[]))
    several = [new(), new("test.note__2", "cbor", b"\xf6"), new("c2pa.actions", "cbor", b"\xbf\xff"), new("é ~", "json", b"")]
    yield row("assertions in their order", None, given=definition(assertions=several))
    yield row("hex in upper case", "embedded 20 1141", given=definition(protected="A10126"))
    yield row("the last of equal keys holds", "embedded 20 1141", given=b'{"label":null,' + DEFINITION[1:])
    yield row("keys in another order, and spaces", "embedded 20 1141", given=json.dumps(dict(reversed(X.items())), indent=1).encode())
    yield row("a key with an escape", "embedded 20 1141", given=DEFINITION.replace(b'"label":"urn', b'"\\u006cabel":"urn', 1))
    yield row("texts with escapes", None, given=definition(generator="...").replace(b'"..."', b'"\\ud83d\\ude00\\n|"'))
    yield row("a long definition", None, given=definition(assertions=[new("long", "json", b"7" * 130_000)]))
    most = definition(protected="00" * 65_536, reserve=70_000)
    yield row("the most that may be protected", None, "a JPEG as short as can be", most, message(protected=bytes(65_536)))


def parent_rows():
    first = signed()
    yield row("a second store", "embedded 20 2667", first, LATER_DEFINITION)
    second = signed(first, label=LATER)
    yield row("a third store", None, second, definition(label=LABEL[:-1] + "2"))
    yield row("a tenth store", None, chain(9), definition(label=LABEL[:-2] + "09"))
    yield row("a store that others wrote", None, redactable(), LATER_DEFINITION)
    yield row("another place of the old store", None, SMALL[:20] + segment(0xE1, b"Exif") + store_packets() + SMALL[20:], LATER_DEFINITION)
    yield row("the old store's number is free", None, renumbered(), LATER_DEFINITION)
    yield row("wide boxes and a leaf", None, wide_boxes(), LATER_DEFINITION)
    yield row("a manifest that isn't reached is carried", None, unreached(), LATER_DEFINITION)
    yield row("a store of version 1", None, of_version_1(), LATER_DEFINITION)
    yield row("a store by longer digests", None, by_sha512(), LATER_DEFINITION)
    update = [old(label="d"), with_(Manifest("u", Ingredient("d", "parentOf")), is_update=True), Manifest("m", Ingredient("u", "parentOf"), DataHash())]
    yield row("an update below", None, Jpeg().file(update), LATER_DEFINITION)
    yield row("a store of four packets", None, "a store of 200,000 bytes", LATER_DEFINITION)
    yield row("a JPEG between two APP0 segments and its store", None, SMALL[:20] + store_packets(SMALL[:20] + APP0) + APP0 + SMALL[20:], LATER_DEFINITION)


def store_packets(around=SMALL[:20] + segment(0xE1, b"Exif")):
    """The packets of a store that is valid behind a front and before an end."""
    contents = Jpeg(around).file([Manifest("m", DataHash())])
    return contents[len(around) : -2]


def renumbered():
    """A JPEG whose store has packets of the number 0x0213, others 0x0211 and 0x0212."""
    around = numbered(0x0211, 0x0212)[:-2]
    contents = Jpeg(around).file([Manifest("m", DataHash())])
    at = contents.index(b"JP\x02\x11", len(around))
    return contents[: at + 2] + b"\x02\x13" + contents[at + 4 :]


def redacting(*entries, **fields):
    return later(redact=list(entries), **fields)


def target(manifest, label):
    return f"{URL}{manifest}{ASSERTIONS}{label}"


def redaction_rows():
    media = redactable()
    yield row("a redaction in the parent", None, media, redacting(target("m", "test.note")))
    yield row("a redaction below the parent", None, media, redacting(target("d", "test.note")))
    every = target("d", "test.other"), target("m", "test.note"), target("d", "test.note")
    yield row("three redactions", None, media, redacting(*every))
    yield row("a redaction in a claim of version 1", None, of_version_1(), redacting(target("m", "test.note")))
    yield row("redactions in a store by longer digests", None, by_sha512(), redacting(target("d", "test.note"), target("m", "test.note")))
    yield row("a redaction in wide boxes", None, wide_boxes(), redacting(target("m", "test.note")))
    once = embed(media, redacting(target("d", "test.note")), MESSAGE, judges_of("approved"))[0]
    again = definition(label=LABEL[:-1] + "2", redact=[target("d", "test.other")])
    yield row("a redaction behind a redaction", None, once, again)
    twice = embed(once, again, MESSAGE, judges_of("approved"))[0]
    both = definition(label=LABEL[:-1] + "3", redact=[target("m", "test.note")])
    yield row("redactions in three generations", None, twice, both)
    own = signed(signed(assertions=[new(), new("test.other")]), label=LATER, assertions=[new()], redact=[target(LABEL, "test.note")])
    further = definition(label=LABEL[:-1] + "2", redact=[target(LATER, "test.note"), target(LABEL, "test.other")])
    yield row("redactions in what was built over what was built", None, own, further)
    shared = [old(note(), label="d"), old(Ingredient("d"), label="b"), old(Ingredient("d"), label="c")]
    active = Manifest("m", Ingredient("b"), Ingredient("c", label="c2pa.ingredient.v3__2"), DataHash())
    yield row("a redaction in a manifest that two name", None, Jpeg().file([*shared, active]), redacting(target("d", "test.note")))
    besides = [old(note(), label="d"), old(Ingredient("d", is_signed=False), label="x"), Manifest("m", Ingredient("d"), DataHash())]
    yield row("an ingredient without a signature that isn't reached", None, Jpeg().file(besides), redacting(target("d", "test.note")))


def film_rows():
    yield row("a film", "embedded 25 1220", FILM)
    wide = FTYP + box(b"mdat", b"A", wide=True)
    yield row("a wide box at the end", "embedded 33 1220", wide)
    yield row("an index of fragments at the end", "embedded 25 1220", FILM + box(b"mfra", b"index"))
    yield row("an index that runs to the end", "embedded 25 1220", FILM + bytes(4) + b"mfra" + b"x")
    yield row("an index that isn't last", "embedded 41 1220", FTYP + box(b"mfra", b"") + FILM[16:] + box(b"mfra", b"")[:4] + b"free")
    yield row("ftyp alone", "embedded 16 1220", FTYP)
    other = provenance_box(b"merkle\0" + bytes(9))
    yield row("a C2PA box of another purpose", f"embedded {25 + len(other)} 1220", FILM + other)
    first = signed(FILM)
    yield row("a second store at the end", "embedded 25 2792", first, LATER_DEFINITION)
    yield row("a second store before an index", "embedded 25 2792", signed(FILM + box(b"mfra", b"index")), LATER_DEFINITION)
    yield row("a store in the middle", "embedded 1245 2792", built_films.film_in_front(), LATER_DEFINITION)
    drafted = lambda **more: Bmff(FTYP, MDAT, **more).file([Manifest("m", note(), BmffHash(ALL_EXCLUDED))])
    yield row("padding behind the old store, in the middle", None, drafted(padding=b"more"), redacting(target("m", "test.note")))
    last = Bmff(FTYP + MDAT, b"").file([Manifest("m", note(), BmffHash(ALL_EXCLUDED))])
    yield row("a redaction in a film", None, last, redacting(target("m", "test.note")))
    yield row("an old box that runs to the end", None, last[:25] + bytes(4) + last[29:], LATER_DEFINITION)
    behind = Bmff(FTYP + MDAT, box(b"mfra", b"") + box(b"free", b"")).file([Manifest("m", BmffHash(ALL_EXCLUDED))])
    yield row("an index and another box behind the old store", None, behind, LATER_DEFINITION)
    data_bound = Bmff(FTYP + MDAT, b"").file([Manifest("m", DataHash())])
    yield row("an old store with a data hash", None, data_bound, LATER_DEFINITION)
    wide_old = Bmff(FTYP, MDAT, wide=True).file([Manifest("m", BmffHash([*ALL_EXCLUDED, wide_exclusion()]))])
    yield row("a wide old box in the middle", None, wide_old, LATER_DEFINITION)


def algorithm_rows():
    """Each algorithm, in a JPEG and in a film, alone and over a store by another one. Without a parent three digests are as long as the
    algorithm's: two references and the binding; with one there are six, two of them in the ingredient and one for it."""
    for alg, more in LONGER.items():
        yield row(f"a JPEG by {alg}", f"embedded 20 {1_141 + 3 * more}", given=definition(alg=alg))
        yield row(f"a film by {alg}", f"embedded 25 {1_220 + 3 * more}", FILM, definition(alg=alg))
    yield row("an algorithm in front of the other fields", "embedded 20 1237", given=b'{"alg":"sha512",' + DEFINITION[1:])
    yield row("the last of equal algorithms holds", "embedded 20 1189", given=b'{"alg":"md5","alg":"sha384",' + DEFINITION[1:])
    for below, above in ("sha512", "sha256"), ("sha256", "sha512"), ("sha384", "sha512"), ("sha512", "sha384"):
        more = 3 * LONGER[below] + 6 * LONGER[above]
        yield row(f"a JPEG by {above} over {below}", f"embedded 20 {2_667 + more}", signed(alg=below), later(alg=above))
        yield row(f"a film by {above} over {below}", f"embedded 25 {2_792 + more}", signed(FILM, alg=below), later(alg=above))
    third = definition(label=LABEL[:-1] + "2", alg="sha384")
    yield row("a third store by a third algorithm", None, signed(signed(alg="sha512"), label=LATER), third)
    yield row("a film by sha512 whose old store becomes free space", None, built_films.film_in_front(), later(alg="sha512"))
    yield row("redactions by sha512 in a store by sha256", None, redactable(), redacting(target("m", "test.note"), target("d", "test.other"), alg="sha512"))
    yield row("redactions by sha384 in a store by longer digests", None, by_sha512(), redacting(target("m", "test.note"), alg="sha384"))


def wide_exclusion():
    """Excludes a C2PA box whose length has 8 bytes."""
    return mapping(("xpath", text("/uuid")), ("data", array(mapping(("offset", uint(16)), ("value", data(PROVENANCE))))))


def media_refusals():
    yield row("an empty file", "build MediaRefused NotMedia 0", b"")
    yield row("a JPEG cut short", "build MediaRefused Truncated 2", b"\xff\xd8")
    yield row("a bad marker", "build MediaRefused BadMarker 20", SMALL[:20] + b"x")
    yield row("a film cut short", "build MediaRefused Truncated 24", FILM[:-1])
    yield row("a bad box", "build MediaRefused BadBox 16", FTYP + b"\0\0\0\7mdat")
    yield row("a file of 2^62 bytes", f"build MediaRefused FileTooLarge {2**62}", vast(b"", 2**62))
    two = signed()[:-2] + signed()[20:]
    yield row("two stores", "build MediaRefused TwoStores 1161", two)
    contents = media_of(signed()).store
    around = Jpeg(SMALL[:20]).around
    yield row("a store whose box tree is refused", "build MediaRefused BadHead 1129", around(longer(contents, b"\0\0\0\7")))
    empty = superbox(b"c2pa", "c2pa")
    yield row("a store without a manifest", "build MediaRefused NoManifest 0", around(empty))
    other = superbox(b"c2pa", "c2pa", superbox(b"c2cm", "m"))
    yield row("a compressed manifest", "build MediaRefused ManifestType 38", around(other))


def longer(contents, more):
    return (len(contents) + len(more)).to_bytes(4, "big") + contents[4:] + more


BAD_FIELDS = {
    "label": ("", LABEL.upper(), LABEL.replace("-", ""), "urn:uuid:" + LABEL[9:], LABEL + " ", 7, None, ...),
    "instance_id": ("", 1, None, [], ...),
    "generator": ("", True, None, {}, ...),
    "title": (None, 1, []),
    "protected": ("a1012", "0x", " a1", "zz", None, 1, ..., "00" * 65_537),
    "reserve": (63, 1_048_577, 256.0, "256", -256, True, None, 2**64 + 256, ...),
    "redact": (None, "self#jumbf=/c2pa/m/c2pa.assertions/a", [1], [None], {}),
    "alg": ("md5", "", "SHA256", "sha-512", "sha2560", "sha224", None, 512, ["sha256"]),
}


def definition_refusals():
    refused = lambda field: f"build BadDefinition {field}"
    yield row("a definition of 1,048,577 bytes", refused("size"), given=DEFINITION + b" " * (1_048_577 - len(DEFINITION)))
    yield row("one of 1,048,576 bytes", "embedded 20 1141", given=DEFINITION + b" " * (1_048_576 - len(DEFINITION)))
    bad = b"", b"[]", b"null", b"7", DEFINITION[:-1], DEFINITION + b"x", b"\xef\xbb\xbf" + DEFINITION, DEFINITION.replace(b"c2\"", b"\xff\"")
    for given in (*bad, DEFINITION.replace(b'"c2"', b'"\\ud800"'), DEFINITION.replace(b"256", b"1e999"), DEFINITION.replace(b"256", b"0256")):
        yield row("no JSON object", refused("json"), given=given)
    for depth, field in (126, "other"), (127, "json"):
        nested_lists = b'{"deep":' + b"[" * depth + b"]" * depth + b","
        yield row(f"{depth} lists in an object", refused(field), given=nested_lists + DEFINITION[1:])
    yield row("a key more", refused("other"), given=definition(comment=""))
    yield row("a key in another case", refused("other"), given=definition(Label=LABEL))
    for field, values in BAD_FIELDS.items():
        for value in values:
            yield row(f"{field}: {str(value)[:20]}", refused(field), given=definition(**{field: value}))
    for number in b"256e0", b"2.56e2", b"0.0", b"-0", b"256.0":
        yield row("a reserve that is no whole number", refused("reserve"), given=DEFINITION.replace(b":256", b":" + number))
    for what, value in bad_assertions():
        yield row(what, refused("assertions"), given=definition(assertions=value))


def bad_assertions():
    yield "assertions: null", None
    yield "assertions: no list", {}
    yield "an assertion that is no object", [1]
    yield "an assertion without its kind", [{"label": "a", "hex": ""}]
    yield "an assertion with a key more", [{**new(), "alg": "sha256"}]
    for label in "", "a/b", "a\x1f", "a\x7f", "c2pa.hash.data", "c2pa.hash.x__1", "c2pa.ingredient.v3", "c2pa.ingredient", "c2pa.cloud-data":
        yield f"a label that can't be new: {label!r}", [new(label)]
    yield "a label that is no text", [{**new(), "label": 1}]
    yield "equal labels", [new(), new("a"), new()]
    yield "another kind", [{**new(), "kind": "bidb"}]
    yield "an odd number of digits", [{**new(), "hex": "7b7"}]
    yield "hex that is no text", [{**new(), "hex": 7}]
    yield "no item", [new("a", "cbor", b"")]
    yield "two items", [new("a", "cbor", b"\0\0")]
    yield "an item with equal keys", [new("a", "cbor", bytes.fromhex("a200010001"))]


def signature_refusals():
    refused = lambda part: f"build BadSignature {part}"
    yield row("a message of 1,048,577 bytes", refused("size"), signature=message(signature=bytes(1_048_577 - 14)) + bytes(2))
    three = array(data(b""), mapping(), b"\xf6")
    fields = message(protected=b"").replace(b"\x40", b"\x60", 1), tag(18, three), tag(17, bare(MESSAGE)), tag(18, MESSAGE), MESSAGE.replace(b"\xf6", b"\x40")
    for signature in b"", b"\xf6", MESSAGE[:-1], MESSAGE + b"\0", *fields, MESSAGE.replace(b"\xa0", b"\x80"):
        yield row("no message", refused("form"), signature=signature)
    yield row("equal keys", refused("form"), signature=message(("a", b"\0"), ("a", b"\0")))
    yield row("keys that differ in the order of pairs inside them", refused("plain"), signature=MESSAGE[:6] + ODD_HEADER + MESSAGE[7:])
    inside = message((uint(1), array(ODD_HEADER)))
    yield row("such keys inside a value", refused("plain"), signature=inside)
    yield row("a depth of 64 without the tag", refused("plain"), signature=nested(64))
    yield row("a depth of 65 without the tag", refused("form"), signature=nested(65))
    yield row("another protected header", refused("protected"), signature=message(protected=b"\xa0"))
    entries = [(uint(number), b"\0") for number in range(21)]
    yield row("21 entries", refused("entries"), signature=message(*entries))
    for key in "pad", "pad2":
        yield row(f"a key {key}", refused("pad"), signature=message((key, data(b""))))
    yield row("a key pad of null", refused("pad"), signature=message(("pad", b"\xf6")))


def parent_refusals():
    first = signed()
    refused = lambda code, place="/c2pa.signature": f"build ParentFails {code} {URL}{LABEL}{place}"
    codes = ("none", "profile.verdict.missing"), ("silent", "profile.verdict.missing"), ("mismatch", "claimSignature.mismatch")
    for judge, code in (*codes, ("untrusted", "signingCredential.untrusted"), ("invalid", "signingCredential.invalid")):
        yield row(f"the parent's question, judge {judge}", refused(code), first, LATER_DEFINITION, judge=judge)
    yield row("a judge who fails", JUDGE_FAULT, first, LATER_DEFINITION, judge="broken")
    yield row("a judge who fails and isn't asked", "embedded 20 1141", judge="broken")
    yield row("a judge who fails and isn't due behind one who speaks", "embedded 20 2667", first, LATER_DEFINITION, judge="approved broken")
    yield row("a judge who fails behind one who is silent", JUDGE_FAULT, first, LATER_DEFINITION, judge="silent broken")
    yield row("one judge is silent and the next approves", "embedded 20 2667", first, LATER_DEFINITION, judge="silent approved")
    second, third = signed(first, label=LATER), definition(label=LABEL[:-1] + "2")
    yield row("a judge who fails at the second of two questions", JUDGE_FAULT, second, third, judge="approved@2")
    yield row("a judge who would fail at the third of two questions", None, second, third, judge="approved@3")
    yield row("a judge who fails, of a picture that is changed", JUDGE_FAULT, changed(first, 19), LATER_DEFINITION, judge="broken")
    yield row("a changed picture", refused("assertion.dataHash.mismatch", ASSERTIONS + "c2pa.hash.data"), changed(first, 19), LATER_DEFINITION)
    film = changed(signed(FILM), 24)
    yield row("a changed film", refused("assertion.bmffHash.mismatch", ASSERTIONS + "c2pa.hash.bmff.v2"), film, LATER_DEFINITION)
    updating = [old(label="d"), with_(Manifest("m", Ingredient("d", "parentOf")), is_update=True)]
    yield row("an active update", f"build ParentFails unsupported.updateActive {URL}m", Jpeg().file(updating), LATER_DEFINITION)
    control = [Manifest("m", with_(note("a"), url="self#jumbf=c2pa.assertions/a\n", is_there=False), DataHash())]
    yield row("a line feed that is printed", f"build ParentFails assertion.missing {target('m', 'a?')}", Jpeg().file(control), LATER_DEFINITION)
    yield row("a label that is taken", f"build LabelTaken {LABEL}", first)
    taken = Jpeg().file([old(label=LABEL), Manifest("m", DataHash())])
    yield row("a label that one has which isn't reached", f"build LabelTaken {LABEL}", taken)


def redaction_refusals():
    media = redactable()
    refused = lambda entry, code: row(f"a redaction: {code}", f"build RedactionRefused {printed(entry)} {code}", media, redacting(entry))
    printed = lambda entry: "".join("?" if ord(char) < 0x20 or char == "\x7f" else char for char in entry)
    for entry in "", "x", URL, URL + "m", f"{URL}m/c2pa.signature", f"{URL}m/c2pa.claim.v2", f"{target('m', 'a')}/b", "self#jumbf=/x/m", "a\n\x7f":
        yield refused(entry, "profile.redaction.uri")
    for entry in "self#jumbf=c2pa.assertions/test.note", target(LATER, "test.note"), target(LATER, "c2pa.actions"):
        yield refused(entry, "assertion.selfRedacted")
    for label in "c2pa.actions", "c2pa.actions.v2__1":
        yield refused(target("m", label), "assertion.action.redacted")
    for label in "c2pa.hash.data", "c2pa.hash.bmff.v2", "c2pa.hash.boxes":
        yield refused(target("m", label), "profile.redaction.binding")
    for label in "c2pa.ingredient.v3", "c2pa.ingredient.v9__2":
        yield refused(target("m", label), "unsupported.redactIngredient")
    for entry in target("m", "test.other"), target("x", "test.note"), target("d", "c2pa.thumbnail"):
        yield refused(entry, "profile.redaction.target")
    twice = [target("m", "test.note")] * 2
    code = f"build RedactionRefused {twice[0]} profile.redaction.target"
    yield row("the same target twice", code, media, redacting(*twice))
    once = embed(media, redacting(twice[0]), MESSAGE, judges_of("approved"))[0]
    yield row("a target that was taken out before", code, once, definition(redact=twice[:1]))
    note_below = target("d", "test.note")
    yield row("a manifest that isn't reached", f"build RedactionRefused {note_below} profile.redaction.target", unreached(), redacting(note_below))
    named = f"build RedactionRefused {note_below} profile.ingredient.signature"
    yield row("an ingredient without a signature", named, unsigned(), redacting(note_below))
    yield row("an ingredient of version 1", named, of_version_1(), redacting(note_below))
    no_store = target("m", "test.note")
    yield row("no store", f"build RedactionRefused {no_store} profile.redaction.target", given=with_redactions(no_store))
    second = redacting(target("m", "test.note"), "x", target("x", "y"))
    yield row("the second of three", "build RedactionRefused x profile.redaction.uri", media, second)
    update = [old(note(), label="d"), with_(Manifest("u", Ingredient("d", "parentOf")), is_update=True)]
    below = Jpeg().file([*update, Manifest("m", Ingredient("u", "parentOf"), DataHash())])
    yield row("a target below an update", None, below, redacting(note_below))


def place_refusals():
    open_film = FTYP + bytes(4) + FILM[20:]
    yield row("a box that runs to the end", "build OpenBox 16", open_film)
    middle = Bmff(FTYP, bytes(4) + b"mdatA").file([Manifest("m", BmffHash(ALL_EXCLUDED))])
    start = len(middle) - 9
    yield row("such a box behind the old store", f"build OpenBox {start}", middle, LATER_DEFINITION)
    yield row("such a box that is the first", "build OpenBox 0", bytes(4) + FTYP[4:])
    every = "packets of every number from 0x0211 to 0xFFFF"
    yield row("no number is free", "build NoInstance", every)


def size_refusals():
    yield row("a manifest more than there may be", "build TooManyManifests 1025", "a store of 1,024 manifests", LATER_DEFINITION)
    yield row("as many manifests as there may be", None, "a store of 1,023 manifests", LATER_DEFINITION)
    too_large = "build StoreTooLarge 33554433"
    yield row("a store of a byte more than there may be", too_large, "a store that has room for one manifest more less one byte", LATER_DEFINITION)
    yield row("as large a store as there may be", None, "a store that has room for one manifest more", LATER_DEFINITION)
    yield row("a file of 2^62 bytes more than there may be", f"build MediaRefused FileTooLarge {VAST + 1_141}", vast(SMALL, VAST))
    yield row("the same by one byte", f"build MediaRefused FileTooLarge {2**62}", vast(SMALL, 2**62 - 1_141))
    yield row("the same in a film", f"build MediaRefused FileTooLarge {VAST + 1_220}", vast(VAST_FILM, VAST))
    yield row("a root box more than there may be", "build MediaRefused TooManyBoxes 1048576", "a film of ftyp, 1,048,574 free boxes of 8 bytes, and mdat")
    yield row("as many root boxes as there may be", None, "the same less one free box")


def order_rows():
    """Two causes in one row: the answer is the earlier one's."""
    first, bad_parent = signed(), changed(signed(), 19)
    failing = f"build ParentFails assertion.dataHash.mismatch {target(LABEL, 'c2pa.hash.data')}"
    entry = target(LABEL, "c2pa.actions.v2")
    redacted = f"build RedactionRefused {entry} assertion.action.redacted"
    small = with_reserve(64)
    yield row("media before definition", "build MediaRefused NotMedia 0", b"", b"{}")
    yield row("the box tree before the definition", "build MediaRefused NoManifest 0", Jpeg().around(superbox(b"c2pa", "c2pa")), b"{}")
    yield row("definition before message", "build BadDefinition label", given=b"{}", signature=b"")
    yield row("redactions of a definition before its algorithm", "build BadDefinition redact", given=definition(redact=[1], alg="md5"))
    yield row("message before parent", "build BadSignature form", bad_parent, DEFINITION, b"")
    yield row("parent before label", failing, bad_parent)
    yield row("label before redactions", f"build LabelTaken {LABEL}", first, definition(redact=[entry]))
    open_film = FTYP + bytes(4) + FILM[20:]
    own = target(LABEL, "a")
    refused = f"build RedactionRefused {own} assertion.selfRedacted"
    yield row("redactions before an open box", refused, open_film, definition(redact=[own]))
    every = "packets of every number from 0x0211 to 0xFFFF"
    yield row("redactions before numbers", refused, every, definition(redact=[own]))
    yield row("redactions before the reserve", redacted, first, later(redact=[entry], reserve=64))
    yield row("an open box before the reserve", "build OpenBox 16", open_film, small)
    yield row("numbers before the reserve", "build NoInstance", every, small)
    both = "a store of 33,554,432 bytes with 1,024 manifests"
    yield row("manifests before the store's size", "build TooManyManifests 1025", both, LATER_DEFINITION)
    largest = "a store of 33,554,432 bytes"
    yield row("the store's size before the reserve", None, largest, later(reserve=64))
    yield row("the file's size before the reserve", f"build MediaRefused FileTooLarge {VAST + 949}", vast(SMALL, VAST), small)
    boxes = "a film of ftyp, 1,048,574 free boxes of 8 bytes, and mdat"
    yield row("root boxes before the reserve", "build MediaRefused TooManyBoxes 1048576", boxes, small)
    for what, part, pairs, more in message_orders():
        yield row(what, f"build BadSignature {part}", signature=message(*pairs, **more))


def message_orders():
    """Two causes in one message."""
    many = [(uint(number), b"\0") for number in range(21)]
    other = {"protected": b"\xa0"}
    odd = bytes.fromhex("a200010102"), b"\0"
    even = bytes.fromhex("a201020001"), b"\0"
    yield "plain before protected", "plain", (odd, even), other
    yield "protected before entries", "protected", many, other
    yield "entries before pad", "entries", (*many, ("pad", data(b""))), {}


# The table


def told(call, *given, judge):
    """Status and line of an answer, its new file, and how often each judge was asked."""
    judges = judges_of(judge)
    try:
        made = call(*given, judges)
        line, status = line_of(made)
    except JudgeFault:
        made, line, status = [None], "", JUDGE_FAULT
    return status, line, made[0] if isinstance(made[0], bytes) else None, [each.asked for each in judges]


class Computed:
    """A row with what builder.py says."""

    def __init__(self, what, media, given, signature, judge, known):
        self.what, self.media, self.given, self.signature, self.judge, self.known = what, media, given, signature, judge, known
        contents = media_named(media)
        self.planned = told(plan, contents, given, judge=judge)
        self.embedded = told(embed, contents, given, signature, judge=judge)

    def kind(self):
        """The answer of `embed` without what differs from row to row."""
        status, line, *_ = self.embedded
        words = line.split()
        name = words[1] if status == BUILD_REFUSED else words[0] if words else f"status {status}"
        kept = {"MediaRefused": words[2:3], "BadDefinition": words[2:], "BadSignature": words[2:], "ParentFails": words[2:3]}
        return " ".join([name, *kept.get(name, words[-1:] if name == "RedactionRefused" else [])])

    def differences(self):
        """What of the row isn't as it is written by hand, or as rules.py says it of the new file."""
        status, line, contents, _ = self.embedded
        if self.known is not None and self.known != (status if status == JUDGE_FAULT else line):
            yield f"{line}, not {self.known}"
        only_embed = line.startswith(("build BadSignature", "build ReserveTooSmall"))
        if self.planned[:2] != (status, line) and contents is None and not only_embed:
            yield f"plan says {self.planned[1][:60]}"
        if contents is not None:
            said = report("validate", contents, judges_of("approved"))
            if not said[0].startswith("valid ") or self.planned[0]:
                yield f"{said[0]}, {self.planned[1]}"

    def text(self, in_hex):
        status, line, contents, _ = self.embedded
        media = folded(self.media) if isinstance(self.media, bytes) else self.media
        planned = "=" if self.planned == self.embedded else f"{self.planned[0]} {self.planned[1]}"
        new = "-" if contents is None else contents.hex() if in_hex else hashlib.sha256(contents).hexdigest()
        return "|".join([media, definition_text(self.given), folded(self.signature), self.judge, planned, f"{status} {line}", new])


def definition_text(given):
    """A definition as it stands, or in hex where it can't stand in a row."""
    try:
        shown = given.decode("utf-8")
    except UnicodeDecodeError:
        return folded(given)
    return shown if len(shown) < 2_000 and shown.isprintable() and shown.startswith("{") and not {"|", "#"} & set(shown) else folded(given)


GROUPS = (
    jpeg_rows,
    reserve_rows,
    message_rows,
    definition_rows,
    parent_rows,
    redaction_rows,
    film_rows,
    algorithm_rows,
    media_refusals,
    definition_refusals,
    signature_refusals,
    parent_refusals,
    redaction_refusals,
    place_refusals,
    size_refusals,
    order_rows,
)


def computed(group, large):
    """The rows of a group, those with long media or the others."""
    return (Computed(*each) for each in group() if (each[1] in MADE) == large)


def check(large):
    answers, wrong = Counter(), 0
    for each in (each for group in GROUPS for each in computed(group, large)):
        answers[each.kind()] += 1
        for difference in each.differences():
            print(f"{each.what}: {difference}")
            wrong += 1
    for kind, times in sorted(answers.items()):
        print(f"{times:4} {kind}")
    print(f"{sum(answers.values())} rows, {wrong} differences")
    return 1 if wrong else 0


def print_tables(large):
    print("// What `plan` and `embed` say. Written by tests/real/build_rows.py, which computes the answers: not to be edited.")
    for group in GROUPS:
        lines = [f"# {each.what}\n{each.text(group is jpeg_rows and at == 0)}\n" for at, each in enumerate(computed(group, large))]
        if lines:
            print("\n/// Rows of media, definition, message, judge, what `plan` and `embed` say, and the new file.")
            print(f'pub const {group.__name__.upper()}: &str = r##"', end="")
            print("".join(lines) + '"##;')
    return 0


def main():
    command, *more_words = sys.argv[1:]
    return {"print": print_tables, "check": check}[command](more_words == ["large"])


if __name__ == "__main__":
    sys.exit(main())
