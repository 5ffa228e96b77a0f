#!/usr/bin/env python3
"""What `c2 plan` and `c2 embed` must print and write, computed apart from c2, and the status they must exit with.

    builder.py plan MEDIA DEFINITION [VERDICTFILE..]                  the bytes to be signed
    builder.py embed MEDIA DEFINITION SIGNATURE OUT [VERDICTFILE..]   writes the new file

The media is read by media.py, its store judged by rules.py, the definition file read by definition.py. Nothing here was taken
from c2's own code. The built file is made of whole lists: the media less its old store (the base), then the new store, whose
length depends neither on digests nor on the numbers of a range, then both together.
"""

import os
import sys
from collections import namedtuple
from functools import partial

import bmff
import cbor
import definition as definitions
import hashing
import jumbf
from bmff import PROVENANCE
from definition import BadDefinition
from drafts import provenance_box
from locate import LARGEST_STORE, Refused, packet_of, segment_at
from make_store import assertions, box, claim_box, item, jpeg, manifest, signature_box, store, superbox
from manifests import MOST_MANIFESTS, read_sign1, read_uri
from media import LARGEST_FILE, media_of
from rules import CheckList, is_assertion, redaction_codes
from store import DONE, INPUT_FAULT, JUDGE_FAULT, OUTPUT_FAULT, USAGE, JudgeFault, end_with, printable, read_verdicts, verdict_of

BUILD_REFUSED = 11
# How many files a command names before its judges, and how many judges it takes.
NAMES, MOST_JUDGES = {"plan": 2, "embed": 4}, 64
LARGEST_MESSAGE = 1_048_576
MOST_ENTRIES = 20
NUMBERS = range(0x0211, 0x10000)
FULL_BODY = 63_984
APP0 = 0xE0
PADS = ("text", "pad"), ("text", "pad2")
URI = "self#jumbf="
PARENT = "parentOf"
# The labels of a new manifest's ingredients.
INGREDIENTS = "c2pa.ingredient.v3", "c2pa.ingredient.v3__1"

Fill = namedtuple("Fill", "pad pad2")


class BuildRefused(Exception):
    """A refusal: its name and the values that it keeps."""


def plan(media, definition, judges=()):
    """What is planned of bytes, as `planned` has it."""
    return planned(lambda: read_media(media, judges), lambda: definition)


def embed(media, definition, signature, judges=()):
    """What is built of bytes, as `built` has it."""
    return built(lambda: read_media(media, judges), lambda: definition, lambda: signature)


def planned(*calls, build=None):
    """`tbs` and the bytes to be signed, or `build` with the name of the refusal and what it keeps. `build` is another class than Build, or a call."""
    try:
        return "tbs", (build or Build)(*calls).tbs
    except BuildRefused as refused:
        return "build", *refused.args


def built(*calls, build=None):
    """The new file, and start and length of what was put in; or a refusal as `planned` has it."""
    try:
        return (build or Build)(*calls).file()
    except BuildRefused as refused:
        return "build", *refused.args


class Build:
    """A file that is built. Calls give what it is built from, each where that is due: the old store of a media file and what the new one is put into,
    the bytes of a definition file, and those of a message, which a plan hasn't. Refusals come in their order."""

    def __init__(self, base, definition, message=None):
        old, self.base = base()
        self.definition = read_definition(definition())
        self.message = None if message is None else read_message(message(), self.definition)
        self.base.check()
        self.carried = self.carry(old)
        self.base.find_place()
        self.length = self.check_sizes()
        self.base.make_room(self.length)
        payload = bytes(self.definition.reserve)
        if self.message is not None:
            payload = padded(self.message, self.definition.reserve)
        listed = self.listed(self.base.binding(self.length, self.definition.alg))
        claim = claim_of(self.definition, listed)
        self.tbs = cbor.encode(array(text("Signature1"), data(self.definition.protected), data(b""), data(claim)))
        self.store = self.store_of(listed, claim, payload)

    def carry(self, old):
        """What the new store carries, once the old one is accepted, the redacted boxes taken out of it."""
        if old is None:
            return carry(None, self.definition)
        old.check()
        return carry(old, self.definition, (PARENT, len(old.manifests) - 1))

    def listed(self, binding):
        """Labels and boxes of the new manifest's assertions."""
        given = [(new.label, superbox(new.kind.encode(), new.label, box(new.kind.encode(), new.contents))) for new in self.definition.assertions]
        items = [*self.carried.ingredients, binding]
        return given + [(label, superbox(b"cbor", label, item(cbor.encode(value)))) for label, value in items]

    def store_of(self, listed, claim, payload):
        boxes = assertions(*(contents for _, contents in listed)), claim_box(item(claim)), signature_box(item(payload))
        return store(*self.carried.boxes, manifest(self.definition.label, *boxes))

    def check_sizes(self):
        """The length of what is put in, which no digest is needed for."""
        if self.carried.manifests >= MOST_MANIFESTS:
            raise BuildRefused("TooManyManifests", self.carried.manifests + 1)
        alg = self.definition.alg
        listed = self.listed(self.base.binding_of(0, 0, alg, bytes(hashing.LENGTHS[alg])))
        size = len(self.store_of(listed, claim_of(self.definition, listed), bytes(self.definition.reserve)))
        if size > LARGEST_STORE:
            raise BuildRefused("StoreTooLarge", size)
        length = self.base.length_of(size)
        if self.base.size + length > LARGEST_FILE:
            raise BuildRefused("MediaRefused", "FileTooLarge", self.base.size + length)
        if self.base.root_boxes >= bmff.MOST_ROOT_BOXES:
            raise BuildRefused("MediaRefused", "TooManyBoxes", bmff.MOST_ROOT_BOXES)
        return length

    def file(self):
        kept, place = self.base.kept(), self.base.place
        new = self.base.put(self.store)
        assert len(new) == self.length
        return kept[:place] + new + kept[place:], place, self.length


# Items of CBOR


def text(value):
    return "text", value


def data(value):
    return "bytes", value


def array(*members):
    return "list", members


def mapping(**fields):
    """A map of texts; a field of None is left out. Its order is made when it is encoded."""
    return "map", tuple((text(key), value) for key, value in fields.items() if value is not None)


def hashed_uri(url, contents, alg):
    """A reference by the claim's algorithm, which it doesn't name again."""
    return mapping(url=text(URI + url), hash=data(hashing.digest(contents, alg)))


# The definition file, and the signed message


def read_definition(contents):
    try:
        return definitions.read(contents)
    except BadDefinition as bad:
        raise BuildRefused("BadDefinition", *bad.args) from None


def read_message(contents, definition):
    """The message (RFC 9052, section 4.2) that bytes are, or the first test that it fails."""
    if len(contents) > LARGEST_MESSAGE:
        raise BuildRefused("BadSignature", "size")
    try:
        sign = read_sign1(cbor.read_whole(contents))
    except cbor.NotCbor:
        sign = None
    if sign is None:
        raise BuildRefused("BadSignature", "form")
    keys = [key for key, _ in sign.unprotected[1]]
    tests = {
        "plain": is_plain(tagged(sign), 1),
        "protected": sign.protected == definition.protected,
        "entries": len(keys) <= MOST_ENTRIES,
        "pad": not any(key in PADS for key in keys),
    }
    for part, holds in tests.items():
        if not holds:
            raise BuildRefused("BadSignature", part)
    return sign


def tagged(sign, *pads):
    """The item of a message, with further pairs of its unprotected header."""
    header = "map", (*sign.unprotected[1], *pads)
    return "tag", 18, array(data(sign.protected), header, cbor.NULL, data(sign.signature))


def is_plain(value, depth):
    """Whether an item isn't nested too deep, and no map in it has two keys of the same deterministic bytes."""
    kind, *parts = value
    members = ()
    if kind == "tag":
        members = parts[1:]
    elif kind == "list":
        members = parts[0]
    elif kind == "map":
        members = [member for pair in parts[0] for member in pair]
    if depth > cbor.DEEPEST or not all(is_plain(member, depth + 1) for member in members):
        return False
    return kind != "map" or len({cbor.encode(key) for key, _ in parts[0]}) == len(parts[0])


def fill_of(need):
    """How many zero bytes in `pad` and `pad2` (None for a key that isn't there) make a message so many bytes longer; or None."""
    if need == 0:
        return Fill(None, None)
    for at, pad, pad2 in (29, 18, 0), (262, 250, 0), (65_543, 65_530, 0), (65_544, 65_531, 0):
        if need == at:
            return Fill(pad, pad2)
    for first, last, less in (5, 28, 5), (30, 261, 6), (263, 65_542, 7), (65_545, 1_048_576, 9):
        if first <= need <= last:
            return Fill(need - less, None)
    return None


def padded(sign, reserve):
    """The bytes of a message, as many as are reserved."""
    bare = len(cbor.encode(tagged(sign)))
    if reserve < bare:
        raise BuildRefused("ReserveTooSmall", bare)
    fill = fill_of(reserve - bare)
    if fill is None:
        raise BuildRefused("ReserveTooSmall", bare + 5)
    pads = [(key, data(bytes(count))) for key, count in zip(PADS, fill) if count is not None]
    made = cbor.encode(tagged(sign, *pads))
    assert len(made) == reserve
    return made


# The new claim


def claim_of(definition, listed):
    """The claim's bytes, over labels and boxes of assertions."""
    entries = (hashed_uri(f"c2pa.assertions/{label}", contents[8:], definition.alg) for label, contents in listed)
    return cbor.encode(mapping(**{
        "alg": text(definition.alg),
        "dc:title": None if definition.title is None else text(definition.title),
        "signature": text(f"{URI}/c2pa/{definition.label}/c2pa.signature"),
        "instanceID": text(definition.instance),
        "created_assertions": array(*entries),
        "redacted_assertions": array(*map(text, definition.redactions)) if definition.redactions else None,
        "claim_generator_info": mapping(name=text(definition.generator)),
    }))


# The old store


class Older:
    """Boxes of manifests under one root, of which a new store has those that aren't redacted; the chain says which are reached."""

    def __init__(self, store, root, chain):
        self.store, self.root, self.chain, self.manifests = store, root, chain, chain.manifests

    def target(self, target):
        """The box of an assertion that a reached manifest lists, or None."""
        at = self.chain.places.get(target.manifest)
        if at not in self.chain.reached or target.label not in self.manifests[at].listed:
            return None
        return self.manifests[at].labelled.get(target.label)

    def is_signed(self, label):
        """Whether each reached ingredient that names a manifest names its signature too."""
        ingredients = (ingredient for at in self.chain.reached for ingredient in self.manifests[at].ingredients)
        return all(ingredient.signature is not None for ingredient in ingredients if ingredient.names == label)

    def spelled(self, box, gone):
        """The bytes of a box less the boxes in it that start at some places. Each header has the form that it had."""
        if not any(box.start < place < box.end for place in gone):
            return self.store[box.start : box.end]
        inner = b"".join(self.spelled(child, gone) for child in box.children if child.start not in gone)
        header = self.store[box.start : box.inside]
        length = len(header) + len(inner)
        if len(header) == 8:
            return length.to_bytes(4, "big") + header[4:] + inner
        return header[:8] + length.to_bytes(8, "big") + inner

    def ingredient(self, relationship, at, gone, alg):
        """The ingredient that a manifest is, by what is left of it: its digests are by the algorithm of the new claim."""
        named = self.manifests[at]
        url, signature = f"/c2pa/{named.label}", named.signature
        return mapping(
            relationship=text(relationship),
            activeManifest=hashed_uri(url, self.spelled(named.box, gone)[named.box.inside - named.box.start :], alg),
            claimSignature=hashed_uri(url + "/c2pa.signature", self.store[signature.inside : signature.end], alg),
        )


class OldStore(Older):
    """The store that a media file has, and what the rules say of it under the judges."""

    def __init__(self, media, judges):
        root = jumbf.read(media.store)
        super().__init__(media.store, root, CheckList(media.store, root, lambda identity: verdict_of(judges, identity)))
        self.media = media

    def check(self):
        for code, uri in self.chain.failing(self.media):
            raise BuildRefused("ParentFails", code, uri)


class Carried(namedtuple("Carried", "boxes manifests ingredients", defaults=((), 0, ()))):
    """What a new store has of older ones: boxes, how many of them are manifests, and the ingredients that some of these are, with their labels."""


def carry(older, definition, *named):
    """What a new store carries of an older one (of none where that is None), the redacted boxes taken out of it; relationships and places of the
    manifests that are its ingredients, in their order."""
    if older is not None and definition.label in older.chain.places:
        raise BuildRefused("LabelTaken", definition.label)
    gone = set()
    for entry in definition.redactions:
        gone.add(redacted_place(older, entry, definition.label, gone))
    if older is None:
        return Carried()
    boxes = [older.spelled(box, gone) for box in older.root.children[1:]]
    ingredients = [older.ingredient(*each, gone, definition.alg) for each in named]
    return Carried(boxes, len(older.manifests), list(zip(INGREDIENTS, ingredients)))


def redacted_place(old, entry, label, gone):
    """Where the box stands that a redaction in a manifest of a label takes out, when some are gone already."""
    target = read_uri(entry)
    if not is_assertion(target):
        raise BuildRefused("RedactionRefused", entry, "profile.redaction.uri")
    for code in redaction_codes(target, label):
        raise BuildRefused("RedactionRefused", entry, code)
    box = old and old.target(target)
    if box is None or box.start in gone:
        raise BuildRefused("RedactionRefused", entry, "profile.redaction.target")
    if not old.is_signed(target.manifest):
        raise BuildRefused("RedactionRefused", entry, "profile.ingredient.signature")
    return box.start


# The base, and where the new store goes


def read_media(contents, judges):
    """The store of a media file (None where it has none), and its base."""
    try:
        media = media_of(contents)
        old = OldStore(media, judges) if media else None
        return old, (JpegBase if contents[:2] == b"\xff\xd8" else FilmBase)(contents, media)
    except Refused as refused:
        raise BuildRefused("MediaRefused", refused.reason, refused.number) from None


def number_bytes(number):
    return len(cbor.head(0, number))


class Base:
    """What a new store is put into: its length, and how many root boxes it has. What isn't refused here is left as it is."""

    size = root_boxes = 0

    def check(self):
        """Refuses what is refused before redactions."""

    def make_room(self, length):
        """Makes room for so many bytes, once nothing else than the reserve may be refused."""


class JpegBase(Base):
    """A JPEG less the packets of its store."""

    def __init__(self, contents, media):
        self.contents = contents
        self.old = range(media.start, media.start + media.length) if media else range(0)
        self.size = len(contents) - len(self.old)
        self.place = self.number = None

    def segments(self):
        """Marker, payload and length of the segments."""
        at = 2
        while True:
            marker, payload, end = segment_at(self.contents, at)
            if end is None:
                return
            if at not in self.old:
                yield marker, payload, end - at
            at = end

    def find_place(self):
        """The place behind SOI and the APP0 segments, and a number that no packet has."""
        segments = list(self.segments())
        self.place = 2
        for marker, _, length in segments:
            if marker != APP0:
                break
            self.place += length
        packets = (packet_of(marker, payload) for marker, payload, _ in segments)
        taken = {packet.en for packet in packets if packet}
        self.number = next((number for number in NUMBERS if number not in taken), None)
        if self.number is None:
            raise BuildRefused("NoInstance")

    def kept(self):
        return self.contents[: self.old.start] + self.contents[self.old.stop :]

    def length_of(self, size):
        """The length of the packets of a store."""
        return 20 * max(1, -(-(size - 8) // FULL_BODY)) + size - 8

    def put(self, contents):
        return jpeg(contents, b"", b"", self.number)

    def binding(self, length, alg):
        return self.binding_of(self.place, length, alg, hashing.digest(self.kept(), alg))

    def binding_of(self, start, length, alg, digest):
        """A hash of all but one range; it is as long with all numbers."""
        return "c2pa.hash.data", mapping(
            alg=text(alg),
            pad=data(bytes(18 - number_bytes(start) - number_bytes(length))),
            hash=data(digest),
            exclusions=array(mapping(start=("uint", start), length=("uint", length))),
        )


class BmffBase(Base):
    """A BMFF file that a C2PA box is put into."""

    def length_of(self, size):
        """The length of the C2PA box around a store."""
        return 45 + size

    def put(self, contents):
        return provenance_box(b"manifest\0" + bytes(8) + contents)

    def covering(self, alg, kept, roots):
        """The hash of a new file by what is kept, and by its root boxes with the place that each has in the new file. The new box is covered by no
        digest."""
        covered = hashing.begin(name=alg)
        for box, place in roots:
            contents = kept[box.start : box.end]
            is_provenance = box.kind == b"uuid" and contents[8:24] == PROVENANCE
            if box.kind not in (b"ftyp", b"mfra") and not is_provenance:
                covered.update(place.to_bytes(8, "big") + contents)
        return self.binding_of(None, None, alg, covered.digest())

    def binding_of(self, _start, _length, alg, digest):
        own = mapping(value=data(PROVENANCE), offset=("uint", 8))
        exclusions = mapping(data=array(own), xpath=text("/uuid")), mapping(xpath=text("/ftyp")), mapping(xpath=text("/mfra"))
        return "c2pa.hash.bmff.v2", mapping(alg=text(alg), hash=data(digest), exclusions=array(*exclusions))


class FilmBase(BmffBase):
    """A BMFF file less the C2PA box with its store, or with that box freed where other boxes stand behind it."""

    def __init__(self, contents, media):
        self.contents = contents
        self.roots = media.roots if media else bmff.root_boxes(contents)
        self.old = next((box for box in self.roots if media and box.start == media.start), None)
        behind = [box.kind for box in self.roots if self.old and box.start > self.old.start]
        self.is_freed = self.old is not None and behind not in ([], [b"mfra"])
        self.staying = [box for box in self.roots if box is not self.old or self.is_freed]
        self.size = sum(box.length() for box in self.staying)
        self.root_boxes = len(self.staying)
        self.place = None

    def find_place(self):
        """The end of the file, or the start of a last index of fragments; a box that runs to the end leaves no place."""
        last = self.staying[-1]
        self.place = self.size
        if last.kind == b"mfra":
            self.place -= last.length()
        elif self.contents[last.start : last.start + 4] == bytes(4):
            raise BuildRefused("OpenBox", last.start)

    def kept(self):
        return b"".join(self.free(box) if box is self.old else self.contents[box.start : box.end] for box in self.staying)

    def free(self, box):
        """A box of the same length and form of header that says nothing."""
        header = self.contents[box.start : box.inside]
        return header[:4] + b"free" + header[8:] + bytes(box.end - box.inside)

    def binding(self, _, alg):
        """The new box stands behind all that is covered, but for a last index, which isn't."""
        kept = self.kept()
        return self.covering(alg, kept, ((box, box.start) for box in bmff.root_boxes(kept)))


# Reports


def line_of(told):
    """The line of an answer of `plan` or `embed`, and the status."""
    if told[0] == "tbs":
        return f"tbs {told[1].hex()}", DONE
    if told[0] == "build":
        return " ".join(printable(str(value)) for value in told), BUILD_REFUSED
    return f"embedded {told[1]} {told[2]}", DONE


def answer(command, names, judges):
    """The line that words must print, the status, and the new file or None."""
    media, *more = (partial(contents_of, name) for name in names)
    try:
        told = (planned if command == "plan" else built)(lambda: read_media(media(), judges), *more)
    except OSError:
        return "", INPUT_FAULT, None
    except JudgeFault:
        return "", JUDGE_FAULT, None
    return *(line_of(told)), told[0] if isinstance(told[0], bytes) else None


def contents_of(name):
    with open(name, "rb") as file:
        return file.read()


def told(command="", *names):
    """The bytes that words must print (none of a usage line), and the status; a new file is written."""
    count = NAMES.get(command, 0)
    if not 0 < count <= len(names) <= count + MOST_JUDGES or any(name == "" or name.startswith("-") for name in names):
        return b"", USAGE
    files, judges = names[:count], [read_verdicts(name) for name in names[count:]]
    line, status, contents = answer(command, files[:3], judges)
    if contents is not None:
        if os.path.lexists(files[3]):
            return b"", OUTPUT_FAULT
        with open(files[3], "xb") as file:
            file.write(contents)
    return line.encode() + b"\n" if line else b"", status


if __name__ == "__main__":
    end_with(*told(*sys.argv[1:]))
