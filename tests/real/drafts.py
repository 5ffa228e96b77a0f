"""Drafts of manifest stores: what a manifest shall say, written out with digests and ranges that are right unless a draft says
otherwise. Boxes and items are those of make_store.py.

A store is written from its first manifest to its last, since an ingredient has the digests of a manifest before its own; and
twice, since the binding of the last one has the digest of the file around it.
"""

import cbor
import hashing
from bmff import PROVENANCE
from fields import BadBinding
from locate import Refused
from make import segment
from make_store import (
    array,
    box,
    claim_box,
    data,
    item,
    jpeg,
    manifest,
    mapping,
    sign1,
    signature_box,
    store,
    superbox,
    tag,
    text,
    uint,
)
from manifests import BMFF_HASH, CLAIM_LABELS, DATA_HASH, INGREDIENT_LABELS, base_of, version_of
from media import Binding, media_of

ACTIONS = mapping(("actions", array(mapping(("action", text("c2pa.created"))))))
NO_DIGEST = bytes(32)


def digest(contents, name=hashing.DEFAULT):
    return hashing.digest(contents, name)


def fields(*pairs):
    """A map of those pairs that have a value."""
    return mapping(*((key, value) for key, value in pairs if value is not None))


def reference(url, hashed, alg=None):
    return fields(("url", text(url)), ("hash", data(hashed)), ("alg", None if alg is None else text(alg)))


class Written:
    """What is there of a store that is being written: contents of manifests and signature boxes, numbers of the binding, the digest of what it
    covers (None for zeros), and the name of the algorithm in the claim that is being written."""

    def __init__(self, start=0, length=0, covered=None):
        self.start, self.length, self.covered = start, length, covered
        self.manifests, self.signatures = {}, {}
        self.claim_alg = None

    def algorithm(self, own):
        """The name of the algorithm of a reference or binding that has perhaps one of its own. Where it isn't known no digest is right."""
        name = self.claim_alg if own is None else own
        return name if hashing.is_known(name) else hashing.DEFAULT

    def digest(self, contents, own, changed=None):
        """The digest of a reference that has perhaps an algorithm of its own; `changed` is another one, or makes it of contents and algorithm."""
        name = self.algorithm(own)
        if callable(changed):
            return changed(contents, name)
        return digest(contents, name) if changed is None else changed

    def covered_digest(self, own):
        """What a binding says of the covered bytes; zeros in one by an algorithm of another length, which isn't that of the active manifest."""
        length = hashing.LENGTHS[self.algorithm(own)]
        return self.covered if self.covered is not None and len(self.covered) == length else bytes(length)


class Assertion:
    """An assertion box and its entry in the claim."""

    def __init__(self, label, encoded=b"\xa0", content=b"cbor"):
        self.label, self.content, self.given = label, content, encoded
        self.is_listed = self.is_there = True
        self.url = self.alg = self.hashed = self.change = None

    def encoded(self, written):
        spelled = self.given(written) if callable(self.given) else self.given
        return self.change(spelled) if self.change else spelled

    def box(self, written):
        return superbox(self.content, self.label, box(self.content, self.encoded(written)))

    def entry(self, written):
        url = f"self#jumbf=c2pa.assertions/{self.label}" if self.url is None else self.url
        return reference(url, written.digest(self.box(written)[8:], self.alg, self.hashed), self.alg)


class Ingredient(Assertion):
    """An ingredient, of the version that its label says, which names a manifest."""

    def __init__(self, named, relationship="componentOf", is_signed=True, label="c2pa.ingredient.v3"):
        super().__init__(label, self.spelled)
        self.named, self.relationship, self.is_signed = named, relationship, is_signed
        self.algs, self.hashes = [None, None], [None, None]

    def spelled(self, written):
        references = []
        for number, (known, more) in enumerate(((written.manifests, ""), (written.signatures, "/c2pa.signature"))):
            hashed = written.digest(known.get(self.named) or b"", self.algs[number], self.hashes[number])
            references.append(reference(f"self#jumbf=/c2pa/{self.named}{more}", hashed, self.algs[number]))
        signature = references[1] if self.is_signed else None
        manifest_there = references[0] if self.named is not None else None
        is_older = version_of(INGREDIENT_LABELS, base_of(self.label)) in (1, 2)
        named = "c2pa_manifest" if is_older else "activeManifest"
        return fields(("relationship", text(self.relationship)), (named, manifest_there), ("claimSignature", signature))


class DataHash(Assertion):
    def __init__(self, alg="sha256", label="c2pa.hash.data"):
        super().__init__(label, self.spelled)
        # the ranges, None for that of the store; their numbers have four bytes each, so that the item keeps its length
        self.ranges, self.named_alg, self.more = [None], alg, []

    def spelled(self, written):
        ranges = [(written.start, written.length) if given is None else given for given in self.ranges]
        width = lambda number: 4 if number < 1 << 32 else 8
        spelled = [mapping(("start", uint(at, width(at))), ("length", uint(length, width(length)))) for at, length in ranges]
        alg = None if self.named_alg is None else text(self.named_alg)
        hashed = data(written.covered_digest(self.named_alg))
        return fields(("alg", alg), ("hash", hashed), ("exclusions", array(*spelled)), *self.more)


class BmffHash(Assertion):
    def __init__(self, exclusions=(), alg="sha256", label="c2pa.hash.bmff.v2"):
        super().__init__(label, self.spelled)
        self.exclusions, self.named_alg, self.more = list(exclusions), alg, []

    def spelled(self, written):
        alg = None if self.named_alg is None else text(self.named_alg)
        hashed = data(written.covered_digest(self.named_alg))
        return fields(("exclusions", array(*self.exclusions)), ("alg", alg), ("hash", hashed), *self.more)


def relabelled(claims, label):
    """A claim box under another label."""
    return claim_box(claims[claims.index(b"cbor") - 4 :], label=label)


def exclusion(xpath, *pairs):
    return mapping(("xpath", text(xpath)), *pairs)


def tested(*tests):
    """The field of an exclusion that tests bytes at offsets."""
    return "data", array(*(mapping(("offset", uint(offset)), ("value", data(value))) for offset, value in tests))


def subset(*parts):
    """The field of an exclusion that means parts of a box, by their offsets and lengths."""
    return "subset", array(*(mapping(("offset", uint(offset)), ("length", uint(length))) for offset, length in parts))


PROVENANCE_BOX = exclusion("/uuid", tested((8, PROVENANCE)))
ALL_EXCLUDED = PROVENANCE_BOX, exclusion("/ftyp"), exclusion("/mfra")


class Manifest:
    """A manifest: its assertions, its claim, of version 1 or 2, and signature. What a draft changes of the boxes of claim and signature is a function.
    In a claim of version 1 no assertion is gathered."""

    def __init__(self, label, *given, update=False, version=2):
        self.label, self.assertions, self.is_update, self.version = label, list(given), update, version
        self.redactions, self.claim_alg, self.gathered = [], "sha256", 0
        self.claim_fields, self.extra_entries = {}, []
        self.signature = b"\x5a" * 4
        self.change_claim = self.change_claims = self.change_signatures = self.change_message = lambda it: it
        self.change_boxes = lambda boxes: boxes
        self.store_label, self.store_type = "c2pa.assertions", b"c2as"

    def lists(self, entries):
        """The fields that a claim has for its entries."""
        if self.version == 1:
            return {"assertions": array(*entries)}
        split = len(entries) - self.gathered
        gathered = array(*entries[split:]) if self.gathered else None
        return {"created_assertions": array(*entries[:split]), "gathered_assertions": gathered}

    def claim(self, written):
        written.claim_alg = self.claim_alg
        entries = [given.entry(written) for given in self.assertions if given.is_listed] + self.extra_entries
        older = {"claim_generator": text("a camera"), "dc:format": text("image/jpeg")}
        spelled = {
            **(older if self.version == 1 else {}),
            "instanceID": text("i"),
            "signature": text("self#jumbf=c2pa.signature"),
            **self.lists(entries),
            "redacted_assertions": array(*map(text, self.redactions)) if self.redactions else None,
            "alg": None if self.claim_alg is None else text(self.claim_alg),
            **self.claim_fields,
        }
        return self.change_claim(fields(*spelled.items()))

    def write(self, written):
        written.claim_alg = self.claim_alg
        boxes = [given.box(written) for given in self.assertions if given.is_there]
        kept = superbox(self.store_type, self.store_label, *self.change_boxes(boxes))
        message = self.change_message(tag(18, sign1(signature=self.signature)))
        claims = self.change_claims([claim_box(item(self.claim(written)), label=CLAIM_LABELS[self.version])])
        signatures = self.change_signatures([signature_box(item(message))])
        contents = manifest(self.label, kept, *claims, *signatures, update=self.is_update)
        written.manifests.setdefault(self.label, contents[8:])
        if signatures:
            written.signatures.setdefault(self.label, signatures[0][8:])
        return contents


def write(manifests, written):
    return store(*(draft.write(written) for draft in manifests))


class Around:
    """A media file around a store: what stands before it and behind it."""

    def __init__(self, front, rest):
        self.front, self.rest = front, rest

    def file(self, manifests):
        """The file. What its binding covers is computed as rules.py does it, from the file without a right digest."""
        length = len(self.around(write(manifests, Written()))) - len(self.front) - len(self.rest)
        place = len(self.front), length
        return self.around(bound(manifests, place, lambda: media_of(self.around(write(manifests, Written(*place))))))


def bound(manifests, place, media):
    """A store whose binding has the digest of what it covers of a media file; `place` is the start and the length of the store's range there, and
    `media` gives the file."""
    written = Written(*place)
    written.claim_alg = manifests[-1].claim_alg
    for given in manifests[-1].assertions:
        if isinstance(given, (DataHash, BmffHash)):
            kind = BMFF_HASH if isinstance(given, BmffHash) else DATA_HASH
            try:
                found = media()
                binding = Binding(kind, cbor.read_whole(given.encoded(written)), found)
                written.covered, *_ = binding.cover(found, written.algorithm(binding.alg))
            except (BadBinding, cbor.NotCbor, Refused):
                pass
    return write(manifests, Written(*place, written.covered))


class Jpeg(Around):
    def __init__(self, front=b"\xff\xd8", rest=b"\xff\xd9"):
        super().__init__(front, rest)

    def around(self, contents):
        return jpeg(contents, self.front, self.rest)


class Bmff(Around):
    """`offset` and `padding` are the bytes before and behind the store in its box; a wide box has its length in 8 bytes."""

    def __init__(self, front=box(b"ftyp", b"isom\0\0\0\0"), rest=b"", offset=bytes(8), padding=b"", wide=False):
        super().__init__(front, rest)
        self.offset, self.padding, self.wide = offset, padding, wide

    def around(self, contents):
        return self.front + provenance_box(b"manifest\0" + self.offset + contents + self.padding, wide=self.wide) + self.rest


def provenance_box(contents, version=bytes(4), wide=False):
    return box(b"uuid", PROVENANCE + version + contents, wide)


APP0 = segment(0xE0, b"JFIF\0\1\2\0\0\1\0\1\0\0")
