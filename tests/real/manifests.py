"""What is read of the manifests of a C2PA store (C2PA Technical Specification 2.x), each as one thing: labels, claims, messages,
assertion boxes, ingredients, questions. What they must be is for rules.py to say.

Nothing here was taken from c2's own code.
"""

import hashlib
import re
from collections import namedtuple

import cbor
from locate import C2PA, Refused

MOST_MANIFESTS = 1_024
RELATIONSHIPS = "parentOf", "componentOf", "inputTo"
DATA_HASH, BMFF_HASH, OTHER_HASH = "data hash", "BMFF hash", "other hash"
INGREDIENT, OTHER_INGREDIENT = "ingredient", "other ingredient"
ACTIONS, CLOUD, ORDINARY = "actions", "cloud data", "ordinary"
BINDINGS = DATA_HASH, BMFF_HASH
HASHES = DATA_HASH, BMFF_HASH, OTHER_HASH
INGREDIENTS = INGREDIENT, OTHER_INGREDIENT
# Versions of claims and of ingredients that can be read, by the labels of their boxes.
CLAIM_LABELS = {1: "c2pa.claim", 2: "c2pa.claim.v2"}
INGREDIENT_LABELS = {1: "c2pa.ingredient", 2: "c2pa.ingredient.v2", 3: "c2pa.ingredient.v3"}

HashedUri = namedtuple("HashedUri", "url hash alg")
# A claim of version 1 or 2; one of version 1 may lack its instance.
Claim = namedtuple("Claim", "version encoded alg instance signature entries redacted")
Sign1 = namedtuple("Sign1", "protected unprotected signature")
# A JUMBF URI: the manifest (None where it is relative), what it names in it, and the label of an assertion.
Uri = namedtuple("Uri", "manifest target label")
# An entry of a claim: its hashed URI, and the label of the assertion in this manifest that it names, or None.
Entry = namedtuple("Entry", "reference label")
# An ingredient box: the code of its form where it is refused, else its fields and the label of the manifest that it names.
Ingredient = namedtuple("Ingredient", "box code relationship manifest signature names", defaults=(None,) * 4)


# Texts


def read_uri(text):
    """A JUMBF URI, or None for another text."""
    before, given, path = text.partition("self#jumbf=")
    if before or not given:
        return None
    is_absolute = path.startswith("/")
    if is_absolute and not path.startswith("/c2pa/"):
        return None
    labels = (path[len("/c2pa/") :] if is_absolute else path).split("/")
    if "" in labels:
        return None
    manifest = labels.pop(0) if is_absolute else None
    if not labels:
        return Uri(manifest, "whole", None)
    if labels == ["c2pa.signature"]:
        return Uri(manifest, "signature", None)
    if len(labels) == 2 and labels[0] == "c2pa.assertions":
        return Uri(manifest, "assertion", labels[1])
    return Uri(manifest, "other", None)


def assertion_named(text, manifest):
    """The label of the assertion that a text names in the manifest of a label, relative to it or in full; else None."""
    uri = read_uri(text)
    is_named = uri is not None and uri.target == "assertion" and uri.manifest in (None, manifest)
    return uri.label if is_named else None


def version_of(labels, label):
    """The version that a label means, or None."""
    return next((version for version, each in labels.items() if each == label), None)


def base_of(label):
    """A label less the number of an instance (`__2`)."""
    numbered = re.fullmatch("(.*)__[0-9]+", label, re.DOTALL)
    return numbered[1] if numbered else label


def kind_of(label):
    """The kind of an assertion, by the base of its label."""
    base = base_of(label)
    whole = {
        "c2pa.hash.data": DATA_HASH,
        "c2pa.hash.bmff.v2": BMFF_HASH,
        **dict.fromkeys(INGREDIENT_LABELS.values(), INGREDIENT),
        "c2pa.actions": ACTIONS,
        "c2pa.actions.v2": ACTIONS,
        "c2pa.cloud-data": CLOUD,
    }
    if base in whole:
        return whole[base]
    if base.startswith("c2pa.hash."):
        return OTHER_HASH
    return OTHER_INGREDIENT if base.startswith("c2pa.ingredient") else ORDINARY


# Boxes


def is_of(box, name):
    """Whether a superbox has the C2PA type of four characters."""
    return box.uuid == name + C2PA[4:]


def manifests_of(root):
    """The manifests of a store in their order (C2PA Technical Specification, manifest store), or a refusal."""
    if not root.is_super() or not is_of(root, b"c2pa") or root.label != "c2pa":
        raise Refused("NotStore", 0)
    manifests = root.superboxes()
    for manifest in manifests:
        if not is_of(manifest, b"c2ma") and not is_of(manifest, b"c2um"):
            raise Refused("ManifestType", manifest.start)
        if not manifest.label or "/" in manifest.label:
            raise Refused("ManifestLabel", manifest.start)
    if not manifests:
        raise Refused("NoManifest", 0)
    if len(manifests) > MOST_MANIFESTS:
        raise Refused("TooMany", len(manifests))
    return manifests


def named(manifest, name, label):
    """The superbox of a manifest with a type and a label, or None."""
    return next((box for box in manifest.superboxes() if is_of(box, name) and box.label == label), None)


def assertions_of(manifest):
    """The boxes of a manifest's assertion store."""
    store = named(manifest, b"c2as", "c2pa.assertions")
    return store.superboxes() if store else []


def encoded_item(store, box):
    """The payload of a box's first content box where that is of kind `cbor`, or None."""
    content = box.children[1:2]
    if not content or content[0].kind != b"cbor":
        return None
    return store[content[0].inside : content[0].end]


def item_of(store, box):
    """The item of CBOR that a box holds, or None."""
    encoded = encoded_item(store, box)
    try:
        return None if encoded is None else cbor.read_whole(encoded)
    except cbor.NotCbor:
        return None


# Items

NO_LIST = "list", ()


def is_a(kind, item):
    return item is not None and item[0] == kind


def is_list_of(kind, item):
    return is_a("list", item) and all(is_a(kind, member) for member in item[1])


def hashed_uri(item):
    """A hashed URI (C2PA Technical Specification), or None for another item."""
    url, digest, alg = (cbor.field(item, key) for key in ("url", "hash", "alg"))
    if not is_a("text", url) or not is_a("bytes", digest) or not (alg is None or is_a("text", alg)):
        return None
    return HashedUri(url[1], digest[1], alg and alg[1])


def hashed_uris(item):
    """The hashed URIs of a list, or None where it isn't one of these alone."""
    found = [hashed_uri(member) for member in item[1]] if is_a("list", item) else [None]
    return None if None in found else found


def is_text(item):
    return is_a("text", item)


def are_texts(item):
    return is_list_of("text", item)


def are_references(item):
    return hashed_uris(item) is not None


def or_absent(test):
    return lambda item: item is None or test(item)


def is_absent(item):
    return item is None


# The tests of a claim's fields by its version, in their order. Neither version may have the list of the other, so that no item is a claim
# under both labels.
CLAIM_TESTS = {
    1: {
        "signature": is_text,
        "assertions": are_references,
        "redacted_assertions": or_absent(are_texts),
        "alg": or_absent(is_text),
        "created_assertions": is_absent,
    },
    2: {
        "instanceID": is_text,
        "signature": is_text,
        "created_assertions": are_references,
        "gathered_assertions": or_absent(are_references),
        "redacted_assertions": or_absent(are_texts),
        "alg": or_absent(is_text),
        "assertions": is_absent,
    },
}


def wrong_in_claim(version, item):
    """The fields of a claim of a version that aren't as they must be, in the order of the tests. A null counts as absent, and fields without a
    test pass unread."""
    if not is_a("map", item):
        return ["whole"]
    return [key for key, holds in CLAIM_TESTS[version].items() if not holds(cbor.field(item, key))]


def read_claim(version, encoded, item):
    """The fields of a claim of a version that c2 reads; None where one isn't as it must be."""
    if wrong_in_claim(version, item):
        return None
    alg, instance, signature = (cbor.field(item, key) for key in ("alg", "instanceID", "signature"))
    lists = ("created_assertions", "gathered_assertions") if version == 2 else ("assertions",)
    entries = [entry for key in lists for entry in hashed_uris(cbor.field(item, key) or NO_LIST)]
    redacted = [text for _, text in (cbor.field(item, "redacted_assertions") or NO_LIST)[1]]
    return Claim(version, encoded, alg and alg[1], instance[1] if is_text(instance) else None, signature[1], entries, redacted)


def claim_boxes_of(manifest):
    return [box for box in manifest.superboxes() if is_of(box, b"c2cl")]


def claim_or_code(store, manifest):
    """The claim of a manifest (C2PA Technical Specification, claims), by the version that its box's label says, and None; or None and why there
    isn't one."""
    boxes = claim_boxes_of(manifest)
    if not boxes:
        return None, "claim.missing"
    if len(boxes) > 1:
        return None, "claim.multiple"
    version = version_of(CLAIM_LABELS, boxes[0].label)
    if version is None:
        return None, "unsupported.claimVersion"
    item = item_of(store, boxes[0])
    if item is None:
        return None, "claim.cbor.invalid"
    claim = read_claim(version, encoded_item(store, boxes[0]), item)
    return claim, None if claim else "profile.claim.fields"


def names_signature(uri, label):
    """Whether a JUMBF URI names the signature box of the manifest with a label, in full or relative to it."""
    return uri in ("self#jumbf=c2pa.signature", f"self#jumbf=/c2pa/{label}/c2pa.signature")


def read_sign1(item):
    """A COSE_Sign1 message with a detached payload (RFC 9052, section 4.2), or None where an item is none."""
    if is_a("tag", item) and item[1] == 18:
        item = item[2]
    if not is_a("list", item) or len(item[1]) != 4:
        return None
    protected, unprotected, payload, signature = item[1]
    if not is_a("bytes", protected) or not is_a("map", unprotected) or payload != cbor.NULL or not is_a("bytes", signature):
        return None
    return Sign1(protected[1], unprotected, signature[1])


def question_id(claim, sign):
    """The id of the question whether a message signs a claim.

    The question's bytes are the Sig_structure (RFC 9052, section 4.4) and the signature, each behind its length in 8 bytes,
    and the unprotected header.
    """
    members = ("text", "Signature1"), ("bytes", sign.protected), ("bytes", b""), ("bytes", claim.encoded)
    signed = cbor.encode(("list", members))
    parts = [len(signed).to_bytes(8, "big"), signed, len(sign.signature).to_bytes(8, "big"), sign.signature]
    return hashlib.sha256(b"".join(parts) + cbor.encode(sign.unprotected)).hexdigest()


def read_ingredient(store, box):
    """An ingredient assertion by its box; the code says why it can't be read. Only in version 3 it may refer to a signature."""
    version = version_of(INGREDIENT_LABELS, base_of(box.label))
    if version is None:
        return Ingredient(box, "unsupported.ingredientVersion")
    item = item_of(store, box)
    if item is None:
        return Ingredient(box, "assertion.cbor.invalid")
    wrong = Ingredient(box, "profile.ingredient.form")
    relationship = cbor.field(item, "relationship")
    keys = ("activeManifest", "claimSignature") if version == 3 else ("c2pa_manifest",)
    references = [*(cbor.field(item, key) for key in keys), None][:2]
    if not is_a("text", relationship) or relationship[1] not in RELATIONSHIPS:
        return wrong
    manifest, signature = (None if reference is None else hashed_uri(reference) for reference in references)
    for given, read in zip(references, (manifest, signature)):
        if given is not None and read is None:
            return wrong
    names = read_uri(manifest.url) if manifest else None
    if manifest and (names is None or names.target != "whole"):
        return wrong
    if signature and (names is None or read_uri(signature.url) != Uri(names.manifest, "signature", None)):
        return wrong
    return Ingredient(box, None, relationship[1], manifest, signature, names and names.manifest)


class Manifest:
    """A manifest of a store, read."""

    def __init__(self, store, box):
        self.box, self.label, self.is_update = box, box.label, is_of(box, b"c2um")
        self.claim, self.claim_code = claim_or_code(store, box)
        self.signature = named(box, b"c2cs", "c2pa.signature")
        self.sign = read_sign1(item_of(store, self.signature)) if self.signature else None
        self.boxes = assertions_of(box)
        self.labelled = {box.label: box for box in self.boxes if box.label is not None}
        references = self.claim.entries if self.claim else []
        self.entries = [Entry(reference, assertion_named(reference.url, self.label)) for reference in references]
        self.listed = {entry.label for entry in self.entries}
        ingredients = [box for label, box in self.labelled.items() if kind_of(label) in INGREDIENTS]
        self.ingredients = [read_ingredient(store, box) for box in ingredients]

    def question(self):
        """The id of the question that the manifest's signature puts, or None where none can be put."""
        if self.claim is None or self.sign is None or not names_signature(self.claim.signature, self.label):
            return None
        return question_id(self.claim, self.sign)

    def algorithm(self, own):
        """The name of the algorithm of a reference or binding that has perhaps one of its own."""
        if own is not None:
            return own
        return self.claim.alg if self.claim and self.claim.alg is not None else "sha256"
