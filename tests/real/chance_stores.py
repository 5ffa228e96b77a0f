"""Media files with stores that are drawn at random, so that every answer of the check list comes again and again; and files that
are changed at random by bytes. Each is given with verdict files.

A store is drafted right first: manifests that name earlier ones, redactions of boxes that were taken out, a binding that fits.
Then none, one or a few faults are put into it, each of which is made for a rule.
"""

import jumbf
from drafts import (
    ACTIONS,
    ALL_EXCLUDED,
    APP0,
    NO_DIGEST,
    Assertion,
    Bmff,
    BmffHash,
    DataHash,
    Ingredient,
    Jpeg,
    Manifest,
    Written,
    digest,
    exclusion,
    provenance_box,
    reference,
    relabelled,
)
from locate import Refused
from make import segment
from make_store import (
    NULL,
    UNDEFINED,
    array,
    box,
    claim_box,
    data,
    item,
    mapping,
    sign1,
    superbox,
    text,
    uint,
)
from manifests import BINDINGS, CLAIM_LABELS, HASHES, INGREDIENT_LABELS, INGREDIENTS, base_of, kind_of, manifests_of
from manifests import Manifest as Read
from media import media_of
from vary import varied, varied_store

LABELS = "m", "n", "o", "p", "urn:c2pa:11111111-2222-4333-8444-555555555555", "é", 'x"y', "a b", "M", "c2pa.assertions"
ORDINARY = "test.note", "test.note__1", "test.note__12", "c2pa.metadata", "é", "a b", "c2pa.thumbnail.claim", "c2pa.hash", "__1"
KNOWN = "sha256", "sha384", "sha512"
NAMES = *KNOWN, "sha1", "SHA256", "SHA-512", "", "sha2567"
WORDS = "mismatch", "untrusted", "invalid"
SIGNATURE = "c2pa.signature"


class Drawn:
    """Drafts of the manifests of a store, whose last is the active one, and the media around it. Versions of claims and ingredients and algorithms
    are mixed."""

    def __init__(self, chance, is_bmff=False):
        self.chance = chance
        self.media = bmff_around(chance) if is_bmff else jpeg_around(chance)
        count = chance.choice((1, 1, 2, 2, 2, 3, 3, 4, 5))
        self.manifests = [Manifest(label) for label in chance.sample(LABELS, count)]
        for at, draft in enumerate(self.manifests):
            self.fill(at, draft, is_bmff)
        for at in range(1, count):
            self.redact(at)
        for draft in self.manifests:
            chance.shuffle(draft.assertions)
            draft.gathered = chance.randrange(len(draft.assertions) + 1) if chance.random() < 0.2 else 0

    def fill(self, at, draft, is_bmff):
        chance = self.chance
        draft.signature = chance.randbytes(4)
        draft.version = 1 if chance.random() < 0.35 else 2
        draft.claim_alg = chance.choice(("sha256", None, *KNOWN))
        for label in chance.sample(ORDINARY, chance.choice((0, 0, 1, 1, 2, 3))):
            draft.assertions.append(Assertion(label, data(chance.randbytes(3))))
        if chance.random() < 0.3:
            draft.assertions.append(Assertion("c2pa.actions.v2", ACTIONS))
        named = [other for other in range(at) if chance.random() < (0.8 if other == at - 1 else 0.4)]
        is_active = at == len(self.manifests) - 1
        draft.is_update = bool(named) and not is_active and chance.random() < 0.25
        if draft.is_update:
            named = named[-1:]
        words = ["parentOf", *chance.choices(("componentOf", "inputTo"), k=at)]
        if not draft.is_update:
            chance.shuffle(words)
            binding = BmffHash(some_exclusions(chance)) if is_bmff and chance.random() < 0.85 else DataHash()
            binding.named_alg = chance.choice(("sha256", None, None, *KNOWN))
            if chance.random() < 0.15:
                binding.label += "__3"
            if not is_active and chance.random() < 0.2:
                binding = Assertion("c2pa.hash.boxes")
            draft.assertions.append(binding)
        for number, (other, word) in enumerate(zip(named, words)):
            label = self.ingredient_label() + (f"__{number}" if number else "")
            ingredient = Ingredient(self.manifests[other].label, word, chance.random() < 0.8, label)
            ingredient.algs = [chance.choice((None, None, *KNOWN)) for _ in range(2)]
            draft.assertions.append(ingredient)
        if not draft.is_update and chance.random() < 0.08:
            lone = Ingredient(None, "componentOf", False, self.ingredient_label() + "__99")
            draft.assertions.append(lone)
        for given in draft.assertions:
            given.alg = chance.choice(KNOWN) if chance.random() < 0.15 else None

    def ingredient_label(self):
        return INGREDIENT_LABELS[self.chance.choice((1, 2, 3, 3, 3, 3))]

    def ingredients(self, draft):
        return [given for given in draft.assertions if isinstance(given, Ingredient)]

    def below(self, at):
        """The positions that a manifest reaches, as its draft has them."""
        labels = [draft.label for draft in self.manifests]
        found, pending = set(), [at]
        while pending:
            for given in self.ingredients(self.manifests[pending.pop()]):
                if given.named in labels and labels.index(given.named) not in found:
                    found.add(labels.index(given.named))
                    pending.append(labels.index(given.named))
        return sorted(found - {at})

    def redact(self, at):
        """Redactions of ordinary assertions below, whose boxes are taken out, mostly as it should be done."""
        chance = self.chance
        for other in self.below(at):
            notes = [given for given in self.manifests[other].assertions if given.label in ORDINARY]
            if not notes or chance.random() < 0.6:
                continue
            note = chance.choice(notes)
            self.manifests[at].redactions.append(assertion_url(self.manifests[other].label, note.label))
            note.is_there = chance.random() < 0.08
            for draft in self.manifests:
                for given in self.ingredients(draft):
                    if given.named == self.manifests[other].label and chance.random() < 0.95:
                        # only in version 3 an ingredient may name what is redacted
                        given.is_signed, given.label = True, of_version_3(given.label)

    def file(self):
        return self.media.file(self.manifests)

    # Faults, each in a manifest that is often the active one

    def some(self):
        return self.manifests[-1] if self.chance.random() < 0.6 else self.chance.choice(self.manifests)

    def put_fault(self):
        self.chance.choice(FAULTS)(self, self.some())


def of_version_3(label):
    """The label of an ingredient with another version in it."""
    return INGREDIENT_LABELS[3] + label.removeprefix(base_of(label))


def assertion_url(manifest, label):
    return f"self#jumbf=/c2pa/{manifest}/c2pa.assertions/{label}"


def jpeg_around(chance):
    front = b"\xff\xd8" + chance.choice((b"", APP0, segment(0xFE, chance.randbytes(5)), APP0 + segment(0xFE, b"x", fill=2)))
    return Jpeg(front, chance.choice((b"\xff\xd9", segment(0xFE, b"y") + b"\xff\xda" + chance.randbytes(20))))


def bmff_around(chance):
    moov = box(b"moov", b"".join(box(chance.choice((b"trak", b"trak", b"mvhd", b"udta")), inner(chance)) for _ in range(3)))
    front = box(b"ftyp", b"isom\0\0\0\0", wide=chance.random() < 0.1) + b"".join(chance.sample((moov, b"", box(b"free", b"ab")), 2))
    boxes = box(b"mdat", chance.randbytes(9)), moov, box(b"uuid", bytes(16)), box(b"mfra", b""), b"", box(b"free", b"", wide=True)
    rest = b"".join(chance.sample(boxes, 3))
    if chance.random() < 0.15:
        rest += odd_provenance(chance)
    if chance.random() < 0.15:
        rest += bytes(4) + b"mdat" + chance.randbytes(5)
    padding = chance.choice((b"", b"", b"", b"\0", bytes(9)))
    return Bmff(front, rest, chance.randbytes(8), padding, chance.random() < 0.05)


def odd_provenance(chance):
    """A second box of the store's kind, perhaps one that passes unread."""
    purpose = chance.choice((b"merkle\0", b"manifest", b"manifest\0", b"original\0", b"manifes\0", b""))
    more = chance.choice((b"", bytes(7), bytes(8), bytes(8) + box(b"jumb", b""), bytes(8) + b"\0\0\0\x09jumb"))
    return provenance_box(purpose + more, chance.choice((bytes(4), bytes(4), b"\0\0\0\1", b"\1\0\0\0")))


def inner(chance):
    """The payload of a box: boxes, or bytes that are none."""
    mdia = box(b"mdia", box(b"minf", chance.randbytes(3)) + box(b"mdhd", b"q"))
    return chance.choice((b"", mdia, mdia + box(b"tkhd", b"t"), chance.randbytes(5), mdia + b"\0\0\0\0free", box(b"uuid", b"z")))


PATHS = "/moov", "/moov/trak", "/moov/trak[1]", "/moov/trak[2]/mdia", "/moov/trak/mdia/minf", "/mdat", "/free", "/moov/udta", "/moov[2]"


def some_exclusions(chance):
    """The exclusions that there must be, and some of many kinds."""
    return [*ALL_EXCLUDED, *(some_exclusion(chance) for _ in range(chance.choice((0, 0, 1, 2, 4))))]


def some_exclusion(chance):
    pairs = []
    if chance.random() < 0.2:
        pairs.append(("length", chance.choice((uint(8), uint(10), uint(17), NULL))))
    if chance.random() < 0.3:
        value = chance.choice((b"", b"t", b"trak", b"mdia", b"free", b"moov"))
        pairs.append(("data", array(mapping(("offset", uint(chance.choice((0, 4, 4, 12, 90)))), ("value", data(value))))))
    if chance.random() < 0.5:
        numbers = lambda: uint(chance.choice((0, 0, 1, 3, 8, 12, 200, (1 << 64) - 1)))
        parts = [mapping(("offset", numbers()), ("length", numbers())) for _ in range(chance.choice((1, 1, 2, 3)))]
        pairs.append(("subset", array(*parts)))
    return exclusion(chance.choice(PATHS), *pairs)


# Faults


def update_active(drawn, _):
    drawn.manifests[-1].is_update = True


def no_claim(drawn, draft):
    draft.change_claims = lambda _: []


def two_claims(drawn, draft):
    draft.change_claims = lambda boxes: [*boxes, superbox(b"c2cl", "c2pa.claim.v2__1", item(b"\xa0"))]


def other_claim_label(drawn, draft):
    label = drawn.chance.choice(("c2pa.claim.v1", "c2pa.claim.v3", "c2pa.claim.v2__1", "c2pa.claim.", None))
    encoded = item(b"\xa0")
    draft.change_claims = lambda boxes: [superbox(b"c2cl", label, encoded)]


def other_claim_version(drawn, draft):
    """A claim under the label of the other version."""
    label = CLAIM_LABELS[3 - draft.version]
    draft.change_claims = lambda boxes: [relabelled(box, label) for box in boxes]


def other_list(drawn, draft):
    """A claim with a list of the other version besides, which may be absent, or in place of its own."""
    version, value = drawn.chance.choice((1, 2)), drawn.chance.choice((array(), array(), NULL, UNDEFINED, uint(1)))
    draft.claim_fields = {"assertions" if version == 1 else "created_assertions": value}


def no_claim_item(drawn, draft):
    contents = drawn.chance.choice(([], [box(b"json", b"{}")], [item(b"\xff")], [item(b"")], [item(b"\xa0\0")]))
    draft.change_claims = lambda boxes: [claim_box(*contents)]


def other_claim_field(drawn, draft):
    lists = "assertions", "created_assertions", "gathered_assertions"
    field = drawn.chance.choice(("instanceID", "signature", *lists, "redacted_assertions", "alg"))
    value = drawn.chance.choice((uint(1), NULL, array(uint(1)), array(text("x")), mapping(), data(b"a"), text("x"), None))
    draft.claim_fields = {field: value}


def varied_claim(drawn, draft):
    draft.change_claim = lambda encoded: varied(drawn.chance, encoded)


def no_signature(drawn, draft):
    other = superbox(b"c2cx", SIGNATURE, item(sign1()))
    draft.change_signatures = drawn.chance.choice((lambda _: [], lambda _: [other]))


def other_signature_uri(drawn, draft):
    url = drawn.chance.choice(("self#jumbf=/c2pa/z/c2pa.signature", "self#jumbf=c2pa.signature/", "c2pa.signature", "self#jumbf=/c2pa/m"))
    absolute = f"self#jumbf=/c2pa/{draft.label}/c2pa.signature"
    draft.claim_fields = {"signature": text(drawn.chance.choice((url, absolute)))}


def no_message(drawn, draft):
    message = drawn.chance.choice((b"\xff", b"", array(), sign1(payload=data(b"")), sign1(payload=UNDEFINED), sign1() + b"\0"))
    draft.change_message = lambda _: message


def varied_message(drawn, draft):
    draft.change_message = lambda message: varied(drawn.chance, message)


def of_kind(kinds):
    """A fault at an assertion of some kinds, where the manifest has one."""

    def wrap(fault):
        def put(drawn, draft):
            given = [given for given in draft.assertions if given.label is not None and kind_of(given.label) in kinds]
            if given:
                fault(drawn, draft, drawn.chance.choice(given))

        return put

    return wrap


def at_any(fault):
    def put(drawn, draft):
        if draft.assertions:
            fault(drawn, draft, drawn.chance.choice(draft.assertions))

    return put


@of_kind(INGREDIENTS)
def ingredient_algorithm(drawn, draft, given):
    if isinstance(given, Ingredient):
        given.algs = [drawn.chance.choice((None, None, *NAMES)) for _ in range(2)]


@of_kind(INGREDIENTS)
def ingredient_digest(drawn, draft, given):
    if isinstance(given, Ingredient):
        given.hashes[drawn.chance.randrange(2)] = drawn.chance.choice((NO_DIGEST, b"\1"))


@of_kind(INGREDIENTS)
def ingredient_unsigned(drawn, draft, given):
    if isinstance(given, Ingredient):
        given.is_signed = not given.is_signed


@of_kind(INGREDIENTS)
def ingredient_varied(drawn, draft, given):
    given.change = lambda encoded: varied(drawn.chance, encoded)


@of_kind(INGREDIENTS)
def ingredient_label(drawn, draft, given):
    """An ingredient of another version, under a label that fits its form or doesn't."""
    label = INGREDIENT_LABELS[drawn.chance.choice((1, 2, 3))]
    if isinstance(given, Ingredient) and drawn.chance.random() < 0.5:
        given.given = given.spelled(Written())
    given.label = label + given.label.removeprefix(base_of(given.label))


@of_kind(INGREDIENTS)
def ingredient_relationship(drawn, draft, given):
    if isinstance(given, Ingredient):
        given.relationship = drawn.chance.choice(("parentOf", "parentOf", "parentOf", "inputTo", "childOf"))


@of_kind(INGREDIENTS)
def ingredient_names(drawn, draft, given):
    if isinstance(given, Ingredient):
        others = [it.label for it in drawn.manifests]
        given.named = drawn.chance.choice((draft.label, "z", drawn.chance.choice(others)))


def all_parents(drawn, draft):
    for given in drawn.ingredients(draft):
        given.relationship = "parentOf"


def ingredient_form(drawn, draft):
    """An ingredient that is added, of any form."""
    chance = drawn.chance
    url = lambda: f"self#jumbf=/c2pa/{chance.choice(('z', draft.label, *(it.label for it in drawn.manifests)))}"
    named = chance.choice((url(), url() + "/c2pa.signature", "self#jumbf=c2pa.signature", "m"))
    word = text(chance.choice(("parentOf", "componentOf", "inputTo", "x")))
    label = drawn.ingredient_label()
    fields = ("activeManifest", "c2pa_manifest")
    field = chance.choice(fields) if chance.random() < 0.2 else fields[label != INGREDIENT_LABELS[3]]
    pairs = [("relationship", word), (field, reference(named, NO_DIGEST))]
    if chance.random() < 0.5:
        pairs.append(("claimSignature", reference(chance.choice((named, url())) + "/c2pa.signature", NO_DIGEST)))
    if chance.random() < 0.2:
        pairs = [pair for pair in pairs if chance.random() < 0.6]
    encoded = chance.choice((mapping(*pairs), mapping(*pairs), mapping(*pairs), array(), b"\xff", b""))
    draft.assertions.append(Assertion(label + "__7", encoded))


def ingredient_version(drawn, draft):
    label = drawn.chance.choice(("c2pa.ingredient.v1", "c2pa.ingredient.v20", "c2pa.ingredient.v4__1", "c2pa.ingredientx"))
    draft.assertions.append(Assertion(label))


@at_any
def entry_url(drawn, draft, given):
    other = drawn.chance.choice(("z", *(it.label for it in drawn.manifests)))
    urls = assertion_url(other, given.label), f"self#jumbf=c2pa.assertions/{given.label}/", "self#jumbf=c2pa.signature", "x"
    given.url = drawn.chance.choice((*urls, assertion_url(draft.label, given.label)))


def entry_twice(drawn, draft):
    if draft.assertions:
        draft.extra_entries.append(reference(assertion_url(draft.label, drawn.chance.choice(draft.assertions).label), NO_DIGEST))


def cloud(drawn, draft):
    draft.assertions.append(Assertion(drawn.chance.choice(("c2pa.cloud-data", "c2pa.cloud-data__2", "c2pa.cloud-data.x"))))


@at_any
def entry_algorithm(drawn, draft, given):
    given.alg = drawn.chance.choice(NAMES)


def claim_algorithm(drawn, draft):
    draft.claim_alg = drawn.chance.choice(NAMES)


def redacted_there(drawn, draft):
    """A redaction by the active manifest of what stays."""
    for draft in drawn.manifests[:-1]:
        for given in draft.assertions:
            if given.label in ORDINARY:
                drawn.manifests[-1].redactions.append(assertion_url(draft.label, given.label))
                return


@at_any
def no_box(drawn, draft, given):
    given.is_there = False


@at_any
def entry_digest(drawn, draft, given):
    given.hashed = drawn.chance.choice((NO_DIGEST, b"", NO_DIGEST + b"\0", bytes(48), bytes(64)))


def other_than(chance):
    """Makes of contents, and of the name of the algorithm that they are to be hashed by, a digest by another one, perhaps cut, or the right one with
    an end that isn't its own."""
    other, length = chance.choice((None, *KNOWN)), chance.choice((None, None, 32, 48, 47))
    more = chance.choice((b"", b"", b"", b"\0", bytes(16)))
    return lambda contents, name: digest(contents, other or name)[:length] + more


@at_any
def other_digest(drawn, draft, given):
    given.hashed = other_than(drawn.chance)


@of_kind(INGREDIENTS)
def ingredient_other_digest(drawn, draft, given):
    if isinstance(given, Ingredient):
        given.hashes[drawn.chance.randrange(2)] = other_than(drawn.chance)


@at_any
def undeclared(drawn, draft, given):
    given.is_listed = False


def unlabelled(drawn, draft):
    unlabelled_box = superbox(b"cbor", None, item(b"\xa0"))
    extra = drawn.chance.choice((unlabelled_box, superbox(b"cbor", "a/b"), superbox(b"cbor", ""), box(b"free", b"")))
    draft.change_boxes = lambda boxes: [*boxes, extra]


def redaction_uri(drawn, draft):
    url = drawn.chance.choice(("x", "self#jumbf=/c2pa/m", "self#jumbf=/c2pa/m/c2pa.signature", "self#jumbf=c2pa.assertions/a/b"))
    draft.redactions.append(url)


def self_redaction(drawn, draft):
    label = drawn.chance.choice(("test.note", "c2pa.actions.v2", "c2pa.hash.data"))
    draft.redactions.append(drawn.chance.choice((f"self#jumbf=c2pa.assertions/{label}", assertion_url(draft.label, label))))


def redaction_kind(drawn, draft):
    actions, hashes = ("c2pa.actions", "c2pa.actions.v2__1", "c2pa.actions.v1"), ("c2pa.hash.data", "c2pa.hash.x")
    label = drawn.chance.choice((*actions, *hashes, *INGREDIENT_LABELS.values(), "c2pa.ingredient.v4", "x"))
    others = [it.label for it in drawn.manifests if it is not draft]
    draft.redactions.append(assertion_url(drawn.chance.choice((*others, "z")), label))


def foreign_redaction(drawn, draft):
    """A redaction of an ordinary assertion, whoever reaches it, whose box is taken out."""
    other = drawn.chance.choice(drawn.manifests)
    notes = [given for given in other.assertions if given.label in ORDINARY]
    if notes:
        draft.redactions.append(assertion_url(other.label, notes[0].label))
        notes[0].is_there = drawn.chance.random() < 0.3


def other_hash(drawn, draft):
    labels = "c2pa.hash.boxes", "c2pa.hash.bmff", "c2pa.hash.bmff.v3", "c2pa.hash.data.part"
    draft.assertions.append(Assertion(drawn.chance.choice(labels)))


def no_hash(drawn, draft):
    draft.assertions = [given for given in draft.assertions if given.label is None or kind_of(given.label) not in HASHES]


def second_hash(drawn, draft):
    second = DataHash(label="c2pa.hash.data__2"), BmffHash(ALL_EXCLUDED, label="c2pa.hash.bmff.v2__2")
    draft.assertions.append(drawn.chance.choice(second))


def update_with_hash(drawn, draft):
    for draft in drawn.manifests:
        if draft.is_update:
            draft.assertions.append(Assertion(drawn.chance.choice(("c2pa.hash.data", "c2pa.hash.boxes"))))


def update_parents(drawn, draft):
    for draft in drawn.manifests:
        if draft.is_update:
            drawn.chance.choice((all_removed, second_parent, component, ingredient_form))(drawn, draft)


def all_removed(drawn, draft):
    draft.assertions = [given for given in draft.assertions if not isinstance(given, Ingredient)]


def second_parent(drawn, draft):
    draft.assertions.append(Ingredient(None, "parentOf", False, drawn.ingredient_label() + "__8"))


def component(drawn, draft):
    for given in drawn.ingredients(draft):
        given.relationship = "componentOf"


@of_kind(BINDINGS)
def binding_item(drawn, draft, given):
    given.given = drawn.chance.choice((b"\xff", b"", array(), mapping(), mapping(("hash", text("")))))


@of_kind(BINDINGS)
def binding_content(drawn, draft, given):
    given.content = b"json"


@of_kind(BINDINGS)
def binding_varied(drawn, draft, given):
    # the same change at each writing, so that the digest fits where it can
    kept = []

    def change(encoded):
        if not kept:
            kept.append(drawn.chance.randrange(1 << 30))
        return varied(type(drawn.chance)(kept[0]), encoded)

    given.change = change


@of_kind(BINDINGS)
def binding_merkle(drawn, draft, given):
    if isinstance(given, (DataHash, BmffHash)):
        given.more.append(("merkle", drawn.chance.choice((array(), NULL, uint(0)))))


@of_kind(BINDINGS)
def binding_algorithm(drawn, draft, given):
    if isinstance(given, (DataHash, BmffHash)):
        given.named_alg = drawn.chance.choice(NAMES)


@of_kind(BINDINGS)
def binding_ranges(drawn, draft, given):
    if isinstance(given, DataHash):
        numbers = lambda: drawn.chance.choice((0, 0, 1, 2, 3, 20, 1 << 40, (1 << 64) - 1))
        given.ranges = [drawn.chance.choice((None, None, (numbers(), numbers()))) for _ in range(drawn.chance.randrange(4))]


@of_kind(BINDINGS)
def binding_many(drawn, draft, given):
    count = drawn.chance.choice((1_022, 1_023, 1_024, 1_025))
    if isinstance(given, DataHash):
        given.ranges = [(0, 0)] * count + [None]
    elif isinstance(given, BmffHash):
        given.exclusions += [exclusion("/free")] * (count - 2)


@of_kind(BINDINGS)
def binding_tests(drawn, draft, given):
    if isinstance(given, BmffHash):
        field = drawn.chance.choice(("version", "flags", "exact"))
        given.exclusions.append(exclusion("/free", (field, drawn.chance.choice((uint(0), b"\xf5", data(b"\0\0\0"), NULL)))))


@of_kind(BINDINGS)
def binding_paths(drawn, draft, given):
    if isinstance(given, BmffHash):
        others = "/meta/iloc", "/moov/udta/meta", "/mdat/free", "/free[1048576]", "/moov/trak[1]/mdia"
        none = "free", "/free/", "/fre", "/free[0]", "/free[01]", "/free[1048577]", "/free[1]x", "/fr[e", "/fré"
        given.exclusions.append(exclusion(drawn.chance.choice((*others, *others, *none))))


@of_kind(BINDINGS)
def binding_form(drawn, draft, given):
    if isinstance(given, BmffHash):
        bad = mapping(("xpath", uint(1))), exclusion("/free", ("length", text("1"))), exclusion("/free", ("subset", array())), array()
        more = exclusion("/free", ("data", array(mapping(("offset", uint(0)))))), exclusion("/free", ("subset", array(mapping()))), mapping()
        given.exclusions.append(drawn.chance.choice((*bad, *more, exclusion("/free", ("data", array())))))


def other_binding(drawn, draft):
    """A binding made for the other container."""
    no_hash(drawn, draft)
    draft.assertions.append(DataHash() if isinstance(drawn.media, Bmff) else BmffHash(ALL_EXCLUDED))
    if drawn.chance.random() < 0.3:
        draft.assertions[-1].more.append(("merkle", drawn.chance.choice((array(), NULL))))


def covered_byte(drawn, _):
    """The file's last byte is another than the binding was made for."""
    file = drawn.media.file

    def changed(manifests):
        contents = file(manifests)
        return contents[:-1] + bytes([contents[-1] ^ 1])

    drawn.media.rest += b"more" if isinstance(drawn.media, Jpeg) else box(b"free", b"x")
    drawn.media.file = changed


def two_labels(drawn, draft):
    drawn.chance.choice(drawn.manifests).label = draft.label


def two_assertion_labels(drawn, draft):
    if draft.assertions:
        draft.assertions.append(Assertion(drawn.chance.choice(draft.assertions).label))


def manifest_label(drawn, draft):
    draft.label = drawn.chance.choice(("", "a/b", "x\x7f"))


def other_store(drawn, draft):
    draft.store_type, draft.store_label = drawn.chance.choice(((b"c2ax", "c2pa.assertions"), (b"c2as", "c2pa.assertions__1")))


FAULTS = [fault for name, fault in list(globals().items()) if callable(fault) and name in """
    update_active no_claim two_claims other_claim_label other_claim_version other_list no_claim_item other_claim_field varied_claim no_signature
    other_signature_uri no_message varied_message ingredient_algorithm ingredient_digest ingredient_other_digest ingredient_unsigned
    ingredient_varied ingredient_label ingredient_relationship other_digest
    ingredient_names all_parents ingredient_form ingredient_version entry_url entry_twice cloud entry_algorithm claim_algorithm
    redacted_there no_box entry_digest undeclared unlabelled redaction_uri self_redaction redaction_kind foreign_redaction other_hash
    no_hash second_hash update_with_hash update_parents binding_item binding_content binding_varied binding_merkle
    binding_algorithm binding_ranges binding_many binding_tests binding_paths binding_form other_binding covered_byte two_labels
    two_assertion_labels manifest_label other_store""".split()]


# Files and verdicts


def questions_in(contents):
    """The ids of all questions that a file puts, those of manifests that aren't reached too."""
    try:
        media = media_of(contents)
        read = [Read(media.store, found) for found in manifests_of(jumbf.read(media.store))] if media else []
    except Refused:
        return []
    return [identity for identity in (it.question() for it in read) if identity]


def verdict_files(chance, identities):
    """The contents of verdict files; None for a file that isn't there."""
    if chance.random() < 0.75:
        rows = [f"{identity} approved\n" for identity in identities]
        return ["".join(rows).encode()]
    files = []
    for _ in range(chance.choice((0, 1, 1, 2, 3))):
        chosen = [identity for identity in identities if chance.random() < 0.7]
        rows = [f"{identity} {chance.choice(('approved', 'approved', 'approved', *WORDS))}\n" for identity in chosen]
        rows += [f"{chance.randbytes(32).hex()} {chance.choice(WORDS)}\n"] if chance.random() < 0.3 else []
        chance.shuffle(rows)
        joined = "".join(rows).encode()
        files.append(chance.choice((joined, joined, joined, joined, joined[:-1], joined + b"\n", b"x", None)))
    return files


def drawn_file(chance, is_bmff=False):
    """A file whose store was drafted, with some faults."""
    drawn = Drawn(chance, is_bmff)
    for _ in range(chance.choice((0, 1, 1, 1, 1, 2, 3))):
        drawn.put_fault()
    return drawn.file()


def changed_file(chance, contents):
    """A file with a change somewhere: in its store, whose lengths are made right, or anywhere."""
    try:
        media = media_of(contents)
    except Refused:
        media = None
    if media is not None and chance.random() < 0.2:
        # a byte of the headers before the store's manifests
        at = media.start + chance.randrange(90)
        return contents[:at] + bytes([chance.choice((0, 1, contents[at] ^ 1, chance.randrange(256)))]) + contents[at + 1 :]
    if media is not None and chance.random() < 0.7:
        around = (Jpeg if media.roots is None else Bmff)(contents[: media.start], contents[media.start + media.length :])
        return around.around(varied_store(chance, media.store))
    return varied(chance, contents)
