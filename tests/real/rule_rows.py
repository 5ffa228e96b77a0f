"""Stores for `validate`, at least one for each case of the check list: what it shows, the answer as the check list says it, and
the drafts of its manifests. The answers are written by hand beside the drafts; rules.py must come to the same.

    rule_rows.py      computes each answer by rules.py, and tells those that differ

A judge approves all questions, but for those of a signature box whose signature is one of the words in REFUSED.
"""

import sys

import jumbf
from drafts import (
    ACTIONS,
    ALL_EXCLUDED,
    NO_DIGEST,
    Assertion,
    BmffHash,
    DataHash,
    Ingredient,
    Jpeg,
    Manifest,
    digest,
    exclusion,
    reference,
    relabelled,
)
from make_store import (
    NULL,
    UNDEFINED,
    array,
    box,
    claim_box,
    data,
    item,
    mapping,
    open_map,
    sign1,
    signature_box,
    superbox,
    tag,
    text,
    uint,
)
from manifests import CLAIM_LABELS, INGREDIENT_LABELS, RELATIONSHIPS, manifests_of
from manifests import Manifest as Read
from media import media_of
from store import report

REFUSED = {b"mism": "mismatch", b"untr": "untrusted", b"inva": "invalid", b"sile": "silent"}
URL = "self#jumbf=/c2pa/"
CLAIM = "/c2pa.claim.v2"
OLDER_CLAIM = "/c2pa.claim"
SIGNATURE = "/c2pa.signature"
STORE = "/c2pa.assertions"
INGREDIENT = STORE + "/c2pa.ingredient.v3"
HASH = STORE + "/c2pa.hash.data"


def rows():
    """What, answer, drafts."""
    for group in (
        valid_rows,
        active_rows,
        claim_rows,
        signature_rows,
        verdict_rows,
        child_rows,
        entry_rows,
        box_rows,
        redaction_rows,
        hash_rows,
        update_rows,
        ingredient_rows,
        binding_rows,
        order_rows,
        shared_rows,
        older_claim_rows,
        older_ingredient_rows,
        digest_rows,
    ):
        yield from group()


def failing(code, place=""):
    return f"failing {code} {URL}{place}"


def valid(manifests, assertions, covered=4, outside=0):
    return f"valid manifests={manifests} assertions={assertions} covered={covered} outside={outside}"


def with_(draft, **changed):
    for name, value in changed.items():
        assert hasattr(draft, name), name
        setattr(draft, name, value)
    return draft


def note(label="test.note", **changed):
    return with_(Assertion(label), **changed)


def one(*given, **changed):
    """A store of one manifest, m, with a data hash behind what is given."""
    return [with_(Manifest("m", *given, DataHash()), **changed)]


def old(*given, label="d", **changed):
    """A manifest that an ingredient names."""
    return with_(Manifest(label, *given, DataHash()), **changed)


def pair(ingredient, *given, below=None, **changed):
    """A store of two manifests, d and m, where m has an ingredient."""
    return [below or old(), *one(ingredient, *given, **changed)]


def redacting(*texts, **changed):
    """A store of two manifests, whose second has redactions."""
    return pair(Ingredient("d"), redactions=list(texts), **changed)


def valid_rows():
    yield "a data hash alone", valid(1, 1), one()
    yield "actions and a note", valid(1, 3), one(Assertion("c2pa.actions.v2", ACTIONS), note())
    yield "an assertion of JSON", valid(1, 2), one(Assertion("test.json", b"{}", b"json"))
    yield "gathered assertions", valid(1, 2), one(note(), gathered=1)
    absolute = "self#jumbf=/c2pa/m/c2pa.assertions/test.note"
    yield "an entry by an absolute URI", valid(1, 2), one(note(url=absolute))
    neither = [with_(Manifest("m", DataHash(None)), claim_alg=None)]
    yield "a claim without an algorithm, and a binding without one", valid(1, 1), neither
    own = note(alg="sha256")
    binding = with_(DataHash("sha256"), alg="sha256")
    spelled = {"claim_generator_info": open_map(("name", text("a tool"))), "dc:title": NULL, "gathered_assertions": NULL, "alg": NULL}
    yield "a claim with other fields, an open map and nulls", valid(1, 2), one(note(), claim_fields=spelled)
    stamped = lambda _: tag(18, sign1(unprotected=mapping(("sigTst", mapping(("tstTokens", array()))), ("pad", data(b"\0")))))
    yield "a time stamp in the message's header", valid(1, 1), one(change_message=stamped)
    yield "the references' own algorithm holds", valid(1, 2), [with_(Manifest("m", own, binding), claim_alg="md5")]
    yield "no exclusions but null", "failing assertion.dataHash.mismatch " + URL + "m" + HASH, [
        Manifest("m", with_(DataHash(), ranges=[], more=[("exclusions", NULL)], change=without_exclusions))
    ]
    yield "an empty range besides", valid(1, 1), [Manifest("m", with_(DataHash(), ranges=[(0, 0), None]))]
    yield "a numbered binding", valid(1, 1), [Manifest("m", DataHash(label="c2pa.hash.data__1"))]
    yield "an ingredient", valid(2, 3), pair(Ingredient("d"))
    yield "an ingredient that names no manifest", valid(1, 2), one(with_(Ingredient(None), is_signed=False))
    yield "an ingredient without claimSignature", valid(2, 3), pair(Ingredient("d", is_signed=False))
    yield "a manifest that nobody names isn't looked at", valid(1, 1), [Manifest("d"), *one()]
    yield "an older manifest with another hash", valid(2, 3), [Manifest("d", note("c2pa.hash.boxes")), *one(Ingredient("d"))]
    yield "three ingredients", valid(2, 5), [
        old(),
        *one(*(Ingredient("d", word, label=f"c2pa.ingredient.v3__{n}") for n, word in enumerate(RELATIONSHIPS))),
    ]
    yield "an update as an ingredient", valid(3, 4), [
        old(),
        Manifest("u", Ingredient("d", "parentOf"), update=True),
        *one(Ingredient("u", "parentOf")),
    ]
    yield "a redacted assertion", valid(2, 3), redacting(f"{URL}d{STORE}/test.note", below=old(note(is_there=False)))
    yield "a redaction of what no claim lists", valid(2, 3), redacting(f"{URL}d{STORE}/x")
    yield "a redaction in a manifest that isn't there", valid(2, 3), redacting(f"{URL}z{STORE}/x")


def without_exclusions(encoded):
    """A data hash without its empty list of exclusions."""
    return encoded.replace(text("exclusions") + array(), text("x") + array(), 1)


def active_rows():
    update = Manifest("u", Ingredient("d", "parentOf"), update=True)
    yield "the active manifest is an update", failing("unsupported.updateActive", "u"), [old(), update]


def claim_rows():
    none, two = (lambda boxes: []), (lambda boxes: [*boxes, superbox(b"c2cl", "c2pa.claim.v2__1", item(b"\xa0"))])
    yield "no claim box", failing("claim.missing", "m"), one(change_claims=none)
    yield "two claim boxes", failing("claim.multiple", "m"), one(change_claims=two)
    later = lambda boxes: [claim_box(item(b"\xa0"), label="c2pa.claim.v3")]
    yield "a claim of the third version", failing("unsupported.claimVersion", "m"), one(change_claims=later)
    unnamed = lambda boxes: [superbox(b"c2cl", None, item(b"\xa0"))]
    yield "a claim box without a label", failing("unsupported.claimVersion", "m"), one(change_claims=unnamed)
    yield "a claim box without an item", failing("claim.cbor.invalid", "m" + CLAIM), one(change_claims=lambda _: [claim_box()])
    json = lambda _: [claim_box(box(b"json", b"\xa0"), item(b"\xa0"))]
    yield "a claim box whose first content is JSON", failing("claim.cbor.invalid", "m" + CLAIM), one(change_claims=json)
    yield "a byte behind the claim", failing("claim.cbor.invalid", "m" + CLAIM), one(change_claim=lambda it: it + b"\0")
    yield "a claim cut short", failing("claim.cbor.invalid", "m" + CLAIM), one(change_claim=lambda it: it[:-1])
    for field, value in (
        ("instanceID", None),
        ("instanceID", uint(1)),
        ("signature", NULL),
        ("created_assertions", NULL),
        ("created_assertions", array(uint(1))),
        ("gathered_assertions", array(mapping())),
        ("redacted_assertions", array(uint(1))),
        ("redacted_assertions", text("x")),
        ("alg", data(b"sha256")),
    ):
        yield f"a claim's {field}", failing("profile.claim.fields", "m" + CLAIM), one(claim_fields={field: value})
    yield "a claim that is a list", failing("profile.claim.fields", "m" + CLAIM), one(change_claim=lambda _: array())


def signature_rows():
    missing = failing("claimSignature.missing", "m" + SIGNATURE)
    yield "no signature box", missing, one(change_signatures=lambda _: [])
    other = lambda boxes: [superbox(b"c2cx", "c2pa.signature", item(sign1()))]
    yield "a signature box of another type", missing, one(change_signatures=other)
    for url in (
        "self#jumbf=c2pa.assertions/a",
        "self#jumbf=/c2pa/n/c2pa.signature",
        "self#jumbf=/c2pa/m",
        "c2pa.signature",
        "self#jumbf=/c2pa/m/c2pa.signature/",
    ):
        yield f"the claim's signature is {url}", missing, one(claim_fields={"signature": text(url)})
    form = failing("profile.signature.form", "m" + SIGNATURE)
    yield "a signature box without an item", form, one(change_signatures=lambda _: [signature_box()])
    yield "a message of three members", form, one(change_message=lambda _: array(data(b""), b"\xa0", NULL))
    yield "a message with its payload", form, one(change_message=lambda _: sign1(payload=data(b"")))
    yield "an undefined payload", form, one(change_message=lambda _: sign1(payload=UNDEFINED))
    yield "a message that is no CBOR", form, one(change_message=lambda _: b"\xff")


def verdict_rows():
    codes = "claimSignature.mismatch", "signingCredential.untrusted", "signingCredential.invalid", "profile.verdict.missing"
    for (signature, word), code in zip(REFUSED.items(), codes):
        yield f"the judge says {word}", failing(code, "m" + SIGNATURE), one(signature=signature)
        older = pair(Ingredient("d"), below=old(signature=signature))
        yield f"the judge says {word} of an older manifest", failing(code, "d" + SIGNATURE), older


def child_rows():
    unknown = failing("algorithm.unsupported", "m" + INGREDIENT)
    yield "the algorithm of activeManifest", unknown, pair(with_(Ingredient("d"), algs=["sha1", None]))
    yield "the algorithm of claimSignature", unknown, pair(with_(Ingredient("d"), algs=[None, "sha1"]))
    yield "the claim's algorithm", unknown, pair(Ingredient("d"), claim_alg="sha512/256")
    wrong = failing("profile.ingredient.signature", "m" + INGREDIENT)
    yield "another digest of the signature", wrong, pair(with_(Ingredient("d"), hashes=[None, NO_DIGEST]))
    without = old(change_signatures=lambda _: [])
    yield "no signature to be named", wrong, pair(Ingredient("d"), below=without)
    absent, redaction = old(note(is_there=False)), [f"{URL}d{STORE}/test.note"]
    unsigned = pair(Ingredient("d", is_signed=False), below=absent, redactions=redaction)
    yield "a touched manifest without claimSignature", wrong, unsigned
    mismatch = failing("ingredient.manifest.mismatch", "m" + INGREDIENT)
    yield "another digest of the manifest", mismatch, pair(with_(Ingredient("d"), hashes=[NO_DIGEST, None]))
    touched = with_(Ingredient("d"), hashes=[NO_DIGEST, None])
    yield "another digest of a touched manifest", valid(2, 3), pair(touched, below=old(note(is_there=False)), redactions=redaction)
    two = Ingredient("d"), with_(Ingredient("d", label="c2pa.ingredient.v3__1"), hashes=[None, NO_DIGEST])
    yield "the second of two", failing("profile.ingredient.signature", "m" + INGREDIENT + "__1"), pair(*two)


def entry_rows():
    wrong = failing("profile.assertion.uri", "m" + CLAIM)
    for url in (
        "self#jumbf=c2pa.signature",
        "self#jumbf=/c2pa/n/c2pa.assertions/test.note",
        "self#jumbf=/c2pa/m",
        "self#jumbf=c2pa.assertions/test.note/",
        "self#jumbf=c2pa.assertions/a/b",
        "self#jumbf=test.note",
        "test.note",
        "",
    ):
        yield f"an entry's URL is {url}", wrong, one(note(url=url))
    twice = reference(f"self#jumbf=/c2pa/m{STORE}/test.note", NO_DIGEST)
    yield "two entries with one label", wrong, one(note(), extra_entries=[twice])
    yield "cloud data", failing("unsupported.cloudData", "m" + STORE + "/c2pa.cloud-data"), one(note("c2pa.cloud-data"))
    numbered = one(note("c2pa.cloud-data__2"))
    yield "cloud data with a number", failing("unsupported.cloudData", "m" + STORE + "/c2pa.cloud-data__2"), numbered
    yield "an entry's algorithm", failing("algorithm.unsupported", "m" + STORE + "/test.note"), one(note(alg="SHA256"))
    yield "an empty name of an algorithm", failing("algorithm.unsupported", "m" + STORE + "/test.note"), one(note(alg=""))
    there = redacting(f"{URL}d{STORE}/test.note", below=old(note()))
    yield "a redacted assertion that is there", failing("assertion.notRedacted", "d" + STORE + "/test.note"), there
    yield "no box", failing("assertion.missing", "m" + STORE + "/test.note"), one(note(is_there=False))
    line = one(note(), extra_entries=[reference("self#jumbf=c2pa.assertions/a\n", NO_DIGEST)])
    yield "a label with a line feed", failing("assertion.missing", "m" + STORE + "/a?"), line
    yield "another digest", failing("assertion.hashedURI.mismatch", "m" + STORE + "/test.note"), one(note(hashed=NO_DIGEST))
    yield "a digest cut short", failing("assertion.hashedURI.mismatch", "m" + STORE + "/test.note"), one(note(hashed=b""))
    actions = Assertion("c2pa.actions.v2", ACTIONS)
    changed = with_(Assertion(actions.label, ACTIONS[:-1] + b"e"), hashed=digest(actions.box(None)[8:]))
    yield "a changed byte of an action", failing("assertion.hashedURI.mismatch", "m" + STORE + "/c2pa.actions.v2"), one(changed)
    other = one(note(), store_type=b"c2ax")
    yield "an assertion store of another type", failing("assertion.missing", "m" + STORE + "/test.note"), other
    relative = redacting(f"{URL}d{STORE}/test.note", below=old(note(is_there=False), note("b", hashed=NO_DIGEST)))
    yield "an entry behind a redacted one", failing("assertion.hashedURI.mismatch", "d" + STORE + "/b"), relative


def box_rows():
    undeclared = "assertion.undeclared"
    yield "a box that no entry lists", failing(undeclared, "m" + STORE + "/x"), one(note("x", is_listed=False))
    yield "a label with a slash", failing(undeclared, "m" + STORE + "/a/b"), one(note("a/b", is_listed=False))
    yield "an empty label", failing(undeclared, "m" + STORE + "/"), one(note("", is_listed=False))
    yield "a box without a label", failing(undeclared, "m" + STORE), one(note(None, is_listed=False))
    older = pair(Ingredient("d"), below=old(note("x", is_listed=False)))
    yield "a box that no entry of an older manifest lists", failing(undeclared, "d" + STORE + "/x"), older


def redaction_rows():
    for url in "self#jumbf=/c2pa/d", "self#jumbf=/c2pa/d/c2pa.signature", "x", f"{URL}d{STORE}/a/b":
        yield f"a redaction of {url}", failing("profile.redaction.uri", "m" + CLAIM), redacting(url)
    yield "a relative redaction", failing("assertion.selfRedacted", "m" + STORE + "/x"), redacting("self#jumbf=c2pa.assertions/x")
    yield "a redaction in its own manifest", failing("assertion.selfRedacted", "m" + STORE + "/x"), redacting(f"{URL}m{STORE}/x")
    own = redacting("self#jumbf=c2pa.assertions/c2pa.actions")
    yield "its own actions", failing("assertion.selfRedacted", "m" + STORE + "/c2pa.actions"), own
    for label, code in (
        ("c2pa.actions", "assertion.action.redacted"),
        ("c2pa.actions.v2__1", "assertion.action.redacted"),
        ("c2pa.hash.data", "profile.redaction.binding"),
        ("c2pa.hash.bmff.v2", "profile.redaction.binding"),
        ("c2pa.hash.boxes", "profile.redaction.binding"),
        ("c2pa.ingredient.v3", "unsupported.redactIngredient"),
        ("c2pa.ingredient", "unsupported.redactIngredient"),
        ("c2pa.ingredient.v9__2", "unsupported.redactIngredient"),
    ):
        # in a manifest that isn't there, so that nothing is redacted by it
        yield f"a redaction of {label}", failing(code, f"z{STORE}/{label}"), redacting(f"{URL}z{STORE}/{label}")
    two = redacting(f"{URL}z{STORE}/x", f"{URL}z{STORE}/c2pa.actions", "x")
    yield "the second of three redactions", failing("assertion.action.redacted", f"z{STORE}/c2pa.actions"), two


def hash_rows():
    yield "another hash besides", failing("unsupported.hashKind", "m" + STORE + "/c2pa.hash.boxes"), one(note("c2pa.hash.boxes"))
    alone = [Manifest("m", note("c2pa.hash.bmff"))]
    yield "another hash alone", failing("unsupported.hashKind", "m" + STORE + "/c2pa.hash.bmff"), alone
    yield "no hash", failing("claim.hardBindings.missing", "m" + CLAIM), [Manifest("m", note())]
    older = [Manifest("d", note()), *one(Ingredient("d"))]
    yield "no hash in an older manifest", failing("claim.hardBindings.missing", "d" + CLAIM), older
    numbered = one(DataHash(label="c2pa.hash.data__1"))
    yield "two data hashes", failing("assertion.multipleHardBindings", "m" + HASH), numbered
    both = [Manifest("m", DataHash(), BmffHash(ALL_EXCLUDED))]
    yield "a data hash and a BMFF hash", failing("assertion.multipleHardBindings", "m" + STORE + "/c2pa.hash.bmff.v2"), both
    two = [Ingredient("d", "parentOf", label=f"c2pa.ingredient.v3__{n}") for n in (1, 2)]
    parents = pair(*two)
    yield "two parents", failing("manifest.multipleParents", "m"), parents
    older = [old(), old(*two, label="e"), *one(Ingredient("e"))]
    yield "two parents of an older manifest", failing("manifest.multipleParents", "e"), older


def update_rows():
    def updated(*given):
        return [old(), Manifest("u", *given, update=True), *one(Ingredient("u"))]

    parent = Ingredient("d", "parentOf")
    for label in "c2pa.hash.data", "c2pa.hash.bmff.v2", "c2pa.hash.boxes":
        yield f"an update with {label}", failing("manifest.update.invalid", "u"), updated(parent, note(label))
    wrong = failing("manifest.update.wrongParents", "u")
    yield "an update without an ingredient", wrong, updated()
    yield "an update of a component", wrong, updated(Ingredient("d"))
    yield "an update with two ingredients", wrong, updated(parent, Ingredient("d", label="c2pa.ingredient.v3__1"))
    yield "an update whose ingredient can't be read", wrong, updated(with_(Ingredient("d"), given=b"\xff"))
    other, version = updated(parent, note("c2pa.ingredient.v4")), "unsupported.ingredientVersion"
    yield "an update with a later ingredient besides", failing(version, "u" + STORE + "/c2pa.ingredient.v4"), other
    older = updated(parent, Ingredient("d", label="c2pa.ingredient"))
    yield "an update with an older ingredient besides", wrong, older


def ingredient_rows():
    for label in "c2pa.ingredient.v1", "c2pa.ingredient.v20", "c2pa.ingredient.v4__1", "c2pa.ingredients":
        yield f"an ingredient labelled {label}", failing("unsupported.ingredientVersion", f"m{STORE}/{label}"), one(note(label))
    given = lambda encoded: one(with_(Ingredient("d"), given=encoded))
    yield "an ingredient that is no CBOR", failing("assertion.cbor.invalid", "m" + INGREDIENT), given(b"\xff")
    yield "an ingredient of JSON", failing("assertion.cbor.invalid", "m" + INGREDIENT), one(with_(Ingredient("d"), content=b"json"))
    form = failing("profile.ingredient.form", "m" + INGREDIENT)
    parent = ("relationship", text("parentOf"))
    good, signature = (reference(f"self#jumbf=/c2pa/d{more}", NO_DIGEST) for more in ("", "/c2pa.signature"))
    named = lambda manifest, *more: mapping(parent, ("activeManifest", manifest), *(("claimSignature", it) for it in more))
    for what, encoded in (
        ("a list", array()),
        ("without a relationship", mapping()),
        ("with another relationship", mapping(("relationship", text("childOf")))),
        ("with a relationship that is no text", mapping(("relationship", uint(1)))),
        ("whose activeManifest is a text", named(text("self#jumbf=/c2pa/d"))),
        ("whose activeManifest has no hash", named(mapping(("url", text("self#jumbf=/c2pa/d"))))),
        ("whose activeManifest names a signature", named(reference("self#jumbf=/c2pa/d/c2pa.signature", NO_DIGEST))),
        ("whose activeManifest is no URI", named(reference("d", NO_DIGEST))),
        ("whose claimSignature is of another manifest", named(good, reference("self#jumbf=/c2pa/e/c2pa.signature", NO_DIGEST))),
        ("whose claimSignature is relative", named(good, reference("self#jumbf=c2pa.signature", NO_DIGEST))),
        ("whose claimSignature is the manifest", named(good, good)),
        ("whose claimSignature is a number", named(good, uint(1))),
        ("with a claimSignature alone", mapping(parent, ("claimSignature", signature))),
    ):
        yield f"an ingredient {what}", form, [old(), *given(encoded)]
    nulls = mapping(parent, ("activeManifest", NULL), ("claimSignature", NULL))
    yield "an ingredient with nulls", valid(1, 2), given(nulls)
    yield "a manifest that isn't there", failing("ingredient.manifest.missing", "m" + INGREDIENT), one(Ingredient("z"))
    order = failing("unsupported.ingredientOrder", "m" + INGREDIENT)
    yield "its own manifest", order, one(Ingredient("m"))
    later = [old(Ingredient("m")), *one(Ingredient("d"))]
    yield "a later manifest", failing("unsupported.ingredientOrder", "d" + INGREDIENT), later


def binding_rows():
    place = "m" + HASH
    hashed = lambda **changed: [Manifest("m", with_(DataHash(), **changed))]
    form = failing("profile.hash.form", place)
    yield "a binding that is no CBOR", failing("assertion.cbor.invalid", place), hashed(given=b"\xa1")
    yield "a binding of JSON", failing("assertion.cbor.invalid", place), hashed(content=b"json")
    excluding = lambda *pairs: mapping(("hash", data(b"")), ("exclusions", array(mapping(*pairs))))
    for what, encoded in (
        ("a list", array()),
        ("without a hash", mapping()),
        ("with a text as its hash", mapping(("hash", text("")))),
        ("with a number as its algorithm", mapping(("hash", data(b"")), ("alg", uint(1)))),
        ("whose exclusions are a map", mapping(("hash", data(b"")), ("exclusions", mapping()))),
        ("whose exclusion has no length", excluding(("start", uint(1)))),
        ("whose exclusion is negative", excluding(("start", b"\x20"), ("length", uint(0)))),
    ):
        yield f"a data hash {what}", form, hashed(given=encoded)
    yield "1,025 exclusions", failing("unsupported.tooManyExclusions", place), hashed(ranges=[(0, 0)] * 1_025)
    yield "1,024 exclusions", valid(1, 1), hashed(ranges=[(0, 0)] * 1_023 + [None])
    yield "the binding's algorithm", failing("algorithm.unsupported", place), hashed(named_alg="sha1")
    without = [with_(Manifest("m", with_(DataHash(None), alg="sha256")), claim_alg="md5")]
    yield "the claim's algorithm for the binding", failing("algorithm.unsupported", place), without
    yield "ranges that aren't in order", form, hashed(ranges=[None, (0, 0)])
    yield "ranges that overlap", form, hashed(ranges=[(0, 4), None])
    yield "a range behind the file", form, hashed(ranges=[(0, 1 << 40)])
    yield "a range whose end is no number of 64 bits", form, hashed(ranges=[(1, (1 << 64) - 1)])
    yield "no range", failing("assertion.dataHash.mismatch", place), hashed(ranges=[])
    yield "a range more", valid(1, 1, covered=3, outside=1), hashed(ranges=[(0, 1), None])
    bmff = lambda **changed: [Manifest("m", with_(BmffHash(ALL_EXCLUDED), **changed))]
    place = f"m{STORE}/c2pa.hash.bmff.v2"
    yield "a BMFF hash in a JPEG", failing("profile.hash.form", place), bmff()
    yield "a BMFF hash that is no CBOR", failing("assertion.cbor.invalid", place), bmff(given=b"\xff")
    yield "a Merkle map", failing("unsupported.merkle", place), bmff(more=[("merkle", array())])
    yield "a null Merkle map", failing("profile.hash.form", place), bmff(more=[("merkle", NULL)])
    tests = bmff(exclusions=[exclusion("/ftyp", ("version", uint(0)))])
    yield "a BMFF hash in a JPEG, before its exclusions", failing("profile.hash.form", place), tests


def order_rows():
    """The first of two faults."""
    box_first = one(note("x", is_listed=False))
    box_first[0].assertions[-1].ranges = []
    yield "an undeclared box before the binding", failing("assertion.undeclared", "m" + STORE + "/x"), box_first
    missing = one(note("x", is_listed=False), note("y", is_there=False))
    yield "a missing box before an undeclared one", failing("assertion.missing", "m" + STORE + "/y"), missing
    later = pair(with_(Ingredient("d"), hashes=[None, NO_DIGEST]), note(hashed=NO_DIGEST))
    yield "an ingredient before an entry", failing("profile.ingredient.signature", "m" + INGREDIENT), later
    older = pair(Ingredient("d"), note(hashed=NO_DIGEST), below=Manifest("d"))
    yield "the last manifest first", failing("assertion.hashedURI.mismatch", "m" + STORE + "/test.note"), older
    thing = one(note("a", hashed=NO_DIGEST), note("b", url="x"))
    yield "an entry with all its cases before the next", failing("assertion.hashedURI.mismatch", "m" + STORE + "/a"), thing


def shared_rows():
    """A has ingredients B and C, each of these has D; B redacts in D."""

    def shared(redactor="B", is_there=False, has_c=True, is_signed=True, label="test.note", version=3):
        first = Manifest("D", note(label, is_there=is_there), DataHash())
        second = Manifest("B", Ingredient("D", is_signed=is_signed), DataHash())
        third = Manifest("C", *([Ingredient("D", label=INGREDIENT_LABELS[version])] if has_c else []), DataHash())
        (second if redactor == "B" else third).redactions = [f"{URL}D{STORE}/{label}"]
        last = Manifest("A", Ingredient("B"), Ingredient("C", label="c2pa.ingredient.v3__1"), DataHash())
        return [first, second, third, last]

    yield "redacted and absent", valid(4, 8), shared()
    yield "redacted and there", failing("assertion.notRedacted", f"D{STORE}/test.note"), shared(is_there=True)
    yield "by a manifest that doesn't reach it", failing("assertion.missing", f"D{STORE}/test.note"), shared("C", has_c=False)
    yield "without claimSignature", failing("profile.ingredient.signature", "B" + INGREDIENT), shared(is_signed=False)
    older = failing("profile.ingredient.signature", f"C{STORE}/c2pa.ingredient.v2")
    yield "the same with an ingredient of version 2", older, shared(version=2)
    whole = shared(is_there=True, version=2)
    whole[1].redactions = []
    yield "whole, with an ingredient of version 2", valid(4, 9), whole
    # the redaction's own rule comes before what it does, since its manifest comes first
    actions = shared(is_there=True, label="c2pa.actions")
    yield "actions, by the redactor's own rule", failing("assertion.action.redacted", f"D{STORE}/c2pa.actions"), actions


def older_claim_rows():
    """Claims of version 1, and what isn't one."""
    one_older = lambda *given, **changed: one(*given, version=1, **changed)
    actions, numbered = Assertion("c2pa.actions", ACTIONS), {"instanceID": uint(1)}
    yield "a claim of version 1", valid(1, 3), one_older(actions, note())
    yield "a claim of version 1 without an instance", valid(1, 1), one_older(claim_fields={"instanceID": None})
    yield "a claim of version 1 whose instance is a number", valid(1, 1), one_older(claim_fields=numbered)
    yield "a claim of version 1 with what version 2 gathers", valid(1, 1), one_older(claim_fields={"gathered_assertions": uint(1)})
    form = failing("profile.claim.fields", "m" + OLDER_CLAIM)
    for field, value in (
        ("signature", NULL),
        ("assertions", NULL),
        ("assertions", array(uint(1))),
        ("redacted_assertions", text("x")),
        ("alg", uint(1)),
    ):
        yield f"a claim of version 1: {field}", form, one_older(claim_fields={field: value})
    yield "a claim of version 1 with both lists", form, one_older(claim_fields={"created_assertions": array()})
    yield "a claim of version 1 with a null in the other list", valid(1, 1), one_older(claim_fields={"created_assertions": NULL})
    both = one(claim_fields={"assertions": array()})
    yield "a claim of version 2 with both lists", failing("profile.claim.fields", "m" + CLAIM), both
    yield "a claim of version 2 with a null in the other list", valid(1, 1), one(claim_fields={"assertions": NULL})
    for version, label in CLAIM_LABELS.items():
        other = one(version=3 - version, change_claims=lambda boxes, label=label: [relabelled(boxes[0], label)])
        yield f"a claim under the label {label} of the other version", failing("profile.claim.fields", f"m/{label}"), other
    absent = old(note(is_there=False), version=1)
    yield "a redaction in a claim of version 1", valid(2, 3), pair(Ingredient("d"), below=absent, redactions=[f"{URL}d{STORE}/test.note"])
    redactor = pair(Ingredient("d"), below=old(note(is_there=False)), redactions=[f"{URL}d{STORE}/test.note"], version=1)
    yield "a redaction by a claim of version 1", valid(2, 3), redactor
    undeclared = failing("assertion.undeclared", "m" + STORE + "/x")
    yield "a box that no entry of a claim of version 1 lists", undeclared, one_older(note("x", is_listed=False))


def older_ingredient_rows():
    """Ingredients of the versions 1 and 2."""
    for version in 1, 2:
        label = INGREDIENT_LABELS[version]
        named = f"m{STORE}/{label}"
        given = lambda *pairs, label=label: one(Assertion(label, mapping(("relationship", text("parentOf")), *pairs)))
        yield f"an ingredient of version {version}", valid(2, 3), pair(Ingredient("d", label=label))
        yield f"an ingredient of version {version} in a claim of version 1", valid(2, 3), pair(Ingredient("d", label=label), version=1)
        wrong = with_(Ingredient("d", label=label), hashes=[NO_DIGEST, None])
        yield f"another digest, version {version}", failing("ingredient.manifest.mismatch", named), pair(wrong)
        unread = with_(Ingredient("d", label=label), hashes=[None, NO_DIGEST])
        yield f"another digest of the signature, version {version}", valid(2, 3), pair(unread)
        yield f"a claimSignature that is a number, version {version}", valid(1, 2), given(("claimSignature", uint(1)))
        yield f"an activeManifest, version {version}", valid(1, 2), given(("activeManifest", uint(1)))
        touched = pair(Ingredient("d", label=label), below=old(note(is_there=False)), redactions=[f"{URL}d{STORE}/test.note"])
        yield f"a touched manifest, version {version}", failing("profile.ingredient.signature", named), touched
        form = failing("profile.ingredient.form", named)
        yield f"a manifest that is no reference, version {version}", form, given(("c2pa_manifest", text("self#jumbf=/c2pa/d")))
        signature = reference("self#jumbf=/c2pa/d/c2pa.signature", NO_DIGEST)
        yield f"a manifest that is a signature, version {version}", form, given(("c2pa_manifest", signature))
        missing = failing("ingredient.manifest.missing", named)
        yield f"a manifest that isn't there, version {version}", missing, one(Ingredient("z", label=label))
    older = reference("self#jumbf=/c2pa/z", NO_DIGEST)
    later = Assertion("c2pa.ingredient.v3", mapping(("relationship", text("inputTo")), ("c2pa_manifest", older)))
    yield "the older field in version 3", valid(1, 2), one(later)
    parents = [Ingredient("d", "parentOf", label=label) for label in INGREDIENT_LABELS.values()]
    yield "a parent in each of two versions", failing("manifest.multipleParents", "m"), pair(*parents[:2])
    updated = [old(), Manifest("u", parents[1], update=True, version=1), *one(Ingredient("u"))]
    yield "an update by an ingredient of version 2", valid(3, 4), updated
    redaction = f"{URL}z{STORE}/c2pa.ingredient.v2"
    kept = failing("unsupported.redactIngredient", f"z{STORE}/c2pa.ingredient.v2")
    yield "a redaction of an ingredient of version 2", kept, redacting(redaction)


def digest_rows():
    """Digests by each algorithm, and by one in place of another."""
    entry = failing("assertion.hashedURI.mismatch", "m" + STORE + "/test.note")
    contents = note().box(None)[8:]
    for name, other in ("sha384", "sha512"), ("sha512", "sha384"):
        inherited = with_(Manifest("m", Ingredient("d"), note(), DataHash(None)), claim_alg=name)
        yield f"all by {name}, which the claim names", valid(2, 4), [old(), inherited]
        yield f"a binding by {name}, in a claim by sha256", valid(1, 1), [Manifest("m", DataHash(name))]
        yield f"an entry by {name}", valid(1, 2), one(note(alg=name))
        yield f"a reference to a manifest by {name}", valid(2, 3), pair(with_(Ingredient("d"), algs=[name, None]))
        yield f"a reference to a signature by {name}", valid(2, 3), pair(with_(Ingredient("d"), algs=[None, name]))
        older = with_(Ingredient("d", label="c2pa.ingredient"), algs=[name, None])
        yield f"a reference of version 1 by {name}", valid(2, 3), pair(older)
        yield f"a manifest by {name} below one by sha256", valid(2, 3), pair(Ingredient("d"), below=old(claim_alg=name))
        cut = note(alg=name, hashed=digest(contents, name)[:32])
        yield f"32 bytes of a digest by {name}", entry, one(cut)
        yield f"a digest by {other} as one by {name}", entry, one(note(alg=name, hashed=digest(contents, other)))
        yield f"a digest by sha256 as one by {name}", entry, one(note(alg=name, hashed=digest(contents)))
    yield "48 bytes of a digest by sha512 as one by sha384", entry, one(note(alg="sha384", hashed=digest(contents, "sha512")[:48]))
    longer = note(hashed=digest(contents) + bytes(32))
    yield "zeros behind a digest", entry, one(longer)
    name = failing("algorithm.unsupported", "m" + STORE + "/test.note")
    for other in "sha1", "SHA-512", "sha512/256", "sha3-384":
        yield f"an entry by {other}", name, one(note(alg=other))


def verdicts_on(contents):
    """The verdicts on the questions of a file, by its signatures."""
    return verdicts_of_store(media_of(contents).store)


def questions_of_store(store):
    """The ids of the questions that a store puts."""
    return [identity for identity in (Read(store, found).question() for found in manifests_of(jumbf.read(store))) if identity]


def verdicts_of_store(store):
    asked = [Read(store, found) for found in manifests_of(jumbf.read(store))]
    words = {it.question(): REFUSED.get(it.sign and it.sign.signature, "approved") for it in asked}
    return {identity: word for identity, word in words.items() if identity and word != "silent"}


def main():
    count = wrong = 0
    for what, expected, drafts in rows():
        contents = Jpeg().file(drafts)
        told, _ = report("validate", contents, [verdicts_on(contents)])
        count += 1
        if told != expected:
            wrong += 1
            print(f"{what}:\n  {told}\n  instead of {expected}")
    print(f"{count} stores, {wrong} differences")
    sys.exit(wrong > 0)


if __name__ == "__main__":
    main()
