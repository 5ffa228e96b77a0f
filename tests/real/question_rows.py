"""Small stores for `questions`: what each shows, and its bytes."""

from drafts import Assertion, Ingredient, Manifest, Written, write
from make_store import (
    NULL,
    UNDEFINED,
    array,
    assertion,
    assertions,
    box,
    chunks,
    claim,
    claim_box,
    data,
    hashed_uri,
    head,
    item,
    manifest,
    mapping,
    older_claim,
    open_array,
    open_map,
    sign1,
    signature_box,
    store,
    superbox,
    tag,
    text,
    uint,
)

CLAIM = claim_box(item(claim()))
SIGNATURE = signature_box(item(sign1()))


def rows():
    yield from questions()
    for what, header in headers():
        yield what, asked(sign1(unprotected=header))
    yield from places()
    for what, boxes in refused_boxes():
        yield what, store(manifest("m", *boxes))
    for uri in other_uris():
        yield f"the claim's signature is {uri}", asked(sign1(), claimed=claim(signature=uri))
    for how, message in refused_messages():
        yield f"the message {how}", asked(message)
    yield from chains()
    yield "NotStore", superbox(b"c2pa", "c2px", manifest("m"))
    yield "NoManifest", store()
    yield "ManifestType", store(superbox(b"c2cm", "n"), manifest("m"))


def asked(message, *boxes, claimed=claim(), label="m"):
    """A store of one manifest: boxes, a claim, and a signature box with a message."""
    return store(manifest(label, *boxes, claim_box(item(claimed)), signature_box(item(message))))


def questions():
    """Manifests whose signature can be asked about."""
    yield "the message is tagged", asked(tag(18, sign1()))
    yield "the message isn't tagged: the same question", asked(sign1())
    opened = open_array(chunks(data(b"\xa1\1"), data(b"\x26")), b"\xbf\xff", NULL, chunks(data(b"\x5a" * 4)))
    yield "indefinite lengths, chunks and a wide tag: the same question", asked(head(6, 18, 8) + opened)
    absolute = claim(signature="self#jumbf=/c2pa/m/c2pa.signature")
    yield "an absolute URI that names this manifest", asked(sign1(), claimed=absolute)
    absolute = claim(signature="self#jumbf=/c2pa/é/c2pa.signature")
    yield "an absolute URI with a character of two bytes", asked(sign1(), claimed=absolute, label="é")
    spelled = claim()[:-1] + open_array()
    yield "the claim's bytes are asked about as they stand, here with an indefinite list", asked(sign1(), claimed=spelled)
    yield "empty protected bytes and an empty signature", asked(sign1(protected=b"", signature=b""))
    long = sign1(protected=b"\x11" * 24, signature=bytes(range(64)))
    yield "protected bytes of 24 and a signature of 64", asked(long)
    older = claim_box(item(older_claim()), label="c2pa.claim")
    yield "a claim of version 1", store(manifest("m", older, SIGNATURE))


def headers():
    """Unprotected headers, which a question has in their deterministic bytes."""
    pairs = ("pad", data(b"\0\0")), (uint(33), data(b"c")), ("b", text("x")), (head(1, 0), NULL), (uint(4), uint(1, 8))
    yield "an unprotected header whose keys stand in an order of their own", mapping(*pairs)
    pairs = (uint(4), uint(1)), (uint(33), data(b"c")), (head(1, 0), NULL), ("b", text("x")), ("pad", data(b"\0\0"))
    yield "the same header with its keys in order: the same question", mapping(*pairs)
    yield "the same header with an indefinite length: the same question", open_map(*reversed(pairs))
    inner = open_map((uint(2), NULL), (uint(1), NULL))
    yield "maps inside a header are sorted too", mapping(("x", mapping(("aa", uint(1)), ("b", open_array(inner)))))
    floats = b"\xf9\x7e\0", b"\xfa\0\0\0\0", b"\xfb" + b"\0" * 8
    others = b"\xf8\xff", b"\xf4", head(6, 1, 4) + uint(1, 4)
    yield "floats keep their width, other heads become the shortest", mapping(("x", array(*floats, *others)))
    one, two = mapping((uint(1), NULL), (uint(2), NULL)), mapping((uint(2), NULL), (uint(1), NULL))
    pairs = (two, text("first")), (one, text("second"))
    yield "keys that differ in the order of the pairs inside them keep their order", mapping(*pairs)
    yield "the same two keys the other way round", mapping(*reversed(pairs))


def places():
    """Where claim and signature stand: all these are asked the question of the first row."""
    yield "the signature box before the claim", store(manifest("m", SIGNATURE, CLAIM))
    around = [
        box(b"free", b""),
        assertions(assertion("c2pa.actions.v2")),
        claim_box(item(claim()), box(b"json", b"{}")),
        superbox(b"c2vc", None),
        signature_box(item(sign1()), box(b"free", b"")),
    ]
    yield "other boxes around claim and signature", store(manifest("m", *around))
    yield "an update manifest that is active", store(manifest("m", CLAIM, SIGNATURE, update=True))
    yield "the last of two manifests is asked about", store(manifest("l"), manifest("m", CLAIM, SIGNATURE))
    yield "a label with characters of two to four bytes, quotes and a space", asked(sign1(), label='é日本\U0001f4f7 "x"')


def refused_boxes():
    """Boxes of manifests that can't be asked about, since the claim or the signature isn't there."""
    yield "no claim and no signature", []
    yield "no claim box", [SIGNATURE]
    yield "two claim boxes", [CLAIM, claim_box(item(claim()), label="c2pa.claim.v2__1"), SIGNATURE]
    yield "a claim of version 2 under the label of version 1", [claim_box(item(claim()), label="c2pa.claim"), SIGNATURE]
    yield "a claim of version 1 under the label of version 2", [claim_box(item(older_claim())), SIGNATURE]
    yield "a claim box without an item", [claim_box(), SIGNATURE]
    yield "a claim box whose first content box is json", [claim_box(box(b"json", claim()), item(claim())), SIGNATURE]
    yield "the claim isn't CBOR", [claim_box(item(b"\xff")), SIGNATURE]
    yield "a byte behind the claim", [claim_box(item(claim() + b"\0")), SIGNATURE]
    yield "a claim field is refused", [claim_box(item(claim(("alg", uint(1))))), SIGNATURE]
    yield "no signature box", [CLAIM]
    yield "a signature box of another type", [CLAIM, superbox(b"c2cx", "c2pa.signature", item(sign1()))]
    yield "a signature box with another label", [CLAIM, signature_box(item(sign1()), label="c2pa.signature__1")]
    yield "a signature box inside another box", [CLAIM, superbox(b"c2vc", "x", SIGNATURE)]
    yield "a signature box without a content box", [CLAIM, signature_box()]
    yield "a signature box whose first content box is json", [CLAIM, signature_box(box(b"json", sign1()), item(sign1()))]


def other_uris():
    """Texts that aren't a URI of the signature of the manifest `m`."""
    return [
        "c2pa.signature",
        "self#jumbf=",
        "self#jumbf=c2pa.assertions/a",
        "self#jumbf=c2pa.signature/",
        "self#jumbf=c2pa.signature/c2pa.signature",
        "self#jumbf=/c2pa/m",
        "self#jumbf=/c2pa/n/c2pa.signature",
        "self#jumbf=/c2pa/m/m/c2pa.signature",
        "self#jumbf=/c2pa//c2pa.signature",
        "self#jumbf=/m/c2pa.signature",
        "self#jumbf=c2pa/m/c2pa.signature",
        "self#jumbf=/c2pa/M/c2pa.signature",
    ]


def refused_messages():
    """Items that aren't a COSE_Sign1 message with a detached payload."""
    protected, header, signature = data(b"\xa1\1\x26"), b"\xa0", data(b"\x5a")
    yield "is empty", b""
    yield "is inside a map", mapping(("x", sign1()))
    yield "is a list of five members", array(protected, header, NULL, signature, NULL)
    yield "is a list of three members", array(protected, header, signature)
    yield "is in tag 17", tag(17, sign1())
    yield "is in tag 18 twice", tag(18, tag(18, sign1()))
    yield "is followed by a byte", sign1() + b"\0"
    yield "is cut short", sign1()[:-1]
    yield "has bytes as its payload", sign1(payload=data(b""))
    yield "has an undefined payload", sign1(payload=UNDEFINED)
    yield "has a list as its unprotected header", sign1(unprotected=b"\x80")
    yield "has its unprotected header in bytes", sign1(unprotected=data(b"\xa0"))
    yield "has equal keys in its unprotected header", sign1(unprotected=mapping((uint(1), NULL), (uint(1, 2), NULL)))
    yield "has a map as its protected header", array(header, header, NULL, signature)
    yield "has a text as its signature", array(protected, header, NULL, text("Z"))


def chain(*drafts):
    """A store of drafts, whose signatures differ, so that their questions do."""
    for number, draft in enumerate(drafts):
        draft.signature = bytes([number])
    return write(drafts, Written())


def given(label, *encoded, more=()):
    """A manifest with ingredients of these items."""
    numbered = (f"c2pa.ingredient.v3__{number}" for number in range(1, 1 + len(encoded)))
    return Manifest(label, *(Assertion(*pair) for pair in zip(numbered, encoded)), *more)


def chains():
    """Ingredients: each manifest that is reached by them is asked about, the last first."""
    yield "a manifest and the one that it names", chain(Manifest("d"), Manifest("m", Ingredient("d")))
    yield "a chain of three", chain(Manifest("d"), Manifest("e", Ingredient("d")), Manifest("m", Ingredient("e")))
    last = Manifest("A", Ingredient("B"), Ingredient("C", label="c2pa.ingredient.v3__1"))
    shared = Manifest("D"), Manifest("B", Ingredient("D")), Manifest("C", Ingredient("D")), last
    yield "a manifest that two name is asked about once", chain(*shared)
    yield "one that nobody names isn't asked about", chain(Manifest("d"), Manifest("m"))
    yield "one that only such a one names isn't either", chain(Manifest("c"), Manifest("d", Ingredient("c")), Manifest("m"))
    without = [Manifest(label, *boxes) for label, boxes in (("d", ()), ("m", (Ingredient("d"),)))]
    without[1].change_claims = lambda _: []
    yield "no claim, and an ingredient all the same", chain(*without)
    without = Manifest("d")
    without.change_message = lambda _: b"\xff"
    yield "a named manifest without a message", chain(without, Manifest("m", Ingredient("d")))
    refused = Manifest("m", Ingredient("d"))
    refused.claim_fields = {"redacted_assertions": NULL, "alg": uint(1)}
    yield "a claim that is refused, and an ingredient all the same", chain(Manifest("d"), refused)
    wrong = Ingredient("d")
    wrong.hashes = [bytes(32), bytes(32)]
    yield "other digests in the ingredient: the question is put", chain(Manifest("d"), Manifest("m", wrong))
    hidden = Ingredient("d")
    hidden.is_listed = False
    yield "an ingredient box that no entry lists is followed", chain(Manifest("d"), Manifest("m", hidden))
    unsigned = Ingredient("d", is_signed=False)
    yield "an ingredient without claimSignature is followed", chain(Manifest("d"), Manifest("m", unsigned))
    yield "an update is asked about", chain(Manifest("d"), Manifest("u", Ingredient("d"), update=True), Manifest("m", Ingredient("u")))
    yield "an active update too", chain(Manifest("d"), Manifest("u", Ingredient("d", "parentOf"), update=True))
    yield "a manifest that names itself", chain(Manifest("m", Ingredient("m")))
    yield "a manifest that names a later one", chain(Manifest("d", Ingredient("m")), Manifest("m"))
    yield "two that name each other", chain(Manifest("d", Ingredient("m")), Manifest("m", Ingredient("d")))
    yield "a manifest that isn't there", chain(Manifest("d"), Manifest("m", Ingredient("z")))
    for label in "c2pa.ingredient", "c2pa.ingredient.v2", "c2pa.ingredient.v2__1":
        yield f"a box labelled {label} is followed", chain(Manifest("d", version=1), Manifest("m", Ingredient("d", label=label)))
    yield "labels with characters of two to four bytes", chain(Manifest("é日本"), Manifest("\U0001f4f7 \"x\"", Ingredient("é日本")))
    yield from other_ingredients()


def other_ingredients():
    """Boxes that aren't read as ingredients: nothing is followed."""
    for label in (
        "c2pa.ingredient.v1",
        "c2pa.ingredient.v20__1",
        "c2pa.ingredient.v4",
        "c2pa.ingredient.v3__",
        "c2pa.ingredient.v3__1__2",
        "c2pa.ingredient.v3_1",
        "c2pa.ingredient.v3__a",
        "c2pa.ingredient.v3__\u0661",
        "x.c2pa.ingredient.v3",
    ):
        yield f"a box labelled {label}", chain(Manifest("d"), Manifest("m", Ingredient("d", label=label)))
    parent = ("relationship", text("parentOf"))
    named = hashed_uri("self#jumbf=/c2pa/d")
    signature = ("claimSignature", hashed_uri("self#jumbf=/c2pa/e/c2pa.signature"))
    for what, encoded in (
        ("is no CBOR", b"\xff"),
        ("has no relationship", mapping(("activeManifest", named))),
        ("has another relationship", mapping(("relationship", text("childOf")), ("activeManifest", named))),
        ("names a signature", mapping(parent, ("activeManifest", hashed_uri("self#jumbf=/c2pa/d/c2pa.signature")))),
        ("names a manifest without self", mapping(parent, ("activeManifest", hashed_uri("/c2pa/d")))),
        ("has the signature of another manifest", mapping(parent, ("activeManifest", named), signature)),
        ("has a signature alone", mapping(parent, signature)),
        ("has a null", mapping(parent, ("activeManifest", NULL))),
    ):
        yield f"an ingredient that {what}", chain(Manifest("d"), given("m", encoded))
    good = mapping(parent, ("activeManifest", named))
    older = Manifest("m", Assertion("c2pa.ingredient.v2", good), Assertion("c2pa.ingredient.v3", mapping(parent, ("c2pa_manifest", named))))
    yield "each version has a field of its own for the manifest", chain(Manifest("d"), older)
    yield "the second of two ingredients", chain(Manifest("d"), given("m", b"\xff", good))
    json = Ingredient("d")
    json.content = b"json"
    yield "an ingredient of JSON", chain(Manifest("d"), Manifest("m", json))
    other = Manifest("m", Ingredient("d"))
    other.store_type = b"c2ax"
    yield "an ingredient in an assertion store of another type", chain(Manifest("d"), other)
    outside = asked(sign1(), assertion("c2pa.ingredient.v3", good))
    yield "an ingredient box outside the assertion store", outside
    yield "a refused store with an ingredient", chain(Manifest("a/b"), Manifest("m", Ingredient("a/b")))
