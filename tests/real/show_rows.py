"""Small stores for `show`: what each shows, and its bytes."""

from make_store import (
    NULL,
    UNDEFINED,
    array,
    assertion,
    assertions,
    box,
    chunks,
    claim,
    claim_box,
    data,
    description,
    hashed_uri,
    head,
    item,
    manifest,
    mapping,
    older_claim,
    open_array,
    open_map,
    signature_box,
    store,
    superbox,
    tag,
    text,
    uint,
)


def rows():
    yield "a manifest without a claim", store(manifest("m"))
    for what, encoded in claim_values():
        yield what, claimed(encoded)
    for what, encoded in claim_spellings():
        yield what, claimed(encoded)
    for what, encoded in older_values():
        yield what, claimed(encoded, "c2pa.claim")
    for what, encoded in refused_fields():
        yield f"no claim: {what}", claimed(encoded)
    for what, encoded in refused_items():
        yield f"no claim: {what}", claimed(encoded)
    for what, boxes in claim_boxes():
        yield what, store(manifest("m", *boxes))
    for what, boxes in assertion_boxes():
        yield what, store(manifest("m", *boxes))
    yield from stores()
    yield from refused_stores()
    yield from refused_trees()


def claimed(encoded, label="c2pa.claim.v2"):
    """A store of one manifest, whose claim box of a label holds an item."""
    return store(manifest("m", claim_box(item(encoded), label=label)))


def fields(**changed):
    """A claim of the three fields that it must have, some replaced by a spelled value, or left out by None."""
    values = {"instanceID": text("i"), "signature": text("s"), "created_assertions": array(), **changed}
    return mapping(*((key, value) for key, value in values.items() if value is not None))


def entry(**changed):
    """A hashed URI, with fields replaced or left out in the same way."""
    values = {"url": text("u"), "hash": data(b"\0"), **changed}
    return mapping(*((key, value) for key, value in values.items() if value is not None))


def claim_values():
    """Claims with their optional fields there, null and absent."""
    entries = [
        hashed_uri("self#jumbf=c2pa.assertions/a", b"\0\xff"),
        hashed_uri("self#jumbf=/c2pa/m/c2pa.assertions/b", b"", "sha256"),
    ]
    whole = {
        "created_assertions": array(*entries),
        "gathered_assertions": array(hashed_uri("u")),
        "redacted_assertions": array(text("self#jumbf=/c2pa/n/c2pa.assertions/x"), text("y")),
        "alg": text("sha256"),
    }
    yield "a claim with all fields", fields(**whole)
    yield "the least claim: optional fields are absent", fields()
    for key in "gathered_assertions", "redacted_assertions", "alg":
        yield f"{key} is null, which counts as absent", fields(**{**whole, key: NULL})
        yield f"{key} is absent", fields(**{**whole, key: None})
    yield "an entry whose alg is null", fields(created_assertions=array(entry(alg=NULL)))
    yield "gathered entries alone", fields(gathered_assertions=array(*entries))
    unknown = array(hashed_uri("u", b"", ""))
    yield "an entry may name any algorithm, and a claim too", fields(created_assertions=unknown, alg=text("x"))
    yield "a null list of version 1 counts as absent", fields(assertions=NULL)
    yield "empty texts", fields(instanceID=text(""), redacted_assertions=array(text("")))


def older_values():
    """Claims of version 1, and what isn't one."""
    listed = "assertions", array(hashed_uri("self#jumbf=c2pa.assertions/a", b"\0\x0f", "sha384"), hashed_uri("u", b""))
    redacted = "redacted_assertions", array(text("self#jumbf=/c2pa/n/c2pa.assertions/x"))
    read = listed, ("instanceID", text("i")), ("signature", text("s")), ("alg", text("sha512")), redacted
    unread = ("claim_generator", text("a camera/1")), ("dc:format", text("image/jpeg")), ("dc:title", text("t"))
    yield "a claim of version 1 with all fields", mapping(*unread, *read)
    yield "the least claim of version 1: there is no instance", older_claim()
    yield "a claim of version 1 whose instanceID is null", older_claim(("instanceID", NULL))
    yield "a claim of version 1 whose instanceID is a number, which is none", older_claim(("instanceID", uint(1)))
    yield "a claim of version 1 may not gather, so this passes unread", older_claim(("gathered_assertions", array(hashed_uri("u"))))
    yield "a null list of version 2 in a claim of version 1", older_claim(("created_assertions", NULL))
    yield "no claim: a list of version 2 besides", older_claim(("created_assertions", array()))
    yield "no claim: version 2 under the label of version 1", fields()
    yield "no claim: version 1 without assertions", mapping(("signature", text("s")))
    yield "no claim: version 1 whose assertions are null", mapping(("signature", text("s")), ("assertions", NULL))
    yield "no claim: version 1 without a signature", mapping(("assertions", array()))
    yield "no claim: version 1 with an alg that is a number", older_claim(("alg", uint(1)))
    yield "no claim: version 1 with a redaction of bytes", older_claim(("redacted_assertions", array(data(b"u"))))


def claim_spellings():
    """Claims as tools spell them, and texts that JSON escapes."""
    listed = mapping(("hash", data(b"\xab")), ("other", tag(0, text("t"))), ("url", text("u")))
    pairs = [
        ("dc:title", text("A title")),
        ("created_assertions", array(listed)),
        ("alg", text("sha256")),
        ("claim_generator_info", open_map(("name", text("tool")), ("version", b"\xfb\x40\x09\x21\xfb\x54\x44\x2d\x18"))),
        (uint(7), b"\xf8\xff"),
        ("signature", text("s")),
        (data(b"alg"), text("under a key of bytes")),
        ("instanceID", text("i")),
    ]
    yield "keys in a tool's own order, with others among them", mapping(*pairs)
    yield "keys in the reverse order", mapping(*reversed(pairs))
    opened = open_map(("url", chunks(text("u"), text(""), text("v"))), ("hash", chunks(data(b"\1"), data(b"\2"))))
    pairs = [
        (chunks(text("instance"), text("ID")), chunks(text("one"), text("two"))),
        ("signature", chunks(text("s"))),
        ("created_assertions", open_array(opened)),
        ("redacted_assertions", open_array(b"\x7f\xff")),
    ]
    yield "indefinite maps and lists, texts and bytes in chunks", open_map(*pairs)
    pairs = (text("alg", 8), text("sha256", 4)), ("instanceID", text("i", 2)), ("signature", text("s", 1))
    yield "arguments wider than they need be", mapping(*pairs, ("created_assertions", head(4, 0, 8)), width=2)
    yield "an item of depth 64 passes unread", fields(nested=b"\x81" * 62 + b"\x00")
    keys = mapping((uint(1), NULL), (uint(2), NULL)), mapping((uint(2), NULL), (uint(1), NULL))
    other = mapping(*((key, NULL) for key in keys))
    yield "keys that differ in the order of the pairs inside them are different keys", fields(other=other)
    keys = uint(1), b"\xf9\x3c\x00", b"\xfa\x3f\x80\x00\x00", text("1"), data(b"1"), b"\xf5", tag(1, uint(1))
    yield "keys that differ in type are different keys", fields(other=mapping(*((key, NULL) for key in keys)))
    yield "characters of two to four bytes", fields(instanceID=text("é 日本 \U0001f4f7"))
    yield "quotes, backslashes and slashes in texts", fields(instanceID=text('a "b" \\c/'), alg=text('\\"'))
    yield "control bytes in texts", fields(instanceID=text("\b\f\n\r\t\0\x01\x1f"), redacted_assertions=array(text("a\nb")))
    yield "the byte 7F in a text", fields(instanceID=text("a\x7fb"))
    yield "line separators are written as they are", fields(instanceID=text("\u2028\u2029"))


def refused_fields():
    """Claims of which a field is refused: `show` has null for each."""
    yield "it is a list", array(fields())
    yield "it is tagged", tag(24, fields())
    for key in "instanceID", "signature", "created_assertions":
        for how, value in ("absent", None), ("null", NULL), ("bytes", data(b"i")), ("a map", mapping()):
            yield f"{key} is {how}", fields(**{key: value})
    for key, wrong in ("url", data(b"u")), ("hash", text("0")):
        for how, value in ("is absent", None), ("is null", NULL), ("has another type", wrong):
            yield f"an entry whose {key} {how}", fields(created_assertions=array(entry(**{key: value})))
    yield "an entry whose alg is a number", fields(created_assertions=array(entry(alg=uint(1))))
    yield "an entry that is null", fields(created_assertions=array(NULL))
    yield "an entry that is a text, behind a right one", fields(created_assertions=array(hashed_uri("u"), text("u")))
    yield "gathered_assertions is a text", fields(gathered_assertions=text("u"))
    yield "gathered_assertions has a number", fields(gathered_assertions=array(uint(1)))
    yield "gathered_assertions is undefined, which isn't null", fields(gathered_assertions=UNDEFINED)
    yield "redacted_assertions is a text", fields(redacted_assertions=text("u"))
    yield "redacted_assertions has bytes", fields(redacted_assertions=array(text("u"), data(b"u")))
    yield "redacted_assertions has null", fields(redacted_assertions=array(NULL))
    yield "a list of version 1 besides", fields(assertions=array())
    yield "a number in place of the list of version 1", fields(assertions=uint(1))
    yield "alg is a number", fields(alg=uint(1))
    yield "alg is false", fields(alg=b"\xf4")
    yield "alg is undefined, which isn't null", fields(alg=UNDEFINED)


def refused_items():
    """Claims that aren't one legal item of CBOR: `show` has null for each."""
    yield "an empty content box", b""
    yield "a byte behind the item", fields() + b"\0"
    yield "the item ends early", fields()[:-1]
    yield "equal keys, the second spelled in chunks", claim(("other", NULL), (chunks(text("other")), NULL))
    yield "equal keys, the second with a wider head", claim(("alg", text("a")), (text("alg", 2), text("a")))
    yield "equal keys in a map that nothing reads", fields(other=mapping((uint(5), NULL), (uint(5, 1), NULL)))
    yield "an item of depth 65", fields(nested=b"\x81" * 63 + b"\0")
    yield "a text that isn't UTF-8", fields(other=b"\x61\xff")
    yield "a text that is UTF-8 over two chunks alone", fields(other=chunks(b"\x61\xc3", b"\x61\xa9"))
    yield "a surrogate in a text", fields(other=b"\x63\xed\xa0\x80")
    yield "a simple value below 32 in two bytes", fields(other=b"\xf8\x16")
    yield "a break in a list of definite length", fields(other=b"\x82\0\xff")
    yield "a map that waits for a value at its break", fields(other=b"\xbf\0\xff")
    yield "a chunk that is itself in chunks", fields(other=b"\x5f\x5f\xff\xff")
    yield "a chunk of bytes in a text", fields(other=chunks(text("a"), data(b"b")))
    yield "additional information 28", fields(other=b"\x1c")
    yield "a tag of indefinite length", fields(other=b"\xdf\0")


def claim_boxes():
    """Manifests whose claim box, or the number of these, is the matter."""
    held, json = item(fields()), box(b"json", fields())
    good = claim_box(held)
    yield "no claim box, one of another type that has its label", [superbox(b"c2cs", "c2pa.claim.v2", held)]
    yield "a claim box of the third version", [claim_box(held, label="c2pa.claim.v3")]
    yield "a claim box labelled for version 1 by its number", [claim_box(item(older_claim()), label="c2pa.claim.v1")]
    yield "a claim box with another label", [claim_box(held, label="c2pa.claim.v2__1")]
    yield "a claim box with an empty label", [claim_box(held, label="")]
    yield "a claim box without a label", [claim_box(held, label=None)]
    yield "two claim boxes", [good, claim_box(held, label="c2pa.claim.v2__1")]
    yield "two claim boxes, one of each version", [claim_box(item(older_claim()), label="c2pa.claim"), good]
    yield "a claim box without a content box", [claim_box()]
    yield "a claim box whose one content box is json", [claim_box(json)]
    yield "a claim box whose first content box is json", [claim_box(json, held)]
    yield "a claim box whose first content box is a superbox", [claim_box(assertion("a", fields()), held)]
    yield "a claim box whose first content box is a second description", [claim_box(box(b"jumd", fields()), held)]
    yield "a claim box whose second content box is json", [claim_box(held, json)]
    wide = superbox(b"c2cl", "c2pa.claim.v2", box(b"cbor", fields(), wide=True), wide=True)
    yield "a claim box and its content box with wide headers", [wide]
    salted = description(b"c2cl", "c2pa.claim.v2", 0x10, box(b"c2sh", b"0123456789abcdef"))
    yield "a claim box with a salt", [box(b"jumb", salted + held)]
    carried = description(b"c2cl", "c2pa.claim.v2", 0x0C, b"\1" * 36)
    yield "a claim box with an ID and a digest in its description", [box(b"jumb", carried + held)]
    before = box(b"free", b""), superbox(b"c2vc", "c2pa.credentials", assertion("a")), superbox(b"c2db", "c2pa.databoxes")
    behind = superbox(b"c2cx", None), box(b"cbor", b"\xff")
    yield "boxes of other types around a claim box", [*before, good, *behind]
    yield "a claim box inside another box isn't the manifest's", [superbox(b"c2vc", "other", good)]


def assertion_boxes():
    """Assertion stores: which boxes are shown, and their sizes."""
    a = assertion("a")
    three = a, assertion("c2pa.actions.v2", b"\x80" * 3), superbox(b"json", "b", box(b"json", b"{}"))
    yield "three assertion boxes in their order, sizes without the box's own header", [assertions(*three)]
    yield "assertion boxes without a label are left out", [assertions(assertion(None), a, assertion(None))]
    yield "an empty label is a label", [assertions(a, assertion(""))]
    yield "an assertion box without a content box", [assertions(superbox(b"cbor", "a"))]
    yield "an assertion box with a wide header", [assertions(superbox(b"cbor", "a", item(b"\xa0"), wide=True))]
    yield "leaf boxes of the assertion store are left out", [assertions(box(b"free", b""), a, box(b"jumd", b""))]
    yield "boxes inside an assertion box aren't shown", [assertions(superbox(b"cbor", "a", assertion("inner")))]
    yield "an assertion store of another type", [superbox(b"c2ax", "c2pa.assertions", a)]
    yield "an assertion store with another label", [superbox(b"c2as", "c2pa.assertions__1", a)]
    yield "a second assertion store under another label", [superbox(b"c2as", "other", assertion("b")), assertions(a)]
    labels = '"q"', "back\\slash", "a/b", "é日本\U0001f4f7"
    yield "labels with quotes, slashes and characters of two to four bytes", [assertions(*map(assertion, labels))]
    listed = fields(created_assertions=array(hashed_uri("self#jumbf=c2pa.assertions/a")))
    yield "an assertion store behind claim and signature", [claim_box(item(listed)), signature_box(), assertions(a)]


def stores():
    """Stores of several manifests, and labels of manifests."""
    good, m = claim_box(item(fields())), manifest("m")
    yield "three manifests, the last one is active", store(manifest("z"), manifest("a", good), m)
    yield "an update manifest that isn't the last", store(manifest("u", good, update=True), m)
    yield "an update manifest that is active", store(m, manifest("u", update=True))
    yield "leaf boxes of the store pass unread", store(box(b"free", b"\0"), m, box(b"jumd", b""))
    yield "the label of a manifest with a quote and a backslash", store(manifest('urn:"\\'))
    yield "the label of a manifest with characters of two to four bytes", store(manifest("é日本\U0001f4f7"))
    wide = superbox(b"c2ma", "m", wide=True)
    yield "a store and a manifest with wide headers", superbox(b"c2pa", "c2pa", wide, wide=True)
    yield "a description box with a wide header", store(box(b"jumb", description(b"c2ma", "m", wide=True)))
    yield "16 superboxes inside one another", nested(16)


def nested(depth):
    """A store of one manifest, with superboxes down to a depth."""
    inner = []
    for _ in range(depth - 2):
        inner = [superbox(b"c2vc", "x", *inner)]
    return store(manifest("m", *inner))


def refused_stores():
    """Stores whose boxes make a tree, but no list of manifests."""
    m = manifest("m")
    yield "NotStore: another label", superbox(b"c2pa", "c2px", m)
    yield "NotStore: an empty label", superbox(b"c2pa", "", m)
    yield "NotStore: no label", superbox(b"c2pa", None, m)
    yield "NotStore comes before what is refused of a manifest", superbox(b"c2pa", "c2px", superbox(b"c2as", None))
    yield "ManifestType: a compressed manifest", store(m, superbox(b"c2cm", "n"))
    yield "ManifestType: another box, before its label is looked at", store(superbox(b"c2as", None), m)
    yield "ManifestLabel: missing", store(m, manifest(None))
    yield "ManifestLabel: empty", store(manifest(""), m)
    yield "ManifestLabel: a slash", store(m, manifest("a/b"))
    yield "the first box that is refused counts, for whatever reason", store(m, manifest("/"), superbox(b"c2as", "x"))
    yield "NoManifest: no box", store()
    yield "NoManifest: leaf boxes alone", store(box(b"free", b""))


def refused_trees():
    """Stores whose bytes make no tree of boxes; that comes before what is refused of the manifests."""
    m = manifest("m")
    described = lambda *given: store(box(b"jumb", description(b"c2ma", *given)))
    yield "BadHead comes before NotStore: a length of 7", superbox(b"c2pa", "c2px", m, b"\0\0\0\7free")
    yield "BadHead: fewer than 8 bytes are left", store(m, b"\0\0\0\x08fre")
    yield "BadHead: a length of 0", store(m, b"\0\0\0\0free")
    yield "BadHead: a wide header is cut short", store(m, b"\0\0\0\1free\0\0\0\0\0\0\0")
    yield "BadHead: a wide length below 16", store(m, b"\0\0\0\1free\0\0\0\0\0\0\0\x0f")
    yield "Overrun: a box passes its parent's end", store(manifest("m", b"\0\0\0\x09free"), b"\0\0\0\x08free")
    yield "Overrun: the greatest wide length", store(m, b"\0\0\0\1free" + b"\xff" * 8)
    yield "NoDescription: an empty superbox", store(m, box(b"jumb", b""))
    yield "NoDescription: another first child", store(m, box(b"jumb", box(b"free", b"")))
    yield "the first child's header comes before its kind", store(m, box(b"jumb", b"\0\0\0\x09free"))
    yield "BadDescription: 16 bytes", store(box(b"jumb", box(b"jumd", b"c2ma" + b"\0" * 12)))
    for bit in 0x20, 0x40, 0x80:
        yield f"BadDescription: toggle {bit:02X}", described("m", bit)
    yield "BadDescription: a label without its zero byte", described(None, 0x02, b"m")
    yield "BadDescription: a label that isn't UTF-8", described(None, 0x02, b"\xff\0")
    yield "BadDescription: a line feed in a label", described("m\n")
    yield "BadDescription: the byte 7F in a label", described("m\x7f")
    yield "BadDescription: an ID of three bytes", described("m", 0x04, b"\0" * 3)
    yield "BadDescription: a digest of 31 bytes", described("m", 0x08, b"\0" * 31)
    yield "BadDescription: no private box", described("m", 0x10)
    yield "BadDescription: two private boxes", described("m", 0x10, box(b"c2sh", b"") * 2)
    yield "BadDescription: a private box that is cut short", described("m", 0x10, b"\0\0\0\x09c2sh")
    yield "BadDescription: a byte behind the label", described("m", 0, b"\0")
    yield "DuplicateLabel: two manifests", store(m, manifest("n"), m)
    labels = "", None, ""
    yield "DuplicateLabel: empty labels", store(manifest("m", assertions(*map(assertion, labels))))
    yield "DuplicateLabel comes before what is inside the box", store(m, manifest("m", b"\0"))
    yield "TooDeep: a superbox of depth 17", nested(17)
