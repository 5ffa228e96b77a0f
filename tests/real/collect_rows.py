#!/usr/bin/env python3
"""What `plan-collect` and `embed-collect` must say of small media, definitions, messages and other files: worked out by hand, and computed by collect.py.

    collect_rows.py check [large]   computes each row, and tells what differs from the answers and the orders of manifests that are written by hand here,
                                    from what collected.py says of the new file, and from what rules.py says of it; counts the answers

`large` means the rows with many manifests or long stores, which take a minute. A row has what it shows, the line of `embed-collect` by hand (None where
only its length isn't), media, definition, message, the other file, the judges as build_rows.py names them, and the labels of the older manifests of the
new store in their order by hand (None where that is the rule's).
"""

import sys
from collections import Counter, namedtuple

import builder
import collect
from build_rows import (
    LONGER,
    chain,
    definition,
    every_number,
    fewer_manifests,
    filled,
    judges_of,
    later,
    message,
    most_manifests,
    most_of_all,
    new,
    of_version_1,
    redactable,
    redacting,
    signed,
    target,
    told,
    unreached,
    unsigned,
    wide_exclusion,
    wide_boxes,
)
from built_films import FTYP, MDAT, film_in_front
from collected import History, carried_labels, clash_in, wrong_in
from drafts import ALL_EXCLUDED, APP0, Assertion, Bmff, BmffHash, DataHash, Ingredient, Jpeg, Manifest, fields
from make_store import array, box, data, item, superbox, text
from media import media_of
from rule_rows import note, old, with_
from store import JUDGE_FAULT, report
from tables import Approving
from worked_builds import FILM, LABEL, LATER, LATER_DEFINITION, MESSAGE, SMALL, URL, changed

Row = namedtuple("Row", "what known media definition message other judge order")
CLASH = "build LabelClash"
OTHER = "build OtherRefused"
FIRST = signed()
# The length of a store's root and description, of the manifest of a small JPEG and of a small film, and of a new one with one ingredient that isn't the
# parent, and with two: those of the worked rows 2,658 and 3,099.
ROOT, PICTURE, MOVIE, ONE, TWO = 38, 1_091, 1_137, 1_529, 1_970
# By how much the manifest of a film is longer, and one with a parent.
FILMED, PARENT = 46, 1_526


def named(number):
    return LABEL[:-1] + str(number)


def row(what, known, media=SMALL, other=FIRST, given=LATER_DEFINITION, signature=MESSAGE, judge="approved", order=None):
    return Row(what, known, media, given, signature, other, judge, order)


def packets(*lengths):
    """The answer of a build into the small JPEG, by the lengths of the manifests of a store in one packet."""
    return f"embedded 20 {ROOT + sum(lengths) + 12}"


def boxed(*lengths, start=25):
    """The same of a film."""
    return f"embedded {start} {ROOT + sum(lengths) + 45}"


# Drafts. Those that two stores share have a binding that says nothing of the file.

SAYS_NOTHING = fields(("alg", text("sha256")), ("hash", data(bytes(32))), ("exclusions", array()))


def kept(label, *given, **changed):
    return with_(Manifest(label, *given, Assertion("c2pa.hash.data", SAYS_NOTHING)), **changed)


def active(label, *given, **changed):
    """An active manifest, with ingredients for labels."""
    ingredients = [Ingredient(each, label=f"c2pa.ingredient.v3__{at}") if isinstance(each, str) else each for at, each in enumerate(given, 1)]
    return with_(Manifest(label, *ingredients, DataHash()), **changed)


def above(label, *given, **changed):
    """A manifest that isn't the active one, with such ingredients."""
    return kept(label, *active(label, *given).assertions[:-1], **changed)


def picture(*manifests):
    return Jpeg(b"\xff\xd8" + APP0).file(list(manifests))


def noted(label="d", *gone):
    """A manifest with two notes, but for those that are taken out."""
    return kept(label, *(note(each, is_there=each not in gone) for each in ("test.note", "test.other")))


def mine(*below, **changed):
    return picture(*below, active("m", *(draft.label for draft in below), **changed))


def theirs(*below, **changed):
    return picture(*below, active("e", *(draft.label for draft in below), **changed))


# Rows


def file_rows():
    """Which media, and which other files."""
    yield row("a picture without a store", packets(PICTURE, ONE), order=[LABEL])
    yield row("a picture and itself", packets(PICTURE, TWO), FIRST, order=[LABEL])
    yield row("no APP0", f"embedded 2 {ROOT + PICTURE + ONE + 12}", SMALL[:2] + SMALL[20:])
    yield row("a film in a picture", packets(MOVIE, ONE), other=signed(FILM))
    yield row("a picture in a film", boxed(PICTURE, ONE + FILMED), FILM)
    yield row("a film in a film", boxed(MOVIE, ONE + FILMED), FILM, signed(FILM))
    yield row("a film and itself", boxed(MOVIE, TWO + FILMED), signed(FILM), signed(FILM))
    third = signed(label=named(3))
    yield row("a picture beside another one", packets(PICTURE, PICTURE, TWO), FIRST, third, order=[LABEL, named(3)])
    yield row("a picture in a film with a store", boxed(MOVIE, PICTURE, TWO + FILMED), signed(FILM), third)
    yield row("a film whose old store becomes free space", boxed(MOVIE, PICTURE, TWO + FILMED, start=1_245), film_in_front(), third)
    yield row("a film with its store in front", packets(MOVIE, ONE), other=film_in_front())
    yield row("a film with an index of fragments", boxed(PICTURE, ONE + FILMED), FILM + box(b"mfra", b"index"))
    yield row("a film that ends with such an index, with a store", boxed(MOVIE, PICTURE, TWO + FILMED), signed(FILM + box(b"mfra", b"index")), third)
    scan = SMALL[:20] + b"\xff\xda\0\2\xff\0xyz\xff\xd9trailer"
    yield row("a scan and what stands behind the end", packets(PICTURE, ONE), scan, signed(scan))
    several = picture(kept("d"), above("c", "d"), active("b", "c"))
    yield row("a picture with three manifests", None, other=several, order=["d", "c", "b"])
    twelfth = signed(label=LABEL[:-2] + "12")
    yield row("ten stores, one over the other", None, chain(10), twelfth, definition(label=LABEL[:-2] + "20"))
    yield row("another picture with ten", None, twelfth, chain(10), definition(label=LABEL[:-2] + "20"))
    collected = made(other=third)
    yield row("a picture in which another one was collected", packets(PICTURE, ONE, PICTURE, TWO), collected, FIRST, definition(label=named(2)))
    yield row("such a one as the other picture", packets(PICTURE, PICTURE, ONE, TWO), FIRST, collected, definition(label=named(2)), order=[LABEL, named(3), LATER])
    yield row("such a one in what was collected there", packets(PICTURE, ONE, TWO), third, collected, definition(label=named(2)), order=[named(3), LATER])
    yield row("what was collected, in such a one", packets(PICTURE, ONE, TWO), collected, third, definition(label=named(2)), order=[named(3), LATER])


def made(media=SMALL, other=FIRST, given=LATER_DEFINITION):
    """A file into which another one was collected."""
    return collect.embed(media, given, MESSAGE, other, [Approving()])[0]


def shared_rows():
    """Manifests that both stores have."""
    first, second = signed(label=named(2)), signed(signed(label=named(2)), label=named(3))
    third = signed(first, label=named(4))
    yield row("an ancestor that both have", packets(PICTURE, PARENT, PARENT, TWO), second, third, order=[named(2), named(3), named(4)])
    yield row("the past of the media", packets(PICTURE, PARENT, TWO), second, first, order=[named(2), named(3)])
    yield row("what was made of the media", packets(PICTURE, PARENT, TWO), first, second, order=[named(2), named(3)])
    yield row("what was made of the media in a film", boxed(PICTURE, PARENT, ONE + FILMED), FILM, second, order=[named(2), named(3)])
    x, d = kept("x", note()), kept("d")
    yield row("shared manifests in another order", None, mine(d, x), theirs(x, d), order=["d", "x", "m", "e"])
    yield row("shared ones with others between them", None, mine(d, kept("y"), x), theirs(kept("z"), x, kept("w"), d), order=["d", "y", "x", "m", "z", "w", "e"])
    below = [d, above("b", "d"), above("c", "d")]
    yield row("a diamond that both have", None, picture(*below, active("m", "b", "c")), picture(*below, active("e", "c", "b")), order=["d", "b", "c", "m", "e"])
    yield row("a diamond whose sides are in one store each", None, picture(d, below[1], active("m", "b")), picture(d, below[2], active("e", "c")), order=["d", "b", "m", "c", "e"])
    either = picture(d, active("m", "d")), picture(d, kept("x", note()), active("e", "x", "d"))
    yield row("one that stands first in both", None, *either, order=["d", "m", "x", "e"])


def unreached_rows():
    """Manifests that nobody names."""
    d, e = kept("d"), picture(kept("x"), active("e"))
    yield row("one of the other store isn't carried", None, other=e, order=["e"])
    yield row("one of the media's store stays", None, unreached(), e, order=["d", "m", "e"])
    odd = with_(kept("x", note()), change_claims=lambda _: [])
    yield row("one of the media's store that breaks rules", None, picture(odd, active("m")), e, order=["x", "m", "e"])
    of_theirs = picture(kept("d", note()), active("e"))
    yield row("one of the other store has a label of the media's", None, mine(d), of_theirs, order=["d", "m", "e"])
    taken = picture(kept(LATER), active("e"))
    yield row("one of the other store has the new label", None, other=taken, order=["e"])
    between = picture(kept("x"), d, kept("y"), above("c", "d"), kept("z"), active("e", "c"))
    yield row("ones between those that are carried", None, other=between, order=["d", "c", "e"])
    ours = picture(d, kept("x"), active("m", "d"))
    yield row("one of the media's between those that both have", None, ours, theirs(d), order=["d", "x", "m", "e"])


def box_rows():
    """Boxes beside manifests, and forms of headers."""
    leaf = wide_boxes()
    yield row("wide boxes and a leaf of the media's", None, leaf, order=["m", LABEL])
    yield row("the same of the other file's, whose leaf isn't carried", None, other=leaf, order=["m"])
    yield row("a wide store of the media and of the other file", None, leaf, leaf, order=["m"])
    padded = Bmff(FTYP, MDAT, padding=b"more", wide=True).file([Manifest("m", BmffHash([*ALL_EXCLUDED, wide_exclusion()]))])
    yield row("a wide C2PA box with padding", None, other=padded, order=["m"])
    own = superbox(b"c2vc", "c2pa.credentials", item(b"\xa0"))
    credentials = picture(with_(active("e"), change_signatures=lambda boxes: [*boxes, own]))
    yield row("another box in a manifest that is carried", None, other=credentials, order=["e"])


def version_rows():
    """Versions of claims and ingredients, updates, and algorithms."""
    yield row("another store of version 1", None, other=of_version_1(), order=["d", "m"])
    older = kept("d", version=1), above("c", Ingredient("d", "inputTo", label="c2pa.ingredient.v2"))
    yield row("an ingredient of version 2", None, other=picture(*older, active("e", "c", version=1)), order=["d", "c", "e"])
    update = [kept("d"), with_(Manifest("u", Ingredient("d", "parentOf")), is_update=True), active("e", "u")]
    yield row("an update below", None, other=picture(*update), order=["d", "u", "e"])
    yield row("an update that both have", None, picture(*update[:2], active("m", "u")), picture(*update), order=["d", "u", "m", "e"])
    boxes = with_(Manifest("d", Assertion("c2pa.hash.boxes")))
    yield row("another kind of hash below", None, other=theirs(boxes), order=["d", "e"])
    for alg, more in LONGER.items():
        yield row(f"digests by {alg}", packets(PICTURE, ONE + 6 * more), given=later(alg=alg))
        yield row(f"digests by {alg} of two", packets(PICTURE, PICTURE, TWO + 9 * more), FIRST, signed(label=named(3)), later(alg=alg))
        yield row(f"another store by {alg}", packets(PICTURE + 3 * more, ONE), other=signed(alg=alg))
    sides = signed(alg="sha384"), signed(label=named(3), alg="sha512")
    yield row("three algorithms", packets(PICTURE + 48, PICTURE + 96, TWO), *sides, later(alg="sha256"))


def redaction_rows():
    """What may be redacted: what is reached from either file."""
    one = redactable()
    yield row("in what is carried", None, other=one, given=redacting(target("m", "test.note")), order=["d", "m"])
    yield row("below it", None, other=one, given=redacting(target("d", "test.other")))
    every = target("d", "test.other"), target("m", "test.note"), target("d", "test.note")
    yield row("three of them", None, other=one, given=redacting(*every))
    yield row("in the media's store and in the other one", None, mine(noted()), redactable_named("e", "x"), redacting(target("d", "test.note"), target("x", "test.note")))
    shared = mine(noted()), theirs(noted())
    yield row("in what both have", None, *shared, redacting(target("d", "test.note")), order=["d", "m", "e"])
    yield row("all in what both have", None, *shared, redacting(target("d", "test.other"), target("d", "test.note")))
    one = target("d", "test.note")
    both = mine(noted("d", "test.note"), redactions=[one]), theirs(noted("d", "test.note"), redactions=[one])
    yield row("what both had redacted", None, *both, order=["d", "m", "e"])
    yield row("more in it", None, *both, redacting(target("d", "test.other")))
    yield row("what both had redacted, in a film", None, FILM, both[0], later(alg="sha384"), order=["d", "m"])
    none = mine(noted(), redactions=[target("d", "test.none")]), theirs(noted())
    yield row("a redaction in one store of what no entry lists", None, *none, order=["d", "m", "e"])
    yield row("the same in the other store", None, *reversed(none), order=["d", "e", "m"])
    version_1 = of_version_1()
    yield row("in a claim of version 1", None, other=version_1, given=redacting(target("m", "test.note")))
    yield row("in the active one of both", None, one_of_both := mine(noted()), one_of_both, redacting(target("d", "test.note")), order=["d", "m"])
    loose = picture(noted(), kept("x", Ingredient("d", is_signed=False)), active("e", "d"))
    yield row("an ingredient without a signature that isn't carried", None, other=loose, given=redacting(target("d", "test.note")), order=["d", "e"])
    yield row("by sha512 in a store by sha256", None, *shared, redacting(one, alg="sha512"))
    film = Bmff(FTYP + MDAT, b"").file([noted(), Manifest("e", Ingredient("d"), note(), BmffHash(ALL_EXCLUDED))])
    yield row("in a film that is collected into a film", None, FILM, film, redacting(target("d", "test.note"), target("e", "test.note")), order=["d", "e"])
    own = signed(assertions=[new(), new("test.other")])
    yield row("in what was built, collected into itself", None, own, own, redacting(target(LABEL, "test.note")), order=[LABEL])


def redactable_named(label, below):
    return picture(noted(below), active(label, below))


def redaction_refusals():
    other = redactable()
    refused = lambda entry, code, *files: row(f"a redaction: {code}", f"build RedactionRefused {entry} {code}", *files or (SMALL, other), given=redacting(entry))
    for entry in "x", URL + "m", f"{URL}m/c2pa.signature":
        yield refused(entry, "profile.redaction.uri")
    for entry in "self#jumbf=c2pa.assertions/test.note", target(LATER, "test.note"):
        yield refused(entry, "assertion.selfRedacted")
    yield refused(target("m", "c2pa.actions"), "assertion.action.redacted")
    yield refused(target("m", "c2pa.hash.data"), "profile.redaction.binding")
    yield refused(target("m", "c2pa.ingredient.v3"), "unsupported.redactIngredient")
    for entry in target("m", "test.other"), target("x", "test.note"):
        yield refused(entry, "profile.redaction.target")
    note_below = target("d", "test.note")
    gone = f"build RedactionRefused {note_below} profile.redaction.target"
    yield row("the same target twice", gone, other=other, given=redacting(note_below, note_below))
    yield row("a target in what isn't carried", gone, other=picture(noted(), active("e")), given=redacting(note_below))
    yield row("a target in what isn't reached in the media's store", gone, picture(noted(), active("m")), FIRST, redacting(note_below))
    yield row("a target that isn't reached in the media's store, and isn't in the other", gone, picture(noted(), active("m")), theirs(kept("x")), redacting(note_below))
    both = mine(noted("d", "test.note"), redactions=[note_below]), theirs(noted("d", "test.note"), redactions=[note_below])
    yield row("a target that both had redacted", gone, *both, redacting(note_below))
    unnamed = f"build RedactionRefused {note_below} profile.ingredient.signature"
    yield row("an ingredient of the other store without a signature", unnamed, other=unsigned(), given=redacting(note_below))
    yield row("an ingredient of version 1", unnamed, other=of_version_1(), given=redacting(note_below))
    without = picture(noted(), active("e", Ingredient("d", is_signed=False)))
    yield row("one of the other store alone, of what both have", unnamed, mine(noted()), without, redacting(note_below))
    yield row("one of the media's store alone", unnamed, picture(noted(), active("m", Ingredient("d", is_signed=False))), theirs(noted()), redacting(note_below))
    second = redacting(target("m", "test.note"), "x", target("x", "y"))
    yield row("the second of three", "build RedactionRefused x profile.redaction.uri", other=other, given=second)


def clash_rows():
    """Labels that both stores have."""
    d, e = kept("d", note()), kept("d", note("test.other"))
    clash = f"{CLASH} d"
    yield row("a changed picture under the same label", f"{CLASH} {LABEL}", FIRST, signed(changed(SMALL, 19)))
    yield row("another signature under the same label", f"{CLASH} {LABEL}", FIRST, builder.embed(SMALL, definition(), message(signature=b"\1" * 64))[0])
    yield row("another manifest below under the same label", clash, mine(d), theirs(e))
    yield row("the active one of the media below the other", clash, picture(active("d")), theirs(e))
    yield row("the active one of the other file below the media's", clash, mine(d), picture(active("d")))
    yield row("the same that isn't reached in the media's store", clash, picture(d, active("m")), theirs(d))
    yield row("another one that isn't reached in the media's store", clash, picture(e, active("m")), theirs(d))
    one = target("d", "test.note")
    redacted = theirs(noted("d", "test.note"), redactions=[one])
    yield row("one that is redacted in the other store", clash, mine(noted()), redacted)
    yield row("one that is redacted in the media's store", clash, mine(noted("d", "test.note"), redactions=[one]), theirs(noted()))
    other_one = mine(noted("d", "test.other"), redactions=[target("d", "test.other")])
    yield row("one in which each store has redacted something else", clash, other_one, redacted)
    yield row("one in which the other store has redacted more", clash, other_one, theirs(noted("d", "test.note", "test.other"), redactions=[target("d", each) for each in ("test.note", "test.other")]))
    wide = wide_manifest(d)
    yield row("the same contents behind a longer header", clash, mine(d), theirs(wide))
    yield row("the same contents behind a shorter header", clash, mine(wide), theirs(d))
    x, y = kept("x", note()), kept("x")
    yield row("the first of two in the order of the other store", f"{CLASH} x", mine(d, x), theirs(y, e))
    yield row("the second of two manifests that both have", clash, mine(x, d), theirs(x, e))
    yield row("a label that isn't of ASCII", f"{CLASH} é x", mine(kept("é x")), theirs(kept("é x", note())))
    yield row("of two the one that is reached", clash, mine(x, d), picture(y, e, active("e", "d")))
    films = Bmff(FTYP + MDAT, b"").file([kept("d", note()), Manifest("m", Ingredient("d"), BmffHash(ALL_EXCLUDED))])
    yield row("a film and a picture", clash, films, theirs(e))


def wide_manifest(draft):
    """A manifest whose own header has its length in eight bytes."""
    plain = draft

    class Wide:
        label = plain.label
        assertions = plain.assertions

        def write(self, written):
            return box(b"jumb", plain.write(written)[8:], wide=True)

    return Wide()


def other_refusals():
    """What the other file must not be: the line of `validate` stands behind the name."""
    refused = lambda what, line, other, judge="approved", media=SMALL: row(what, f"{OTHER} {line}", media, other, judge=judge)
    yield refused("no store", "none", SMALL)
    yield refused("a film without a store", "none", FILM)
    yield refused("no media", "refused NotMedia 0", b"")
    yield refused("a JPEG cut short", "refused Truncated 1162", FIRST[:-1])
    yield refused("a film cut short", "refused Truncated 24", FILM[:-1])
    yield refused("two stores", "refused TwoStores 1161", FIRST[:-2] + FIRST[20:])
    yield refused("a store without a manifest", "refused NoManifest 0", Jpeg().around(superbox(b"c2pa", "c2pa")))
    yield refused("a compressed manifest", "refused ManifestType 38", Jpeg().around(superbox(b"c2pa", "c2pa", superbox(b"c2cm", "m"))))
    place = f"{URL}{LABEL}/c2pa.signature"
    for judge, code in (
        ("none", "profile.verdict.missing"),
        ("silent", "profile.verdict.missing"),
        ("mismatch", "claimSignature.mismatch"),
        ("untrusted", "signingCredential.untrusted"),
        ("invalid", "signingCredential.invalid"),
    ):
        yield refused(f"judge {judge}", f"failing {code} {place}", FIRST, judge)
    hashed = f"failing assertion.dataHash.mismatch {target(LABEL, 'c2pa.hash.data')}"
    yield refused("a changed picture", hashed, changed(FIRST, 19))
    yield refused("a changed picture, beside one with a store", hashed, changed(FIRST, 19), media=signed(label=named(3)))
    yield refused("other actions", f"failing assertion.hashedURI.mismatch {target(LABEL, 'c2pa.actions.v2')}", changed(FIRST, FIRST.index(b"actions\x81")))
    updating = picture(kept("d"), with_(Manifest("m", Ingredient("d", "parentOf")), is_update=True))
    yield refused("an active update", f"failing unsupported.updateActive {URL}m", updating)
    control = [Manifest("m", with_(note("a"), url="self#jumbf=c2pa.assertions/a\n", is_there=False), DataHash())]
    yield refused("a line feed that is printed", f"failing assertion.missing {target('m', 'a?')}", Jpeg().file(control))
    yield row("a judge who fails", JUDGE_FAULT, judge="broken")
    yield row("a judge who fails and isn't due behind one who speaks", packets(PICTURE, ONE), judge="approved broken")
    yield row("a judge who fails behind one who is silent", JUDGE_FAULT, judge="silent broken")
    yield row("one judge is silent and the next approves", packets(PICTURE, ONE), judge="silent approved")
    third = signed(label=named(3))
    yield row("a judge who fails at the question of the media", JUDGE_FAULT, FIRST, third, judge="approved@1")
    yield row("a judge who fails at the question of the other file", JUDGE_FAULT, FIRST, third, judge="approved@2")
    yield row("a judge who would fail at a third question", packets(PICTURE, PICTURE, TWO), FIRST, third, judge="approved@3")
    yield row("a judge who fails at a question that is asked of both", JUDGE_FAULT, FIRST, judge="approved@2")
    yield row("a judge who fails, of another file that is changed", JUDGE_FAULT, other=changed(FIRST, 19), judge="broken")
    yield row("a judge who fails and isn't asked of another file without a store", f"{OTHER} none", other=SMALL, judge="broken")


def media_refusals():
    yield row("no media", "build MediaRefused NotMedia 0", b"")
    yield row("a media cut short", "build MediaRefused Truncated 1162", FIRST[:-1])
    yield row("a media whose store has no manifest", "build MediaRefused NoManifest 0", Jpeg().around(superbox(b"c2pa", "c2pa")))
    third = signed(label=named(3))
    mismatch = f"build ParentFails assertion.dataHash.mismatch {target(LABEL, 'c2pa.hash.data')}"
    yield row("a changed media", mismatch, changed(FIRST, 19), third)
    for judge, code in ("none", "profile.verdict.missing"), ("mismatch", "claimSignature.mismatch"):
        yield row(f"the media's question, judge {judge}", f"build ParentFails {code} {URL}{LABEL}/c2pa.signature", FIRST, third, judge=judge)


def definition_rows():
    """Definitions and messages, which are those of `embed`."""
    yield row("a title and another label", packets(PICTURE, ONE + 12), given=definition(title="ä", label=named(7)))
    yield row("no assertions", packets(PICTURE, ONE - 176), given=later(assertions=...))
    several = [new(), new("test.note__2", "cbor", b"\xf6"), new("c2pa.actions", "cbor", b"\xbf\xff")]
    yield row("assertions before the ingredients", None, FIRST, signed(label=named(3)), later(assertions=several))
    yield row("a reserve that the message fills", packets(PICTURE, ONE - 182), given=later(reserve=74))
    for reserve, needed in (73, 74), (75, 79), (78, 79):
        yield row(f"a reserve of {reserve}", f"build ReserveTooSmall {needed}", given=later(reserve=reserve))
    yield row("an empty object", "build BadDefinition label", given=b"{}")
    yield row("a key more", "build BadDefinition other", given=later(comment=""))
    yield row("an algorithm that isn't known", "build BadDefinition alg", given=later(alg="md5"))
    yield row("a label of the ingredients", "build BadDefinition assertions", given=later(assertions=[new("c2pa.ingredient.v3__1", "cbor", b"\xa0")]))
    yield row("no message", "build BadSignature form", signature=b"")
    yield row("another protected header", "build BadSignature protected", signature=message(protected=b"\xa0"))
    yield row("the other's label", f"build LabelTaken {LABEL}", given=definition())
    yield row("the media's label", f"build LabelTaken {LABEL}", FIRST, signed(label=named(3)), definition())
    below = signed(signed(label=named(2)), label=named(3))
    yield row("a label below the other's", f"build LabelTaken {named(2)}", other=below, given=definition(label=named(2)))
    taken = picture(kept(LATER), active("m"))
    yield row("a label of the media's that isn't reached", f"build LabelTaken {LATER}", taken)


def order_rows():
    """Two causes in one row: the answer is the earlier one's."""
    third = signed(label=named(3))
    mismatch = f"assertion.dataHash.mismatch {target(LABEL, 'c2pa.hash.data')}"
    own = target(LATER, "a")
    refused = f"build RedactionRefused {own} assertion.selfRedacted"
    open_film = FTYP + bytes(4) + FILM[20:]
    yield row("media before definition", "build MediaRefused NotMedia 0", b"", given=b"{}")
    yield row("media before the other file", "build MediaRefused NotMedia 0", b"", b"")
    yield row("definition before message", "build BadDefinition label", given=b"{}", signature=b"")
    yield row("definition before the other file", "build BadDefinition label", other=b"", given=b"{}")
    yield row("message before the other file", "build BadSignature form", other=b"", signature=b"")
    yield row("message before parent", "build BadSignature form", changed(FIRST, 19), signature=b"")
    yield row("parent before the other file", f"build ParentFails {mismatch}", changed(FIRST, 19), b"")
    yield row("parent before the same of the other file", f"build ParentFails {mismatch}", changed(FIRST, 19), changed(FIRST, 18))
    yield row("the other file before a clash", f"{OTHER} failing {mismatch}", FIRST, changed(FIRST, 19))
    yield row("the other file before the label", f"{OTHER} none", FIRST, SMALL, definition())
    yield row("the other file before redactions", f"{OTHER} none", FIRST, SMALL, redacting(own))
    yield row("the other file before an open box", f"{OTHER} none", open_film, SMALL)
    yield row("the other file before the reserve", f"{OTHER} none", other=SMALL, given=later(reserve=64))
    yield row("a clash before the label", f"{CLASH} {LABEL}", FIRST, signed(changed(SMALL, 19)), definition())
    yield row("a clash before redactions", f"{CLASH} {LABEL}", FIRST, signed(changed(SMALL, 19)), redacting(own))
    yield row("the label before redactions", f"build LabelTaken {LABEL}", FIRST, third, definition(redact=[target(LABEL, "a")]))
    yield row("redactions before an open box", refused, open_film, given=redacting(own))
    yield row("redactions before numbers", refused, every_number(), given=redacting(own))
    yield row("redactions before the reserve", refused, given=redacting(own, reserve=64))
    yield row("an open box before the reserve", "build OpenBox 16", open_film, given=later(reserve=64))
    yield row("no number is free", "build NoInstance", every_number())
    yield row("numbers before the reserve", "build NoInstance", every_number(), given=later(reserve=64))


def empties_above(count, *named, label="e"):
    """A JPEG with an active manifest and so many others below it, each of which it names."""
    empty = [kept(f"{number:04}") for number in range(count)]
    return picture(*empty, active(label, *(draft.label for draft in empty)))


def size_rows():
    """Many manifests, and long stores."""
    yield row("a manifest more than there may be", "build TooManyManifests 1025", fewer_manifests())
    yield row("two more", "build TooManyManifests 1026", most_manifests())
    yield row("a clash before manifests", f"{CLASH} m", most_manifests(), picture(active("m")))
    yield row("redactions before manifests", "build RedactionRefused x profile.redaction.uri", fewer_manifests(), given=redacting("x"))
    yield row("an open box before manifests", "build OpenBox 0", open_before(fewer_manifests()))
    most = picture(*(kept(f"{number:04}") for number in range(1_022)), active("m"))
    yield row("as many as there may be, of which all but one are in both", None, most, most)


def large_rows():
    """Rows that take long."""
    yield from size_rows()
    theirs = empties_above(1_022)
    yield row("1,023 of the other file, all reached", None, other=theirs)
    yield row("1,023 and 1,024", "build TooManyManifests 2048", most_manifests(), theirs)
    yield row("manifests before the store's length", "build TooManyManifests 2048", most_of_all(), theirs)
    size = lambda media, other: len(media_of(made(media, other)).store)
    more = size(SMALL, filled("e", 20_000)) - 20_000
    yield row("as long a store as there may be", None, other=filled("e", 33_554_432 - more))
    yield row("a byte more", "build StoreTooLarge 33554433", other=filled("e", 33_554_433 - more))
    both = size(filled("m", 20_000), filled("e", 20_000)) - 40_000
    half = 16_000_000
    yield row("two stores that fit", None, filled("m", half), filled("e", 33_554_432 - both - half))
    yield row("two stores of which a byte doesn't fit", "build StoreTooLarge 33554433", filled("m", half), filled("e", 33_554_433 - both - half))
    yield row("the store's length before the reserve", "build StoreTooLarge 33554433", filled("m", half), filled("e", 33_554_433 + 192 - both - half), later(reserve=64))


def open_before(contents):
    """A film around the store of a JPEG whose file type box runs to the end but for the store: the box that stays last."""
    return Bmff(bytes(4) + FTYP[4:], b"").around(media_of(contents).store)


GROUPS = (
    file_rows,
    shared_rows,
    unreached_rows,
    box_rows,
    version_rows,
    redaction_rows,
    redaction_refusals,
    clash_rows,
    other_refusals,
    media_refusals,
    definition_rows,
    order_rows,
)


class Computed:
    """A row with what collect.py says: status, line, new file or None, and how often each judge is asked, of both commands."""

    def __init__(self, each):
        self.row = each
        self.planned = told(collect.plan, each.media, each.definition, each.other, judge=each.judge)
        self.embedded = told(collect.embed, each.media, each.definition, each.message, each.other, judge=each.judge)
        self.status, self.line, self.new, self.asked = self.embedded

    def differences(self):
        """What of the row isn't as it is written by hand, or as it must be."""
        known = self.row.known
        if known != (self.status if self.status == JUDGE_FAULT else self.line) and not (known is None and self.new):
            yield f"{self.line or self.status}, not {known}"
        if self.new is not None:
            yield from self.wrong_file()
        elif self.planned[:2] != (self.status, self.line) and not self.line.startswith(("build BadSignature", "build ReserveTooSmall")):
            yield f"{self.planned[1][:60]} is planned"
        if self.line.startswith(CLASH) != (self.line == f"{CLASH} {clash_in(self.row.media, self.row.other)}"):
            yield f"{self.line} is told of a clash at {clash_in(self.row.media, self.row.other)}"

    def wrong_file(self):
        each = self.row
        order = carried_labels(History(each.media), History(each.other))
        if each.order not in (None, order):
            yield f"the manifests {order}, not {each.order}"
        start, length = map(int, self.line.split()[1:])
        planned = "tbs", bytes.fromhex(self.planned[1].removeprefix("tbs "))
        yield from wrong_in(each.media, each.other, (self.new, start, length), planned, builder.read_definition(each.definition).redactions)


def rows():
    return (each for group in GROUPS for each in group())


def requested():
    """What of the first two rows is known beside their answers."""
    validated = lambda media: report("validate", made(media), [Approving()])
    media_lengths = lambda contents: (len(contents), len(media_of(contents).store))
    _, tbs = collect.plan(SMALL, LATER_DEFINITION, FIRST, [Approving()])
    facts = {
        "into a picture without a store": (*media_lengths(made()), *validated(SMALL), 2_692, 2_658, "valid manifests=2 assertions=5 covered=22 outside=0", 0),
        "into itself": (*media_lengths(made(FIRST)), *validated(FIRST), 3_133, 3_099, "valid manifests=2 assertions=6 covered=22 outside=0", 0),
        "to be signed": (len(tbs.hex()), tbs.hex()[:40], 926, "846a5369676e61747572653143a10126405901bb"),
    }
    return [what for what, found in facts.items() if found[: len(found) // 2] != found[len(found) // 2 :]]


def kind_of(line, status):
    """An answer without what differs from row to row."""
    words = line.split()
    if not words:
        return f"status {status}"
    kept = {"MediaRefused": 3, "BadDefinition": 3, "BadSignature": 3, "ParentFails": 3, "OtherRefused": 4}
    return " ".join(words[: kept.get(words[1], 2)] if words[0] == "build" else words[:1])


def check(large):
    answers, wrong = Counter(), [] if large else [f"DIFFERS {what}" for what in requested()]
    for each in large_rows() if large else rows():
        computed = Computed(each)
        answers[kind_of(computed.line, computed.status)] += 1
        wrong += [f"{each.what}: {difference}" for difference in computed.differences()]
    for line in wrong:
        print(line)
    for kind, times in sorted(answers.items()):
        print(f"{times:4} {kind}")
    print(f"{sum(answers.values())} rows, {len(wrong)} differences")
    return 1 if wrong else 0


def main():
    command, *more = sys.argv[1:]
    if command != "check":
        raise SystemExit(__doc__)
    return check(more == ["large"])


if __name__ == "__main__":
    sys.exit(main())
