#!/usr/bin/env python3
"""Writes JPEGs with stores of some 33 MB that are made to take much of the check list: checks.py DIRECTORY [SCALE [NAME..]].

A scale of 100 gives the full size, a smaller one a hundredth of boxes, entries and bytes for each point. Beside each FILE
stand FILE.verdicts, a verdict file that approves its questions, and FILE.answer, what `validate` must say with it.
Digests are right, so that the rules go to the end, but where the answer says another thing.
"""
import hashlib
import os
import random
import sys

sys.path.insert(0, os.path.join(os.path.dirname(os.path.abspath(__file__)), "..", "..", "real"))
from make_store import (
    array,
    assertions,
    box,
    claim_box,
    data,
    hashed_uri,
    item,
    jpeg,
    manifest,
    mapping,
    sign1,
    signature_box,
    store,
    superbox,
    text,
    uint,
)
from manifests import Manifest, manifests_of
import jumbf

MOST = 33_554_432
LETTERS = "0123456789abcdefghijklmnopqrstuvwxyz"
MESSAGE = signature_box(item(sign1()))
SIGNED = hashlib.sha256(MESSAGE[8:]).digest()


def digest(contents, name="sha256"):
    return hashlib.new(name, contents).digest()


def short(number):
    """A label of four characters."""
    return "".join(LETTERS[number // 36**place % 36] for place in (3, 2, 1, 0))


def listed(label, contents, hashed=None):
    return hashed_uri(f"self#jumbf=c2pa.assertions/{label}", digest(contents[8:]) if hashed is None else hashed)


def assertion(label, encoded):
    return superbox(b"cbor", label, box(b"cbor", encoded))


def ingredient(named, contents, signed=None, alg=None):
    """An ingredient that names a manifest by its digest, and with a digest of its signature where one is given."""
    pairs = [("relationship", text("inputTo")), ("activeManifest", hashed_uri(f"self#jumbf=/c2pa/{named}", contents, alg))]
    if signed is not None:
        pairs.append(("claimSignature", hashed_uri(f"self#jumbf=/c2pa/{named}/c2pa.signature", signed)))
    return mapping(*pairs)


def data_hash(start, length, covered):
    return mapping(("hash", data(covered)), ("exclusions", array(mapping(("start", uint(start, 4)), ("length", uint(length, 4))))))


class Store:
    """A store that grows by manifests; the last one's binding is made right at the end."""

    def __init__(self):
        self.manifests, self.digests = [], {}

    def add(self, label, boxes, entries, redactions=(), extra=()):
        claim = [("instanceID", text("i")), ("signature", text("self#jumbf=c2pa.signature")), ("created_assertions", array(*entries))]
        if redactions:
            claim.append(("redacted_assertions", array(*redactions)))
        contents = manifest(label, assertions(*boxes), claim_box(item(mapping(*claim))), MESSAGE, *extra)
        self.manifests.append(contents)
        self.contents, self.digests[label] = contents[8:], digest(contents[8:])

    def add_bound(self, label, boxes=(), entries=(), redactions=(), extra=()):
        """A manifest with a binding of a file that it isn't the active manifest of."""
        bound = assertion("c2pa.hash.data", data_hash(0, 0, bytes(32)))
        self.add(label, [*boxes, bound], [*entries, listed("c2pa.hash.data", bound)], redactions, extra)

    def file(self, label="m", boxes=(), entries=(), redactions=(), extra=()):
        """The file around the store, with an active manifest, whose binding is right."""
        boxes, entries = list(boxes), list(entries)
        self.length = 0
        for length in 0, None:
            length = self.length if length is None else length
            bound = assertion("c2pa.hash.data", data_hash(2, length, digest(b"\xff\xd8\xff\xd9")))
            self.add(label, [*boxes, bound], [*entries, listed("c2pa.hash.data", bound)], redactions, extra)
            contents = jpeg(store(*self.manifests))
            self.length = len(contents) - 4
            self.manifests.pop()
        return contents


def one_child(count):
    """One manifest of 16 MB, named by as many ingredients as fit beside it, also by each algorithm in turn."""
    names = "sha256", "sha384", "sha512"
    for name, fitting, is_signed, algs in (
        ("named_by_digest", 66_000, False, [None]),
        ("named_by_signature", 46_000, True, [None]),
        ("named_by_three_algorithms", 59_000, False, names),
    ):
        made = Store()
        made.add_bound("d", extra=[superbox(b"c2vc", "x", box(b"bidb", bytes(count(16_000_000))))])
        number = count(fitting)
        labels = [f"c2pa.ingredient.v3__{at}" for at in range(number)]
        hashed = [digest(made.contents, alg or names[0]) for alg in algs]
        items = [ingredient("d", each, SIGNED if is_signed else None, alg) for each, alg in zip(hashed, algs)]
        boxes = [assertion(label, items[at % len(items)]) for at, label in enumerate(labels)]
        answer = f"valid manifests=2 assertions={number + 2} covered=4 outside=0"
        yield name, made.file("m", boxes, map(listed, labels, boxes)), answer


def many_children(count):
    """1,024 manifests, whose ingredients name earlier ones: as many as fit with their entries, and 150,000 without."""
    for name, number, is_listed in ("ingredients_listed", count(124_000), True), ("ingredients_undeclared", count(150_000), False):
        chance, made, used = random.Random(3), Store(), 0
        for at in range(1_024):
            until = number * (at + 1) // 1_024
            labels = [f"c2pa.ingredient.v3__{n}" for n in range(until - used)] if at else []
            used = until
            named = [chance.randrange(at - 1) if n and at > 1 else at - 1 for n in range(len(labels))]
            boxes = [assertion(label, ingredient(short(n), made.digests[short(n)])) for label, n in zip(labels, named)]
            entries = list(map(listed, labels, boxes)) if is_listed else []
            if at < 1_023:
                made.add_bound(short(at), boxes, entries)
            else:
                contents = made.file("m", boxes, entries)
        # the first manifest has a binding alone
        answer = f"valid manifests=1024 assertions={number - number // 1_024 + 1_024} covered=4 outside=0"
        if not is_listed:
            answer = "failing assertion.undeclared self#jumbf=/c2pa/m/c2pa.assertions/c2pa.ingredient.v3__0"
        yield name, contents, answer


def chain(count):
    """1,024 manifests, each of which names the one before it, and fills its share of the store."""
    for name, signed in ("chain", None), ("chain_by_signature", SIGNED):
        made = Store()
        filling = [superbox(b"c2vc", "x", box(b"bidb", bytes(count(31_500))))]
        for at in range(1_024):
            encoded = ingredient(short(at - 1), made.digests[short(at - 1)], signed) if at else None
            boxes = [assertion("c2pa.ingredient.v3", encoded)] if at else []
            entries = [listed("c2pa.ingredient.v3", box) for box in boxes]
            if at < 1_023:
                made.add_bound(short(at), boxes, entries, extra=filling)
        yield name, made.file("m", boxes, entries, extra=filling), "valid manifests=1024 assertions=2047 covered=4 outside=0"


def entries(count):
    """200,000 entries with their boxes, in an order of their own; and the last of them with another digest."""
    number = count(200_000)
    order = list(range(number))
    cases = ("entries_rising", False, False), ("entries_shuffled", True, False), ("entries_wrong_at_end", True, True)
    for name, is_shuffled, is_wrong in cases:
        if is_shuffled:
            random.Random(5).shuffle(order)
        boxes = [assertion(short(at), b"\xa0") for at in range(number)]
        claimed = [listed(short(at), boxes[at]) for at in order]
        answer = f"valid manifests=1 assertions={number + 1} covered=4 outside=0"
        if is_wrong:
            claimed[-1] = listed(short(order[-1]), b"", bytes(32))
            answer = f"failing assertion.hashedURI.mismatch self#jumbf=/c2pa/m/c2pa.assertions/{short(order[-1])}"
        yield name, Store().file("m", boxes, claimed), answer


def redactions(count):
    """300,000 redactions of one manifest's labels, whose boxes are taken out; by one manifest, and by 1,022 in a chain."""
    number = count(300_000)
    redacted = [text(f"self#jumbf=/c2pa/d/c2pa.assertions/{short(at)}") for at in range(number)]
    random.Random(6).shuffle(redacted)
    claimed = [listed(short(at), b"", b"\0") for at in range(number)]
    made = Store()
    made.add_bound("d", entries=claimed)
    named = assertion("c2pa.ingredient.v3", ingredient("d", bytes(32), SIGNED))
    answer = "valid manifests={} assertions={} covered=4 outside=0"
    yield "redactions", made.file("m", [named], [listed("c2pa.ingredient.v3", named)], redacted), answer.format(2, 3)
    made = Store()
    made.add_bound("d", entries=claimed)
    before = "d"
    for at in range(1_022):
        named = assertion("c2pa.ingredient.v3", ingredient(before, made.digests[before], SIGNED))
        part = redacted[number * at // 1_022 : number * (at + 1) // 1_022]
        made.add_bound(short(at), [named], [listed("c2pa.ingredient.v3", named)], part)
        before = short(at)
    named = assertion("c2pa.ingredient.v3", ingredient(before, made.digests[before], SIGNED))
    yield "redactions_by_many", made.file("m", [named], [listed("c2pa.ingredient.v3", named)]), answer.format(1_024, 2 * 1_023 + 1)


def redactions_elsewhere(count):
    """Redactions of a label that no claim lists, as many as fit."""
    number = count(700_000)
    redacted = [text(f"self#jumbf=/c2pa/d/c2pa.assertions/{short(at)}") for at in range(number)]
    made = Store()
    made.add_bound("d")
    named = assertion("c2pa.ingredient.v3", ingredient("d", made.digests["d"], SIGNED))
    contents = made.file("m", [named], [listed("c2pa.ingredient.v3", named)], redacted)
    yield "redactions_of_none", contents, "valid manifests=2 assertions=3 covered=4 outside=0"


def exclusions(count):
    """The binding's item with as many exclusions as fit."""
    number = count(1_400_000)
    claimed = "c2pa.hash.data"
    one = mapping(("start", b"\0"), ("length", b"\0"))
    bound = assertion(claimed, mapping(("hash", data(b"")), ("exclusions", array(*[one] * number))))
    made = Store()
    made.add("m", [bound], [listed(claimed, bound)])
    contents = jpeg(store(*made.manifests))
    yield "exclusions", contents, "failing unsupported.tooManyExclusions self#jumbf=/c2pa/m/c2pa.assertions/c2pa.hash.data"


def labels_alike(count):
    """Long labels that begin alike: of assertions, and of 1,000 manifests, each named by two others."""
    number, beginning = count(16_000), "x" * 900
    boxes = {at: assertion(beginning + short(at), b"\xa0") for at in range(number)}
    order = random.Random(7).sample(range(number), number)
    claimed = [listed(beginning + short(at), boxes[at]) for at in order]
    answer = "valid manifests={} assertions={} covered=4 outside=0"
    yield "labels_alike", Store().file("m", boxes.values(), claimed), answer.format(1, number + 1)
    made, beginning, number = Store(), "x" * 6_000, count(1_000)
    for at in range(number):
        named = [beginning + short(other) for other in range(max(0, at - 2), at)]
        labels = [f"c2pa.ingredient.v3__{n}" for n in range(len(named))]
        boxes = [assertion(label, ingredient(name, made.digests[name])) for label, name in zip(labels, named)]
        last = at == number - 1
        contents = (made.file if last else made.add_bound)(beginning + short(at), boxes, map(listed, labels, boxes))
    yield "manifests_alike", contents, answer.format(number, number + max(0, 2 * number - 3))


GROUPS = one_child, many_children, chain, entries, labels_alike, redactions, redactions_elsewhere, exclusions


def verdicts_on(contents):
    """A verdict file that approves each manifest's question; all claims here are read."""
    from locate import locate

    contents = locate(contents)[2]
    asked = [Manifest(contents, found).question() for found in manifests_of(jumbf.read(contents))]
    return "".join(f"{identity} approved\n" for identity in asked)


def main():
    directory, scale = sys.argv[1], int(sys.argv[2]) if len(sys.argv) > 2 else 100
    os.makedirs(directory, exist_ok=True)
    for group in GROUPS:
        for name, contents, answer in group(lambda number: max(1, number * scale // 100)):
            if sys.argv[3:] and name not in sys.argv[3:]:
                continue
            assert len(contents) <= MOST + 20 * 600, (name, len(contents))
            for more, written in ("", contents), (".verdicts", verdicts_on(contents).encode()), (".answer", answer.encode() + b"\n"):
                with open(os.path.join(directory, f"{name}.jpg{more}"), "wb") as file:
                    file.write(written)


if __name__ == "__main__":
    main()
