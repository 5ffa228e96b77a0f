#!/usr/bin/env python3
"""What a new manifest takes over of three older stores, as rows, by the program of builder.py.

    parent_rows.py      prints the stores in hex, then each row: the store, the redactions, and what must come of them
"""

import hashlib

from builder import BuildRefused, OldStore, redacted_place
from media import media_of
from rule_rows import DataHash, Ingredient, Jpeg, Manifest, note, verdicts_on

NEW = "new"


def assertion(manifest, label):
    return f"self#jumbf=/c2pa/{manifest}/c2pa.assertions/{label}"


def store(is_signed=True):
    """A has the ingredient B, which has D; D has two notes, and A has one."""
    first = Manifest("D", note("test.note", is_there=True), note("test.other", is_there=True), DataHash())
    second = Manifest("B", Ingredient("D", is_signed=is_signed), DataHash())
    return [first, second, Manifest("A", Ingredient("B"), note("test.own", is_there=True), DataHash())]


def unreached():
    """A has no ingredient."""
    first = Manifest("D", note("test.note", is_there=True), DataHash())
    return [first, Manifest("A", note("test.own", is_there=True), DataHash())]


STORES = {"S": store(), "U": store(is_signed=False), "R": unreached()}

ROWS = (
    ("S", []),
    ("S", [assertion("D", "test.note")]),
    ("S", [assertion("A", "test.own"), assertion("D", "test.note")]),
    ("S", [assertion("D", "test.note"), assertion("D", "test.note")]),
    ("U", [assertion("D", "test.other")]),
    ("U", [assertion("A", "test.own")]),
    ("R", [assertion("D", "test.note")]),
    ("S", [assertion(NEW, "test.note")]),
    ("S", ["self#jumbf=c2pa.assertions/test.note"]),
    ("S", [assertion("D", "c2pa.hash.data")]),
    ("S", [assertion("B", "c2pa.ingredient.v3")]),
    ("S", [assertion("E", "test.note")]),
    ("S", [assertion("D", "test.none")]),
    ("S", ["self#jumbf=/c2pa/D"]),
)


def digest(contents):
    return hashlib.sha256(contents).hexdigest()


def old_store(drafts):
    contents = Jpeg().file(drafts)
    return OldStore(media_of(contents), [verdicts_on(contents)])


def answer(old, redactions):
    """The first refusal; or the carried boxes by length and digest, and the parent by its label and digests."""
    gone = set()
    try:
        for entry in redactions:
            gone.add(redacted_place(old, entry, NEW, gone))
    except BuildRefused as refused:
        return f"{refused.args[2]} {refused.args[1]}"
    boxes = b"".join(old.spelled(box, gone) for box in old.root.children[1:])
    active = old.manifests[-1]
    contents = old.spelled(active.box, gone)[active.box.inside - active.box.start :]
    signed = old.store[active.signature.inside : active.signature.end]
    return f"{len(boxes)} {digest(boxes)} {active.label} {digest(contents)} {digest(signed)}"


def main():
    stores = {name: old_store(drafts) for name, drafts in STORES.items()}
    for name, old in stores.items():
        print(f"{name}: {old.store.hex()}")
    for name, redactions in ROWS:
        print(f"{name} {','.join(redactions) or '-'} => {answer(stores[name], redactions)}")


if __name__ == "__main__":
    main()
