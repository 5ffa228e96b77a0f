#!/usr/bin/env python3
"""Rows of two files that are compared, and what is reported of them.

    compare_rows.py          prints the module rows.rt of crates/c2_test_compare

rows.py writes the table of crates/c2_test_rows, which has more of them.

A line that says what the row shows, and the row: the hash, both files in hex, and the lines of the report, with bars between them.
The reports of crates/c2_test_rows are those of pairs.py. The texts of evidence are made here from the drafts of the files, and must be
those of pairs.py; nothing of them was taken from what c2 prints.
"""

import hashlib
from contextlib import contextmanager

import drafts
import hashing
import pairs
import store
import tables
from drafts import APP0, Assertion, DataHash, Ingredient, Jpeg, Manifest, Written, relabelled, write
from make_store import text
from rule_rows import with_
from tables import Approving

LABEL = "urn:c2pa:00000000-0000-4000-8000-000000000000"
FRONT = b"\xff\xd8" + APP0
REST = b"\xff\xd9"


def sha(contents, name="sha256"):
    return hashlib.new(name, contents).digest()


def weak(contents, name="sha256"):
    """The hash for tests: the sum of the bytes, in the last byte of a digest."""
    return bytes({"sha256": 31, "sha384": 47, "sha512": 63}[name]) + bytes([sum(contents) % 256])


@contextmanager
def digests_by(digest):
    """Drafts are written with digests by this function."""
    before, drafts.digest = drafts.digest, digest
    yield
    drafts.digest = before


def file_of(digest, *manifests, front=FRONT, rest=REST):
    """A JPEG with a store of these manifests."""
    with digests_by(digest):
        around = Jpeg(front, rest)
        length = len(around.around(write(manifests, Written()))) - len(front) - len(rest)
        return around.around(write(manifests, Written(len(front), length, digest(front + rest))))


def note(payload, **given):
    return with_(Assertion("test.note", payload, b"json"), **given)


def noted(payload, label=LABEL, **given):
    return with_(Manifest(label, Assertion("c2pa.actions.v2", drafts.ACTIONS), note(payload), DataHash()), **given)


def titled(title):
    """Two manifests: the last redacts an assertion of the first, whose claim has a title."""
    below = Manifest("m", note(b'"ab"', is_there=False), DataHash())
    below.claim_fields = {"dc:title": text(title)}
    above = Manifest("a", with_(Ingredient("m"), hashes=[bytes(32), None]), DataHash())
    above.redactions = ["self#jumbf=/c2pa/m/c2pa.assertions/test.note"]
    return below, above


def rows():
    uri = f"self#jumbf=/c2pa/{LABEL}/c2pa.assertions/test.note"
    first, second = (file_of(weak, noted(payload)) for payload in (b'"ab"', b'"ba"'))
    lists = (note(payload).box(None)[8:].hex() for payload in (b'"ab"', b'"ba"'))
    yield "other notes under one sum", "weak", first, second, [f"evidence digest sha256 {uri}", *lists]
    swapped = bytearray(first)
    swapped[11], swapped[12] = swapped[12], swapped[11]
    texts = (contents[:20] + contents[-2:] for contents in (first, bytes(swapped)))
    yield "swapped bytes of the picture", "weak", first, bytes(swapped), ["evidence digest sha256 covered", *(t.hex() for t in texts)]
    yield "a file and itself, under the sum", "weak", first, first, []
    yield "another label of the active manifest", "weak", first, file_of(weak, noted(b'"ab"', LABEL[:-1] + "1")), []
    first = file_of(sha, noted(b'"ab"'))
    at = first.index(b'"ab"')
    second = first[:at] + b'"ba"' + first[at + 4 :]
    yield "other notes under SHA-256", "sha", first, second, ["second"]
    yield "a first file with another note", "sha", second, first, ["first"]
    yield "a file and itself", "sha", first, first, []
    yield "other claims", "sha", first, file_of(sha, Manifest("m", DataHash())), ["different"]
    yield "no store", "sha", first, FRONT + REST, ["second"]
    written = Written()
    claims = []
    for title in "ab":
        below, _ = titled(title)
        written = Written()
        below.write(written)
        first_length = len(file_of(sha, *titled("a"))) - len(FRONT) - len(REST)
        claims.append(below.claim(Written(len(FRONT), first_length, sha(FRONT + REST))))
    box = written.signatures["m"]
    files = (file_of(sha, *titled(title)) for title in "ab")
    yield "other titles under one signature", "sha", *files, ["evidence signature self#jumbf=/c2pa/m/c2pa.signature", box.hex(), *(c.hex() for c in claims)]


def more_rows():
    """Pairs for the command alone."""
    plain = Manifest(LABEL, Assertion("c2pa.actions.v2", drafts.ACTIONS), DataHash())
    parent = Ingredient(LABEL, "parentOf")
    second = Manifest(LABEL[:-1] + "1", Assertion("c2pa.actions.v2", drafts.ACTIONS), parent, DataHash())
    first = file_of(sha, plain)
    yield "two assertions, and itself", first, first
    yield "the same with a manifest on top", first, file_of(sha, plain, second)
    yield "two manifests, and themselves", file_of(sha, plain, second), file_of(sha, plain, second)
    yield "an empty file first", b"", first
    yield "a file cut short", first, first[:-9]
    changed = bytearray(first)
    changed[15] += 1
    yield "a changed byte of the picture", first, bytes(changed)
    yield "an active claim of a later version", first, file_of(sha, labelled(Manifest("m", DataHash()), "c2pa.claim.v9"))
    older = file_of(sha, noted(b'"ab"', version=1))
    yield "a claim of version 1, and itself", older, older
    yield "the same assertions under claims of both versions", older, file_of(sha, noted(b'"ab"'))
    yield "a claim of version 1, and its bytes as one of version 2", older, file_of(sha, labelled(noted(b'"ab"', version=1), "c2pa.claim.v2"))
    yield "a claim of version 2, and its bytes as one of version 1", file_of(sha, noted(b'"ab"')), file_of(sha, labelled(noted(b'"ab"'), "c2pa.claim"))


def labelled(draft, label):
    """A manifest whose claim's box has this label in place of its own."""
    draft.change_claims = lambda boxes: [relabelled(box, label) for box in boxes]
    return draft


def weak_rows():
    """Pairs for the command alone, under the sum: evidence by longer digests, and of what an older ingredient names."""
    for name in "sha384", "sha512":
        yield f"other notes under one sum, by {name}", *(file_of(weak, noted(payload, claim_alg=name)) for payload in (b'"ab"', b'"ba"'))
    yield "other notes under one sum, in a claim of version 1", *(file_of(weak, noted(payload, version=1)) for payload in (b'"ab"', b'"ba"'))
    active = Manifest("a", Ingredient("m", label="c2pa.ingredient.v2"), DataHash())
    yield "an ingredient of version 2 that has other contents", *(file_of(weak, noted(payload, "m"), active) for payload in (b'"ab"', b'"ba"'))


def run_rows():
    """What a row shows, the hash, the files, the status, the lines of the report, and how often a judge is asked who approves."""
    given = [(what, name, first, second, lines) for what, name, first, second, lines in rows()]
    given += [(what, "sha", first, second, []) for what, first, second in more_rows()]
    given += [(what, "weak", first, second, []) for what, first, second in weak_rows()]
    for what, name, first, second, lines in given:
        hashing.choose(name)
        text, status = pairs.compared(first, second, [Approving()])
        if lines[1:]:
            assert text.split("\n") == lines, what
        yield what, name, first, second, status, text.split("\n"), asked_of(first, second)
    # the tables that are written after this one have digests by SHA-2 again
    hashing.choose("sha")


def asked_of(first, second):
    """How often a judge is asked who approves: of the second file only where the first is accepted."""
    judge = Approving()
    _, status = store.report("validate", first, [judge])
    if status == 0:
        store.report("validate", second, [judge])
    return judge.asked


def table():
    """The table of pairs, and of some whose second file isn't read, since its first call would fail."""
    text = tables.head("Pairs of files under `compare`.", "compare_rows.py", words="compare P Q V", judges="approved", room="10000")
    text += tables.settings(pieces="1 7 65536 1/65536 65536/1")
    rows = list(run_rows())
    for what, *row in rows:
        text += pair_row(what, *row)
    text += tables.settings(pieces="7", fault="second 1")
    for what in "a first file with another note", "an empty file first":
        (row,) = (row for name, *row in rows if name == what)
        text += pair_row(f"{what}: the second isn't read", *row)
    return text


def pair_row(what, name, first, second, status, lines, asked):
    return tables.settings(hash=name) + tables.row(what, f"{first.hex()} | {second.hex()}", status, "\n".join(lines), asked)


def main():
    print("// Pairs of files that are compared. Written by tests/real/compare_rows.py, which computes the reports: not to be edited.")
    print()
    print("/// A line that says what the row shows, and the row: the hash, both files in hex, and what is answered or the lines of evidence, with bars between.")
    print('pub const ROWS: &str = r##"', end="")
    for what, name, first, second, lines in rows():
        print("# " + what)
        print("|".join([name, first.hex(), second.hex(), *(lines or ["same"])]))
    print('"##;')


if __name__ == "__main__":
    main()
