#!/usr/bin/env python3
"""Runs c2 on each prefix of small valid files, and on each of them with one byte raised by one, beside store.py.

    each_byte.py C2 [jpeg|bmff]      every reading command on the prefixes, `questions` and `validate` on the others; the verdict file
                                     approves the questions of the whole file

The files have one manifest, two, two of the older versions and by longer digests, and four of which one redacts. Prints each difference; the status is 1 where there is one.
"""

import os
import sys
import tempfile

import store
from chance_stores import questions_in
from drafts import ACTIONS, ALL_EXCLUDED, APP0, Assertion, Bmff, BmffHash, DataHash, Ingredient, Jpeg, Manifest
from make_store import box
from told import tell
from validate import Comparison


def drafted(is_bmff):
    """Drafts of the manifests of valid stores."""
    binding = lambda: BmffHash(ALL_EXCLUDED) if is_bmff else DataHash()
    yield [Manifest("m", Assertion("c2pa.actions.v2", ACTIONS), binding())]
    yield [Manifest("d", binding()), Manifest("m", Ingredient("d", "parentOf"), binding())]
    older = Manifest("d", binding(), version=1), Manifest("m", Ingredient("d", label="c2pa.ingredient.v2"), binding(), version=1)
    for draft, name in zip(older, ("sha384", "sha512")):
        draft.claim_alg = name
    yield list(older)
    redacting = Manifest("B", Ingredient("D"), binding())
    redacting.redactions = ["self#jumbf=/c2pa/D/c2pa.assertions/test.note"]
    note = Assertion("test.note")
    note.is_there = False
    parents = Ingredient("B"), Ingredient("C", label="c2pa.ingredient.v3__1")
    yield [Manifest("D", note, binding()), redacting, Manifest("C", Ingredient("D"), binding()), Manifest("A", *parents, binding())]


def changed(contents):
    """Each prefix, and whether it is one; and the whole with each byte raised by one."""
    for end in range(len(contents)):
        yield contents[:end], True
    for at, byte in enumerate(contents):
        yield contents[:at] + bytes([(byte + 1) % 256]) + contents[at + 1 :], False


def main():
    program, is_bmff = os.path.abspath(sys.argv[1]), sys.argv[2:] == ["bmff"]
    media = Bmff(rest=box(b"mdat", b"a picture") + box(b"moov", box(b"trak", b""))) if is_bmff else Jpeg(b"\xff\xd8" + APP0)
    with tempfile.TemporaryDirectory() as folder:
        comparison = Comparison(program, folder)
        for manifests in drafted(is_bmff):
            contents = media.file(manifests)
            verdicts = "".join(f"{identity} approved\n" for identity in questions_in(contents)).encode()
            told, _ = store.report("validate", contents, [store.verdicts_in(verdicts)])
            print(f"{len(contents)} bytes, {told}", flush=True)
            comparison.compare(contents, [verdicts], True)
            for other, is_prefix in changed(contents):
                comparison.compare(other, [verdicts], is_prefix)
    tell(comparison.answers, f"{sum(comparison.runs.values())} runs, {comparison.differences} differences", comparison.differences)


if __name__ == "__main__":
    main()
