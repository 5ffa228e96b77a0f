#!/usr/bin/env python3
"""Looks which crates cite lemmas of other crates.

    layers.py      prints a table of the lemma files that crates cite of others; the status is 1 where a crate cites the `proofs/` of a
                   crate of code

Lemmas of a crate that holds only definitions and laws may be cited, and of a crate of code its laws, which stand in `TheLaws`, and the
files that it owes to the crates above it besides; all others are its own.
"""

import os
import re
import sys
from collections import Counter

TOP = os.path.join(os.path.dirname(os.path.abspath(__file__)), "..")
OPEN = {
    "c2_lemmas", "c2_spec", "c2_cbor_spec", "c2_rules", "c2_calls_spec", "c2_chain_spec", "c2_bmff_insert_spec", "c2_bmff_rows",
    "c2_bmff_chunks", "c2_compare_spec", "c2_new_content_spec", "c2_new_file_spec", "c2_new_front_spec", "c2_new_lengths_spec",
    "c2_collect_spec", "c2_cmd_written_spec",
}
# What a crate of code owes to those above it beside its `TheLaws`: what calls leave of a sink; what one append after another comes to, and takes of a stated spare; how long the packets of a store are; what a
# walk over the segments of a JPEG knows; what rows that fill a part of a source say; the manifests of a store by their places, and what is
# carried of it; what the errors, stages and inputs of a build say; what is left of its sources; what was found of a file and of its store's
# check; how long a new store is; what the numbers of a new file and the errors of its writing say, and what that leaves; that a built file is
# restored; and what is replied.
LAWS = {
    "c2_base": {"Growing", "Written"},
    "c2_copying": {"Appending", "Spares"},
    "c2_jpegseg": {"WrittenRuns"},
    "c2_jpegseg_segments": {"Fronts", "Kept", "NumberMarks", "Outside", "SegmentLists", "Starts", "Steps", "WindowLemmas"},
    "c2_bmff_boxes": {"Filling"},
    "c2_parent": {"CarriedLemmas", "Walking"},
    "c2_collect": {"Manifests"},
    "c2_build_refusals": {"Doing", "FirstRefusal", "Inputs", "Judged", "Media", "Outside", "Passing", "Stages"},
    "c2_build_endings": {"SourcesLemmas"},
    "c2_build_base": {"Checks", "Grounds", "Opened"},
    "c2_build_parts": {"NewParts"},
    "c2_build_in_place": {"Endings", "Leaving", "Stored"},
    "c2_build_plain": {"RestoredLaws"},
    "c2_cmd_outcome": {"Replying"},
}
CITES = re.compile(r"\bRattle\.(c2_\w+)\.proofs\.(\w+)")


def cited():
    """How many files of a crate cite a lemma file of another."""
    found = Counter()
    for crate in sorted(os.listdir(f"{TOP}/crates")):
        for part in ("src", "specs", "proofs"):
            for folder, _, names in os.walk(f"{TOP}/crates/{crate}/{part}"):
                for name in names:
                    if not name.endswith((".antt", ".rt")):
                        continue
                    with open(os.path.join(folder, name), encoding="utf-8") as file:
                        for other, lemmas in set(CITES.findall(file.read())):
                            if other != crate:
                                found[other, crate, lemmas] += 1
    return found


def main():
    found = cited()
    wrong = 0
    for (other, crate, lemmas), files in sorted(found.items()):
        code = other not in OPEN and lemmas != "TheLaws" and lemmas not in LAWS.get(other, ())
        wrong += code
        print(f"{other:16} {lemmas:20} {crate:16} {files:3}{'  of a crate of code' if code else ''}")
    print(f"{len(found)} cited, {wrong} of crates of code")
    sys.exit(bool(wrong))


if __name__ == "__main__":
    main()
