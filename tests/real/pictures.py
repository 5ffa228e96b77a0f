#!/usr/bin/env python3
"""Puts valid stores into JPEGs that encoders made, and compares what c2 says of them with store.py.

    pictures.py C2 DIRECTORY [CHANGES]      reads the JPEGs of DIRECTORY, writes further ones beside them, and runs every reading
                                            command of C2; and so many times on each that is changed at random

What `validate` must say is given beside each variant. A judge approves all questions. The status is 1 where C2 differs; a changed
file at which it does is kept in the current directory as differs-N.
"""

import os
import random
import sys

from drafts import ACTIONS, Assertion, DataHash, Ingredient, Jpeg, Manifest
from films import LABEL, Run, changed_at, read, write
from locate import segment_at
from make import after_app0, scan_place

OLDER = "urn:c2pa:22222222-2222-4333-8444-555555555555"


def manifest(*given):
    return Manifest(LABEL, Assertion("c2pa.actions.v2", ACTIONS), *given, DataHash())


def variants(data):
    """Name, contents, and how `validate` must begin."""
    at, scan = after_app0(data), scan_place(data)
    front, late = Jpeg(data[:at], data[at:]), Jpeg(data[:scan], data[scan:])
    valid = "valid manifests={} assertions={} covered={} outside={}\n".format
    yield "valid", front.file([manifest()]), valid(1, 2, len(data), 0)
    yield "before_scan", late.file([manifest()]), valid(1, 2, len(data), 0)
    thumbnail = Assertion("c2pa.thumbnail.claim", bytes(200_000), b"bidb")
    yield "in_packets", front.file([manifest(thumbnail)]), valid(1, 3, len(data), 0)
    chain = [Manifest(OLDER, DataHash()), manifest(Ingredient(OLDER, "parentOf"))]
    yield "twice_signed", front.file(chain), valid(2, 4, len(data), 0)
    older = Manifest(LABEL, Assertion("c2pa.actions", ACTIONS), Ingredient(OLDER, "parentOf", label="c2pa.ingredient"), DataHash(None), version=1)
    older.claim_alg = "sha512"
    yield "of_version_1", front.file([Manifest(OLDER, DataHash(), version=1), older]), valid(2, 4, len(data), 0)
    part = manifest()
    part.assertions[-1].ranges = [(0, 2), None]
    yield "in_part", front.file([part]), valid(1, 2, len(data) - 2, 2)
    whole = front.file([manifest()])
    place = len(whole) - len(data) + scan + 20
    changed = whole[:place] + bytes([whole[place] ^ 1]) + whole[place + 1 :]
    yield "changed", changed, f"failing assertion.dataHash.mismatch self#jumbf=/c2pa/{LABEL}/c2pa.assertions/c2pa.hash.data\n"
    yield "cut_short", whole[: at + 100], "refused Truncated "


def segment_places(data):
    """The places of the segments before the first scan."""
    places, at = [], 2
    while at is not None:
        places.append(at)
        at = segment_at(data, at)[2]
    return places


def main():
    program, directory = sys.argv[1:3]
    changes, chance = int(sys.argv[3]) if len(sys.argv) > 3 else 0, random.Random(1)
    run, files, variant_count = Run(program, directory), sorted(os.listdir(directory)), 0
    for name in files:
        data, (base, kind) = read(os.path.join(directory, name)), os.path.splitext(name)
        run.compare(name, "none\n")
        for variant, contents, expected in variants(data):
            variant_count += 1
            write(os.path.join(directory, f"{base}+{variant}{kind}"), contents)
            run.compare(f"{base}+{variant}{kind}", expected)
            if expected.startswith("valid "):
                for changed in changed_at(chance, contents, segment_places(contents), changes):
                    run.compare_changed(changed)
    print(f"{len(files)} pictures, {variant_count} made of them, {run.runs} runs, {run.failures} failures")
    sys.exit(run.failures > 0)


if __name__ == "__main__":
    main()
