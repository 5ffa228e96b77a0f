#!/usr/bin/env python3
"""Writes JPEGs with stores of some 33 MB that are made to take much time or memory: make.py DIRECTORY [SCALE]. A scale of 100 gives the full
size, a smaller one a hundredth for each point. Boxes, claims and messages are those of tests/real/make_store.py."""
import os
import random
import struct
import sys

sys.path.insert(0, os.path.join(os.path.dirname(os.path.abspath(__file__)), "..", "..", "real"))
from make_store import assertion, assertions, claim, claim_box, item, jpeg, manifest, sign1, signature_box, signed, store

MOST = 33_554_432 * (int(sys.argv[2]) if len(sys.argv) > 2 else 100) // 100
RESERVED = b"\x1c"


def numbers(count, is_shuffled):
    keys = list(range(count))
    if is_shuffled:
        random.Random(7).shuffle(keys)
    return keys


def pairs(keys):
    """Pairs of six bytes: a number of four bytes, and 0."""
    return b"".join(b"\x1a" + struct.pack(">I", key) + b"\0" for key in keys)


def map_of(count, spelled):
    return b"\xba" + struct.pack(">I", count) + spelled


def with_header(header):
    return store(manifest("m", claim_box(item(claim())), signature_box(item(sign1(unprotected=header)))))


def with_claim(more, spelled):
    """A claim with so many further pairs."""
    fields = claim()
    return store(signed("m", claimed=map_of(fields[0] - 0xA0 + more, fields[1:] + spelled)))


def labels(count, is_shuffled):
    return [f"{key:06}" for key in numbers(count, is_shuffled)]


def stores():
    """Names and contents."""
    count = (MOST - 1_000) // 6
    shuffled = numbers(count, True)
    yield "header_shuffled", with_header(map_of(count, pairs(shuffled)))
    yield "header_rising", with_header(map_of(count, pairs(range(count))))
    yield "header_equal_at_end", with_header(map_of(count, pairs(shuffled[:-1] + shuffled[:1])))
    yield "header_fault_at_end", with_header(map_of(count, pairs(shuffled[:-1]) + b"\0" + RESERVED))
    yield "claim_shuffled", with_claim(count, pairs(shuffled))
    yield "claim_rising", with_claim(count, pairs(range(count)))
    redactions = MOST - 1_000
    list_of_texts = b"\x73redacted_assertions\x9a" + struct.pack(">I", redactions) + b"\x60" * redactions
    yield "redactions_empty", with_claim(1, list_of_texts)
    fitting = (MOST - 2_000) // len(assertion("000000"))
    yield "labels_shuffled", store(signed("m", assertions(*map(assertion, labels(fitting, True))), claimed=claim()))
    yield "labels_rising", store(signed("m", assertions(*map(assertion, labels(fitting, False))), claimed=claim()))


def main():
    directory = sys.argv[1]
    os.makedirs(directory, exist_ok=True)
    for name, contents in stores():
        with open(os.path.join(directory, f"{name}.jpg"), "wb") as file:
            file.write(jpeg(contents))


if __name__ == "__main__":
    main()
