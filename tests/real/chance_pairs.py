#!/usr/bin/env python3
"""Compares what `compare` says with pairs.py, over pairs of files that are drawn at random and bound by the sum of hashing.py.

    chance_pairs.py PROGRAM COUNT [SEED]      draws COUNT pairs, the same ones for the same seed

PROGRAM is that of bench/compare, which binds by this sum and approves each question. The second file of a pair is the first with a few
bytes swapped or changed so that sums stay, mostly inside boxes that a digest or a signature binds. Prints how often each answer came,
and each difference, whose files are kept in the current directory as differs-N.first and differs-N.second. The status is 1 where one
differs. With `-` for a program only the answers are counted.
"""

import os
import random
import subprocess
import sys
import tempfile
from collections import Counter

import hashing
import jumbf
import pairs
from chance_stores import Drawn
from locate import Refused
from media import media_of
from rows import Approving
from told import tell, write


def boxes_in(box):
    yield box
    for child in box.children:
        yield from boxes_in(child)


def spans(contents):
    """Where the content boxes of a file's store lie in the file, their starts and ends; and what lies around the store."""
    try:
        media = media_of(contents)
        root = jumbf.read(media.store)
    except (Refused, AttributeError):
        return [(0, len(contents))]
    at = contents.find(media.store)
    leaves = [(at + box.inside, at + box.end) for box in boxes_in(root) if not box.children and box.kind != b"jumd"]
    return [*leaves, *leaves, (0, media.start), (media.start + media.length, len(contents))]


def changed(chance, contents):
    """A file with a few bytes changed, so that sums stay."""
    changed, places = bytearray(contents), spans(contents)
    for _ in range(chance.choice((0, 1, 1, 1, 1, 2, 2, 3))):
        start, end = chance.choice(places) if chance.random() < 0.9 else (0, len(contents))
        if end - start < 2:
            continue
        one = chance.randrange(start, end - 1)
        other = one + 1 if chance.random() < 0.7 else chance.randrange(start, end)
        if chance.random() < 0.6:
            changed[one], changed[other] = changed[other], changed[one]
        else:
            by = chance.randrange(1, 256)
            changed[one], changed[other] = (changed[one] + by) % 256, (changed[other] - by) % 256
    return bytes(changed)


def drawn_pair(chance):
    drawn = Drawn(chance, chance.random() < 0.3)
    if chance.random() < 0.1:
        drawn.put_fault()
    first = drawn.file()
    if chance.random() < 0.05:
        drawn.manifests[-1].label = "another label"
        return first, drawn.file()
    if chance.random() < 0.05:
        return first, Drawn(chance).file()
    return first, changed(chance, first)


class Comparison:
    def __init__(self, program, folder):
        self.program = program
        self.names = [os.path.join(folder, name) for name in ("first", "second")]
        self.answers, self.differences = Counter(), 0

    def compare(self, pair):
        text, status = pairs.compared(*pair, [Approving()])
        self.answers[kind_of_answer(text)] += 1
        if self.program is None:
            return
        for name, contents in zip(self.names, pair):
            write(name, contents)
        done = subprocess.run([self.program, "weak", *self.names], stdout=subprocess.PIPE, check=False)
        expected = text.encode("utf-8") + b"\n", status
        if (done.stdout, done.returncode) != expected:
            self.tell_difference(pair, (done.stdout, done.returncode), expected)

    def tell_difference(self, pair, told, expected):
        self.differences += 1
        for name, contents in zip(("first", "second"), pair):
            write(f"differs-{self.differences}.{name}", contents)
        print(f"differs-{self.differences}:")
        print(f"  c2       {told[1]} {told[0][:300]}")
        print(f"  pairs.py {expected[1]} {expected[0][:300]}")


def kind_of_answer(text):
    """An answer without what differs from pair to pair."""
    words = text.split()
    if words[0] == "evidence":
        place = words[3] if words[1] == "digest" else words[2]
        kinds = {"covered": "covered", "/c2pa.signature": "a signature box", "/c2pa.assertions/c2pa.ingredient": "an ingredient", "/c2pa.assertions/": "an assertion"}
        return " ".join(words[:2]) + " of " + next((kind for part, kind in kinds.items() if part in place), "a manifest")
    return " ".join(words[: {"not": 5, "different": 2}.get(words[0], 1)])


def main():
    program, count, *more = sys.argv[1:]
    chance = random.Random(int(more[0]) if more else 1)
    hashing.choose("weak")
    with tempfile.TemporaryDirectory() as folder:
        comparison = Comparison(None if program == "-" else os.path.abspath(program), folder)
        for _ in range(int(count)):
            comparison.compare(drawn_pair(chance))
    tell(comparison.answers, f"{count} pairs, {comparison.differences} differences", comparison.differences)


if __name__ == "__main__":
    main()
