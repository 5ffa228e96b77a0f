#!/usr/bin/env python3
"""Writes BMFF files whose binding is made to take much time: costly_films.py DIRECTORY [SCALE [NAME..]].

A scale of 100 gives the full size, a smaller one a hundredth of boxes for each point. Beside each FILE stand FILE.verdicts, which
approves its question, and FILE.answer, what `validate` must say with it. The covered bytes are joined here box by box, from what
each case knows of its own exclusions, and not by the paths.
"""
import hashlib
import os
import random
import sys

sys.path.insert(0, os.path.join(os.path.dirname(os.path.abspath(__file__)), "..", "..", "real"))
from drafts import ALL_EXCLUDED, Bmff, BmffHash, Manifest, Written, exclusion, write
from make_store import array, box, data, mapping, uint
from manifests import Manifest as Read
from manifests import manifests_of
import jumbf

MOST_ROOTS, MOST_EXCLUSIONS = 1_048_576, 1_024
MORE = MOST_EXCLUSIONS - len(ALL_EXCLUDED)
FTYP = box(b"ftyp", b"isom\0\0\0\0")
FREE = box(b"free", b"")


class Film:
    """A film of root boxes, and what a binding covers of it: for each box its covered bytes, None where it is excluded whole."""

    def __init__(self, exclusions):
        self.exclusions, self.boxes, self.covered, self.at, self.count = exclusions, [], hashlib.sha256(), len(FTYP), 0
        self.refusal = None

    def add(self, contents, covered):
        if covered is not None:
            self.covered.update(self.at.to_bytes(8, "big") + covered)
            self.count += len(covered)
        self.boxes.append(contents)
        self.at += len(contents)

    def file(self):
        """The file, its verdict file, and the answer."""
        drafts = [Manifest("m", BmffHash([*ALL_EXCLUDED, *self.exclusions]))]
        media = Bmff(FTYP + b"".join(self.boxes))
        store = write(drafts, Written(0, 0, self.covered.digest()))
        question = Read(store, manifests_of(jumbf.read(store))[0]).question()
        outside = self.at - self.count
        answer = self.refusal or f"valid manifests=1 assertions=1 covered={self.count} outside={outside}"
        return media.around(store), f"{question} approved\n".encode(), f"{answer}\n".encode()


def tested(path, offset, value):
    return exclusion(path, ("data", array(mapping(("offset", uint(offset)), ("value", data(value))))))


def parts(path, *ranges):
    return exclusion(path, ("subset", array(*(mapping(("offset", uint(at)), ("length", uint(length))) for at, length in ranges))))


def roots(count):
    """As many root boxes as there may be, under as many exclusions; each film leaves out other ones of them."""
    number = count(MOST_ROOTS) - 2
    chosen = set(random.Random(1).sample(range(number), min(MORE, number)))
    film = Film([exclusion(f"/free[{at + 1}]") for at in chosen])
    for at in range(number):
        film.add(FREE, None if at in chosen else FREE)
    yield "roots_counted", film
    film = Film([exclusion("/free", ("length", uint(9 + at))) for at in range(MORE)])
    for at in range(number):
        film.add(FREE, FREE)
    yield "roots_of_a_length", film
    film = Film([tested("/free", 0, b"\0\0\0\x08fre" + bytes([at % 100])) for at in range(MORE)])
    for at in range(number):
        film.add(FREE, FREE)
    yield "roots_with_bytes", film
    film = Film([parts("/free", (at % 4 * 2 + 1, 1), (at % 4 * 2 + 1, 1)) for at in range(MORE)])
    for at in range(number):
        film.add(FREE, FREE[::2])
    yield "roots_in_parts", film
    own = box(b"uuid", bytes(16))
    film = Film([tested("/uuid", 8, bytes(15) + bytes([1 + at % 250])) for at in range(MORE)])
    for at in range(number):
        film.add(own, own)
    yield "roots_of_users", film
    kinds = [b"%04d" % (at % 1_000) for at in range(number)]
    film = Film([exclusion(f"/{at:04}[{at + 1}]") for at in range(1_000)])
    seen = {}
    for kind in kinds:
        seen[kind] = seen.get(kind, 0) + 1
        contents = box(kind, b"")
        film.add(contents, None if seen[kind] == int(kind) + 1 else contents)
    yield "roots_of_many_kinds", film


def children(count):
    """A million children of a track, under as many exclusions as there may be."""
    number = count(1_000_000)

    def with_children(exclusions, child, kept):
        """A film of one track, whose children are covered by what is kept of each."""
        track = box(b"trak", child * number)
        film = Film(exclusions)
        moov = box(b"moov", track)
        film.add(moov, moov[:16] + b"".join(kept))
        return film

    chosen = set(random.Random(2).sample(range(number), min(MORE, number)))
    counted = [exclusion(f"/moov/trak/free[{at + 1}]") for at in chosen]
    yield "children_counted", with_children(counted, FREE, (b"" if at in chosen else FREE for at in range(number)))
    lengths = [exclusion("/moov/trak/free", ("length", uint(9 + at))) for at in range(MORE)]
    yield "children_of_a_length", with_children(lengths, FREE, [FREE * number])
    values = [tested("/moov/trak[1]/free", 0, b"\0\0\0\x08fre" + bytes([at % 100])) for at in range(MORE)]
    yield "children_with_bytes", with_children(values, FREE, [FREE * number])
    odd = [parts("/moov/trak/free", (at % 4 * 2 + 1, 1)) for at in range(MORE)]
    yield "children_in_parts", with_children(odd, FREE, [FREE[::2] * number])
    ends = [parts("/moov/trak/free", *((at, 1) for at in range(8, 200))) for _ in range(MORE)]
    yield "children_with_parts_behind", with_children(ends, FREE, [FREE * number])


def deep(count):
    """Many tracks, and paths of many depths."""
    number = count(200_000)
    stco = box(b"stco", bytes(8))
    track = box(b"trak", box(b"mdia", box(b"minf", box(b"stbl", stco))))
    kept = track[: -len(stco)]
    paths = "/moov/trak/mdia/minf/stbl/stco", *(f"/moov/trak/mdia/minf/stbl[{at + 2}]/stco" for at in range(MORE - 1))
    film = Film([exclusion(path) for path in paths])
    moov = box(b"moov", track * number)
    film.add(moov, moov[:8] + kept * number)
    yield "deep_paths", film
    chosen = random.Random(3).sample(range(number), min(MORE, number))
    film = Film([exclusion(f"/moov/trak[{at + 1}]/mdia/minf/stbl/stco") for at in chosen])
    chosen = set(chosen)
    film.add(moov, moov[:8] + b"".join(kept if at in chosen else track for at in range(number)))
    yield "deep_counted", film


def many_tests(count):
    """One exclusion with as many tests and parts as fit, over as many root boxes as there may be."""
    number, many = count(MOST_ROOTS) - 2, count(1_000_000)

    def with_roots(one, kept):
        film = Film([one])
        for _ in range(number):
            film.add(FREE, kept)
        return film

    tests = lambda offset, value: array(*[mapping(("offset", uint(offset)), ("value", data(value)))] * many)
    yield "empty_values", with_roots(exclusion("/free", ("data", tests(0, b""))), None)
    yield "equal_values", with_roots(exclusion("/free", ("data", tests(4, b"f"))), None)
    yield "empty_values_behind", with_roots(exclusion("/free", ("data", tests(9, b""))), FREE)
    falling = [mapping(("offset", uint(at, 4)), ("length", uint(1))) for at in range(many, -1, -2)]
    yield "falling_parts", with_roots(exclusion("/free", ("subset", array(*falling))), FREE[1::2])
    one = count(16_000_000)
    film = Film([exclusion("/free", ("subset", array(*falling)))])
    film.add(box(b"free", bytes(one)), kept_of(box(b"free", bytes(one)), many))
    yield "falling_parts_of_one", film


def kept_of(contents, many):
    """A box less its bytes at even offsets up to `many`."""
    return contents[1 : many + 1 : 2] + contents[many + 1 :]


def many_exclusions(count):
    """As many exclusions as fit."""
    film = Film([exclusion("/free")] * count(2_200_000))
    film.refusal = "failing unsupported.tooManyExclusions self#jumbf=/c2pa/m/c2pa.assertions/c2pa.hash.bmff.v2"
    yield "many_exclusions", film


def long_values(count):
    """Byte tests with long values that hold but for the last byte."""
    length = 32_000
    contents = box(b"free", bytes(length - 8))
    film = Film([tested("/free", 0, contents[:-1] + bytes([1 + at % 250])) for at in range(MORE)])
    for at in range(count(1_000)):
        film.add(contents, contents)
    yield "long_values", film


def main():
    directory, scale = sys.argv[1], float(sys.argv[2]) if len(sys.argv) > 2 else 100
    os.makedirs(directory, exist_ok=True)
    for group in roots, children, deep, many_tests, many_exclusions, long_values:
        for name, film in group(lambda number: max(4, int(number * scale / 100))):
            if sys.argv[3:] and name not in sys.argv[3:]:
                continue
            for more, written in zip(("", ".verdicts", ".answer"), film.file()):
                with open(os.path.join(directory, f"{name}.mp4{more}"), "wb") as file:
                    file.write(written)


if __name__ == "__main__":
    main()
