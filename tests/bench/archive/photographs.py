#!/usr/bin/env python3
"""Writes an archive of photographs with stores that are valid: photographs.py DIRECTORY COUNT BYTES; or one photograph or film of
a size that may be sparse: photographs.py --one FILE BYTES, or --film. Beside each FILE stands FILE.verdicts, which approves its
question.

A photograph is a JPEG with actions, a thumbnail of 6,000 bytes and a data hash, and a scan of other bytes in each file. No key has
signed it; the verdict file is written as if one had.
"""
import hashlib
import os
import random
import sys

sys.path.insert(0, os.path.join(os.path.dirname(os.path.abspath(__file__)), "..", "..", "real"))
from drafts import ACTIONS, ALL_EXCLUDED, APP0, Assertion, Bmff, BmffHash, DataHash, Jpeg, Manifest, Written, write
from make import segment
from manifests import Manifest as Read
from manifests import manifests_of
import jumbf

FRONT = b"\xff\xd8" + APP0
TABLES = segment(0xDB, bytes(65)) + segment(0xC0, bytes(15)) + segment(0xC4, bytes(29))
SCAN, END = segment(0xDA, bytes(10)), b"\xff\xd9"
ZEROS = bytes(1 << 20)


def drafted(binding):
    label = "urn:c2pa:11111111-2222-4333-8444-555555555555"
    return [Manifest(label, Assertion("c2pa.actions.v2", ACTIONS), Assertion("c2pa.thumbnail.claim", bytes(6_000), b"bidb"), binding)]


def verdicts_on(store):
    return f"{Read(store, manifests_of(jumbf.read(store))[0]).question()} approved\n".encode()


class Photographs:
    """Photographs whose stores are as long as one another, so that only digests differ; `behind` follows the store."""

    def __init__(self, behind):
        self.behind, self.media = behind, Jpeg(FRONT, behind)
        self.length = len(self.media.around(write(drafted(DataHash()), Written()))) - len(FRONT) - len(behind)

    def before(self, covered):
        """The beginning of a photograph whose covered bytes have a digest, and its verdict file."""
        store = write(drafted(DataHash()), Written(len(FRONT), self.length, covered))
        return self.media.around(store), verdicts_on(store)


class Film:
    """A film of a box `ftyp`, the store, and a box `mdat` of so many bytes, which is covered behind its place, `word`."""

    def __init__(self, size):
        self.media = Bmff()
        self.head = (8 + size).to_bytes(4, "big") + b"mdat"
        self.word = len(self.before(bytes(32))[0][: -len(self.head)]).to_bytes(8, "big")

    def before(self, covered):
        store = write(drafted(BmffHash(ALL_EXCLUDED)), Written(covered=covered))
        return self.media.around(store) + self.head, verdicts_on(store)


def write_file(path, *pieces):
    with open(path, "wb") as file:
        for piece in pieces:
            file.write(piece)


def write_random(path, made, ahead, count):
    """A file that ends with `count` million random bytes, and the rows of its verdict file. `made` knows what stands before them;
    `ahead` is covered before them."""
    digest = hashlib.sha256(ahead)
    with open(path, "wb") as out:
        out.write(made.before(bytes(32))[0])
        for _ in range(count):
            piece = os.urandom(1_000_000)
            digest.update(piece)
            out.write(piece)
        # the store is as long with every digest
        before, verdicts = made.before(digest.digest())
        out.seek(0)
        out.write(before)
    return verdicts


def make_archive(directory, count, size):
    os.makedirs(directory, exist_ok=True)
    photographs, chance = Photographs(TABLES + SCAN), random.Random(1)
    picture = chance.randbytes(max(0, size - photographs.length - len(FRONT + TABLES + SCAN + END) - 8)).replace(b"\xff", b"\0")
    for number in range(count):
        rest = number.to_bytes(8, "big") + picture + END
        before, verdicts = photographs.before(hashlib.sha256(FRONT + TABLES + SCAN + rest).digest())
        path = os.path.join(directory, f"{number:05}.jpg")
        write_file(path, before, rest)
        write_file(f"{path}.verdicts", verdicts)


def make_one(path, size, maker, front):
    """A photograph or a film that ends with zeros, which take no room on a disk that can leave them out."""
    digest = hashlib.sha256(front)
    for at in range(0, size, len(ZEROS)):
        digest.update(ZEROS[: size - at])
    before, verdicts = maker.before(digest.digest())
    with open(path, "wb") as file:
        file.write(before)
        file.truncate(len(before) + size)
    write_file(f"{path}.verdicts", verdicts)


def main():
    if sys.argv[1] == "--one":
        make_one(sys.argv[2], int(sys.argv[3]), Photographs(TABLES + SCAN), FRONT + TABLES + SCAN)
    elif sys.argv[1] == "--film":
        film = Film(int(sys.argv[3]))
        make_one(sys.argv[2], int(sys.argv[3]), film, film.word + film.head)
    else:
        make_archive(sys.argv[1], int(sys.argv[2]), int(sys.argv[3]))


if __name__ == "__main__":
    main()
