#!/usr/bin/env python3
"""Runs c2's `strip`, `extract` and `validate-external` beside external.py, on media files and stores that are drawn at random.

    chance_external.py C2 COUNT [SEED [KIND]]      draws COUNT media, the same ones for the same seed; KIND is jpeg, bmff, or both by turns (the default)

Beside a media lies the store that it has, one that was drafted for it or for what `strip` leaves of it, that of another media, or one of these with
a change. Prints how often each answer came, and each difference, whose files are kept in the current directory as external-N.media, external-N.store
and external-N.verdicts-M. The status is 1 where there is a difference. Without C2 (a word `-` in its place) only the answers are counted.
"""

import os
import random
import subprocess
import sys
import tempfile
from collections import Counter

import external
import jumbf
from chance_stores import Drawn, changed_file, drawn_file, verdict_files
from drafts import DataHash, bound
from locate import Refused
from make_store import box
from manifests import Manifest as Read
from manifests import manifests_of
from store import OUTPUT_FAULT, USAGE, verdicts_in
from told import tell, write
from vary import varied, varied_store

KINDS = "jpeg", "bmff"
OLDER = b"what was there before"


# Media and the stores beside them


def beside(chance, media, drawn):
    """A store that was drafted for a media file, beside which it lies: its data hash excludes nothing, or parts that are drawn."""
    for given in drawn.manifests[-1].assertions:
        if isinstance(given, DataHash) and given.ranges == [None]:
            start = chance.randrange(max(1, len(media) // 2))
            given.ranges = chance.choice(([], [], [(start, chance.choice((0, 1, 5)))]))

    def found():
        return external.apart(media)

    return bound(drawn.manifests, (0, 0), found)


def taken(command, media):
    """What `strip` or `extract` writes, or nothing."""
    return external.answer(command, media)[2]


def drawn_pair(chance, is_bmff):
    """A media file, and the bytes of a store beside it; None where there is no such file."""
    drawn = Drawn(chance, is_bmff)
    if is_bmff and chance.random() < 0.5:
        drawn.media.rest = chance.choice((b"", box(b"mfra", b""), box(b"mfra", b"index")))
    for _ in range(chance.choice((0, 0, 0, 1, 1, 2))):
        drawn.put_fault()
    media = drawn.file() if chance.random() < 0.9 else changed_file(chance, drawn.file())
    own, left = taken("extract", media), taken("strip", media)
    kind = chance.choice(("own", "left", "for it", "for what is left", "for it", "for what is left", "another"))
    if kind == "own" and own:
        store = own
    elif kind == "left" and left:
        media, store = left, own
    elif kind == "for what is left" and left:
        media, store = left, beside(chance, left, drawn)
    elif kind == "another":
        store = taken("extract", drawn_file(chance, is_bmff)) or b""
    else:
        store = beside_or_nothing(chance, media, drawn)
    return (media if chance.random() < 0.93 else varied(chance, media)), with_change(chance, store)


def beside_or_nothing(chance, media, drawn):
    try:
        return beside(chance, media, drawn)
    except Refused:
        return b""


def with_change(chance, store):
    if chance.random() < 0.75 or len(store) < 40:
        return store
    more = chance.choice((b"\0", b"behind", store))
    return chance.choice((varied_store(chance, store), varied(chance, store), store + more, store[:-1], b"", None))


def questions_of(store):
    """The ids of all questions that a store puts."""
    try:
        read = [Read(store, found) for found in manifests_of(jumbf.read(store))] if store else []
    except Refused:
        return []
    return [identity for identity in (it.question() for it in read) if identity]


# Runs


class Externals:
    """Runs of c2 beside external.py, in a folder."""

    def __init__(self, program, folder):
        self.program, self.folder = program, folder
        self.answers, self.runs, self.differences = Counter(), Counter(), 0
        # a program that doesn't know the commands isn't asked
        if program is not None and subprocess.run([program, "strip", self.path("media"), self.path("out")], stdout=subprocess.PIPE, check=False).returncode == USAGE:
            self.program = None

    def path(self, name):
        return os.path.join(self.folder, name)

    def put(self, name, contents):
        """Writes a file; nothing is there where there are no bytes."""
        if contents is not None:
            write(self.path(name), contents)
        elif os.path.exists(self.path(name)):
            os.remove(self.path(name))

    def compare(self, chance, media, store, files):
        """Runs the three commands over a media, a store beside it, and verdict files."""
        kept = {"media": media, "store": store, **{f"verdicts-{number}": rows for number, rows in enumerate(files)}}
        for name, contents in kept.items():
            self.put(name, contents)
        wrong = []
        for command in external.WRITERS:
            older = OLDER if chance.random() < 0.03 else None
            wrong += self.differs(command, external.answer(command, media), ["media", "out"], older)
        judges = [None if rows is None else verdicts_in(rows) for rows in files]
        known = external.answer("validate-external", media, lambda: there(store), judges)
        wrong += self.differs("validate-external", known, list(kept), None)
        if wrong:
            self.differences += 1
            for name, contents in kept.items():
                if contents is not None:
                    write(f"external-{self.differences}.{name}", contents)
            for each in wrong:
                print(f"external-{self.differences}, {len(files)} verdict files: {each}")

    def compare_built(self, media, built):
        """Of a file that `embed` made of a media without a store, `strip` makes the media again."""
        self.put("media", built)
        known = external.answer("strip", built)
        wrong = list(self.differs("strip", known, ["media", "out"], None))
        if external.answer("extract", media)[0] == "none" and known[2] != media:
            wrong.append("what is left isn't the media")
        self.differences += bool(wrong)
        for each in wrong:
            write(f"external-{self.differences}.media", built)
            print(f"external-{self.differences}: {each}")

    def differs(self, command, known, names, older):
        """What c2 prints or writes otherwise. Where OUT is there already a command that has to write it fails, and leaves it."""
        line, status, out = known
        self.answers[f"{command}: {kind_of(line, status)}"] += 1
        if self.program is None:
            return
        self.runs[command] += 1
        if command in external.WRITERS:
            self.put("out", older)
            if older is not None:
                line, status, out = ("", OUTPUT_FAULT, older) if out is not None else (line, status, older)
        done = subprocess.run([self.program, command, *map(self.path, names)], stdout=subprocess.PIPE, check=False)
        printed = (line + "\n").encode() if line else b""
        if (done.stdout, done.returncode) != (printed, status):
            yield f"{command} says {done.returncode} {done.stdout[:300]}, not {status} {printed[:300]}"
        if command in external.WRITERS:
            written = external.contents_of(self.path("out")) if os.path.exists(self.path("out")) else None
            if written != out:
                yield f"{command} writes another file of {written and len(written)} bytes"


def there(store):
    if store is None:
        raise FileNotFoundError
    return store


def kind_of(line, status):
    """An answer without what differs from file to file."""
    words = line.split()
    if not words:
        return f"status {status}"
    return " ".join(words[: {"failing": 2, "strip": 2, "refused": 3 if words[1:2] == ["store"] else 2}.get(words[0], 1)])


def main():
    program, count, *more = sys.argv[1:]
    chance = random.Random(int(more[0]) if more else 1)
    kinds = more[1:] or KINDS
    with tempfile.TemporaryDirectory() as folder:
        externals = Externals(None if program == "-" else os.path.abspath(program), folder)
        for number in range(int(count)):
            media, store = drawn_pair(chance, kinds[number % len(kinds)] == "bmff")
            externals.compare(chance, media, store, verdict_files(chance, questions_of(store)))
    runs = ", ".join(f"{times} of {command}" for command, times in externals.runs.items()) or "none"
    tell(externals.answers, f"{count} media, runs: {runs}; {externals.differences} differences", externals.differences)


if __name__ == "__main__":
    main()
