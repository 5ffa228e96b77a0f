#!/usr/bin/env python3
"""Runs c2's `plan` and `embed` beside builder.py, on media, old stores, definitions, redactions and messages that are drawn at random.

    chance_builds.py C2 COUNT [SEED [KIND]]      draws COUNT inputs, the same ones for the same seed

KIND is `fresh` for JPEGs without a store, `signed` for JPEGs with one, `film` for BMFF files, `all` (the default) for each of these by
turns; definitions and older claims name any of the three algorithms. Of each file that is built rules.py must say that it is valid, its new range taken out it must be the media without its old
store, and the questions behind the first must be those of the media. Prints how often each answer of `embed` came, and each
difference, whose files are kept in the current directory as differs-N.*; the status is 1 where there is one. Without C2 (a word `-`
in its place) builder.py stands beside rules.py alone.
"""

import json
import os
import random
import shutil
import subprocess
import sys
import tempfile
from collections import Counter

import bmff
import hashing
import jumbf
from builder import embed, line_of, plan
from chance_stores import ORDINARY, Drawn, assertion_url, bmff_around, drawn_file, jpeg_around, questions_in, verdict_files
from drafts import APP0
from locate import Refused
from make import packets, segment
from make_store import array, box, data, mapping, open_array, sign1, tag, text, uint
from manifests import manifests_of
from manifests import Manifest as Read
from media import kept_of, media_of, without
from rows import Approving
from store import JUDGE_FAULT, JudgeFault, report, verdicts_in
from told import tell
from vary import varied
from worked_builds import LABEL

KINDS = "fresh", "signed", "film"
FAULT = ("a judge's fault",)
HEADERS = b"\xa1\x01\x26", b"", b"\xa0", b"\xa1\x01\x38\x22"
NAMES = *ORDINARY, "c2pa.actions", "c2pa.actions.v2", "c2pa.actions.v2__1", "|", "\U0001f600", 'x"y\\'
BARRED_NAMES = "", "a/b", "a\n", "c2pa.hash.data", "c2pa.ingredient.v3__1", "c2pa.cloud-data"
ITEMS = b"\xf6", b"\xa0", b"\xbf\x61a\xf9\x7e\0\xff", b"\x18\x05"


# Media


def fresh(chance):
    """A JPEG without a store, perhaps with other packets, and perhaps changed."""
    around = jpeg_around(chance)
    small = box(b"free", b"abc"), box(b"jumb", box(b"jumd", b"x" * 30)), box(b"jumb", b"wide")
    pieces = (packets(chance.choice(small), chance.choice((0x211, 0x212, 0x213, 7)), 24) for _ in range(chance.choice((0, 0, 1, 3))))
    front = around.front + b"".join(b"".join(piece) for piece in pieces)
    if chance.random() < 0.2:
        front = front[:2] + segment(0xE0, b"JFXX", fill=chance.randrange(3)) + APP0 + front[2:]
    contents = front + around.rest + chance.choice((b"", b"behind"))
    return varied(chance, contents) if chance.random() < 0.1 else contents


def film(chance):
    """A BMFF file, with a store or without."""
    if chance.random() < 0.4:
        around = bmff_around(chance)
        return around.front + around.rest
    return Drawn(chance, is_bmff=True).file() if chance.random() < 0.8 else drawn_file(chance, True)


def signed(chance):
    return Drawn(chance).file() if chance.random() < 0.8 else drawn_file(chance)


DRAWN = {"fresh": fresh, "signed": signed, "film": film}


# Definitions and messages


def manifests_in(media):
    """The manifests of a media's store, read; none where there is no store that can be read."""
    try:
        found = media_of(media)
        return [Read(found.store, each) for each in manifests_of(jumbf.read(found.store))] if found else []
    except Refused:
        return []


def drawn_label(chance, manifests):
    taken = [manifest.label for manifest in manifests if manifest.label.startswith("urn:c2pa:")]
    if taken and chance.random() < 0.1:
        return chance.choice(taken)
    return "urn:c2pa:%08x-0000-4000-8000-%012x" % (chance.getrandbits(32), chance.getrandbits(48))


def drawn_redactions(chance, manifests):
    """Entries of which most can be redacted, where there are manifests."""
    there = [(manifest.label, label) for manifest in manifests for label in manifest.labelled if label in ORDINARY]
    entries = [assertion_url(*named) for named in chance.sample(there, min(len(there), chance.choice((0, 0, 1, 1, 2, 4))))]
    if chance.random() < 0.08:
        odd = "", "a\n", "self#jumbf=c2pa.assertions/test.note", assertion_url("m", "c2pa.hash.data"), assertion_url("m", "c2pa.actions")
        entries.append(chance.choice((*odd, assertion_url("m", "none"), assertion_url("m", "c2pa.ingredient.v3"), *entries)))
    chance.shuffle(entries)
    return entries


def drawn_assertion(chance, label):
    kind = chance.choice(("cbor", "json"))
    contents = chance.choice(ITEMS) if kind == "cbor" else chance.randbytes(chance.choice((0, 3, 300)))
    return {"label": label, "kind": kind, "hex": contents.hex()}


def drawn_definition(chance, manifests, message):
    """The bytes of a definition file, and the header that it protects."""
    protected, bare = message
    reserve = chance.choice((256, 400, bare, bare, bare + 5, bare + chance.randrange(40), bare + 262, bare + 65_543, 70_000))
    fields = {
        "label": drawn_label(chance, manifests),
        "instance_id": chance.choice(("xmp:iid:sample", "\u00e4\U0001f600", "x\n")),
        "generator": chance.choice(("c2", "a tool")),
        "title": chance.choice(("", "A title", "t" * 300)),
        "protected": protected.hex(),
        "reserve": max(64, reserve),
        "assertions": [drawn_assertion(chance, label) for label in chance.sample(NAMES, chance.choice((0, 0, 1, 2, 4)))],
        "redact": drawn_redactions(chance, manifests),
        "alg": chance.choice(list(hashing.LENGTHS)),
    }
    for field in "title", "assertions", "redact", "alg":
        if chance.random() < 0.3:
            del fields[field]
    if chance.random() < 0.1:
        put_fault(chance, fields)
    members = list(fields.items())
    chance.shuffle(members)
    spelled = json.dumps(dict(members), ensure_ascii=chance.random() < 0.5, indent=chance.choice((None, None, 1))).encode()
    return varied(chance, spelled) if chance.random() < 0.04 else spelled


def put_fault(chance, fields):
    """Another value of a field, or a field less or more."""
    field = chance.choice((*fields, "more"))
    values = None, "", 7, 256.0, [], {}, [1], "zz", "A10126", "SHA-512", LABEL.upper(), ["x"], [drawn_assertion(chance, chance.choice(BARRED_NAMES))]
    if chance.random() < 0.2 and field in fields:
        del fields[field]
    else:
        fields[field] = chance.choice((*values, [drawn_assertion(chance, "a")] * 2, [{"label": "a", "kind": "json"}], 63, 1_048_577))


def drawn_message(chance):
    """A message, the header that it protects, and how long it is in deterministic spelling."""
    protected, signature = chance.choice(HEADERS[:2] if chance.random() < 0.95 else HEADERS), chance.randbytes(chance.choice((0, 32, 64, 300)))
    keys = [uint(33), text("x5chain"), text("a"), data(b"pad"), b"\x20", b"\x82\0\1", *(uint(number) for number in range(40, 70))]
    count = chance.choice((0, 0, 0, 1, 2, 5, 20)) if chance.random() < 0.95 else 21
    pairs = [(key, chance.choice((b"\xf6", b"\0", data(bytes(30)), array(mapping(("b", b"\0"), ("a", b"\1"))))))
             for key in chance.sample(keys, count)]
    bare = len(tag(18, sign1(protected, mapping(*pairs), signature=signature)))
    if chance.random() < 0.04:
        pairs.append(chance.choice((("pad", data(b"")), ("pad2", b"\xf6"), (bytes.fromhex("a200010102"), b"\0"))))
    if chance.random() < 0.02:
        pairs += [(bytes.fromhex("a200010203"), b"\0"), (bytes.fromhex("a202030001"), b"\0")]
    header = mapping(*pairs, width=chance.choice((None, 2)))
    plain = sign1(protected, header, signature=signature)
    spelled = chance.choice((plain, tag(18, plain), open_array(data(protected), header, b"\xf6", data(signature))))
    return (varied(chance, spelled) if chance.random() < 0.03 else spelled), (protected, bare)


# What a built file must be


def questions(contents):
    return report("questions", contents, [Approving()])[0].split("\n") if media_of(contents) else []


def wrong_in(media, built, planned):
    """What isn't as it must be in a file that was built over a media."""
    contents, start, length = built
    found = media_of(contents)
    if (found.start, found.length) != (start, length):
        yield f"the store stands at {found.start}, {found.length} bytes"
    said = report("validate", contents, [Approving()])[0]
    if not said.startswith("valid "):
        yield said
    if without(contents, start, length) not in kept_of(media):
        yield "other bytes around the store"
    others, older = questions(contents)[1:], questions(media)
    if others != older:
        yield f"questions {others}, not {older}"
    claim = Read(found.store, manifests_of(jumbf.read(found.store))[-1]).claim.encoded
    if planned[0] != "tbs" or not planned[1].endswith(b"\x40" + data(claim)):
        yield f"{line_of(planned)[0][:100]} was to be signed"


# Beside c2


class Builds:
    """Runs of c2 beside builder.py, in a folder."""

    def __init__(self, program, folder):
        self.program, self.folder = program, folder
        self.answers, self.differences = Counter(), 0

    def path(self, name):
        return os.path.join(self.folder, name)

    def compare(self, media, definition, signature, files):
        judges = [None if rows is None else verdicts_in(rows) for rows in files]
        planned, built = told(plan, media, definition, judges), told(embed, media, definition, signature, judges)
        self.answers[kind_of(built)] += 1
        wrong = list(wrong_in(media, built, planned)) if isinstance(built[0], bytes) else []
        self.write({"media": media, "definition": definition, "signature": signature})
        if self.program:
            names = [self.verdicts(number, rows) for number, rows in enumerate(files)]
            wrong += self.differs(planned, ["plan", self.path("media"), self.path("definition"), *names])
            words = ["embed", self.path("media"), self.path("definition"), self.path("signature"), self.path("out"), *names]
            wrong += self.differs(built, words)
        if wrong:
            self.differences += 1
            for name in "media", "definition", "signature":
                shutil.copy(self.path(name), f"differs-{self.differences}.{name}")
            for each in wrong:
                print(f"differs-{self.differences}, {len(files)} verdict files: {each}")
        return built

    def differs(self, known, words):
        """What c2 prints or writes otherwise."""
        out = self.path("out")
        if os.path.exists(out):
            os.remove(out)
        done = subprocess.run([self.program, *words], stdout=subprocess.PIPE, check=False)
        line, status = ("", JUDGE_FAULT) if known == FAULT else line_of(known)
        printed = (line + "\n").encode() if line else b""
        if (done.stdout, done.returncode) != (printed, status):
            yield f"{words[0]} says {done.returncode} {done.stdout[:300]}, not {status} {printed[:300]}"
        if words[0] == "embed":
            written = self.read_out(out)
            if written != (known[0] if isinstance(known[0], bytes) else None):
                yield f"another file of {written and len(written)} bytes"

    def read_out(self, out):
        if not os.path.exists(out):
            return None
        with open(out, "rb") as file:
            return file.read()

    def write(self, files):
        for name, contents in files.items():
            with open(self.path(name), "wb") as file:
                file.write(contents)

    def verdicts(self, number, rows):
        """The path of a verdict file; nothing is there where it has no rows."""
        name = f"verdicts-{number}"
        if rows is not None:
            self.write({name: rows})
        elif os.path.exists(self.path(name)):
            os.remove(self.path(name))
        return self.path(name)


def told(call, *given):
    try:
        return call(*given)
    except JudgeFault:
        return FAULT


def kind_of(built):
    if isinstance(built[0], bytes):
        *older, new = (manifest.algorithm(None) for manifest in manifests_in(built[0]))
        return f"embedded by {new}" + (f" over {older[-1]}" if older else "")
    name, *kept = built[1:] or built
    return " ".join(map(str, [name, *(kept[:1] if name in ("BadDefinition", "BadSignature", "MediaRefused", "ParentFails") else kept[1:])]))


def main():
    program, count, *more = sys.argv[1:]
    chance = random.Random(int(more[0]) if more else 1)
    kinds = KINDS if more[1:] in ([], ["all"]) else more[1:]
    with tempfile.TemporaryDirectory() as folder:
        builds = Builds(None if program == "-" else os.path.abspath(program), folder)
        chain = None
        for number in range(int(count)):
            kind = kinds[number % len(kinds)]
            # now and then the file that was built last is signed again
            media = chain if chain and kind != "fresh" and chance.random() < 0.3 else DRAWN[kind](chance)
            message, said = drawn_message(chance)
            definition = drawn_definition(chance, manifests_in(media), said)
            built = builds.compare(media, definition, message, verdict_files(chance, questions_in(media)))
            chain = built[0] if isinstance(built[0], bytes) and len(built[0]) < 20_000 else None
    tell(builds.answers, f"{count} builds, {builds.differences} differences", builds.differences)


if __name__ == "__main__":
    main()
