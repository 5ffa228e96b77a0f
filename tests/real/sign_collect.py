#!/usr/bin/env python3
"""A newsroom makes a picture of others by c2: two files that two others signed are collected into a third one, which is signed with a third key, judged
and validated; `plan-collect`, keys outside c2, `embed-collect`, judges outside c2, `validate`.

    sign_collect.py C2 FILE..    of each three JPEGs or BMFF files without a store, by turns: the second and the third are signed, each with a key of its
                                 own, and collected into the first, one after the other. The verdicts on the three keys stand in three files, of which
                                 none may be left out. Then notes of the two others are redacted by `embed`; a file is collected a second time; and two
                                 files that were made of one picture are collected into each other, so that both have its manifest. At last a chain:
                                 ten files, each of which has the one before it collected, and ten that are collected into one, one after the other

Each new file is compared with that of collect.py, and with what collected.py says of it; the answer with that of store.py; what a decoder makes of it
with what it makes of the first file (djpeg, heif-dec, avifdec, else ffmpeg). `strip` must give back that file, `extract` write the store, and exiftool find
the labels of all manifests in a JPEG. Prints a line for each three; the first difference ends the run with status 1.
"""

import os
import shutil
import sys
import tempfile
import uuid

from cryptography.hazmat.primitives import hashes
from cryptography.hazmat.primitives.asymmetric import ec
from cryptography.hazmat.primitives.asymmetric.utils import encode_dss_signature

import builder
import collect
import external
from collected import History, wrong_in
from definition import read as read_definition
from sign_new import ALGORITHMS, NOTE, contents_of, decoded, definition, run, signed
from store import report, verdicts_in

FAILING, BUILD_REFUSED = 1, 11
CHAIN = 10


class Signer:
    """A key of its own, and a verdict file on what was signed with it."""

    def __init__(self, name):
        self.key, self.name, self.approved = ec.generate_private_key(ec.SECP256R1()), name, []

    def judge(self, question, message, tbs):
        """Looks whether a message is a signature with this key, and approves its question."""
        raw = message[-64:]
        numbers = (int.from_bytes(raw[at : at + 32], "big") for at in (0, 32))
        self.key.public_key().verify(encode_dss_signature(*numbers), tbs, ec.ECDSA(hashes.SHA256()))
        self.approved.append(question)
        with open(self.name, "w", encoding="utf-8") as file:
            file.writelines(f"{each} approved\n" for each in self.approved)


class Newsroom:
    """Files that are signed in a folder, by signers whose verdicts are asked for all that they signed."""

    def __init__(self, c2, folder):
        self.c2, self.folder, self.count, self.signers = c2, folder, 0, []

    def path(self, name):
        return os.path.join(self.folder, name)

    def write(self, name, contents):
        with open(self.path(name), "wb") as file:
            file.write(contents)
        return self.path(name)

    def signer(self):
        self.signers.append(Signer(self.path(f"verdicts-{len(self.signers)}")))
        return self.signers[-1]

    def verdicts(self):
        return [signer.name for signer in self.signers if signer.approved]

    def sign(self, signer, media, other=None, redacted=(), alg=None):
        """Signs a file, into which another one is collected where there is one: the new file, which has been compared and judged."""
        self.count += 1
        new = self.path(f"{self.count}{os.path.splitext(media)[1]}")
        named, others = ("-collect", [other]) if other else ("", [])
        text = definition(f"urn:c2pa:{uuid.uuid4()}", [], alg or ALGORITHMS[self.count % len(ALGORITHMS)])
        given = self.write("definition", with_redactions(text, redacted).encode())
        verdicts = self.verdicts()
        tbs = bytes.fromhex(run(self.c2, f"plan{named}", media, given, *others, *verdicts).decode().split()[1])
        message = self.write("message", signed(signer.key, tbs))
        line = run(self.c2, f"embed{named}", media, given, message, *others, new, *verdicts).decode().strip()
        self.compare(new, line, [media, given, message, *others], tbs)
        question, _, verdict = run(self.c2, "questions", new, *verdicts).decode().splitlines()[0].split()
        if verdict != "silent":
            self.end(new, f"{verdict} is said of a question that no one was asked")
        signer.judge(question, contents_of(message), tbs)
        self.validated(new)
        return new

    def compare(self, new, line, files, tbs):
        """Whether the new file is that of the independent program, and as it must be."""
        media, given, message, *others = map(contents_of, files)
        judges = [verdicts_in(contents_of(name)) for name in self.verdicts()]
        made = (collect.embed if others else builder.embed)(media, given, message, *others, judges)
        if not isinstance(made[0], bytes) or made[0] != contents_of(new) or line != f"embedded {made[1]} {made[2]}":
            self.end(new, f"the independent program builds another file than {line}: {made[1:]}")
        for other in others:
            for wrong in wrong_in(media, other, made, ("tbs", tbs), read_definition(given).redactions):
                self.end(new, wrong)

    def validated(self, name):
        """The answer of c2, which is that of store.py: all is valid."""
        line = run(self.c2, "validate", name, *self.verdicts()).decode().strip()
        known = report("validate", contents_of(name), [verdicts_in(contents_of(each)) for each in self.verdicts()])[0]
        if line != known or not line.startswith("valid "):
            self.end(name, f"{line}, and store.py says {known}")
        return line

    def each_is_wanted(self, name):
        """No verdict file may be left out."""
        files = self.verdicts()
        for left_out in range(len(files)):
            line = run(self.c2, "validate", name, *files[:left_out], *files[left_out + 1 :], wanted=FAILING).decode()
            if not line.startswith("failing profile.verdict.missing "):
                self.end(name, f"without {files[left_out]}: {line}")

    def seen_as(self, new, first):
        """Whether a new file is the first one but for its store."""
        kind = os.path.splitext(first)[1]
        if decoded(new, kind, self.folder) != decoded(first, kind, self.folder):
            self.end(new, "something else is decoded")
        left, store = self.path("left" + kind), self.path("store")
        for name in left, store:
            if os.path.exists(name):
                os.remove(name)
        run(self.c2, "strip", new, left)
        run(self.c2, "extract", new, store)
        if contents_of(left) != contents_of(first) or contents_of(store) != external.extract(contents_of(new))[2]:
            self.end(new, "strip or extract writes another file")
        if kind == ".jpg" and shutil.which("exiftool"):
            found = run("exiftool", "-a", "-s3", "-JUMDLabel", new).decode().split("\n")
            if [label for label in found if label.startswith("urn:c2pa:")] != History(contents_of(new)).labels():
                self.end(new, f"exiftool finds the labels {found}")

    def end(self, name, difference):
        sys.exit(f"{name}: {difference}")


def with_redactions(text, redacted):
    return text.replace('"redact": []', '"redact": [' + ", ".join(f'"{each}"' for each in redacted) + "]")


def note_of(name):
    """The URI of the note of a file's active manifest."""
    return f"self#jumbf=/c2pa/{History(contents_of(name)).labels()[-1]}/c2pa.assertions/{NOTE}"


def made_of_two(c2, names, folder):
    """A file made of two others, and what is made of it; the lines of the answers."""
    room = Newsroom(c2, folder)
    own, first, second = names
    one, two, three = (room.signer() for _ in range(3))
    theirs = room.sign(one, first), room.sign(two, second)
    once = room.sign(three, own, theirs[0])
    both = room.sign(three, once, theirs[1])
    yield f"made of two: {room.validated(both)}"
    room.each_is_wanted(both)
    room.seen_as(both, own)
    redacted = room.sign(three, both, redacted=[note_of(name) for name in theirs])
    yield f"redacted: {room.validated(redacted)}"
    room.seen_as(redacted, own)
    yield f"redacted as it is collected: {room.validated(room.sign(three, own, both, redacted=[note_of(theirs[0])]))}"
    yield f"collected twice: {room.validated(room.sign(three, both, theirs[0]))}"
    yield f"into itself: {room.validated(room.sign(three, both, both))}"
    clash = run(c2, "plan-collect", redacted, room.path("definition"), both, *room.verdicts(), wanted=BUILD_REFUSED).decode()
    if not clash.startswith(f"build LabelClash {History(contents_of(theirs[0])).labels()[-1]}"):
        room.end(redacted, clash)
    branches = room.sign(two, theirs[0]), room.sign(three, theirs[0])
    shared = room.sign(one, *branches)
    if len(History(contents_of(shared)).labels()) != 4:
        room.end(shared, "the ancestor isn't shared")
    room.seen_as(shared, first)
    yield f"a shared ancestor: {room.validated(shared)}"


def chains(c2, names, folder):
    """Ten files, each with the one before it collected; ten that are collected into one; and both of these together."""
    room, turns = Newsroom(c2, folder), [names[at % len(names)] for at in range(CHAIN)]
    signers = [room.signer() for _ in range(3)]
    last = room.sign(signers[0], turns[0])
    for at, name in enumerate(turns[1:], 1):
        last = room.sign(signers[at % 3], name, last)
    yield f"a chain of {CHAIN}: {room.validated(last)}"
    gathered = turns[0]
    for at, name in enumerate(turns):
        gathered = room.sign(signers[at % 3], gathered, room.sign(signers[at % 3], name))
    room.seen_as(gathered, turns[0])
    yield f"{CHAIN} in one: {room.validated(gathered)}"
    yield f"one in the other: {room.validated(room.sign(signers[0], gathered, last))}"


def main():
    c2, *names = sys.argv[1:]
    c2 = os.path.abspath(c2)
    threes = [[names[(at + by) % len(names)] for by in range(3)] for at in range(len(names))]
    for three in threes:
        with tempfile.TemporaryDirectory() as folder:
            for line in made_of_two(c2, three, folder):
                print(f"{', '.join(map(os.path.basename, three))}: {line}", flush=True)
    with tempfile.TemporaryDirectory() as folder:
        for line in chains(c2, names, folder):
            print(line, flush=True)
    print(f"{len(threes)} files are made of others, put in and accepted")


if __name__ == "__main__":
    main()
