#!/usr/bin/env python3
"""A newsroom signs a photograph or a film by c2, and another one signs it again: `plan`, a key outside c2, `embed`, a judge outside c2, `validate`.

    sign_new.py C2 FILE..        of each JPEG or BMFF file without a store: plans, signs (ES256, by the package `cryptography`), embeds,
                                 asks for the questions, judges them with the public keys, and validates. Then the same over the signed
                                 file with another key and by another algorithm of digests, and over that one with a third key, by a
                                 third algorithm and with both older notes redacted. Compares what a decoder makes of each file with
                                 what it makes of the first (djpeg, heif-dec, avifdec, else ffmpeg's framemd5), and what it has outside
                                 its range; exiftool must find the boxes of a JPEG, builder.py build the same file, and store.py
                                 validate it. `strip` must give back the first file, which decoder and exiftool read, and `extract` the
                                 store, which `validate-external` checks beside both files as external.py does

Prints a line for each file; the first difference ends the run with status 1.
"""
import json
import os
import shutil
import subprocess
import sys
import tempfile
import uuid

from cryptography.hazmat.primitives import hashes
from cryptography.hazmat.primitives.asymmetric import ec
from cryptography.hazmat.primitives.asymmetric.utils import decode_dss_signature, encode_dss_signature

from external import extract
from external import told as told_externally
from make_store import array, data, mapping, tag

HERE = os.path.dirname(os.path.abspath(__file__))
NULL = b"\xf6"
PROTECTED = mapping((b"\x01", b"\x26"))  # ES256
NOTE = "org.example.place"
# By turns, so that each parent's digests are by another algorithm than its child's.
ALGORITHMS = "sha256", "sha512", "sha384"
URL = "self#jumbf=/c2pa/"


def run(*words, wanted=0):
    done = subprocess.run(words, capture_output=True)
    if done.returncode != wanted:
        sys.exit(f"{' '.join(words)}: status {done.returncode}, {done.stdout[:200]!r}")
    return done.stdout


def definition(label, redacted, alg):
    action = mapping((b"\x67actions", array(mapping((b"\x66action", b"\x6cc2pa.created")))))
    return json.dumps({
        "label": label, "instance_id": f"xmp:iid:{uuid.uuid4()}", "generator": "sign_new.py", "title": "A photograph",
        "protected": PROTECTED.hex(), "reserve": 1024, "redact": [f"{URL}{each}/c2pa.assertions/{NOTE}" for each in redacted], "alg": alg,
        "assertions": [
            {"label": "c2pa.actions.v2", "kind": "cbor", "hex": action.hex()},
            {"label": NOTE, "kind": "json", "hex": b'{"place":"a street"}'.hex()},
        ],
    })


def signed(key, tbs):
    r, s = decode_dss_signature(key.sign(tbs, ec.ECDSA(hashes.SHA256())))
    return tag(18, array(data(PROTECTED), mapping(), NULL, data(r.to_bytes(32, "big") + s.to_bytes(32, "big"))))


def decoded(name, kind, folder):
    """What a decoder makes of a file of this kind, where one is there; of a film, the sums of its packets."""
    picture = os.path.join(folder, "decoded.png")
    heif = shutil.which("heif-dec") or shutil.which("heif-convert")
    if kind == ".jpg" and shutil.which("djpeg"):
        return run("djpeg", name)
    if kind == ".heic" and heif:
        run(heif, name, picture)
        return contents_of(picture)
    if kind == ".avif" and shutil.which("avifdec"):
        run("avifdec", name, picture)
        return contents_of(picture)
    if kind not in (".jpg", ".heic", ".avif") and shutil.which("ffmpeg"):
        return run("ffmpeg", "-nostdin", "-loglevel", "error", "-i", name, "-map", "0", "-c", "copy", "-f", "framemd5", "-")
    return None


def contents_of(name):
    with open(name, "rb") as file:
        return file.read()


class Way:
    """The files of a picture, and the manifests that it has: for each label, whether its note is there."""

    def __init__(self, c2, picture, folder):
        self.c2, self.picture, self.folder, self.notes = c2, picture, folder, {}
        self.kind = os.path.splitext(picture)[1]
        self.seen = decoded(picture, self.kind, folder)
        self.media, self.verdicts = picture, []

    def path(self, name):
        return os.path.join(self.folder, f"{name}-{len(self.notes)}")

    def write(self, name, contents):
        with open(self.path(name), "wb") as file:
            file.write(contents)
        return self.path(name)

    def sign(self, redacted=()):
        """Signs the picture, or what was made of it last, with a key of its own."""
        label, key = f"urn:c2pa:{uuid.uuid4()}", ec.generate_private_key(ec.SECP256R1())
        given = self.write("definition", definition(label, redacted, ALGORITHMS[len(self.notes) % len(ALGORITHMS)]).encode())
        tbs = bytes.fromhex(run(self.c2, "plan", self.media, given, *self.verdicts).decode().split()[1])
        message = self.write("message", signed(key, tbs))
        new, files = self.path("new") + self.kind, (self.media, given, message)
        embedded = run(self.c2, "embed", *files, new, *self.verdicts)
        again = self.path("again.jpg")
        program = [sys.executable, os.path.join(HERE, "builder.py"), "embed", *files, again, *self.verdicts]
        if run(*program) != embedded or contents_of(again) != contents_of(new):
            self.end("builder.py builds another file")
        self.notes |= {each: False for each in redacted} | {label: True}
        self.judge(new, key, tbs, message, label)
        self.compare(new, *map(int, embedded.decode().split()[1:]))
        self.media = new

    def judge(self, new, key, tbs, message, label):
        """The first question is that of the new message; those behind it were judged before."""
        first, *older = run(self.c2, "questions", new, *self.verdicts).decode().splitlines()
        question, named, verdict = first.split()
        if (named, verdict) != (label, "silent") or any(not line.endswith(" approved") for line in older):
            self.end(f"the questions {first} {older}")
        run(self.c2, "validate", new, *self.verdicts, wanted=1)
        raw = contents_of(message)[-64:]
        numbers = (int.from_bytes(raw[at : at + 32], "big") for at in (0, 32))
        key.public_key().verify(encode_dss_signature(*numbers), tbs, ec.ECDSA(hashes.SHA256()))
        self.verdicts = [*self.verdicts, self.write("verdicts", f"{question} approved\n".encode())]

    def compare(self, new, start, length):
        """Whether the new file is as it must be."""
        line = run(self.c2, "validate", new, *self.verdicts).decode().strip()
        if not line.startswith(f"valid manifests={len(self.notes)} "):
            self.end(line)
        if run(sys.executable, os.path.join(HERE, "store.py"), "validate", new, *self.verdicts).decode().strip() != line:
            self.end("store.py answers something else")
        contents = contents_of(new)
        if contents[:start] + contents[start + length :] != contents_of(self.picture):
            self.end("the new file isn't the picture outside its range")
        if decoded(new, self.kind, self.folder) != self.seen:
            self.end("something else is decoded")
        if self.kind == ".jpg" and shutil.which("exiftool"):
            self.compare_labels(new)
        self.take_out(new, start, length)
        print(f"{os.path.basename(self.picture)}: {line}")

    def take_out(self, new, start, length):
        """Whether the picture is left without the store, and the store beside it answers as it must."""
        left, store = self.path("left") + self.kind, self.path("store")
        if run(self.c2, "strip", new, left).decode() != f"stripped {start} {length}\n" or contents_of(left) != contents_of(self.picture):
            self.end("strip leaves something else")
        if decoded(left, self.kind, self.folder) != self.seen:
            self.end("something else is decoded of what strip leaves")
        if shutil.which("exiftool"):
            told = [run("exiftool", "-a", "-G1", "-s", "--System:all", "--ExifTool:all", name) for name in (left, self.picture)]
            if told[0] != told[1]:
                self.end("exiftool reads something else of what strip leaves")
        if run(self.c2, "extract", new, store).decode() != f"extracted {len(contents_of(store))}\n" or contents_of(store) != extract(contents_of(new))[2]:
            self.end("extract writes another store")
        for media in new, left:
            words = "validate-external", media, store, *self.verdicts
            printed, status = told_externally(*words)
            if run(self.c2, *words, wanted=status) != printed:
                self.end("external.py answers something else")

    def compare_labels(self, new):
        """The labels that exiftool finds are those of the picture, and among them those of the store's boxes in their order."""
        found, before = (run("exiftool", "-a", "-s3", "-JUMDLabel", name).decode().split("\n") for name in (new, self.picture))
        wanted, binding = ["c2pa"], "c2pa.hash.data" if self.kind == ".jpg" else "c2pa.hash.bmff.v2"
        for at, (label, has_note) in enumerate(self.notes.items()):
            notes, parents = [NOTE] * has_note, ["c2pa.ingredient.v3"] * (at > 0)
            wanted += [label, "c2pa.assertions", "c2pa.actions.v2", *notes, *parents, binding, "c2pa.claim.v2", "c2pa.signature"]
        at = found.index("c2pa") if "c2pa" in found else len(found)
        if found[at : at + len(wanted)] != wanted or found[:at] + found[at + len(wanted) :] != before:
            self.end(f"exiftool finds the boxes {found}")

    def end(self, difference):
        sys.exit(f"{self.picture}, signed {len(self.notes)} times: {difference}")


def main():
    c2, *pictures = sys.argv[1:]
    for picture in pictures:
        with tempfile.TemporaryDirectory() as folder:
            way = Way(c2, picture, folder)
            way.sign()
            way.sign()
            way.sign(redacted=list(way.notes))
    print(f"{len(pictures)} files are signed three times, put in and accepted")


if __name__ == "__main__":
    main()
