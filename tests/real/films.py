#!/usr/bin/env python3
"""Puts stores into films and pictures in BMFF files, and compares what c2 says of them with store.py.

    films.py C2 DIRECTORY [RUNS]      reads the files of DIRECTORY, writes further ones beside them, and runs every reading command of
                                      C2; and so many runs, or a few more, on files with a store that are changed at random

A file without a store must be `none`, or NotMedia where it doesn't begin with a box `ftyp`; what a file with a store must be is
said beside each variant. One of them is signed with a key, and its verdict file says whether the signature holds; of the others a
judge approves all questions. The status is 1 where C2 or store.py says another thing than it must, or C2 another than store.py; a
changed file at which C2 does is kept in the current directory as differs-N. With `-` in place of C2 store.py alone is asked.
"""

import os
import random
import shutil
import subprocess
import sys
import zlib
from collections import Counter

from cryptography.hazmat.primitives.asymmetric import ec

import store
from bmff import Exclusion, check_support, root_boxes
from box_changes import changed_boxes
from cbor import read_whole
from chance_stores import questions_in
from drafts import ACTIONS, ALL_EXCLUDED, Assertion, Bmff, BmffHash, DataHash, Manifest, exclusion, subset
from fields import BadBinding
from locate import Refused
from make_store import box
from plain_cover import drawn_exclusion
from sign import certificate_of, verdict_row
from sign_photo import Signed, Signer
from told import tell
from validate import kind_of_answer
from vary import varied

LABEL = "urn:c2pa:11111111-2222-4333-8444-555555555555"
VALID = "valid manifests=1 assertions=2 "
TESTED = f"failing assertion.bmffHash.mismatch self#jumbf=/c2pa/{LABEL}/c2pa.assertions/c2pa.hash.bmff.v2\n"

# Some that leave out a part of what a tool may change later: times, names, the first bytes of the samples.
PARTS = (
    *ALL_EXCLUDED,
    exclusion("/free"),
    exclusion("/moov/udta"),
    exclusion("/moov/mvhd", subset((12, 8))),
    exclusion("/moov/trak[1]/tkhd", subset((12, 8), (40, 0))),
    exclusion("/moov/trak/mdia/hdlr"),
    exclusion("/moov/trak/mdia/minf/stbl/stco"),
    exclusion("/moof[2]/traf/tfdt"),
    exclusion("/mdat", subset((0, 16))),
    exclusion("/meta"),
)


def manifest(*bindings):
    return [Manifest(LABEL, Assertion("c2pa.actions.v2", ACTIONS), *bindings)]


def signed(data):
    """A file that is signed with a new key."""
    key = ec.generate_private_key(ec.SECP256R1())
    return Signed(Signer(key, [certificate_of(key)]), data)


def drawn(data):
    """Exclusions that are drawn at random, the same ones for the same file."""
    chance = random.Random(zlib.crc32(data))
    some = [drawn_exclusion(chance, data) for _ in range(20)]
    return [*ALL_EXCLUDED, *filter(is_supported, some)]


def is_supported(spelled):
    try:
        check_support([Exclusion(read_whole(spelled))])
    except BadBinding:
        return False
    return True


def with_other_headers(data, roots):
    """A file with a store in which the other boxes have a length in 8 bytes, and the last one none, so that it runs to the end."""
    first, *others = roots
    inside = [data[each.inside : each.end] for each in others]
    rest = b"".join(box(each.kind, payload, wide=True) for each, payload in zip(others[:-1], inside))
    rest += bytes(4) + others[-1].kind + inside[-1] if others else b""
    return Bmff(data[: first.end], rest).file(manifest(BmffHash(ALL_EXCLUDED)))


def variants(data):
    """Name, contents, what `validate` must begin with, and a verdict file, None for one that approves all."""
    roots = root_boxes(data)
    first, last = roots[0].end, roots[-1].start if roots[-1].kind == b"mfra" else len(data)
    in_front, behind = Bmff(data[:first], data[first:]), Bmff(data[:last], data[last:])
    with_store = in_front.file(manifest(BmffHash(ALL_EXCLUDED)))
    yield "in_front", with_store, VALID, None
    yield "parts", in_front.file(manifest(BmffHash(PARTS))), VALID, None
    yield "drawn", in_front.file(manifest(BmffHash(drawn(data)))), VALID, None
    yield "headers", with_other_headers(data, roots), VALID, None
    yield "data_hash", in_front.file(manifest(DataHash())), f"{VALID}covered={len(data)} outside=0\n", None
    yield "cut_short", with_store[:-1], "refused Truncated ", None
    place = next(it.inside for it in reversed(roots) if it.kind not in (b"ftyp", b"mfra") and it.inside < it.end)
    place += len(with_store) - len(data)
    yield "changed", with_store[:place] + bytes([with_store[place] ^ 1]) + with_store[place + 1 :], TESTED, None
    if int.from_bytes(data[roots[-1].start : roots[-1].start + 4], "big") != 0:
        yield "behind", behind.file(manifest(BmffHash(ALL_EXCLUDED))), VALID, None
        yield "twice", Bmff(with_store).around(b"\0\0\0\x08jumb"), "refused TwoStores ", None
        made = signed(data)
        yield "signed", made.bytes, f"{VALID}covered={made.covered} outside={made.outside}\n", verdict_row(made).encode()


class Run:
    """Runs every reading command on files of a directory; without a program only store.py is asked."""

    def __init__(self, program, directory):
        self.program, self.directory = None if program == "-" else os.path.abspath(program), directory
        self.failures, self.runs, self.answers = 0, 0, Counter()

    def compare(self, name, expected="", verdicts=None):
        """Runs the commands on a file; `validate` must print what begins as it is expected, and all where the file holds no store."""
        path = os.path.join(self.directory, name)
        if verdicts is None:
            verdicts = "".join(f"{identity} approved\n" for identity in questions_in(read(path))).encode()
        write(f"{path}.verdicts", verdicts)
        for command in store.COMMANDS:
            words = [command, path, *([f"{path}.verdicts"] if command in ("questions", "validate") else [])]
            answers = {"store.py": store.answer(*words)}
            if self.program:
                done = subprocess.run([self.program, *words], stdout=subprocess.PIPE, check=False)
                answers["c2"] = done.stdout, done.returncode
            self.runs += 1
            if command == "validate":
                self.answers[kind_of_answer(*answers["store.py"])] += 1
            begins = expected if command == "validate" or expected.startswith(("none", "refused")) else ""
            if len(set(answers.values())) > 1 or not all(told.startswith(begins.encode()) for told, _ in answers.values()):
                self.tell(f"{command} {name}", answers, begins)

    def tell(self, what, answers, begins):
        self.failures += 1
        print(f"{what}:")
        for who, (told, status) in answers.items():
            print(f"  {who:8} {status} {told[:300]}")
        if begins:
            print(f"  expected {begins}")

    def compare_changed(self, contents):
        """The same on a changed file, which is kept where c2 differs."""
        path, before = os.path.join(self.directory, "changed"), self.failures
        write(path, contents)
        self.compare("changed")
        if self.failures > before:
            shutil.copy(path, f"differs-{self.failures}")


def changed_at(chance, contents, places, count):
    """Changes of a file, half of them at places."""
    for _ in range(count):
        at = chance.choice(places) if chance.random() < 0.5 else chance.randrange(len(contents))
        yield contents[:at] + varied(chance, contents[at : at + 24]) + contents[at + 24 :]


def write(path, contents):
    with open(path, "wb") as file:
        file.write(contents)


def read(path):
    with open(path, "rb") as file:
        return file.read()


def compare_variants(run, name, data):
    """Compares on what is made of a file; answers the made files that are valid."""
    base, kind = os.path.splitext(name)
    try:
        for variant, contents, expected, verdicts in variants(data):
            made = f"{base}+{variant}{kind}"
            write(os.path.join(run.directory, made), contents)
            run.compare(made, expected, verdicts)
            if expected.startswith("valid "):
                yield contents
    except Refused as refused:
        run.failures += 1
        print(f"{name} is refused: {refused}")


def main():
    program, directory = sys.argv[1:3]
    runs, chance = int(sys.argv[3]) if len(sys.argv) > 3 else 0, random.Random(1)
    run, files, valid = Run(program, directory), sorted(os.listdir(directory)), []
    for name in files:
        data = read(os.path.join(directory, name))
        is_media = data[4:8] == b"ftyp"
        run.compare(name, "none\n" if is_media else "refused NotMedia 0\n")
        if is_media:
            valid += compare_variants(run, name, data)
    print(f"{len(files)} files, {len(valid)} valid ones made of them, {run.runs} runs", flush=True)
    before, run.answers = run.runs, Counter()
    while valid and run.runs - before < runs:
        for contents in valid:
            run.compare_changed(changed_boxes(chance, contents))
    tell(run.answers, f"{run.runs - before} runs on changed files, {run.failures} failures in all", run.failures)


if __name__ == "__main__":
    main()
