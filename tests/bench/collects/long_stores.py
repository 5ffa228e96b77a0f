#!/usr/bin/env python3
"""Processor time and peak memory of `plan-collect` and `embed-collect` of files with long stores: long_stores.py C2 FOLDER [SCALE [SECONDS MB]].

Two JPEGs and two films with stores of 16 MB, of which the labels differ; one of them and itself, whose manifests are compared; a file without a store
and one with the longest store; two files with 1,022 manifests, of which all but the active ones are in both, in one order and in the other one, so that
the new store has as many as a store may; and two with 1,023 and 1,024 manifests of which none is in both, which are refused. SCALE is in percent of these
sizes. Each new file must be that of collect.py, and be valid, and each refusal that of collect.py. The status is 1 where it isn't, or where a command
takes more than so many seconds (5) or so much memory (75 MB, where the three stores have 64 MB together).
"""

import os
import subprocess
import sys
import tempfile

sys.path.insert(0, os.path.join(os.path.dirname(os.path.abspath(__file__)), "..", "..", "real"))
import collect
from chance_stores import questions_in
from collect_rows import active, kept, made, picture
from drafts import ALL_EXCLUDED, Assertion, Bmff, BmffHash, DataHash, Manifest
from media import media_of
from tables import Approving
from told import write
from worked_builds import FILM, LATER_DEFINITION, MESSAGE, SMALL

SIZE, LARGEST, MANIFESTS = 16_000_000, 33_554_432, 1_021
# The files that each command names.
NAMES = {
    "plan-collect": ("media", "definition", "other", "verdicts"),
    "embed-collect": ("media", "definition", "message", "other", "out", "verdicts"),
    "validate": ("out", "approving"),
}


def film(label, count):
    return Bmff(FILM, b"").file([Manifest(label, Assertion("test.note", os.urandom(count), b"bidb"), BmffHash(ALL_EXCLUDED))])


def jpeg(label, count):
    return picture(Manifest(label, Assertion("test.note", os.urandom(count), b"bidb"), DataHash()))


def many(label, order):
    """A JPEG whose active manifest names all the others, of these numbers, in an order."""
    below = [kept(f"{number:04}") for number in order]
    return picture(*below, active(label, *(draft.label for draft in below)))


def pairs(scale):
    """What is collected into what."""
    size, count = int(SIZE * scale / 100), int(MANIFESTS * scale / 100)
    one = jpeg("m", size)
    yield "two JPEGs", one, jpeg("e", size)
    yield "a JPEG and itself", one, one
    yield "two films", film("m", size), film("e", size)
    more = len(media_of(made(SMALL, film("e", 10_000))).store) - 10_000
    yield "a film with the longest store", SMALL, film("e", int(scale / 100 * (LARGEST - more)))
    first = many("m", range(count))
    yield "the same manifests", first, many("e", range(count))
    yield "the same in the other order", first, many("e", reversed(range(count)))
    yield "others, one too many", many("m", range(count + 1)), many("e", range(count + 1, 2 * count + 3))


# The C library keeps freed blocks below a size of its own choice, which would be measured as if they were in use.
GIVEN_BACK = {"MALLOC_MMAP_THRESHOLD_": "65536", "MALLOC_TRIM_THRESHOLD_": "65536"}


def run(words):
    """Processor seconds, peak memory in MB, and what a program prints."""
    with tempfile.NamedTemporaryFile() as told:
        done = subprocess.run(["/usr/bin/time", "-q", "-f", "%U %S %M", "-o", told.name, *words], stdout=subprocess.PIPE, env=os.environ | GIVEN_BACK, check=False)
        user, system, memory = told.read().split()
    return float(user) + float(system), int(memory) * 1024 / 1e6, done.stdout.decode().strip()


class Measured:
    """Runs over files in a folder, against limits."""

    def __init__(self, program, folder, limits):
        self.program, self.folder, self.limits, self.all_right = program, folder, limits, True

    def path(self, name):
        return os.path.join(self.folder, name)

    def measure(self, what, media, other):
        identities = sorted({*questions_in(media), *questions_in(other)})
        files = {"media": media, "definition": LATER_DEFINITION, "message": MESSAGE, "other": other}
        files["verdicts"] = "".join(f"{each} approved\n" for each in identities).encode()
        for name, contents in files.items():
            write(self.path(name), contents)
        if os.path.exists(self.path("out")):
            os.remove(self.path("out"))
        known, *numbers = collect.embed(media, LATER_DEFINITION, MESSAGE, other, [Approving()])
        if known == "build":
            refused = " ".join(map(str, (known, *numbers)))
            self.tell(what, media, other, "plan-collect", refused)
            self.tell(what, media, other, "embed-collect", refused)
            return
        self.tell(what, media, other, "plan-collect", "tbs ")
        self.tell(what, media, other, "embed-collect", f"embedded {numbers[0]} {numbers[1]}", known)
        write(self.path("approving"), "".join(f"{each} approved\n" for each in questions_in(known)).encode())
        self.tell(what, media, other, "validate", "valid ")

    def tell(self, what, media, other, command, line, known=None):
        """Runs a command, and says what it took, and what is wrong: its report, its new file, or what it took."""
        seconds, memory, told = run([self.program, command, *map(self.path, NAMES[command])])
        wrong = "" if told.startswith(line) else f"  {told[:100]}"
        if known is not None and not wrong:
            with open(self.path("out"), "rb") as file:
                wrong = "" if file.read() == known else "  another file"
        if command != "validate" and (seconds > self.limits[0] or memory > self.limits[1]):
            wrong += "  above"
        self.all_right &= not wrong
        print(f"{what:30} {len(media) / 1e6:6.1f} {len(other) / 1e6:6.1f} MB  {command:13} {seconds:6.2f} s {memory:6.1f} MB{wrong}", flush=True)


def main():
    program, folder, *more = sys.argv[1:]
    scale, *limits = [*map(float, more), *(100, 5, 75)[len(more) :]]
    with tempfile.TemporaryDirectory(dir=folder) as work:
        measured = Measured(os.path.abspath(program), work, limits)
        for each in pairs(scale):
            measured.measure(*each)
    sys.exit(not measured.all_right)


if __name__ == "__main__":
    main()
