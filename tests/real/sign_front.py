#!/usr/bin/env python3
"""A newsroom signs films whose store stands in front by c2: `plan-front`, a key outside c2, `embed-front`, a judge outside c2, `validate`.

    sign_front.py C2 FILE..      of each BMFF file without a store: plans, signs (ES256, by the package `cryptography`), embeds, asks for the question,
                                 judges it with the public key, and validates. Compares the new file with that of front.py, what it has outside its
                                 range with the film, and each place in its chunk tables with what it found; what ffmpeg makes of it with what it
                                 makes of the film: decoded, as packets of all tracks, as chapters, and, where the index of the film is in front,
                                 decoded out of a pipe. `strip` must refuse the file, and `extract` write its store. Then the file is signed
                                 again by `embed`, over the store in front. A film that front.py refuses must be refused alike

Prints a line for each file; the first difference ends the run with status 1.
"""

import json
import os
import subprocess
import sys
import tempfile
import uuid

from cryptography.hazmat.primitives import hashes
from cryptography.hazmat.primitives.asymmetric import ec
from cryptography.hazmat.primitives.asymmetric.utils import encode_dss_signature

import external
import front
from bmff import root_boxes
from front_rows import fields_of, wrong_places
from sign_new import ALGORITHMS, contents_of, definition, run, signed
from store import verdicts_in, report

QUIET = "ffmpeg", "-nostdin", "-loglevel", "error"
DECODED = "-map", "0:v?", "-map", "0:a?", "-f", "framemd5", "-"
PACKETS = "-map", "0", "-c", "copy", "-f", "framemd5", "-"
BUILD_REFUSED, NO_VERDICT, STRIP_REFUSED = 11, 1, 13


def seen(name):
    """What ffmpeg makes of a film, by names: the sums of its frames and of its packets, and its chapters."""
    chapters = json.loads(run("ffprobe", "-loglevel", "error", "-show_chapters", "-of", "json", name))
    return {"frames": run(*QUIET, "-i", name, *DECODED), "packets": run(*QUIET, "-i", name, *PACKETS), "chapters": chapters}


def streamed(name):
    """The sums of a film's frames, where the film comes out of a pipe, which can't be read twice."""
    done = subprocess.run([*QUIET, "-i", "pipe:0", *DECODED], input=contents_of(name), capture_output=True)
    return done.stdout if done.returncode == 0 and not done.stderr else None


class Signing:
    """A film, and what is made of it in a folder."""

    def __init__(self, c2, film, folder, number):
        self.c2, self.film, self.folder = c2, film, folder
        self.alg = ALGORITHMS[number % len(ALGORITHMS)]
        self.contents = contents_of(film)
        # the index comes before the samples
        kinds = [box.kind for box in root_boxes(self.contents)]
        self.is_in_front = b"mdat" in kinds and b"moov" in kinds[: kinds.index(b"mdat")]

    def path(self, name):
        return os.path.join(self.folder, name)

    def write(self, name, contents):
        with open(self.path(name), "wb") as file:
            file.write(contents)
        return self.path(name)

    def end(self, difference):
        sys.exit(f"{self.film}: {difference}")

    def sign(self, media, new, commands, *verdicts):
        """Signs a film by a plan and a build, with a key of its own, into a new file: the line of the build, and a verdict file on its question."""
        key = ec.generate_private_key(ec.SECP256R1())
        given = self.write(f"{new}.definition", definition(f"urn:c2pa:{uuid.uuid4()}", [], self.alg).encode())
        tbs = bytes.fromhex(run(self.c2, commands[0], media, given, *verdicts).decode().split()[1])
        message = self.write(f"{new}.message", signed(key, tbs))
        line = run(self.c2, commands[1], media, given, message, self.path(new), *verdicts).decode().strip()
        question, _, verdict = run(self.c2, "questions", self.path(new), *verdicts).decode().splitlines()[0].split()
        run(self.c2, "validate", self.path(new), *verdicts, wanted=NO_VERDICT)
        if verdict != "silent":
            self.end(f"{verdict} is said of a question that no one was asked")
        raw = contents_of(message)[-64:]
        numbers = (int.from_bytes(raw[at : at + 32], "big") for at in (0, 32))
        key.public_key().verify(encode_dss_signature(*numbers), tbs, ec.ECDSA(hashes.SHA256()))
        return line, self.write(f"{new}.verdicts", f"{question} approved\n".encode())

    def sign_in_front(self):
        """The answer on the new file."""
        line, verdicts = self.sign(self.film, "new", ("plan-front", "embed-front"))
        files = [self.contents, *(contents_of(self.path(f"new.{name}")) for name in ("definition", "message"))]
        made, start, length = front.embed(*files)
        if line != f"embedded {start} {length}" or made != contents_of(self.path("new")):
            self.end(f"front.py builds another file than {line}")
        rest = made[:start] + made[start + length :]
        for wrong in wrong_places(self.contents, rest, start, length, made):
            self.end(wrong)
        answer = self.validated("new", 1, verdicts)
        self.compare("new")
        self.take_out(made, start)
        return f"{answer}, {len(list(fields_of(self.contents)))} places"

    def validated(self, name, manifests, *verdicts):
        """The answer of c2, which is that of store.py: so many manifests are valid."""
        line = run(self.c2, "validate", self.path(name), *verdicts).decode().strip()
        known = report("validate", contents_of(self.path(name)), [verdicts_in(contents_of(each)) for each in verdicts])[0]
        if line != known or not line.startswith(f"valid manifests={manifests} "):
            self.end(f"{line}, and store.py says {known}")
        return line

    def compare(self, name):
        """Whether ffmpeg makes the same of a new file."""
        new = seen(self.path(name))
        for what, wanted in seen(self.film).items():
            if new[what] != wanted:
                self.end(f"other {what} of {name}")
        if self.is_in_front and (streamed(self.film) is None or streamed(self.path(name)) != streamed(self.film)):
            self.end(f"other frames of {name} out of a pipe")

    def take_out(self, made, start):
        """`strip` leaves the store where it is, and `extract` writes it."""
        line = f"strip Middle {start}\n".encode()
        if run(self.c2, "strip", self.path("new"), self.path("left"), wanted=STRIP_REFUSED) != line or os.path.exists(self.path("left")):
            self.end("strip takes the store out")
        run(self.c2, "extract", self.path("new"), self.path("store"))
        if contents_of(self.path("store")) != external.extract(made)[2]:
            self.end("extract writes another store")

    def sign_again(self):
        """A further store over the new file, of which all bytes but those of the older store stay where they are."""
        first, second = self.path("new.verdicts"), None
        line, second = self.sign(self.path("new"), "again", ("plan", "embed"), first)
        self.validated("again", 2, first, second)
        old, new = contents_of(self.path("new")), contents_of(self.path("again"))
        start, length = self.range_of("new")
        if new[:start] != old[:start] or new[start + length : len(old)] != old[start + length :] or new[start + 4 : start + 8] != b"free":
            self.end(f"{line}: other bytes than those of the older store are changed")
        self.compare("again")

    def range_of(self, name):
        start, length, _ = run(self.c2, "digest", self.path(name)).split()
        return int(start), int(length)

    def refused(self):
        """The line by which the film is refused, where front.py refuses it too; else nothing."""
        given = self.write("definition", definition(f"urn:c2pa:{uuid.uuid4()}", [], self.alg).encode())
        line, status, _ = front.answer("plan-front", (self.film, given))
        if status != BUILD_REFUSED:
            return None
        printed = run(self.c2, "plan-front", self.film, given, wanted=BUILD_REFUSED).decode().strip()
        return printed if printed == line else self.end(f"{printed}, and front.py says {line}")


def main():
    c2, *films = sys.argv[1:]
    count = 0
    for number, film in enumerate(films):
        with tempfile.TemporaryDirectory() as folder:
            signing = Signing(c2, film, folder, number)
            line = signing.refused()
            if line is None:
                line = signing.sign_in_front()
                signing.sign_again()
                count += 1
                line += ", also out of a pipe" if signing.is_in_front else ""
            print(f"{os.path.basename(film)}: {line}", flush=True)
    print(f"{count} films are signed in front and accepted, {len(films) - count} are refused")


if __name__ == "__main__":
    main()
