"""Films for `plan-front` and `embed-front`, written piece by piece, and what is known of the new file without a digest: what stands around its store."""

import os
import subprocess
import sys
import tempfile
import time

sys.path.insert(0, os.path.join(os.path.dirname(os.path.abspath(__file__)), "..", "..", "real"))
from built_films import FTYP
from front_rows import END, LENGTH
from worked_builds import DEFINITION, MESSAGE

PIECE = 1 << 20
TABLES = {b"stco": 4, b"co64": 8}


def headed(kind, length):
    """The header of a box that holds so many bytes."""
    return (8 + length).to_bytes(4, "big") + kind


def nested(kinds, inner):
    """The headers of boxes, each alone in the one before it, around so many bytes."""
    front = b""
    for kind in reversed(kinds):
        front = headed(kind, inner + len(front)) + front
    return front


def table(kind, places, by=0):
    """A chunk table of places, each greater by so much where it isn't before the end of the file type box."""
    width = TABLES[kind]
    fields = b"".join((place + by * (place >= END)).to_bytes(width, "big") for place in places)
    return headed(kind, 8 + len(fields)) + bytes(4) + len(places).to_bytes(4, "big") + fields


def write(path, *pieces):
    with open(path, "wb") as file:
        for piece in pieces:
            file.write(piece)


def write_inputs(folder):
    """The names of a definition and of a message, by which the new box has the length LENGTH."""
    names = [os.path.join(folder, name) for name in ("definition", "message")]
    for name, contents in zip(names, (DEFINITION, MESSAGE)):
        write(name, contents)
    return names


def run(words, allowed=(0,)):
    """Processor seconds, seconds by the clock, peak memory in MB, and what a program prints."""
    with tempfile.NamedTemporaryFile() as told:
        begun = time.monotonic()
        done = subprocess.run(["/usr/bin/time", "-q", "-f", "%U %S %M", "-o", told.name, *words], stdout=subprocess.PIPE, check=False)
        seconds = time.monotonic() - begun
        user, system, memory = told.read().split()
    assert done.returncode in allowed, (words[:3], done.returncode)
    return float(user) + float(system), seconds, int(memory) * 1024 / 1e6, done.stdout.decode().strip()


def is_same(path, skipped, pieces):
    """Whether a file has these pieces one behind the other, but for the bytes from a place on that are skipped once."""
    start, length = skipped
    with open(path, "rb") as file:
        at = 0
        for piece in pieces:
            if at == start:
                file.seek(length, os.SEEK_CUR)
            if file.read(len(piece)) != piece:
                return False
            at += len(piece)
        return file.read(1) == b""


def validated(program, folder, path):
    """What `validate` says of a new file under a verdict file that approves its question."""
    question = run([program, "questions", path])[3].split()[0]
    verdicts = os.path.join(folder, "verdicts")
    write(verdicts, f"{question} approved\n".encode())
    return run([program, "validate", path, verdicts], allowed=(0, 1))[3]


def new_file_is_wrong(program, folder, path, film):
    """What isn't as it must be in a new file; film gives the pieces of the media with places that are greater, of which the first is the file type box."""
    if not is_same(path, (END, LENGTH), film(LENGTH)):
        return "  other bytes"
    answer = validated(program, folder, path)
    return "" if answer.startswith("valid manifests=1 assertions=2 ") else f"  {answer}"
