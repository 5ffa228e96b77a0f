#!/usr/bin/env python3
"""Runs c2's `sample` beside builder.py and rules.py.

    samples.py C2 [N..]      by default some small numbers, 1000 twice, and 20000

Prints each difference; the status is 1 where there is one.
"""

import subprocess
import sys
from collections import Counter

from builder import embed
from media import media_of
from store import report
from tables import Approving
from told import tell
from worked_builds import DEFINITION, MESSAGE

COUNTS = 1, 2, 65, 66, 131, 1000, 1000, 20_000


def made(count):
    """The media of so many pieces."""
    rows = [bytes((k + 7 * j) % 256 for j in range(1_000)) for k in range(256)]
    pieces = (b"\xff\xfe\x03\xea" + rows[31 * i % 256] for i in range(count))
    return b"\xff\xd8" + b"".join(pieces) + b"\xff\xd9"


def expected(count):
    """What `sample` must print of so many pieces, and the status."""
    contents = made(count)
    built = embed(contents, DEFINITION, MESSAGE)[0]
    store = media_of(built).store
    line, status = report("validate", built, [Approving()])
    return f"sample {count} media={len(contents)} file={len(built)} store={len(store)}\n{line}\n", status


def main():
    program, *counts = sys.argv[1:]
    answers, differences = Counter(), 0
    for count in map(int, counts or COUNTS):
        run = subprocess.run([program, "sample", str(count)], capture_output=True, timeout=600)
        told, wanted = (run.stdout.decode(), run.returncode), expected(count)
        answers[wanted[0].split("\n")[1].split(" ")[0]] += 1
        if told != wanted or run.stderr:
            differences += 1
            print(f"sample {count}: wanted {wanted}, got {told}")
    tell(answers, f"{differences} differences", differences)


if __name__ == "__main__":
    main()
