#!/usr/bin/env python3
"""Counts the lines of clauses that are longer than 100 columns, in every crate.

    columns.py [-v]      prints the count by crate, and with -v each line; the status is 1 where there is one

A clause goes from `ensures`, `requires` or a ghost member's `=` to its closing bracket, over as many lines as it takes.
"""

import glob
import os
import re
import sys
from collections import Counter

TOP = os.path.join(os.path.dirname(os.path.abspath(__file__)), "..")
MOST = 100
BEGINS = re.compile(r"^\s*(?:ensures|requires)\b|^\s*(?:pub )?ghost (?!use\b)\w+[^;{]*[={]|\brequires \{")


def clause_lines(text):
    """Number and text of each line of a clause."""
    depth = None
    for number, line in enumerate(text.splitlines(), 1):
        code = line.split("//")[0]
        if depth is None and BEGINS.search(code):
            depth = 0
        if depth is not None:
            yield number, line
            depth += code.count("{") - code.count("}")
            if depth <= 0 and "}" in code:
                depth = None


def main():
    clauses, long = Counter(), Counter()
    for path in sorted(glob.glob(f"{TOP}/crates/*/src/**/*.rt", recursive=True)):
        crate = os.path.relpath(path, f"{TOP}/crates").split(os.sep)[0]
        with open(path, encoding="utf-8") as file:
            for number, line in clause_lines(file.read()):
                clauses[crate] += 1
                if len(line) > MOST:
                    long[crate] += 1
                    if "-v" in sys.argv[1:]:
                        print(f"{os.path.relpath(path, TOP)}:{number}: {len(line)}")
    for crate in sorted(clauses):
        print(f"{crate:16} {long[crate]:4} of {clauses[crate]:4}")
    print(f"{'all':16} {sum(long.values()):4} of {sum(clauses.values()):4}")
    sys.exit(bool(long))


if __name__ == "__main__":
    main()
