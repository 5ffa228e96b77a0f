#!/usr/bin/env python3
"""Counts the paths through crates.txt that lead down from each crate.

    paths.py [N]      prints the N crates with most paths, 12 where no number is given, and the sum over all crates

A crate has one path more than the crates of this repository that it lists have together. rt works out what lies below a crate anew along each
path, so its work before a proof begins grows with these numbers.
"""

import os
import sys
from functools import cache

TOP = os.path.join(os.path.dirname(os.path.abspath(__file__)), "..")
SHOWN = 12


def listed():
    """What each crate lists, by crates.txt."""
    with open(f"{TOP}/crates.txt", encoding="utf-8") as file:
        pairs = [line.split("#")[0].split(":") for line in file if ":" in line.split("#")[0]]
    return {name.strip(): below.split() for name, below in pairs}


def main():
    below = listed()

    @cache
    def paths(crate):
        return 1 + sum(paths(other) for other in below[crate] if other in below)

    most = sorted(below, key=paths, reverse=True)
    for crate in most[: int(sys.argv[1]) if sys.argv[1:] else SHOWN]:
        print(f"{crate:24}{paths(crate):12,}")
    print(f"{'all':24}{sum(map(paths, below)):12,}")


if __name__ == "__main__":
    main()
