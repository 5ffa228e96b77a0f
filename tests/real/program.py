#!/usr/bin/env python3
"""The independent programs under c2's words: what c2 must print and write, and the status. With it a script that runs c2 can be tried without c2.

    program.py COMMAND FILE..
"""

import sys

import builder
import collect
import external
import front
import pairs
import samples
import store
from store import USAGE, end_with


def sampled(_, count):
    text, status = samples.expected(int(count))
    return text.encode(), status


# The program of each command, by its words.
PROGRAMS = {
    **dict.fromkeys(store.COMMANDS, store.answer),
    **dict.fromkeys(builder.NAMES, builder.told),
    **dict.fromkeys(front.NAMES, front.told),
    **dict.fromkeys(collect.NAMES, collect.told),
    **dict.fromkeys((*external.WRITERS, "validate-external"), external.told),
    "compare": lambda _, *names: pairs.answer(*names),
    "sample": sampled,
}


def main():
    command, *names = sys.argv[1:] or [""]
    end_with(*(PROGRAMS[command](command, *names) if command in PROGRAMS else (b"", USAGE)))


if __name__ == "__main__":
    main()
