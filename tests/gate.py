#!/usr/bin/env python3
"""Counts what the gate takes: processor minutes of each crate's proof, of its tests and of its edits.

    gate.py            runs .ci/run and counts
    gate.py PID        counts what a gate takes that runs already, by the number of its process, until it ends
    gate.py .. --write writes the figures into docs/PERFORMANCE.md, between the marks `gate` and `end of gate`

Each process of the prover below that of the gate is looked at twice a second, and counts for the crate that its words name: as an edit's where it
works in a copy that an edit was made in, as the tests' where its words have `--test`, else as the proof's, with which a program is built too. What an
earlier run has kept isn't done again, and takes nothing: for figures from nothing the gate is run with nothing kept (`rt ci --anew` by `gate.py`
needs the command as its words: gate.py rt ci --anew).
"""

import glob
import os
import pathlib
import re
import subprocess
import sys
import time
from collections import defaultdict

TOP = pathlib.Path(__file__).resolve().parent.parent
PAGE = TOP / "docs" / "PERFORMANCE.md"
MARKS = "<!-- gate: written by tests/gate.py -->", "<!-- end of gate -->"
BETWEEN_LOOKS = 0.5
TICKS = os.sysconf("SC_CLK_TCK")
KINDS = "proof", "tests", "edits"


class Process:
    """A process as it was last seen: its parent, when it began, its words, where it works, and its processor seconds with those of ended children."""

    def __init__(self, number):
        stat = pathlib.Path(f"/proc/{number}/stat").read_text()
        fields = stat[stat.rindex(")") + 2 :].split()
        self.parent, self.begun = int(fields[1]), int(fields[19])
        self.seconds = sum(map(int, fields[11:15])) / TICKS
        self.words = pathlib.Path(f"/proc/{number}/cmdline").read_bytes().decode("utf-8", "replace").split("\0")
        self.folder = os.readlink(f"/proc/{number}/cwd")

    def share(self):
        """The crate that it works for, and of what kind its work is; None for another process."""
        if "--crate-name" not in self.words:
            return None
        name = self.words[self.words.index("--crate-name") + 1]
        if "/rt-edit-" in f"{self.folder}/":
            return name, "edits"
        return name, "tests" if "--test" in self.words else "proof"


def processes():
    """All processes by their numbers, but for those that end meanwhile or belong to others."""
    found = {}
    for place in glob.glob("/proc/[0-9]*"):
        number = int(place.rpartition("/")[2])
        try:
            found[number] = Process(number)
        except (OSError, ValueError):
            pass
    return found


def is_below(found, number, top):
    while number in found and number != top:
        number = found[number].parent
    return number == top


class Count:
    """Processor seconds by crate and kind, as far as they were seen."""

    def __init__(self):
        self.seen = {}

    def look(self, top):
        found = processes()
        for number, process in found.items():
            share = process.share()
            # what a prover begins for itself counts for it once it has ended
            if share and is_below(found, number, top) and found.get(process.parent) and not found[process.parent].share():
                self.seen[number, process.begun] = share, process.seconds
        return top in found

    def minutes(self):
        told = defaultdict(lambda: dict.fromkeys(KINDS, 0.0))
        for (name, kind), seconds in self.seen.values():
            told[name][kind] += seconds / 60
        return told


def crates():
    """The crates in the order of crates.txt, each with the number of its edits."""
    names = re.findall(r"(?m)^(\w+)[^:#\n]*:", (TOP / "crates.txt").read_text())
    return {name: len(list((TOP / "crates" / name / "must-fail").glob("*.edit"))) for name in names}


def table(minutes, clock):
    """What is written between the marks."""
    listed = crates()
    sums = {kind: sum(minutes[name][kind] for name in listed if name in minutes) for kind in KINDS}
    shown = lambda value: f"{value:.1f}" if value >= 0.05 else ""
    lines = [
        f"Processor minutes of one run on {len(os.sched_getaffinity(0))} processors: {sum(sums.values()):.0f} in all, and {clock:.0f} minutes by the clock. "
        f"{sums['proof']:.0f} of them are those of proofs, {sums['tests']:.0f} of tests, {sums['edits']:.0f} of {sum(listed.values())} edits, whose number stands behind.",
        "",
        "| Crate | Proof | Tests | Edits |",
        "|---|---|---|---|",
    ]
    for name, edits in listed.items():
        taken = minutes.get(name, dict.fromkeys(KINDS, 0.0))
        edit_cell = f"{shown(taken['edits'])} ({edits})".strip() if edits else ""
        lines.append(f"| `{name}` | {shown(taken['proof'])} | {shown(taken['tests'])} | {edit_cell} |")
    return "\n".join(lines)


def write(text):
    page = PAGE.read_text()
    begin, end = (page.index(mark) for mark in MARKS)
    PAGE.write_text(page[: begin + len(MARKS[0])] + f"\n\n{text}\n\n" + page[end:])


def main():
    words = [word for word in sys.argv[1:] if word != "--write"]
    begun, count, child = time.monotonic(), Count(), None
    if words and words[0].isdigit():
        top = int(words[0])
    else:
        child = subprocess.Popen(words or [".ci/run"], cwd=TOP)
        top = child.pid
    while count.look(top) and (child is None or child.poll() is None):
        time.sleep(BETWEEN_LOOKS)
    told = table(count.minutes(), (time.monotonic() - begun) / 60)
    print(told)
    if len(words) < len(sys.argv) - 1:
        write(told)
    sys.exit(child.wait() if child else 0)


if __name__ == "__main__":
    main()
