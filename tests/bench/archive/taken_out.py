#!/usr/bin/env python3
"""Processor time, time by the clock and peak memory of `c2 strip`, `extract` and `validate-external` beside `cp`: taken_out.py C2 FOLDER [BYTES [TURNS]].

In the folder, which says which disk is meant, a photograph of so many random bytes is made (500,000,000 where none are said), and each command is run over it by turns, the
least of so many (5). `validate-external` takes the store that `extract` wrote, with the photograph's verdict file. What is left must have all bytes
outside the range; the status is 1 where it hasn't, or where `strip` takes more than 1.1 of the processor time of `cp`.
"""
import hashlib
import os
import subprocess
import sys
import tempfile
import time

from photographs import FRONT, SCAN, TABLES, Photographs, write_file, write_random

MOST = 1.1


def run(words):
    """Processor seconds, seconds by the clock, peak memory in MB, and what a program prints."""
    with tempfile.NamedTemporaryFile() as told:
        begun = time.monotonic()
        done = subprocess.run(["/usr/bin/time", "-f", "%U %S %M", "-o", told.name, *words], stdout=subprocess.PIPE, check=True)
        seconds = time.monotonic() - begun
        user, system, memory = told.read().split()
    return float(user) + float(system), seconds, int(memory) * 1024 / 1e6, done.stdout.decode().strip()


def sum_of(path, *parts):
    """The digest of the parts of a file, by their starts and ends."""
    digest = hashlib.sha256()
    with open(path, "rb") as file:
        for start, end in parts:
            file.seek(start)
            while start < end:
                piece = file.read(min(1 << 20, end - start))
                digest.update(piece)
                start += len(piece)
    return digest.digest()


def main():
    program, folder, *more = sys.argv[1:]
    program = os.path.abspath(program)
    size, turns = [*map(int, more), *(500_000_000, 5)[len(more) :]]
    with tempfile.TemporaryDirectory(dir=folder) as work:
        path = lambda name: os.path.join(work, name)
        verdicts = write_random(path("photo.jpg"), Photographs(TABLES + SCAN), FRONT + TABLES + SCAN, size // 1_000_000)
        write_file(path("verdicts"), verdicts)
        commands = {
            "cp": ["cp", path("photo.jpg"), path("copy.jpg")],
            "strip": [program, "strip", path("photo.jpg"), path("left.jpg")],
            "extract": [program, "extract", path("photo.jpg"), path("store")],
            "validate": [program, "validate", path("photo.jpg"), path("verdicts")],
            "validate-external": [program, "validate-external", path("photo.jpg"), path("store"), path("verdicts")],
        }
        rows = {name: [] for name in commands}
        for _ in range(turns):
            for name in "copy.jpg", "left.jpg", "store":
                if os.path.exists(path(name)):
                    os.remove(path(name))
            for name, words in commands.items():
                rows[name].append(run(words))
        start, length = map(int, rows["strip"][0][3].split()[1:])
        end = os.path.getsize(path("photo.jpg"))
        same = sum_of(path("left.jpg"), (0, end - length)) == sum_of(path("photo.jpg"), (0, start), (start + length, end))
    least = {name: [min(told[at] for told in each) for at in (0, 1)] for name, each in rows.items()}
    for name, each in rows.items():
        ratios = [least[name][at] / max(least["cp"][at], 0.01) for at in (0, 1)]
        print(f"{name:18} {least[name][0]:6.2f} s, {ratios[0]:5.2f} of cp; by the clock {least[name][1]:6.2f} s, {ratios[1]:5.2f}; {max(told[2] for told in each):6.1f} MB  {each[0][3]}")
    print("what is left is the photograph outside the range" if same else "other bytes are left")
    sys.exit(not same or least["strip"][0] > MOST * least["cp"][0])


if __name__ == "__main__":
    main()
