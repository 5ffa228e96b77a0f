#!/usr/bin/env python3
"""Checks an archive with 1, 2 and 4 processes at a time: measure.py C2 DIRECTORY. Prints files a second, of the wall clock.

`c2` and `sha256sum` are started once for each file; `exiftool` too, on a few files, and once for a hundred files, on a thousand.
"""
import os
import subprocess
import sys
import time

PROCESSES = 1, 2, 4


def paced(words, arguments, each, processes):
    """Files a second of a program that `xargs` starts with so many arguments at a time, and how many runs failed."""
    start = time.monotonic()
    done = subprocess.run(
        ["xargs", "-0", "-P", str(processes), "-n", str(each), *words],
        input=b"\0".join(map(os.fsencode, arguments)),
        stdout=subprocess.PIPE,
        check=False,
    )
    return time.monotonic() - start, done


def main():
    program, directory = os.path.abspath(sys.argv[1]), sys.argv[2]
    names = sorted(name for name in os.listdir(directory) if name.endswith(".jpg"))
    files = [os.path.join(directory, name) for name in names]
    pairs = [argument for file in files for argument in (file, f"{file}.verdicts")]
    rows = {
        "c2 validate, with a verdict file": ([program, "validate"], files, pairs, 2),
        "sha256sum": (["sha256sum"], files, files, 1),
        "exiftool -JUMBF:all": (["exiftool", "-JUMBF:all"], files[:100], files[:100], 1),
        "exiftool -JUMBF:all, 100 files at once": (["exiftool", "-q", "-JUMBF:all"], files[:1_000], files[:1_000], 100),
    }
    size = sum(map(os.path.getsize, files))
    print(f"{len(files)} photographs of {size / len(files) / 1e3:.0f} kB; files a second")
    print(f"{'':40}" + "".join(f"{f'-P {processes}':>9}" for processes in PROCESSES))
    wrong = 0
    for what, (words, counted, arguments, each) in rows.items():
        told = []
        for processes in PROCESSES:
            seconds, done = paced(words, arguments, each, processes)
            told.append(f"{len(counted) / seconds:9.0f}")
            if words[-1] == "validate":
                valid = done.stdout.count(b"valid manifests=1 assertions=3 ")
                wrong += len(counted) - valid
        print(f"{what:40}" + "".join(told), flush=True)
    if wrong:
        print(f"{wrong} files aren't valid")
    sys.exit(wrong > 0)


if __name__ == "__main__":
    main()
