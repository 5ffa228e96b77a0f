#!/usr/bin/env python3
"""Runs the commands of README.md and of the documents in examples, and compares what they print with what stands there.

    commands.py [C2 [DOCUMENT..]]      C2 is the program (the repository's ./c2); prints what differs, and the status is 1 then

A block of `sh` must end well. In a block of `console` a line that begins with `$ ` is a command, also over several lines with `\\` at
their ends, and the lines behind it are what it prints. In a table, `COMMAND` prints `LINE`. `..` stands for any characters of a line.
What stands in other blocks isn't run: it proves, or wants files that nobody has. Each document is run in a folder of its own, with a
photograph and a film that are made here; apt-get does nothing there. Outside the gate: it wants Debian's packages.
"""

import glob
import os
import re
import shutil
import subprocess
import sys
import tempfile

TOP = os.path.abspath(os.path.join(os.path.dirname(os.path.abspath(__file__)), ".."))
DOCUMENTS = [
    "README.md",
    "examples/README.md",
    *sorted(os.path.relpath(name, TOP) for name in glob.glob(f"{TOP}/examples/*/README.md")),
]
BLOCK = re.compile(r"^```(sh|console)\n(.*?)^```$", re.M | re.S)
EXAMPLE = re.compile(r"`(\./c2 [^`]*)` prints `([^`]*)`")
ENDED = re.compile(r"@ended ([0-9]+)\n")
PHOTO_SIZE, FILM_SIZE = 3_145_728, 1_000_000
FOLDERS = "examples", "tests/real"


def photograph():
    """What begins as a JPEG does, has a scan, and is as long as a photograph; nothing here decodes it."""
    front = bytes.fromhex("ffd8 ffe0 0010 4a464946000102000001000100 00 ffda 0008 0101 0000 3f00")
    return front + bytes(index * 7 % 251 for index in range(PHOTO_SIZE - len(front) - 2)) + b"\xff\xd9"


def film():
    front = bytes.fromhex("00000010 66747970 69736f6d 00000000")
    return front + (FILM_SIZE - len(front)).to_bytes(4, "big") + b"mdat" + bytes(FILM_SIZE - len(front) - 8)


def prepare(folder, program):
    """What the documents name: the program, the examples, and the media."""
    for name in FOLDERS:
        shutil.copytree(os.path.join(TOP, name), os.path.join(folder, name), ignore=shutil.ignore_patterns("__pycache__"))
    os.mkdir(os.path.join(folder, "build"))
    for name in "c2", "build/c2":
        os.symlink(program, os.path.join(folder, name))
    os.mkdir(os.path.join(folder, "bin"))
    os.symlink("/usr/bin/python3", os.path.join(folder, "bin", "python3"))
    os.symlink("/bin/true", os.path.join(folder, "bin", "apt-get"))
    for name, contents in (("photo.jpg", photograph()), ("film.mp4", film())):
        with open(os.path.join(folder, name), "wb") as file:
            file.write(contents)


def run(folder, script):
    """Status, standard output and standard error of a script of bash."""
    environment = {**os.environ, "PATH": f"{folder}/bin:{os.environ['PATH']}", "PYTHONDONTWRITEBYTECODE": "1"}
    done = subprocess.run(
        ["bash", "-c", script], cwd=folder, env=environment, capture_output=True, text=True, stdin=subprocess.DEVNULL
    )
    return done.returncode, done.stdout, done.stderr


def steps_of(block):
    """The commands of a session, each with what it prints."""
    steps, is_open = [], False
    for line in block.splitlines(keepends=True):
        if is_open:
            steps[-1][0] += line
        elif line.startswith("$ "):
            steps.append([line[2:], ""])
        else:
            steps[-1][1] += line
        is_open = (is_open or line.startswith("$ ")) and line.endswith("\\\n")
    return steps


def is_as_printed(printed, wanted):
    pattern = "".join("[^\n]*" if part == ".." else re.escape(part) for part in re.split(r"(\.\.)", wanted))
    return re.fullmatch(pattern, printed) is not None


def run_session(folder, block):
    """The differences of a block of `console`, and how many commands it has."""
    steps = steps_of(block)
    _, out, error = run(folder, "".join(f"{command}\nprintf '@ended %s\\n' $?\n" for command, _ in steps))
    printed = ENDED.split(out)[::2]
    differences = [
        f"$ {command}prints\n{said}instead of\n{wanted}{error}"
        for (command, wanted), said in zip(steps, printed)
        if not is_as_printed(said, wanted)
    ]
    return differences, len(steps)


def run_script(folder, block):
    status, _, error = run(folder, f"set -eu\n{block}")
    return [f"{block}ends with status {status}\n{error}"] if status else [], block.count("\n")


def run_example(folder, command, wanted):
    return run_session(folder, f"$ {command}\n{wanted}\n")


def run_document(name, program):
    """Each difference of a document, and how many lines of commands were run."""
    with open(os.path.join(TOP, name), encoding="utf-8") as file:
        text = file.read()
    parts = [(found.start(), run_script if found[1] == "sh" else run_session, (found[2],)) for found in BLOCK.finditer(text)]
    parts += [(found.start(), run_example, (found[1].replace("\\|", "|"), found[2])) for found in EXAMPLE.finditer(text)]
    with tempfile.TemporaryDirectory() as folder:
        prepare(folder, program)
        told = [runs(folder, *words) for _, runs, words in sorted(parts, key=lambda part: part[0])]
    return [difference for differences, _ in told for difference in differences], sum(count for _, count in told)


def main():
    program = os.path.abspath(sys.argv[1] if len(sys.argv) > 1 else os.path.join(TOP, "c2"))
    differs = False
    for name in sys.argv[2:] or DOCUMENTS:
        differences, count = run_document(name, program)
        differs |= bool(differences)
        print("\n".join([*differences, f"{name}: {count} commands, {len(differences)} print something else"]))
    sys.exit(differs)


if __name__ == "__main__":
    main()
