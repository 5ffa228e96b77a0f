#!/usr/bin/env python3
"""Compares what c2's `validate` and `questions` say with rules.py, over files and verdict files that are drawn at random.

    validate.py C2 COUNT [SEED [KIND]]      draws COUNT files, the same ones for the same seed; KIND is jpeg (the default) or bmff

A third of the files are drafted stores that were changed by bytes; on these all commands are run. A command that C2 doesn't have is
left out. Prints how often each answer of `validate` came, and each difference, whose files are kept in the
current directory as differs-N and differs-N.verdicts-M. The status is 1 where one differs. Without C2 (a word `-` in its place)
only the answers are counted.
"""

import os
import random
import shutil
import subprocess
import sys
import tempfile
from collections import Counter

import hashing
import store
from chance_stores import changed_file, drawn_file, questions_in, verdict_files
from told import tell, write

JUDGED = "validate", "questions"


class Comparison:
    def __init__(self, program, folder):
        self.program, self.folder = program, folder
        self.media = os.path.join(folder, "media")
        self.commands = [command for command in store.COMMANDS if self.has(command)]
        # a program that doesn't know the word for an algorithm isn't given one
        named = [[name] for name in hashing.LENGTHS if self.has("digest", name)]
        self.algorithms = [[], *named]
        self.runs, self.differences, self.answers = Counter(), 0, Counter()

    def has(self, command, *more):
        write(self.media, b"")
        return self.program is None or self.told([command, self.media, *more])[1] != store.USAGE

    def told(self, words):
        done = subprocess.run([self.program, *words], stdout=subprocess.PIPE, check=False)
        return done.stdout, done.returncode

    def compare(self, contents, verdicts, with_all):
        """Runs the commands that ask judges on a file and verdict files, or all commands."""
        write(self.media, contents)
        names = [os.path.join(self.folder, f"verdicts-{number}") for number in range(len(verdicts))]
        for name, rows in zip(names, verdicts):
            if rows is None:
                if os.path.exists(name):
                    os.remove(name)
            else:
                write(name, rows)
        self.answers[kind_of_answer(*store.answer("validate", self.media, *names))] += 1
        for command in self.commands if self.program else ():
            if command not in JUDGED and not with_all:
                continue
            words = [command, self.media, *(names if command in JUDGED else ())]
            if command == "digest":
                # without an algorithm, and by each one, in turn
                words += self.algorithms[self.runs[command] % len(self.algorithms)]
            self.runs[command] += 1
            expected, told = store.answer(*words), self.told(words)
            if told != expected:
                self.tell_difference(words, told, expected)

    def tell_difference(self, words, told, expected):
        self.differences += 1
        for path in words[1:]:
            if os.path.isfile(path):
                kept = f"differs-{self.differences}" + ("" if path == self.media else "." + os.path.basename(path))
                shutil.copy(path, kept)
        print(f"differs-{self.differences}: {words[0]} with {len(words) - 2} words behind the file")
        print(f"  c2       {told[1]} {told[0][:300]}")
        print(f"  rules.py {expected[1]} {expected[0][:300]}")


def kind_of_answer(printed, status):
    """An answer without what differs from file to file: `valid`, a code, a reason, `none`, or the status of a fault."""
    words = printed.decode("utf-8").split()
    if not words:
        return f"status {status}"
    return " ".join(words[:1] if words[0] == "valid" else words[:2])


def main():
    program, count, *more = sys.argv[1:]
    chance = random.Random(int(more[0]) if more else 1)
    is_bmff = more[1:] == ["bmff"]
    with tempfile.TemporaryDirectory() as folder:
        comparison = Comparison(None if program == "-" else os.path.abspath(program), folder)
        for number in range(int(count)):
            contents, is_changed = drawn_file(chance, is_bmff), number % 3 == 2
            if is_changed:
                contents = changed_file(chance, contents)
            comparison.compare(contents, verdict_files(chance, questions_in(contents)), is_changed)
    runs = ", ".join(f"{times} runs of {command}" for command, times in comparison.runs.items()) or "no runs"
    tell(comparison.answers, f"{count} files, {runs}, {comparison.differences} differences", comparison.differences)


if __name__ == "__main__":
    main()
