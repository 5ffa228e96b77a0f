#!/usr/bin/env python3
"""Compares what c2 prints, and the status that it exits with, with store.py, over the files of a directory.

    compare.py C2 DIRECTORY      runs C2's reading commands on each JPEG there, and with each verdict file (*.verdicts)

Commands that C2 doesn't have are left out. Differences and slow runs are printed; the status is 1 where c2 differs.
"""

import os
import subprocess
import sys
import time

import store

COMMANDS = "digest", "list", "show", "questions", "validate"
# The variants of make.py that are refused; small stores and hostile files may be refused as well.
REFUSED_VARIANTS = "+interrupted", "+out_of_order", "+twice", "+a_packet_short", "+cut_short", "+stray"
ASKED = "hostile-asked.jpg"
# The stores of rule_rows.py, and the verdicts on their questions.
RULES, RULE_VERDICTS = "row-rule-", "rules.verdicts"
# The seconds of a run above which it is told.
SLOW = 1.0


def may_be_refused(name):
    return name.startswith(("row-", "hostile-")) or os.path.splitext(name)[0].endswith(REFUSED_VARIANTS)


class Comparison:
    def __init__(self, program, directory):
        self.program, self.directory = program, directory
        names = sorted(os.listdir(directory))
        self.files = [name for name in names if not name.endswith(".verdicts")]
        self.verdict_files = [name for name in names if name.endswith(".verdicts")]
        self.commands = [command for command in COMMANDS if self.told(command, self.files[0])[1] != store.USAGE]
        self.failures = self.refusals = 0

    def words(self, command, *names):
        return [command, *(os.path.join(self.directory, name) for name in names)]

    def told(self, command, *names):
        start = time.monotonic()
        done = subprocess.run([self.program, *self.words(command, *names)], stdout=subprocess.PIPE, check=False)
        seconds = time.monotonic() - start
        if seconds > SLOW:
            print(f"{command} {' '.join(names)} took {seconds:.1f} s")
        return done.stdout, done.returncode

    def compare(self, command, *names):
        """Compares what c2 and store.py say to a command and names of files."""
        expected, told = store.answer(*self.words(command, *names)), self.told(command, *names)
        refused = told[1] == store.REFUSED and told[0].startswith(b"refused ")
        self.refusals += refused
        if told != expected or refused and not may_be_refused(names[0]):
            self.failures += 1
            print(f"{command} {' '.join(names)}:")
            print(f"  c2       {told[1]} {told[0][:300]}")
            print(f"  store.py {expected[1]} {expected[0][:300]}")

    def run(self):
        for name in self.files:
            for command in self.commands:
                self.compare(command, name)
        for command in ("questions", "validate"):
            if command in self.commands:
                self.run_judged(command)

    def run_judged(self, command):
        for verdicts in [*self.verdict_files, "no file"]:
            self.compare(command, ASKED, verdicts)
            self.compare(command, self.files[0], verdicts)
        self.compare(command, ASKED, *self.verdict_files)
        for name in self.files:
            if name.startswith(RULES):
                self.compare(command, name, RULE_VERDICTS)


def main():
    comparison = Comparison(*sys.argv[1:])
    comparison.run()
    commands = " ".join(comparison.commands)
    print(f"{len(comparison.files)} files, commands: {commands}, {comparison.refusals} reports of a refusal, ", end="")
    print(f"{comparison.failures} failures")
    sys.exit(comparison.failures > 0)


if __name__ == "__main__":
    main()
