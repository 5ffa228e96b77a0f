"""What the scripts that compare two programs share: files that are written, and what is told at the end."""

import sys


def write(name, contents):
    with open(name, "wb") as file:
        file.write(contents)


def tell(answers, line, failures):
    """Prints how often each answer came, and the line. The exit status is 1 where something failed, else 0."""
    for answer, times in sorted(answers.items()):
        print(f"{times:6} {answer}")
    print(line)
    sys.exit(failures > 0)
