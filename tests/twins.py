#!/usr/bin/env python3
"""Lists the lemmas whose statement stands in more than one file of proofs.

    twins.py [MOST]      how many statements stand twice or more, and how many copies they have beside the first; then the MOST most frequent
                         ones with their places (20 where no number is given)

Two statements are the same where they differ in the names of their variables alone. What the contracts ask for (files `Answers` and
`Invariants`), tables of rows, and names for values and types are no lemmas.
"""

import collections
import glob
import os
import re
import sys

TOP = os.path.join(os.path.dirname(os.path.abspath(__file__)), "..")
SIGNATURE = re.compile(r"^(?:abbrev )?(?:pub )?([^\s:{}()|]+)((?: \{[^}]*\})*) : (.*)$")
BINDERS = re.compile(r"[({]([^(){}:=]+?) : ")
LOCALS = re.compile(r"λ ([^.()]+)\.")
SAYS = re.compile(r"≡|≤|<|⊥|⊎|×|All|Any|Is[A-Z]|Has[A-Z]|Contains|Stays|Grows|OnOk|IfOk|Decides")
VALUE = re.compile(r": (?:\S+ → )*(?:Type 0|[A-Z]\w*|List \S+|ℕ|Option \S+)")


def statements(path):
    """The name, the line and the type of each top-level definition of a file."""
    with open(path, encoding="utf-8") as file:
        lines = file.read().split("\n")
    for at, line in enumerate(lines):
        found = SIGNATURE.match(line)
        if not found or line.startswith(("use ", "--", "record", "pub record", "data", "pub data")):
            continue
        parts = [found[3]]
        for more in lines[at + 1 :]:
            if not more.startswith(" "):
                break
            parts.append(more.strip())
        yield found[1], at + 1, f"{found[2]} : {' '.join(parts)}"


def shape(statement):
    """A statement with its variables numbered in the order in which they are bound."""
    names = {}
    for bound in BINDERS.findall(statement) + LOCALS.findall(statement):
        for name in bound.split():
            names.setdefault(name, f"v{len(names)}")

    def renamed(found):
        head, *rest = found[0].split(".")
        return ".".join([names.get(head, head), *rest])

    return re.sub(r"\s+", " ", re.sub(r"[^\s(){}\[\],]+", renamed, statement)).strip()


def main():
    most = int(sys.argv[1]) if len(sys.argv) > 1 else 20
    found = collections.defaultdict(list)
    total = 0
    for path in sorted(glob.glob(os.path.join(TOP, "crates", "*", "proofs", "**", "*.antt"), recursive=True)):
        if path.endswith(("Answers.antt", "Invariants.antt", "Rows.antt")):
            continue
        for name, line, statement in statements(path):
            says = shape(statement)
            if "→" in says and SAYS.search(says) and not VALUE.fullmatch(says):
                total += 1
                found[says].append(f"{os.path.relpath(path, TOP)}:{line}: {name}")
    twins = {says: places for says, places in found.items() if len({it.split(':')[0] for it in places}) > 1}
    copies = sum(len(places) - 1 for places in twins.values())
    print(f"{total} statements, of which {len(twins)} stand in more than one file, with {copies} copies beside the first")
    for says, places in sorted(twins.items(), key=lambda it: -len(it[1]))[:most]:
        print(f"{len(places)} {says[:160]}")
        for place in places:
            print(f"    {place}")


if __name__ == "__main__":
    main()
