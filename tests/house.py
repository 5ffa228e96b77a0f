#!/usr/bin/env python3
"""Counts the house by which other Rattle code is measured too: lines, clauses, parameters, proofs, comments.

    house.py [FOLDER..]      a column for each folder of crates, or of one crate; the crates of this repository where none is named

Rows: lines of a file (median, most); lines of a function's body (median, the ninth tenth, most); clauses of a public function (mean, most);
parameters (median, most) and how many functions have more than five; how many functions are methods; lines of proofs for a line of code, and
how many of these have more than 120 and more than 300 columns; imports that nothing uses; `Err(e) => return Err(e)`; comments that say that only
the prover needs something; and the definitions and lemmas with a line of meaning in front.
"""

import os
import re
import statistics
import sys

sys.path.insert(0, os.path.dirname(os.path.abspath(__file__)))

import counts
import imports

TOP = os.path.join(os.path.dirname(os.path.abspath(__file__)), "..")
SKIPPED = ("out", "must-fail", "data", "tests")
FUNCTION = re.compile(r"(?m)^( *)(?:pub(?:\([a-z]+\))? )?fn \w+")
DEFINED = re.compile(r"^(?:abbrev |pub |lemma )*(?:record |data )?[^\s:={}()|]+(?: [({][^:]*[)}])* :(?: |$)")
AGAIN = re.compile(r"Err\((\w+)\) => return Err\(\1\)")
PROVER = re.compile(r"[Oo]nly the prover needs")


def files(folder):
    """Each source of a folder, with its part (`src`, `specs`, `proofs`) and text."""
    for at, folders, names in os.walk(folder):
        folders[:] = sorted(it for it in folders if it not in SKIPPED)
        part = next((it for it in ("src", "specs", "proofs") if f"/{it}/" in f"{at}/"), None)
        for name in sorted(names):
            if part and name.endswith((".rt", ".antt")):
                path = os.path.join(at, name)
                with open(path, encoding="utf-8") as file:
                    yield path, part, file.read()


def bodies(text):
    """The lines of each function's body, and whether it is a method."""
    lines = text.split("\n")
    for head in FUNCTION.finditer(text):
        indent = len(head[1])
        first = text.count("\n", 0, head.start())
        # a body begins on a line of its own behind a contract, else at the end of the line of the result
        promised = re.compile(r"\s*(?:ensures|requires)\b")
        opened = None
        for at in range(first, len(lines)):
            if lines[at] in (" " * indent + "{", " " * indent + "{}"):
                opened = at
                break
            if lines[at].endswith((" {", ";")) and not any(promised.match(it) for it in lines[first : at + 1]):
                opened = at if lines[at].endswith(" {") else None
                break
        if opened is None:
            continue
        closed = opened + 1
        if not lines[opened].endswith("{}"):
            closed = next((at for at in range(opened + 1, len(lines)) if lines[at] == " " * indent + "}"), opened + 1)
        signature = "\n".join(lines[first : opened + 1])
        yield closed - opened - 1, bool(re.search(r"\(\s*&?(?:'\w+ )?(?:mut )?self\b", signature))


def meant(texts):
    """How many definitions have a comment in front, and how many there are."""
    said = total = 0
    for text in texts:
        before = ""
        for line in text.split("\n"):
            if DEFINED.match(line) and not line.startswith(("use ", "--")):
                total += 1
                said += before.startswith("--")
            if line.strip() and not line.startswith(" "):
                before = line
    return said, total


def share(part, whole):
    return f"{100 * part / whole:.0f} %" if whole else "-"


def measured(folder):
    found = list(files(folder))
    code = [text for _, part, text in found if part == "src"]
    proofs = [text for _, part, text in found if part == "proofs"]
    sizes = [text.count("\n") for text in code] or [0]
    body = sorted(count for text in code for count, _ in bodies(text)) or [0]
    methods = [is_method for text in code for _, is_method in bodies(text)]
    every = [it for text in code for it in counts.functions(text)]
    clauses = [count for is_public, _, count in every if is_public] or [0]
    params = [count for _, count, _ in every] or [0]
    lines = [line for text in proofs for line in text.split("\n")]
    said, total = meant(text for _, part, text in found if part == "specs")
    shown, lemmas = meant(text for path, part, text in found if part == "proofs" and not path.endswith(("Answers.antt", "Invariants.antt")))
    return {
        "lines of a file, median / most": f"{statistics.median(sizes):.0f} / {max(sizes)}",
        "lines of a body, median / 90 % / most": f"{statistics.median(body):.0f} / {body[len(body) * 9 // 10]} / {body[-1]}",
        "clauses of a public function, mean / most": f"{statistics.mean(clauses):.1f} / {max(clauses)}",
        "parameters, median / most": f"{statistics.median(params):.0f} / {max(params)}",
        "functions with more than five": f"{sum(it > 5 for it in params)} of {len(params)}",
        "functions that are methods": share(sum(methods), len(methods)),
        "proof lines a code line": f"{len(lines) / max(sum(sizes), 1):.2f}",
        "proof lines above 120 columns": share(sum(len(it) > 120 for it in lines), len(lines)),
        "proof lines above 300 columns": str(sum(len(it) > 300 for it in lines)),
        "unused imports": str(sum(1 for path, _, _ in found for _ in imports.unused(path))),
        "`Err(e) => return Err(e)`": str(sum(len(AGAIN.findall(text)) for text in code)),
        "\"only the prover needs\"": str(sum(len(PROVER.findall(text)) for text in code)),
        "definitions with a line of meaning": share(said, total),
        "lemmas with a line of meaning": share(shown, lemmas),
    }


def main():
    folders = sys.argv[1:] or [f"{TOP}/crates"]
    columns = [measured(folder) for folder in folders]
    names = [os.path.basename(os.path.dirname(os.path.abspath(it))) if it.rstrip("/").endswith("crates") else os.path.basename(os.path.abspath(it)) for it in folders]
    print("| | " + " | ".join(names) + " |")
    print("|---" * (len(names) + 1) + "|")
    for row in columns[0]:
        print(f"| {row} | " + " | ".join(column[row] for column in columns) + " |")


if __name__ == "__main__":
    main()
