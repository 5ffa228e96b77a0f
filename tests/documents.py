#!/usr/bin/env python3
"""Looks whether the documents and the crates say the same.

    documents.py      prints what differs; the status is 1 then

The tables of docs/PROMISES.md and README.md have columns for the function and clause, the edit and the test. Each name between
backticks in these must be declared in the crates, and each edit must be named. Each line of Rust that a document shows must be one of
the sources, and each file that it links to must be there. The table of docs/ARCHITECTURE.md must be crates.txt's.
"""

import glob
import os
import re
import sys

TOP = os.path.join(os.path.dirname(os.path.abspath(__file__)), "..")
COLUMNS = {"edit": ("edit",), "test": ("test",), "clause": ("clause", "function", "by")}
# Functions, types, traits, modules, and the names of clauses and of ghost members; and fields of the records that clauses are.
DECLARED = r"\b(?:fn|struct|enum|trait|mod|const|ensures|requires|ghost|law) (\w+)"
DOCUMENTS = [f"{TOP}/README.md", f"{TOP}/tests/README.md", *sorted(glob.glob(f"{TOP}/examples/**/README.md", recursive=True)), *sorted(glob.glob(f"{TOP}/docs/*.md"))]


def cells(line):
    return [cell.strip() for cell in line.strip().strip("|").replace("\\|", "\0").split("|")]


def columns_of(header):
    """Which column of a table is for what, by the words of its header."""
    named = [re.findall(r"[a-z]+", cell.lower()) for cell in cells(header)]
    return {kind: next((i for i, cell in enumerate(named) if set(words) & set(cell)), None) for kind, words in COLUMNS.items()}


def text_of(path):
    with open(path, encoding="utf-8") as file:
        return file.read()


def names_in(path):
    """The kind and name of each name between backticks in the columns of a document's tables."""
    columns, lines = None, text_of(path).splitlines()
    for line, following in zip(lines, lines[1:] + [""]):
        if not line.startswith("|"):
            columns = None
        elif following.startswith("|---"):
            columns = columns_of(line)
        elif columns and not line.startswith("|---"):
            row = cells(line)
            for kind, place in columns.items():
                if place is not None and place < len(row):
                    yield from ((kind, name) for span in re.findall(r"`([^`]+)`", row[place]) for name in re.findall(r"\w+", span))


def shown_rust(path):
    """Each line of the blocks of Rust that a document shows."""
    for block in re.findall(r"(?ms)^```rust$(.*?)^```$", text_of(path)):
        yield from (line.strip() for line in block.splitlines() if line.strip())


def links(path):
    """The files that a document links to."""
    for link in re.findall(r"\]\(([^)#:]+)\)", text_of(path)):
        yield link, os.path.join(os.path.dirname(path), link)


def crates_of_repository():
    """What each crate uses, by crates.txt."""
    lines = (line.split("#")[0] for line in text_of(f"{TOP}/crates.txt").splitlines())
    pairs = (line.split(":") for line in lines if ":" in line)
    return {name.split()[0]: set(uses.split()) for name, uses in pairs}


def crates_of_table():
    """What each crate uses, by the table of docs/ARCHITECTURE.md; "the same" is what the line before has."""
    found, before = {}, set()
    for name, uses in re.findall(r"(?m)^\| `(c2_\w+)` \| .* \| (.*) \|$", text_of(f"{TOP}/docs/ARCHITECTURE.md")):
        before = set(re.findall(r"`(\w+)`", uses)) | (before if "the same" in uses else set())
        found[name] = before
    return found


def main():
    sources = {path: text_of(path) for path in glob.glob(f"{TOP}/crates/*/src/**/*.rt", recursive=True)}
    edits = {os.path.basename(path)[: -len(".edit")] for path in glob.glob(f"{TOP}/crates/*/must-fail/*.edit")}
    words = {name for text in sources.values() for name in re.findall(DECLARED, text)}
    words |= {name for path in glob.glob(f"{TOP}/crates/*/specs/**/*.antt", recursive=True) for name in re.findall(r"(?m)^  pub (\w+) :", text_of(path))}
    tables = glob.glob(f"{TOP}/crates/*/data/*.rows")
    words |= {part for path in [*sources, *tables] for part in re.findall(r"\w+", os.path.relpath(path, f"{TOP}/crates"))}
    lines = {line.strip() for text in sources.values() for line in text.splitlines()}
    named, wrong = set(), set()
    for path in DOCUMENTS:
        short = os.path.relpath(path, TOP)
        for kind, name in names_in(path):
            if kind == "edit":
                named.add(name)
            if name not in (edits if kind == "edit" else words) and not name.isdigit():
                wrong.add(f"{short}: no {kind} is named {name}")
        wrong |= {f"{short}: no source has the line {line}" for line in shown_rust(path) if line not in lines}
        wrong |= {f"{short}: no file {link}" for link, target in links(path) if not os.path.exists(target)}
    wrong |= {f"no promise names the edit {name}" for name in edits - named}
    listed, shown = crates_of_repository(), crates_of_table()
    wrong |= {f"docs/ARCHITECTURE.md: other crates than crates.txt for {name}" for name in listed | shown if listed.get(name) != shown.get(name)}
    print("\n".join(sorted(wrong)) or "the documents and the crates say the same")
    sys.exit(bool(wrong))


if __name__ == "__main__":
    main()
