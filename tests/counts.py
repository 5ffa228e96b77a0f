#!/usr/bin/env python3
"""Counts what contracts ask of a reader: clauses, parameters, panels of judges that are spelled out, and lines.

    counts.py [CRATE..]      a line for each crate, all of them where none is named, and one for all together

Of the functions of a crate that are `pub`: how many, their clauses (the mean and the most), and how many have more than eight. Of all its
functions: the most parameters, and how many have more than five, and more than six. Then how often `judges_of` stands in its sources, imports too, and the
lines of code, of definitions and of proofs. Clauses are `requires` and `ensures`; `self` is a parameter.
"""

import os
import re
import sys

TOP = os.path.join(os.path.dirname(os.path.abspath(__file__)), "..")
HEAD = re.compile(r"(?m)^( *)((?:pub(?:\([a-z]+\))? )?)fn (\w+)")
NAMES = ["crate", "public", "mean", "most", "> 8", "params", "> 5", "> 6", "panels", "code", "specs", "proofs"]


def lines_of(folder, suffix):
    total = 0
    for at, _, names in os.walk(folder):
        for name in names:
            if name.endswith(suffix):
                with open(os.path.join(at, name), encoding="utf-8") as file:
                    total += sum(1 for _ in file)
    return total


def closing(text, at):
    """The place behind the bracket that closes the one at `at`."""
    depth = 0
    for place in range(at, len(text)):
        depth += text[place] == "("
        depth -= text[place] == ")"
        if not depth:
            return place + 1
    return len(text)


def parameters(text, at):
    """How many parameters stand between brackets, and the place behind them."""
    end = closing(text, at)
    inside, depth, count = text[at + 1 : end - 1], 0, 0
    for sign in inside:
        depth += sign in "(<["
        depth -= sign in ")>]"
        count += sign == "," and not depth
    inside = inside.strip()
    return (count + (not inside.endswith(","))) if inside else 0, end


def functions(text):
    """Of each function: whether it is public, its parameters, and its clauses."""
    for head in HEAD.finditer(text):
        at = text.index("(", head.end()) if text[head.end() : head.end() + 1] == "(" else text.find("(", generics(text, head.end()))
        count, end = parameters(text, at)
        indent = len(head[1])
        body = re.compile(r"(?m)^ {%d}\{|\{\}\n|;\n" % indent).search(text, end)
        contract = text[end : body.start() if body else len(text)]
        clauses = len(re.findall(r"(?m)^ *(?:requires|ensures)\b", contract))
        yield head[2].strip() == "pub", count, clauses


def generics(text, at):
    """The place behind the type parameters that may stand at `at`."""
    if text[at : at + 1] != "<":
        return at
    depth = 0
    for place in range(at, len(text)):
        depth += text[place] == "<"
        depth -= text[place] == ">" and text[place - 1] != "-"
        if not depth:
            return place + 1
    return len(text)


def counted(crates):
    public, every, panels, code, specs, proofs = [], [], 0, 0, 0, 0
    for crate in crates:
        folder = f"{TOP}/crates/{crate}"
        for at, _, names in os.walk(f"{folder}/src"):
            for name in sorted(names):
                if not name.endswith(".rt"):
                    continue
                with open(os.path.join(at, name), encoding="utf-8") as file:
                    text = file.read()
                panels += len(re.findall(r"\bjudges_of\b", text))
                code += text.count("\n")
                for is_public, count, clauses in functions(text):
                    every.append(count)
                    if is_public:
                        public.append(clauses)
        specs += lines_of(f"{folder}/specs", ".antt")
        proofs += lines_of(f"{folder}/proofs", ".antt")
    mean = f"{sum(public) / len(public):.1f}" if public else "-"
    over = lambda counts, most: sum(count > most for count in counts)
    return [len(public), mean, max(public, default=0), over(public, 8), max(every, default=0), over(every, 5), over(every, 6), panels, code, specs, proofs]


def main():
    crates = sys.argv[1:] or sorted(name for name in os.listdir(f"{TOP}/crates") if os.path.isdir(f"{TOP}/crates/{name}/src"))
    rows = [[crate, *counted([crate])] for crate in crates] + [["all", *counted(crates)]]
    for row in [NAMES, *rows]:
        print(f"{row[0]:20}" + "".join(f"{cell:>8}" for cell in row[1:]))


if __name__ == "__main__":
    main()
