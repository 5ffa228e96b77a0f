#!/usr/bin/env python3
"""Names that a source imports and never uses.

    imports.py            a line for each such name: its file, its line and the name; then how many there are. Ends with 1 where there is one

A name of a `use` (of code, and of a `ghost use`) counts as used where it stands anywhere else in its file outside comments; in a file of definitions or proofs, where
a name may have hyphens, as a whole word between blanks, brackets and dots. An operator, whose places for what it joins are written as circles, counts as used where
its signs stand; and a trait of the crates, or one of `METHODS`, where one of its methods is called. A name that is used for something of the file's own alone isn't
found: the prover tells of those.
"""

import glob
import os
import re
import sys

TOP = os.path.join(os.path.dirname(os.path.abspath(__file__)), "..")
USE = re.compile(r"(?m)^[ ]*(?:pub )?(?:ghost )?use ([^;{\n]*(?:\{[^}]*\})?[^;{\n]*);?[ ]*$")
WORD = r"[\w']"
BETWEEN = re.compile(r"[\s(){},;⟦⟧\"]+")
PLAIN = re.compile(r"[\w'-]+")
FIELD = re.compile(r"(?m)(?:^[ ]+(?:pub )?|[{;] )[\w'-]+ (?=[=:] )")
TRAIT = re.compile(r"(?m)^pub trait (\w+).*\n((?:(?!\}).*\n)*)")
METHOD = re.compile(r"(?m)^    fn (\w+)")


def names_of(text):
    """The names that a use brings in."""
    if "{" in text:
        inner = text[text.index("{") + 1 : text.rindex("}")]
        parts = [it.strip() for it in inner.split(",") if it.strip()]
    else:
        parts = [re.split(r"::|\.", text.strip())[-1] if " as " not in text else text.strip()]
    return [it.split(" as ")[-1].strip() for it in parts]


def words_of(text):
    """The words of definitions or proofs, and of those that dots join the first; the names of fields and of what is defined within are none."""
    joined = {it.strip(".") for it in BETWEEN.split(FIELD.sub(" ", text))}
    return joined | {it.split(".")[0] for it in joined}


def uses_word(name, words, text):
    """Whether definitions or proofs use an imported name."""
    if "◌" in name:
        return name in words or all(it in words for it in name.split("◌") if it)
    return name in words or not PLAIN.fullmatch(name) and name in text


def uses(name, text):
    if "◌" in name:
        return all(it in text for it in name.split("◌") if it)
    if re.fullmatch(r"[\w']+", name):
        return re.search(rf"(?<!{WORD}){re.escape(name)}(?!{WORD})", text) is not None
    return name in text


def methods_of_traits():
    """The methods of each public trait of the crates."""
    found = {}
    for path in sorted(glob.glob(os.path.join(TOP, "crates", "*", "src", "**", "*.rt"), recursive=True)):
        with open(path, encoding="utf-8") as file:
            for name, body in TRAIT.findall(file.read()):
                found[name] = METHOD.findall(body)
    return found


# the traits of the standard library that are imported for their methods, with those that are called
METHODS = methods_of_traits() | {"FileExt": ["read_exact_at"], "OpenFile": ["open"]}


def unused(path):
    with open(path, encoding="utf-8") as file:
        text = file.read()
    code = path.endswith(".rt")
    bare = re.sub(r"(?m)//.*$" if code else r"(?m)(^|\s)\s*--(\s.*)?$", lambda it: "", text)
    rest = USE.sub("", bare)
    words = set() if code else words_of(rest)
    for found in USE.finditer(text):
        if found.group(0).startswith("pub use"):
            continue
        for name in names_of(found.group(1)):
            called = code and any(f".{method}(" in rest for method in METHODS.get(name, []))
            used = uses(name, rest) if code else uses_word(name, words, rest)
            if name not in ("self", "*", "_") and not called and not used:
                yield text.count("\n", 0, found.start()) + 1, name


def main():
    count = 0
    for at, folders, files in os.walk(os.path.join(TOP, "crates")):
        folders[:] = sorted(it for it in folders if it not in ("out", "must-fail", "data"))
        for name in sorted(files):
            if name.endswith((".rt", ".antt")):
                path = os.path.join(at, name)
                for line, what in unused(path):
                    print(f"{os.path.relpath(path, TOP)}:{line}: {what}")
                    count += 1
    print(f"{count} names are imported and not used")
    sys.exit(bool(count))


if __name__ == "__main__":
    main()
