#!/usr/bin/env python3
"""Compares c2 with store.py over small stores that are changed at random.

    vary.py C2 COUNT [SEED]      makes COUNT files, one after the other; the same ones for the same seed

Half of them have a change in an item of CBOR, with the lengths of the boxes around it made right again; the others have a
change anywhere in the store. A file at which the two differ is kept in the current directory as differs-N.jpg.
"""

import os
import random
import shutil
import sys
import tempfile

import jumbf
from compare import Comparison
from locate import Refused
from make_store import jpeg
from rows import ROWS
from store import report
from told import write

# Bytes that mean much in heads of CBOR, in lengths of boxes, in toggles and in labels.
TELLING = bytes.fromhex("00 01 02 07 08 0F 10 17 18 1F 20 40 5F 60 61 7F 80 9F A0 A1 BF C2 D2 F6 F7 F8 FF")


def varied(chance, contents):
    """A list of bytes with one change: a byte is another, or a few are left out, doubled or put in."""
    at = chance.randrange(len(contents) + 1)
    some = contents[at : at + chance.randrange(1, 40)]
    other = bytes([chance.choice(TELLING)])
    return chance.choice([
        contents[:at] + other + contents[at + 1 :],
        contents[:at] + contents[at + chance.randrange(1, 4) :],
        contents[:at] + some + contents[at:],
        contents[:at] + other + contents[at:],
    ])


def paths_to_items(box, above=()):
    """The content boxes of kind `cbor`, each behind the boxes that it stands in."""
    path = (*above, box)
    if box.kind == b"cbor":
        yield path
    for child in box.children:
        yield from paths_to_items(child, path)


def with_item(contents, path, encoded):
    """A store with another item in a content box, and the lengths of the boxes of its path made right."""
    content = path[-1]
    changed = bytearray(contents[: content.inside] + encoded + contents[content.end :])
    for box in path:
        at, width = (box.start, 4) if box.inside - box.start == 8 else (box.start + 8, 8)
        length = box.end - box.start + len(encoded) - (content.end - content.inside)
        changed[at : at + width] = length.to_bytes(width, "big")
    return bytes(changed)


def varied_store(chance, contents):
    try:
        paths = list(paths_to_items(jumbf.read(contents)))
    except Refused:
        paths = []
    if paths and chance.random() < 0.5:
        path = chance.choice(paths)
        return with_item(contents, path, varied(chance, contents[path[-1].inside : path[-1].end]))
    # The first 32 bytes make the file's packets those of a store.
    changed = contents[:32] + varied(chance, contents[32:])
    return len(changed).to_bytes(4, "big") + changed[4:] if contents[:4] != b"\0\0\0\1" else changed


def main():
    program, count, *seed = sys.argv[1:]
    chance = random.Random(*map(int, seed))
    stores = [contents for rows in ROWS.values() for _, contents in rows()]
    asked = [contents for contents in stores if report("questions", jpeg(contents))[0].endswith("silent")]
    with tempfile.TemporaryDirectory() as directory:
        name = os.path.join(directory, "row-varied.jpg")
        write(name, jpeg(stores[0]))
        comparison = Comparison(os.path.abspath(program), directory)
        for _ in range(int(count)):
            write(name, jpeg(varied_store(chance, chance.choice(chance.choice([stores, asked])))))
            before = comparison.failures
            for command in comparison.commands:
                comparison.compare(command, os.path.basename(name))
            if comparison.failures > before:
                shutil.copy(name, f"differs-{comparison.failures}.jpg")
    print(f"{count} files, commands: {' '.join(comparison.commands)}, {comparison.failures} failures")
    sys.exit(comparison.failures > 0)


if __name__ == "__main__":
    main()
