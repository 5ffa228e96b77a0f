#!/usr/bin/env python3
"""What a BMFF hash covers, by its definition alone: position by position, slowly, apart from bmff.py.

    plain_cover.py COUNT [SEED]      compares bmff.py with it over COUNT small files and exclusions that are drawn at random

The boxes on a path are found by walking each list of boxes for each exclusion, and a position is asked of each of them.
"""

import random
import sys
from collections import Counter

import bmff
from cbor import field, read_whole
from drafts import exclusion, subset, tested
from make_store import box, uint

ENTERED = "moov trak edts mdia minf dinf stbl mvex moof traf mfra".split()
TYPES = "moov trak mdia minf free uuid mdat udta".split()


# The definition


def boxes_of(data, at, end, may_be_open):
    """Start, payload, end and type of the boxes that a part of a file is; None where it isn't boxes."""
    if at == end:
        return []
    size, header = int.from_bytes(data[at : at + 4], "big"), 8
    if size == 1:
        size, header = int.from_bytes(data[at + 8 : at + 16], "big"), 16
    if size == 0 and may_be_open:
        size = end - at
    kind = data[at + 4 : at + 8].decode("latin-1")
    if end - at < header or size < header + (16 if kind == "uuid" else 0) or at + size > end:
        return None
    rest = boxes_of(data, at + size, end, may_be_open)
    return None if rest is None else [(at, at + header, at + size, kind), *rest]


def on_path(data, siblings, steps):
    """The boxes on a path below a list of siblings."""
    kind, nth = steps[0][:4], steps[0][5:-1]
    same = [found for found in siblings if found[3] == kind]
    chosen = [found for number, found in enumerate(same, 1) if nth in ("", str(number))]
    if len(steps) == 1:
        return chosen
    below = [boxes_of(data, inside, end, False) or [] for _, inside, end, kind in chosen if kind in ENTERED]
    return [found for children in below for found in on_path(data, children, steps[1:])]


def numbers(item, key, names):
    """The numbers of each map in a field's list."""
    return [tuple(field(each, name)[1] for name in names) for each in field(item, key)[1]]


def excludes(data, roots, item, position):
    """Whether an exclusion excludes a position of a file."""
    for start, _, end, _ in on_path(data, roots, field(item, "xpath")[1].split("/")[1:]):
        length, inside = field(item, "length"), start <= position < end
        right = length is None or length[1] == end - start
        for offset, value in numbers(item, "data", ("offset", "value")) if field(item, "data") else ():
            right = right and start + offset + len(value) <= end and data[start + offset :].startswith(value)
        parts = numbers(item, "subset", ("offset", "length")) if field(item, "subset") else [(0, 0)]
        if right and inside and any(offset <= position - start and (n == 0 or position - start < offset + n) for offset, n in parts):
            return True
    return False


def covered_text(data, roots, items):
    kept = [not any(excludes(data, roots, item, at) for item in items) for at in range(len(data))]
    text = b""
    for start, _, end, _ in roots:
        if any(kept[start:end]):
            text += start.to_bytes(8, "big") + bytes(data[at] for at in range(start, end) if kept[at])
    return text, sum(kept)


# Files and exclusions


def drawn_box(chance, depth):
    kind = chance.choice(TYPES if depth < 4 else TYPES[4:])
    payload = b"".join(drawn_box(chance, depth + 1) for _ in range(chance.choice((0, 1, 1, 2, 3)))) if depth < 4 else b""
    if kind == "uuid":
        payload = bytes(chance.choice((15, 16, 16, 16))) + payload if depth else bytes(16) + payload
    if chance.random() < 0.15:
        payload += chance.choice((b"\0", b"\0\0\0\0free", b"\0\0\0\x09free", b"\0\0\0\x01free", bytes(5)))
    return box(kind.encode(), payload, wide=chance.random() < 0.15)


def drawn_file(chance):
    data = box(b"ftyp", b"") + b"".join(drawn_box(chance, 0) for _ in range(chance.randrange(1, 5)))
    return data + (bytes(4) + b"moov" + drawn_box(chance, 2) if chance.random() < 0.1 else b"")


def drawn_path(chance, data):
    """The path of a box that is there, with some numbers; or one that is drawn."""
    if chance.random() < 0.2:
        return "".join("/" + chance.choice(TYPES) for _ in range(chance.randrange(1, 4)))
    path, children = "", boxes_of(data, 0, len(data), True)
    while children and (not path or chance.random() < 0.8):
        _, inside, end, kind = chance.choice(children)
        path += "/" + kind + chance.choice(("", "", f"[{chance.randrange(1, 4)}]"))
        children = boxes_of(data, inside, end, False)
    return path


def drawn_exclusion(chance, data):
    pairs, near = [], lambda: chance.choice((0, 1, 2, 4, 8, 9, 16, 20, 40, (1 << 64) - 1))
    if chance.random() < 0.2:
        pairs.append(("length", uint(chance.choice((8, 16, 24, 32)))))
    if chance.random() < 0.3:
        one = lambda: (chance.choice((0, 4, 4, 8, 9)), chance.choice((b"", b"f", b"free", b"moov", b"\0")))
        pairs.append(tested(*(one() for _ in range(chance.randrange(3)))))
    if chance.random() < 0.6:
        pairs.append(subset(*((near(), near()) for _ in range(chance.randrange(1, 4)))))
    return exclusion(drawn_path(chance, data), *pairs)


def main():
    count, seed = int(sys.argv[1]), int(sys.argv[2]) if len(sys.argv) > 2 else 1
    chance, differences, seen = random.Random(seed), 0, Counter()
    for _ in range(count):
        data = drawn_file(chance)
        spelled = [drawn_exclusion(chance, data) for _ in range(chance.randrange(5))]
        items = [read_whole(each) for each in spelled]
        plain = covered_text(data, boxes_of(data, 0, len(data), True), items)
        roots = bmff.root_boxes(data)
        kept = list(bmff.covered_parts(data, roots, [bmff.Exclusion(item) for item in items]))
        told = b"".join(bmff.covered_text(data, kept)), bmff.counts(kept, 0)[0]
        seen["all" if plain[1] == len(data) else "none" if not plain[1] else "a part"] += 1
        if told != plain:
            differences += 1
            print(f"{data.hex()} under {[each.hex() for each in spelled]}: {told[0].hex()} and not {plain[0].hex()}")
    print(f"{count} files, of which is covered: {dict(seen)}; {differences} differences")
    sys.exit(differences > 0)


if __name__ == "__main__":
    main()
