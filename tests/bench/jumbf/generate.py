"""Writes the inputs of the benchmark into a folder: generate.py FOLDER [SCALE]. A scale of 100 gives stores of some 33 MB, a
smaller one a hundredth for each point."""
import itertools
import random
import struct
import sys

MOST = 33_554_432


def box(kind, payload):
    return struct.pack(">I", 8 + len(payload)) + kind + payload


def description(label=None):
    if label is None:
        return box(b"jumd", bytes(17))
    return box(b"jumd", bytes(16) + b"\3" + label + b"\0")


def superbox(contents, label=None):
    return box(b"jumb", description(label) + contents)


def labels(count):
    """Different labels of three bytes, in order: three ASCII characters, or one of two bytes and one ASCII character."""
    ascii = [bytes([b]) for b in range(0x20, 0x7F)]
    wide = [chr(c).encode() for c in range(0x80, 0x800)]
    three = (a + b + c for a in ascii for b in ascii for c in ascii)
    return sorted(itertools.islice(itertools.chain(three, (w + a for w in wide for a in ascii)), count))


def siblings(names):
    return superbox(b"".join(superbox(b"", name) for name in names), b"r")


def shapes(scale):
    most = MOST * scale // 100
    yield "leaves", superbox(box(b"free", b"") * ((most - 35) // 8), b"r")
    yield "one_leaf", superbox(box(b"free", bytes(most - 43)), b"r")
    names = labels(9_000 * scale)
    yield "siblings_rising", siblings(names)
    yield "siblings_falling", siblings(names[::-1])
    random.Random(1).shuffle(names)
    yield "siblings_shuffled", siblings(names)
    deep = box(b"free", b"") * ((most - 16 * 33) // 8)
    for _ in range(16):
        deep = superbox(deep)
    yield "leaves_at_depth_16", deep
    chain = b""
    for _ in range(15):
        chain = superbox(chain)
    yield "chains_of_depth_16", superbox(chain * ((most - 33) // len(chain)))


folder = sys.argv[1]
scale = int(sys.argv[2]) if len(sys.argv) > 2 else 100
for name, data in shapes(scale):
    with open(f"{folder}/{name}.jumbf", "wb") as out:
        out.write(data)
