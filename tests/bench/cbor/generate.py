"""Writes the inputs of the benchmark into a folder: generate.py FOLDER [SCALE]. A scale of 100 gives the sizes that the
notes speak of, a smaller one a hundredth for each point."""
import random
import struct
import sys


def head(major, n):
    if n < 24:
        return bytes([32 * major + n])
    if n < 1 << 8:
        return bytes([32 * major + 24, n])
    if n < 1 << 16:
        return bytes([32 * major + 25]) + struct.pack(">H", n)
    if n < 1 << 32:
        return bytes([32 * major + 26]) + struct.pack(">I", n)
    return bytes([32 * major + 27]) + struct.pack(">Q", n)


def text(s):
    return head(3, len(s)) + s


def small_maps(count):
    """A list of maps of three short keys, about 30 bytes each."""
    one = head(5, 3) + text(b"alg") + text(b"sha256") + text(b"hash") + head(2, 4) + b"\1\2\3\4" + text(b"pad") + head(0, 5)
    return head(4, count) + one * count


def number_keys(count, shuffled):
    keys = list(range(count))
    if shuffled:
        random.Random(1).shuffle(keys)
    return head(5, count) + b"".join(head(0, k) + b"\xf6" for k in keys)


def ended(count, end):
    """The same keys, shuffled, with an end in place of the last pair."""
    keys = list(range(count))
    random.Random(1).shuffle(keys)
    last = head(0, keys[0]) + b"\xf6" if end == "equal" else head(0, keys[-1]) + b"\x1c"
    return head(5, count) + b"".join(head(0, k) + b"\xf6" for k in keys[:-1]) + last


def texts_alike(count, length, shuffled):
    """Keys that are texts which differ in their last nine bytes alone."""
    keys = list(range(count))
    if shuffled:
        random.Random(3).shuffle(keys)
    front = (b"c2pa.assertion." * 10)[: length - 9]
    return head(5, count) + b"".join(text(front + b"%09d" % k) + b"\xf6" for k in keys)


def map_keys(count):
    """A map whose keys are maps that hold a number and a text."""
    keys = list(range(count))
    random.Random(2).shuffle(keys)
    return head(5, count) + b"".join(head(5, 2) + b"\x00" + head(0, k) + b"\x01" + text(b"abcdefgh") + b"\x00" for k in keys)


def nested_keys(levels, per_level):
    """Maps inside the keys of maps: each level's key is spelled again at each level above it."""
    inner = b"\xa0"
    for _ in range(levels):
        inner = head(5, 1 + per_level) + b"".join(head(0, k) + b"\x00" for k in range(per_level)) + inner + b"\x00"
    return inner


def shapes(scale):
    yield "small_maps", small_maps(10_000 * scale)
    yield "small_maps_100000", small_maps(1_000 * scale)
    yield "number_keys_rising", number_keys(40_000 * scale, False)
    yield "number_keys_equal_at_end", ended(40_000 * scale, "equal")
    yield "number_keys_fault_at_end", ended(40_000 * scale, "fault")
    yield "texts_24_rising", texts_alike(3_000 * scale, 24, False)
    yield "texts_24_shuffled", texts_alike(3_000 * scale, 24, True)
    yield "texts_80_rising", texts_alike(3_000 * scale, 80, False)
    yield "texts_80_shuffled", texts_alike(3_000 * scale, 80, True)
    yield "number_keys_shuffled", number_keys(40_000 * scale, True)
    yield "map_keys", map_keys(3_000 * scale)
    yield "nested_keys", nested_keys(63, 1_000 * scale)
    yield "small_numbers", head(4, 100_000 * scale) + b"\x05" * (100_000 * scale)
    yield "lists_of_one", head(4, 50_000 * scale) + b"\x81\x05" * (50_000 * scale)
    yield "maps_of_one", head(4, 33_000 * scale) + b"\xa1\x05\x06" * (33_000 * scale)
    yield "open_lists", head(4, 33_000 * scale) + b"\x9f\x05\xff" * (33_000 * scale)
    yield "tags", head(4, 2_000 * scale) + (b"\xc1" * 62 + b"\x05") * (2_000 * scale)
    yield "one_string", head(2, 100_000 * scale) + bytes(100_000 * scale)


folder = sys.argv[1]
scale = int(sys.argv[2]) if len(sys.argv) > 2 else 100
for name, data in shapes(scale):
    with open(f"{folder}/{name}.cbor", "wb") as out:
        out.write(data)
