#!/usr/bin/env python3
"""Puts segments into JPEGs that encoders made, and stores into packets; what c2 must say of each is left to locate.py.

    make.py DIRECTORY            reads the JPEGs of DIRECTORY, and writes further files beside them
    make.py DIRECTORY plain      writes those alone that have no store
"""

import os
import struct
import sys

DESCRIPTION = bytes.fromhex("6332706100110010800000aa00389b71")


def box(kind, payload):
    return struct.pack(">I", 8 + len(payload)) + kind + payload


def store(picture):
    """A store with a manifest of three leaf boxes, one of them with `picture` bytes."""
    described = lambda name, label: box(b"jumd", name + DESCRIPTION[4:] + b"\x03" + label + b"\0")
    claim = box(b"jumb", described(b"c2cl", b"c2pa.claim.v2") + box(b"cbor", b"\xa0"))
    thumbnail = box(b"jumb", described(b"c2as", b"c2pa.assertions") + box(b"bidb", b"\x5a" * picture))
    manifest = box(b"jumb", described(b"c2ma", b"urn:c2pa:test") + thumbnail + claim)
    return box(b"jumb", described(b"c2pa", b"c2pa") + manifest)


def segment(marker, payload, fill=0):
    return b"\xff" * (fill + 1) + bytes([marker]) + struct.pack(">H", len(payload) + 2) + payload


def packets(content, en=0x0211, most=63_984, wide=False):
    """The packets of a box; a wide box states its length in XLBox."""
    if wide:
        header = struct.pack(">I4sQ", 1, content[4:8], len(content) + 8)
    else:
        header = content[:8]
    body = content[8:]
    pieces = [body[at : at + most] for at in range(0, len(body), most)]
    return [segment(0xEB, b"JP" + struct.pack(">HI", en, z + 1) + header + piece) for z, piece in enumerate(pieces)]


def after_app0(data):
    """The place behind SOI and the APP0 segments."""
    at = 2
    while data[at : at + 2] == b"\xff\xe0":
        at += 2 + int.from_bytes(data[at + 2 : at + 4], "big")
    return at


def scan_place(data):
    """The place of the first scan, in a JPEG without fill bytes."""
    at = 2
    while data[at + 1] != 0xDA:
        at += 2 + int.from_bytes(data[at + 2 : at + 4], "big")
    return at


def other_segments(number=7):
    """APP11 segments without a store: HDR pictures (JPEG XT) have boxes of other types there, and other tools write their own."""
    contents = box(b"jumb", box(b"jumd", b"json" + DESCRIPTION[4:] + b"\x03other\0") + box(b"json", b"{}" * 40_000))
    return [
        segment(0xEB, b"HDR_RI ver=11\0"),
        segment(0xEB, b"JP\x00\x01" + struct.pack(">I", 1) + struct.pack(">I", 12) + b"tnmp" + b"\0\0\0\1"),
        segment(0xEB, b"JP"),
        segment(0xEB, b""),
        *packets(contents, en=number),
    ]


def segments(data):
    """The segments between SOI and the first scan, in a JPEG without fill bytes."""
    at, end = 2, scan_place(data)
    while at < end:
        length = 2 + int.from_bytes(data[at + 2 : at + 4], "big")
        yield data[at : at + length]
        at += length


def plain_variants(data):
    """JPEGs without a store, which decoders read as they read this one."""
    at, scan = after_app0(data), scan_place(data)
    filled = b"".join(b"\xff" * (1 + number % 3) + each for number, each in enumerate(segments(data)))
    yield "app11", data[:at] + b"".join(other_segments()) + data[at:]
    # the first numbers that a writer of stores would take are taken
    taken = b"".join(b"".join(other_segments(number)[4:]) for number in (0x0211, 0x0212))
    yield "numbers_taken", data[:at] + taken + data[at:]
    yield "filled", data[:2] + filled + data[scan:]
    yield "app11_in_front", data[:2] + b"".join(other_segments()) + data[2:]


def variants(data):
    at = after_app0(data)
    put = lambda *pieces: data[:at] + b"".join(pieces) + data[at:]
    small, large = packets(store(10)), packets(store(200_000))
    other = other_segments()
    yield "one_packet", put(*small)
    yield "four_packets", put(*large)
    yield "four_packets_wide", put(*packets(store(200_000), wide=True))
    yield "tiny_packets", put(*packets(store(3_000), most=24))
    yield "fill_bytes", put(*(b"\xff" * 3 + packet for packet in large))
    yield "other_app11", put(*other)
    yield "other_app11_around", put(*other[:4], *large, *other)
    scan = scan_place(data)
    yield "at_the_end", data[:scan] + b"".join(large) + data[scan:]
    yield "after_eoi", put(*small) + b"\xff\xd8\xff\xd9 and more" * 1000
    yield "comment_between", put(small[0], segment(0xFE, b"a comment"))
    # These are refused.
    yield "interrupted", put(large[0], segment(0xFE, b"a comment"), *large[1:])
    yield "out_of_order", put(large[0], large[2], large[1], *large[3:])
    yield "twice", put(*small, *small)
    yield "a_packet_short", put(*large[:-1])
    yield "cut_short", put(*large)[: at + 150_000]
    yield "stray", put(*small, large[1])


def main():
    directory, *more = sys.argv[1:]
    made_of = plain_variants if more else variants
    for name in sorted(os.listdir(directory)):
        base, kind = os.path.splitext(name)
        with open(os.path.join(directory, name), "rb") as file:
            data = file.read()
        for variant, made in made_of(data):
            with open(os.path.join(directory, f"{base}+{variant}{kind}"), "wb") as file:
                file.write(made)


if __name__ == "__main__":
    main()
