"""Writes the inputs of the benchmark into a folder: generate.py FOLDER [SCALE]. A scale of 100 gives claims and stores of some
33 MB, a smaller one a hundredth for each point. The name of an input ends with what it is."""
import struct
import sys

folder = sys.argv[1]
MOST = 33_554_432 * (int(sys.argv[2]) if len(sys.argv) > 2 else 100) // 100


def text(value):
    """A CBOR text of fewer than 256 bytes."""
    head = bytes([0x60 + len(value)]) if len(value) < 24 else bytes([0x78, len(value)])
    return head + value


def entry(url, digest):
    """A hashed URI, with a digest of fewer than 256 bytes."""
    return b"\xa2" + text(b"url") + text(url) + text(b"hash") + bytes([0x58, digest]) + bytes(digest)


def claim(created, redacted=None, more=(0, b"")):
    """A claim of as many created entries and redactions, each (how many, one), and of as many other pairs."""
    fields = text(b"instanceID") + text(b"i") + text(b"signature") + text(b"s")
    fields += text(b"created_assertions") + b"\x9a" + struct.pack(">I", created[0]) + created[1] * created[0]
    if redacted:
        fields += text(b"redacted_assertions") + b"\x9a" + struct.pack(">I", redacted[0]) + redacted[1] * redacted[0]
    return b"\xba" + struct.pack(">I", 3 + bool(redacted) + more[0]) + more[1] + fields


def box(kind, payload):
    return struct.pack(">I", 8 + len(payload)) + kind + payload


def superbox(name, label, contents):
    described = name + bytes.fromhex("00110010800000aa00389b71") + (b"\x01" if label is None else b"\x03" + label + b"\0")
    return box(b"jumb", box(b"jumd", described) + contents)


def store(manifests):
    return superbox(b"c2pa", b"c2pa", manifests)


def manifest(contents, label=b"m"):
    return superbox(b"c2ma", label, contents)


def filled(one):
    return one * ((MOST - 400) // len(one))


url = (b"self#jumbf=c2pa.assertions/" + b"a" * 50)[:50]
keys = MOST // 6
leaf, plain, signed = box(b"free", b""), superbox(b"json", None, b""), superbox(b"c2cs", None, b"")
inputs = {
    "100,000 entries, URLs of 50.claim": claim((1000 * (MOST // 335544), entry(url, 32))),
    "entries of 13 bytes.claim": claim(((MOST - 99) // 13, entry(b"", 0))),
    "redactions of 1 byte.claim": claim((0, b""), (MOST - 99, b"\x60")),
    "other keys, rising.claim": claim((0, b""), None, (keys, b"".join(b"\x1a" + struct.pack(">I", i) + b"\0" for i in range(keys)))),
    "leaves in the root.store": store(manifest(b"") + filled(leaf)),
    "leaves in a manifest.store": store(manifest(filled(leaf))),
    "leaves of assertions.store": store(manifest(superbox(b"c2as", b"c2pa.assertions", filled(leaf)))),
    "boxes of assertions.store": store(manifest(superbox(b"c2as", b"c2pa.assertions", filled(plain)))),
    "boxes of type c2cs.store": store(manifest(filled(signed))),
    "manifests.store": store(b"".join(manifest(b"", b"%07d" % i) for i in range(MOST // 43))),
}
for name, data in inputs.items():
    with open(f"{folder}/{name}", "wb") as out:
        out.write(data)
