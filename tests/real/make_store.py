#!/usr/bin/env python3
"""Writes CBOR items, boxes, manifests, signed messages and JPEGs around a store, in any spelling; and hostile files.

    make_store.py DIRECTORY      writes JPEGs and verdict files that ask much of a reader

The writers of CBOR (RFC 8949) take members that are spelled already and keep their order, so that an item can be spelled in
each way, the wrong ones too. Boxes are those of ISO/IEC 19566-5, in the types and labels of the C2PA Technical Specification.
"""

import math
import os
import sys

from cbor import head
from locate import C2PA
from make import segment

NULL = b"\xf6"
UNDEFINED = b"\xf7"
BREAK = b"\xff"
CLAIM_URI = "self#jumbf=c2pa.signature"
# A header of a message that says ES256 (RFC 9053, section 2.1).
ES256 = bytes.fromhex("a10126")


def uint(number, width=None):
    return head(0, number, width)


def data(contents):
    return head(2, len(contents)) + contents


def text(contents, width=None):
    spelled = contents.encode("utf-8")
    return head(3, len(spelled), width) + spelled


def array(*items):
    return head(4, len(items)) + b"".join(items)


def mapping(*pairs, width=None):
    """A map of pairs of a text or a spelled key, and a spelled value."""
    return head(5, len(pairs), width) + spelled_pairs(pairs)


def open_array(*items):
    """A list of indefinite length."""
    return b"\x9f" + b"".join(items) + BREAK


def open_map(*pairs):
    """A map of indefinite length."""
    return b"\xbf" + spelled_pairs(pairs) + BREAK


def spelled_pairs(pairs):
    return b"".join((text(key) if isinstance(key, str) else key) + value for key, value in pairs)


def chunks(*pieces):
    """A string of indefinite length, of the pieces' major type."""
    return bytes([pieces[0][0] | 0x1F]) + b"".join(pieces) + BREAK


def tag(number, item):
    return head(6, number) + item


def box(kind, payload, wide=False):
    """A box; a wide one states its length in XLBox."""
    if wide:
        return b"\0\0\0\1" + kind + (16 + len(payload)).to_bytes(8, "big") + payload
    return (8 + len(payload)).to_bytes(4, "big") + kind + payload


def description(name, label, toggles=0, more=b"", wide=False):
    """A description box of a type of four characters, requestable; a label of None is left out."""
    labelled = b"" if label is None else label.encode("utf-8") + b"\0"
    toggles |= 0x01 if label is None else 0x03
    return box(b"jumd", name + C2PA[4:] + bytes([toggles]) + labelled + more, wide)


def superbox(name, label, *boxes, wide=False):
    return box(b"jumb", description(name, label) + b"".join(boxes), wide)


def item(encoded):
    """A content box that holds an item of CBOR."""
    return box(b"cbor", encoded)


def store(*boxes):
    return superbox(b"c2pa", "c2pa", *boxes)


def manifest(label, *boxes, update=False):
    return superbox(b"c2um" if update else b"c2ma", label, *boxes)


def assertions(*boxes):
    return superbox(b"c2as", "c2pa.assertions", *boxes)


def assertion(label, encoded=b"\xa0"):
    """An assertion whose content is an item of CBOR, an empty map where none is given."""
    return superbox(b"cbor", label, item(encoded))


def claim_box(*boxes, label="c2pa.claim.v2"):
    return superbox(b"c2cl", label, *boxes)


def signature_box(*boxes, label="c2pa.signature"):
    return superbox(b"c2cs", label, *boxes)


def hashed_uri(url, digest=b"\0", alg=None):
    """A hashed URI: url and hash, and the name of an algorithm where one is given."""
    pairs = [("url", text(url)), ("hash", data(digest))]
    return mapping(*pairs, *([] if alg is None else [("alg", text(alg))]))


def claim(*pairs, instance="i", signature=CLAIM_URI, created=()):
    """A claim with the fields that it must have, and further pairs behind them."""
    needed = [("instanceID", text(instance)), ("signature", text(signature)), ("created_assertions", array(*created))]
    return mapping(*needed, *pairs)


def older_claim(*pairs, signature=CLAIM_URI, listed=()):
    """A claim of version 1 with the fields that it must have, and further pairs behind them."""
    return mapping(("signature", text(signature)), ("assertions", array(*listed)), *pairs)


def sign1(protected=ES256, unprotected=b"\xa0", payload=NULL, signature=b"\x5a" * 4):
    """A COSE_Sign1 message without its tag (RFC 9052, section 4.2)."""
    return array(data(protected), unprotected, payload, data(signature))


def jpeg(contents, front=b"\xff\xd8", rest=b"\xff\xd9", en=0x0211):
    """A JPEG of a front, the packets of a store (ISO/IEC 18477-3), full but for the last, and the rest."""
    width = 16 if contents[:4] == b"\0\0\0\1" else 8
    header, body = contents[:width], contents[width:]
    most = 64_000 - 8 - width
    pieces = [body[at : at + most] for at in range(0, len(body), most)]
    numbered = (b"JP" + en.to_bytes(2, "big") + (z + 1).to_bytes(4, "big") + header + body for z, body in enumerate(pieces))
    return front + b"".join(segment(0xEB, payload) for payload in numbered) + rest


def shuffled(count):
    """The numbers below a count in an order that neither rises nor falls, the same at each run."""
    step = next(step for step in range(count * 5 // 8, count) if math.gcd(step, count) == 1)
    return (number * step % count for number in range(count))


def signed(label, *boxes, claimed):
    """A manifest with a claim and a signature over it that no key has made."""
    return manifest(label, *boxes, claim_box(item(claimed)), signature_box(item(tag(18, sign1()))))


def hostile_stores():
    """Stores that ask much of a reader: names and contents."""
    entries = [hashed_uri(f"self#jumbf=c2pa.assertions/{i}") for i in range(500_000)]
    yield "entries", store(signed("m", claimed=claim(created=entries)))
    yield "manifests", store(*(signed(f"m{i}", claimed=claim()) for i in range(1_024)))
    yield "manifest_too_many", store(*(signed(f"m{i}", claimed=claim()) for i in range(1_025)))
    yield "boxes_rising", store(signed("m", assertions(*(assertion(f"{i:06}") for i in range(200_000))), claimed=claim()))
    yield "boxes", store(signed("m", assertions(*(assertion(f"{i:06}") for i in shuffled(200_000))), claimed=claim()))
    most = 33_554_432 - len(store(signed("m", assertions(), claimed=claim())))
    fitting = most // len(assertion("000000"))
    yield "boxes_most", store(signed("m", assertions(*(assertion(f"{i:06}") for i in range(fitting))), claimed=claim()))
    long = [f"{i}" + "x" * 60_000 for i in range(100)]
    boxes = assertions(*(assertion(label) for label in long))
    labelled = claim(signature=f"self#jumbf=/c2pa/{long[0]}/c2pa.signature")
    yield "long_labels", store(signed(long[1], boxes, claimed=claim()), signed(long[0], boxes, claimed=labelled))
    others = [(f"{i:06}", NULL) for i in range(1_000_000)]
    yield "keys_rising", store(signed("m", claimed=claim(*others)))
    yield "keys", store(signed("m", claimed=claim(*(others[i] for i in shuffled(1_000_000)))))
    header = mapping(*((f"{i:06}", NULL) for i in shuffled(1_000_000)))
    message = signature_box(item(sign1(unprotected=header)))
    yield "header_keys", store(manifest("m", claim_box(item(claim())), message))


def verdict_file(length, last_row):
    """A verdict file of so many bytes: rows of ids that no question has, shortened to fit, and a last row."""
    rows = -(-(length - len(last_row)) // 74)
    short = 74 * rows - (length - len(last_row))
    words = [b"invalid"] * short + [b"approved"] * (rows - short)
    return b"".join(b"%064x %s\n" % (i, word) for i, word in enumerate(words)) + last_row


def main():
    from store import report

    directory = sys.argv[1]
    files = {f"hostile-{name}.jpg": jpeg(contents) for name, contents in hostile_stores()}
    asked = jpeg(store(signed("m", claimed=claim())))
    files["hostile-asked.jpg"] = asked
    question = report("questions", asked)[0].split()[0]
    for name, length in ("longest", 1_048_576), ("too_long", 1_048_577):
        files[f"{name}.verdicts"] = verdict_file(length, f"{question} untrusted\n".encode())
    os.makedirs(directory, exist_ok=True)
    for name, contents in files.items():
        with open(os.path.join(directory, name), "wb") as file:
            file.write(contents)


if __name__ == "__main__":
    main()
