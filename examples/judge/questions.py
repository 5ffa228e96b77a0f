"""The questions that a media file puts to a judge: one for each manifest whose signature can be asked about.

A C2PA manifest store is a tree of boxes (ISO/IEC 19566-5) inside a JPEG or a BMFF file (HEIF, AVIF, MP4 and the like), or in a file of its own. Each
of its manifests has a claim and a COSE_Sign1 message over the claim (RFC 9052). This reader finds them in files that are as
they should be. It isn't strict: whether a file is as it should be is for c2 to say.
"""

import hashlib

import cbor

C2PA_TYPE = bytes.fromhex("00110010800000aa00389b71")
C2PA_BMFF_BOX = bytes.fromhex("d8fec3d61b0e483c92975828877ec481")
CLAIM_LABELS = "c2pa.claim", "c2pa.claim.v2"
SIGN1_TAG = 18


class Unreadable(Exception):
    """What the judge can't ask about; the text says why."""


class Question:
    """What a signature is to be checked against, and the id by which c2 knows the question."""

    def __init__(self, label, claim, message):
        self.label = label
        self.protected, self.unprotected, self.signature = message
        parts = ("text", "Signature1"), ("bytes", self.protected), ("bytes", b""), ("bytes", claim)
        # the Sig_structure (RFC 9052, section 4.4), which is what was signed
        self.signed = cbor.encode(("list", parts))
        spelled = with_length(self.signed) + with_length(self.signature) + cbor.encode(self.unprotected)
        self.id = hashlib.sha256(spelled).hexdigest()


def with_length(data):
    return len(data).to_bytes(8, "big") + data


def questions_of(media):
    """For each manifest of a media file its question, or why there is none."""
    _, _, boxes = described(first_payload(store_of(media)))
    for _, label, manifest in filter(None, map(superbox, boxes)):
        try:
            yield Question(label, *claim_and_message(label, manifest))
        except Unreadable as reason:
            yield Unreadable(f"manifest {label}: {reason}")


def claim_and_message(label, boxes):
    """The bytes of a manifest's claim, and its COSE_Sign1 message."""
    inner = list(filter(None, map(superbox, boxes)))
    claims = [content for kind, name, content in inner if kind == b"c2cl" and name in CLAIM_LABELS]
    messages = [content for kind, name, content in inner if kind == b"c2cs" and name == "c2pa.signature"]
    if len(claims) != 1 or len(messages) != 1:
        raise Unreadable(f"{len(claims)} claims and {len(messages)} signatures, where one each is wanted")
    claim, message = cbor_content(claims[0]), cbor_content(messages[0])
    named = cbor.field(item_of(claim), "signature")
    if named not in (("text", f"self#jumbf=/c2pa/{label}/c2pa.signature"), ("text", "self#jumbf=c2pa.signature")):
        raise Unreadable("the claim doesn't name this manifest's signature")
    return claim, sign1(item_of(message))


def cbor_content(boxes):
    """The payload of the first content box, which has to be CBOR."""
    kind, payload = boxes[0] if boxes else (None, b"")
    if kind != b"cbor":
        raise Unreadable("a claim or a signature without CBOR in it")
    return payload


def item_of(data):
    try:
        return cbor.read_whole(data)
    except cbor.NotCbor as reason:
        raise Unreadable(f"no CBOR: {reason}") from None


def sign1(item):
    """Protected header, unprotected header and signature of a message whose payload stands elsewhere."""
    if item[:2] == ("tag", SIGN1_TAG):
        item = item[2]
    members = item[1] if item[0] == "list" else ()
    if [member[0] for member in members] != ["bytes", "map", "simple", "bytes"] or members[2] != cbor.NULL:
        raise Unreadable("the signature box holds no COSE_Sign1 message with a detached payload")
    return members[0][1], members[1], members[3][1]


# Boxes: a length of four bytes, a kind of four, a length of eight where the first is 1, and a payload.


def places(data):
    """Kind, start of the payload, and end of each box of a list of boxes."""
    at = 0
    while at < len(data):
        length, kind, header = int.from_bytes(data[at : at + 4], "big"), data[at + 4 : at + 8], 8
        if length == 1:
            length, header = int.from_bytes(data[at + 8 : at + 16], "big"), 16
        elif length == 0:
            length = len(data) - at
        if length < header or at + length > len(data):
            raise Unreadable(f"a box that is cut short at byte {at}")
        yield kind, at + header, at + length
        at += length


def first_payload(data):
    return next(data[start:end] for _, start, end in places(data))


def boxes_of(data):
    """Kind and payload of each box."""
    return [(kind, data[start:end]) for kind, start, end in places(data)]


def superbox(box):
    """Type, label and content boxes of a superbox of C2PA with a label; None for another box."""
    kind, payload = box
    found = described(payload) if kind == b"jumb" else (b"", None, [])
    return found if found[1] else None


def described(payload):
    """Type in four letters, label and content boxes of a superbox, by the description that it begins with."""
    (kind, description), *boxes = boxes_of(payload) or [(None, b"")]
    if kind != b"jumd" or description[4:16] != C2PA_TYPE:
        return b"", None, boxes
    label, zero, _ = description[17:].partition(b"\0")
    has_label = len(description) > 16 and description[16] & 2 and zero
    return description[:4], label.decode("utf-8", "replace") if has_label else None, boxes


# Media files


def store_of(media):
    """The manifest store of a JPEG or a BMFF file, or that a file is."""
    if media[:2] == b"\xff\xd8":
        store = jpeg_store(media)
    elif media[4:8] == b"ftyp":
        store = bmff_store(media)
    elif media[4:8] == b"jumb":
        store = media
    else:
        raise Unreadable("neither JPEG nor BMFF nor a manifest store")
    if not store:
        raise Unreadable("no manifest store")
    return store


def jpeg_store(media):
    """The box in the APP11 packets of a JPEG (ISO/IEC 18477-3) that is a C2PA store."""
    store, number = bytearray(), None
    for marker, payload in segments(media):
        if marker != 0xEB or payload[:2] != b"JP" or len(payload) < 16:
            continue
        header = 16 if payload[8:12] == b"\0\0\0\1" else 8
        first = payload[4:8] == b"\0\0\0\1" and payload[8 + header + 4 : 8 + header + 24] == b"jumdc2pa" + C2PA_TYPE
        if first and not store:
            # Each packet repeats the header of the box that the packets carry in pieces.
            store, number = bytearray(payload[8:]), payload[2:4]
        elif store and payload[2:4] == number:
            store += payload[8 + header :]
    return bytes(store)


def segments(media):
    """Marker and payload of each segment of a JPEG up to its picture (ITU-T T.81, B.1.1)."""
    at = 2
    while at < len(media) and media[at] == 0xFF:
        while media[at : at + 1] == b"\xff":
            at += 1
        marker = media[at] if at < len(media) else 0xD9
        if marker in (0xD9, 0xDA):
            return
        if marker == 0x01 or 0xD0 <= marker <= 0xD7:
            at += 1
            continue
        length = max(2, int.from_bytes(media[at + 1 : at + 3], "big"))
        yield marker, media[at + 3 : at + 1 + length]
        at += 1 + length


def bmff_store(media):
    """The store in the C2PA box of a BMFF file: user type, version and flags, `manifest`, an offset of 8 bytes, the store."""
    before = C2PA_BMFF_BOX + bytes(4) + b"manifest\0"
    for kind, start, end in places(media):
        if kind == b"uuid" and media[start : start + len(before)] == before:
            return media[start + len(before) + 8 : end]
    return b""
