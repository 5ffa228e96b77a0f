#!/usr/bin/env python3
"""Signs a JPEG or a BMFF file, apart from c2: puts a C2PA manifest store with one manifest into it.

    sign_photo.py --key KEY.pem --chain CHAIN.pem [--alg ES256] [--version 2] [--digests sha256] MEDIA SIGNED

CHAIN.pem has the signer's certificate and then those above it. The algorithm is one of ES256, ES384, ES512, PS256, PS384,
PS512 and EdDSA. The claim is of version 1 or 2, and digests are by sha256, sha384 or sha512. A store that MEDIA has already
isn't looked for.
"""

import argparse
import hashlib

from cryptography import x509
from cryptography.hazmat.primitives import hashes, serialization
from cryptography.hazmat.primitives.asymmetric import ec, padding
from cryptography.hazmat.primitives.asymmetric.utils import decode_dss_signature

from cbor import head
from make import after_app0
from make_store import (
    array,
    assertion,
    assertions,
    box,
    claim_box,
    data,
    hashed_uri,
    item,
    jpeg,
    manifest,
    mapping,
    sign1,
    signature_box,
    store,
    tag,
    text,
    uint,
)
from manifests import CLAIM_LABELS

LABEL = "urn:c2pa:11111111-2222-4333-8444-555555555555"
LATER_LABEL = "urn:c2pa:22222222-2222-4333-8444-555555555555"
TITLE = "A picture of a street"
# Root boxes that the binding to a BMFF file leaves out.
UNCOVERED = b"ftyp", b"mfra"
C2PA_BMFF_BOX = bytes.fromhex("d8fec3d61b0e483c92975828877ec481")
# The names of COSE (RFC 9053, section 2, and RFC 8230), their numbers less the sign and 1, and their hashes.
ALGORITHMS = {
    "ES256": (6, hashes.SHA256()),
    "ES384": (34, hashes.SHA384()),
    "ES512": (35, hashes.SHA512()),
    "PS256": (36, hashes.SHA256()),
    "PS384": (37, hashes.SHA384()),
    "PS512": (38, hashes.SHA512()),
    "EdDSA": (7, None),
}


class Signer:
    """A key, its certificates, and the headers of a message that it signs."""

    def __init__(self, key, chain, algorithm="ES256", protects_chain=False):
        self.key, self.algorithm = key, algorithm
        number, self.hash = ALGORITHMS[algorithm]
        encoded = [data(certificate.public_bytes(serialization.Encoding.DER)) for certificate in chain]
        # header 33 (RFC 9360): one certificate, or a list of them
        certificates = [(uint(33), encoded[0] if len(encoded) == 1 else array(*encoded))] if encoded else []
        said, pad = [(uint(1), head(1, number))], [("pad", data(bytes(7)))]
        self.protected = mapping(*said, *certificates) if protects_chain else mapping(*said)
        free = [] if protects_chain else certificates
        # The header's keys in an order that a tool could choose, and in the order of their encoding.
        self.unprotected, self.unprotected_in_order = mapping(*pad, *free), mapping(*free, *pad)

    def signature(self, message):
        if self.algorithm == "EdDSA":
            return self.key.sign(message)
        if self.algorithm.startswith("PS"):
            return self.key.sign(message, padding.PSS(padding.MGF1(self.hash), self.hash.digest_size), self.hash)
        # COSE has the two numbers side by side (RFC 9053, section 2.1).
        width = (self.key.key_size + 7) // 8
        return b"".join(half.to_bytes(width, "big") for half in decode_dss_signature(self.key.sign(message, ec.ECDSA(self.hash))))


class Signed:
    """A signed media file, and the parts that its signature stands on.

    `parent` is the same media as somebody has signed it before: its manifest stays as it is and becomes the ingredient. With a claim
    of version 1 the ingredient is of version 1 too, which refers to no signature. `digests` names the algorithm of all digests.
    """

    def __init__(self, signer, media, parent=None, version=2, digests="sha256"):
        self.signer, self.media, self.parent, self.version, self.digests = signer, media, parent, version, digests
        self.label = LABEL if parent is None else LATER_LABEL
        self.is_bmff = media[4:8] == b"ftyp"
        # the bytes of the media that the binding covers, and those that it leaves out
        kept = [contents for _, kind, contents in root_boxes(media) if kind not in UNCOVERED] if self.is_bmff else [media]
        self.covered = sum(map(len, kept))
        self.outside = len(media) - self.covered
        self.bytes = self.bmff_file() if self.is_bmff else self.jpeg_file()

    def jpeg_file(self):
        place = after_app0(self.media)
        packets = lambda contents: jpeg(contents, self.media[:place], self.media[place:])
        # The store is as long with every number and digest, so its length is known from a first try.
        length = len(packets(self.store(self.data_hash(place, 0)))) - len(self.media)
        return packets(self.store(self.data_hash(place, length)))

    def bmff_file(self):
        """The store stands last, before an index of fragments, which is looked for at the end of a file."""
        contents = self.store(self.bmff_hash())
        start, kind, _ = list(root_boxes(self.media))[-1]
        place = start if kind == b"mfra" else len(self.media)
        own = box(b"uuid", C2PA_BMFF_BOX + bytes(4) + b"manifest\0" + bytes(8) + contents)
        return self.media[:place] + own + self.media[place:]

    def store(self, binding):
        actions = assertion("c2pa.actions.v2", mapping(("actions", array(mapping(("action", text("c2pa.created")))))))
        listed = {"c2pa.actions.v2": actions, **self.ingredient(), **dict([binding])}
        self.claim = self.claim_of(*(self.reference(f"c2pa.assertions/{label}", contents) for label, contents in listed.items()))
        self.signed_bytes = signed_bytes(self.signer.protected, self.claim)
        self.signature = self.signer.signature(self.signed_bytes)
        message = tag(18, sign1(self.signer.protected, self.signer.unprotected, signature=self.signature))
        self.signature_box = signature_box(item(message))
        claims = claim_box(item(self.claim), label=CLAIM_LABELS[self.version])
        self.manifest = manifest(self.label, assertions(*listed.values()), claims, self.signature_box)
        return store(*([self.parent.manifest] if self.parent else []), self.manifest)

    def ingredient(self):
        """The parent as an assertion, by the digest of its manifest, and in version 3 by that of its signature too."""
        if self.parent is None:
            return {}
        named = [("activeManifest", "", self.parent.manifest), ("claimSignature", "/c2pa.signature", self.parent.signature_box)]
        if self.version == 1:
            named = [("c2pa_manifest", "", self.parent.manifest)]
        uri = f"/c2pa/{self.parent.label}"
        fields = [(field, self.reference(uri + more, contents)) for field, more, contents in named]
        label = "c2pa.ingredient" if self.version == 1 else "c2pa.ingredient.v3"
        return {label: assertion(label, mapping(("dc:title", text(TITLE)), ("relationship", text("parentOf")), *fields))}

    def reference(self, place, contents):
        """The hashed URI of a box of a 4-byte length: the digest covers the box behind its header."""
        return hashed_uri(f"self#jumbf={place}", self.digest(contents[8:]), self.digests)

    def digest(self, contents):
        return hashlib.new(self.digests, contents).digest()

    def claim_of(self, *listed):
        """A claim over assertions, its keys in no order of encoding."""
        made_by = {1: ("claim_generator", text("A camera")), 2: ("claim_generator_info", mapping(("name", text("A newsroom's tool"))))}
        more = [("dc:format", text("image/jpeg"))] if self.version == 1 else []
        return mapping(
            ("instanceID", text("xmp:iid:11111111-2222-4333-8444-555555555555")),
            made_by[self.version],
            ("signature", text(f"self#jumbf=/c2pa/{self.label}/c2pa.signature")),
            ("assertions" if self.version == 1 else "created_assertions", array(*listed)),
            ("dc:title", text(TITLE)),
            *more,
            ("alg", text(self.digests)),
        )

    def data_hash(self, start, length):
        """The hard binding to all but one range; it is as long with every number."""
        exclusions = array(mapping(("start", uint(start, 8)), ("length", uint(length, 8))))
        fields = ("exclusions", exclusions), ("alg", text(self.digests)), ("hash", data(self.digest(self.media))), ("pad", data(b""))
        return "c2pa.hash.data", assertion("c2pa.hash.data", mapping(*fields))

    def bmff_hash(self):
        """The hard binding to a BMFF file: each root box but `ftyp`, `mfra` and the store's own, after its place in 8 bytes."""
        own = array(mapping(("value", data(C2PA_BMFF_BOX)), ("offset", uint(8))))
        exclusions = mapping(("data", own), ("xpath", text("/uuid"))), mapping(("xpath", text("/ftyp"))), mapping(("xpath", text("/mfra")))
        covered = [start.to_bytes(8, "big") + contents for start, kind, contents in root_boxes(self.media) if kind not in UNCOVERED]
        fields = ("alg", text(self.digests)), ("hash", data(self.digest(b"".join(covered)))), ("exclusions", array(*exclusions))
        return "c2pa.hash.bmff.v2", assertion("c2pa.hash.bmff.v2", mapping(*fields))


def root_boxes(media):
    """Start, kind and bytes of each root box (ISO/IEC 14496-12)."""
    at = 0
    while at < len(media):
        length, kind = int.from_bytes(media[at : at + 4], "big"), media[at + 4 : at + 8]
        if length == 1:
            length = int.from_bytes(media[at + 8 : at + 16], "big")
        assert length >= 8, "a box that runs to the end of the file leaves no place for a store"
        yield at, kind, media[at : at + length]
        at += length


def signed_bytes(protected, claim):
    """The Sig_structure of a COSE_Sign1 message over a claim (RFC 9052, section 4.4), byte by byte."""
    return b"\x84\x6aSignature1" + data(protected) + b"\x40" + data(claim)


def certificates_of(name):
    """The certificates of a PEM file in their order."""
    with open(name, "rb") as file:
        blocks = file.read().split(b"-----BEGIN CERTIFICATE-----")[1:]
    return [x509.load_pem_x509_certificate(b"-----BEGIN CERTIFICATE-----" + block) for block in blocks]


def main():
    parser = argparse.ArgumentParser(description="Signs a JPEG or a BMFF file, apart from c2.")
    parser.add_argument("--key", required=True)
    parser.add_argument("--chain", required=True)
    parser.add_argument("--alg", choices=ALGORITHMS, default="ES256")
    parser.add_argument("--version", type=int, choices=CLAIM_LABELS, default=2)
    parser.add_argument("--digests", choices=("sha256", "sha384", "sha512"), default="sha256")
    parser.add_argument("media")
    parser.add_argument("signed")
    given = parser.parse_args()
    with open(given.key, "rb") as file:
        key = serialization.load_pem_private_key(file.read(), None)
    with open(given.media, "rb") as file:
        media = file.read()
    with open(given.signed, "wb") as file:
        signer = Signer(key, certificates_of(given.chain), given.alg)
        file.write(Signed(signer, media, version=given.version, digests=given.digests).bytes)


if __name__ == "__main__":
    main()
