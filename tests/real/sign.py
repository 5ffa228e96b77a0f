#!/usr/bin/env python3
"""The whole way of a newsroom: sign a picture, let c2 say what is to be judged, judge it, and let c2 answer with the verdict.

    sign.py [C2 [PICTURE]]      runs C2 (the repository's ./c2, where none is given) on a signed PICTURE and on changed ones

PICTURE is a JPEG or a BMFF file, so a film as well.

The key is made and used outside c2, by the Python package `cryptography`. The signed bytes and the bytes of a question are
joined here from their parts. Each thing that was checked is printed; the first difference ends the run with status 1.

store.py may stand in for C2: `sign.py tests/real/store.py` shows that this program and store.py agree, and nothing of c2.
"""

import datetime
import hashlib
import os
import subprocess
import sys
import tempfile

from cryptography import x509
from cryptography.exceptions import InvalidSignature
from cryptography.hazmat.primitives import hashes
from cryptography.hazmat.primitives.asymmetric import ec
from cryptography.hazmat.primitives.asymmetric.utils import encode_dss_signature

from sign_photo import LABEL, LATER_LABEL, TITLE, UNCOVERED, Signed, Signer, root_boxes, signed_bytes

HERE = os.path.dirname(os.path.abspath(__file__))
PLAIN_PICTURE = bytes.fromhex("ffd8ffe000104a46494600010200000100010000ffd9")
ES256 = ec.ECDSA(hashes.SHA256())


def check(what, right):
    if not right:
        print(f"differs: {what}")
        sys.exit(1)
    print(f"checked: {what}")


def certificate_of(key):
    """A certificate (RFC 5280) that the key has signed for itself."""
    name = x509.Name([x509.NameAttribute(x509.NameOID.ORGANIZATION_NAME, "A newsroom")])
    serial, start, end = x509.random_serial_number(), datetime.datetime(2026, 1, 1), datetime.datetime(2027, 1, 1)
    builder = x509.CertificateBuilder(name, name, key.public_key(), serial, start, end)
    return builder.sign(key, hashes.SHA256())


def holds(key, signature, message):
    """Whether a signature of r and s is the key's over a message."""
    r, s = int.from_bytes(signature[:32], "big"), int.from_bytes(signature[32:], "big")
    try:
        key.public_key().verify(encode_dss_signature(r, s), message, ES256)
    except InvalidSignature:
        return False
    return True


def question_id(signed, signature, unprotected):
    """The id of a question: the digest of the signed bytes and the signature behind their lengths, and the header."""
    lengths = len(signed).to_bytes(8, "big"), len(signature).to_bytes(8, "big")
    return hashlib.sha256(lengths[0] + signed + lengths[1] + signature + unprotected).hexdigest()


def verdict_row(picture, signed=None):
    """The row of a verdict file on a picture's signature, or on this signature over other bytes: approved where it holds."""
    message = picture.signed_bytes if signed is None else signed
    word = "approved" if holds(picture.signer.key, picture.signature, message) else "mismatch"
    return f"{identity_of(picture, message)} {word}\n"


def identity_of(picture, signed):
    return question_id(signed, picture.signature, picture.signer.unprotected_in_order)


class Run:
    """Runs c2's `questions` and `validate` over files of a folder."""

    def __init__(self, program, folder):
        self.program, self.folder = program, folder
        self.has_validate = self.told("validate", "none")[0] != 4

    def write(self, name, contents):
        with open(os.path.join(self.folder, name), "wb") as file:
            file.write(contents)

    def told(self, command, *names):
        paths = [os.path.join(self.folder, name) for name in names]
        done = subprocess.run([self.program, command, *paths], stdout=subprocess.PIPE, check=False)
        return done.returncode, done.stdout.decode("utf-8")

    def compare(self, what, printed, expected):
        if printed != expected:
            print(f"c2 printed {printed}\ninstead of {expected}")
        check(what, printed == expected)

    def check(self, what, names, identity, verdict):
        """What `questions` prints."""
        self.compare(what, self.told("questions", *names), (0, f"{identity} {LABEL} {verdict}\n"))

    def check_valid(self, what, names, manifests, assertions, picture):
        line = f"valid manifests={manifests} assertions={assertions} covered={picture.covered} outside={picture.outside}\n"
        if self.has_validate:
            self.compare(f"valid: {what}", self.told("validate", *names), (0, line))

    def check_failing(self, what, names, code, place, label=LABEL):
        line = f"failing {code} self#jumbf=/c2pa/{label}/{place}\n"
        if self.has_validate:
            self.compare(f"{code}: {what}", self.told("validate", *names), (1, line))


def check_signed(run, picture):
    """The signed picture: from the question to a verdict of `approved`."""
    identity = identity_of(picture, picture.signed_bytes)
    run.write("signed.jpg", picture.bytes)
    run.check("the question's id is the digest of its bytes, and no judge has spoken", ["signed.jpg"], identity, "silent")
    check("the signature holds over the signed bytes, outside c2", holds(picture.signer.key, picture.signature, picture.signed_bytes))
    run.write("verdicts", verdict_row(picture).encode())
    run.check("a verdict file that approves it is read", ["signed.jpg", "verdicts"], identity, "approved")
    run.check_valid("the signed picture, as it was judged outside c2", ["signed.jpg", "verdicts"], 1, 2, picture)
    run.write("none", b"")
    run.check("a verdict file without rows stays silent", ["signed.jpg", "none"], identity, "silent")
    run.check_failing("nobody has judged it", ["signed.jpg", "none"], "profile.verdict.missing", "c2pa.signature")
    run.check("a silent file before it changes nothing", ["signed.jpg", "none", "verdicts"], identity, "approved")
    run.check_valid("the same behind a silent file", ["signed.jpg", "none", "verdicts"], 1, 2, picture)
    return identity


def check_changed_claim(run, picture, first):
    """The picture with one byte of its claim changed: to a verdict of `mismatch`."""
    changed = picture.claim.replace(TITLE.encode(), b"B" + TITLE.encode()[1:])
    check("the claim stands once in the picture", picture.bytes.count(picture.claim) == 1)
    run.write("changed.jpg", picture.bytes.replace(picture.claim, changed))
    signed = signed_bytes(picture.signer.protected, changed)
    identity = identity_of(picture, signed)
    check("another claim makes another question", identity != first)
    run.check("the old verdict isn't one on the changed claim", ["changed.jpg", "verdicts"], identity, "silent")
    run.check_failing("the old verdict", ["changed.jpg", "verdicts"], "profile.verdict.missing", "c2pa.signature")
    check("the signature doesn't hold over the changed claim, outside c2", not holds(picture.signer.key, picture.signature, signed))
    run.write("both", (verdict_row(picture) + verdict_row(picture, signed)).encode())
    run.check("a verdict file that refuses it is read", ["changed.jpg", "both"], identity, "mismatch")
    run.check_failing("a byte of the claim is another", ["changed.jpg", "both"], "claimSignature.mismatch", "c2pa.signature")
    run.check("and still approves the signed picture", ["signed.jpg", "both"], first, "approved")


def check_changed_bytes(run, picture):
    """One byte of the picture changed, and one of an assertion: the signature holds, and the rules fail."""
    places = [place for place in range(len(picture.bytes)) if picture.bytes[place : place + 12] == b"c2pa.created"]
    check("the actions stand once in the picture", len(places) == 1)
    failing = ("assertion.bmffHash.mismatch", "c2pa.hash.bmff.v2") if picture.is_bmff else ("assertion.dataHash.mismatch", "c2pa.hash.data")
    for what, place, code, box in (
        ("the picture's last byte", last_place(picture), *failing),
        ("a byte of an assertion", places[0], "assertion.hashedURI.mismatch", "c2pa.actions.v2"),
    ):
        changed = bytearray(picture.bytes)
        changed[place] ^= 1
        run.write("changed.jpg", bytes(changed))
        identity = identity_of(picture, picture.signed_bytes)
        run.check(f"{what} is another: the question is the same", ["changed.jpg", "verdicts"], identity, "approved")
        run.check_failing(f"{what} is another", ["changed.jpg", "verdicts"], code, f"c2pa.assertions/{box}")


def last_place(picture):
    """The place of the last covered byte that isn't a marker or a header; the store of a BMFF file stands behind it."""
    if picture.is_bmff:
        return max(start + len(contents) for start, kind, contents in root_boxes(picture.media) if kind not in UNCOVERED) - 1
    # the last byte before EOI, or in PLAIN_PICTURE, which has none of a scan, that of APP0
    return 19 if picture.media == PLAIN_PICTURE else len(picture.bytes) - 3


def check_chain(run, picture, key):
    """The signed picture signed again, by another key: two questions, and what fails where one isn't approved. Version and digests stay."""
    later = Signed(Signer(key, [certificate_of(key)]), picture.media, picture, picture.version, picture.digests)
    run.write("later.jpg", later.bytes)
    rows = [verdict_row(later), verdict_row(picture)]
    lines = [f"{row.split()[0]} {label} approved\n" for row, label in zip(rows, (LATER_LABEL, LABEL))]
    run.write("both", "".join(rows).encode())
    if run.has_validate:
        run.compare("both questions are put, the later first", run.told("questions", "later.jpg", "both"), (0, "".join(lines)))
    run.check_valid("a picture that was signed twice", ["later.jpg", "both"], 2, 5, later)
    run.write("later", rows[0].encode())
    run.check_failing("nobody has judged the earlier", ["later.jpg", "later"], "profile.verdict.missing", "c2pa.signature")
    run.write("refused", (rows[0] + rows[1].replace("approved", "untrusted")).encode())
    run.check_failing("the earlier isn't trusted", ["later.jpg", "refused"], "signingCredential.untrusted", "c2pa.signature")
    changed = later.bytes.replace(picture.claim, picture.claim.replace(b"A picture", b"B picture"))
    run.write("changed.jpg", changed)
    place = "c2pa.assertions/c2pa.ingredient" + ("" if picture.version == 1 else ".v3")
    run.check_failing("the earlier claim is another", ["changed.jpg", "both"], "ingredient.manifest.mismatch", place, LATER_LABEL)


def main():
    program = sys.argv[1] if len(sys.argv) > 1 else os.path.join(HERE, "..", "..", "c2")
    picture = PLAIN_PICTURE
    if len(sys.argv) > 2:
        with open(sys.argv[2], "rb") as file:
            picture = file.read()
    keys = [ec.generate_private_key(ec.SECP256R1()) for _ in range(2)]
    with tempfile.TemporaryDirectory() as folder:
        run = Run(os.path.abspath(program), folder)
        for version, digests in (2, "sha256"), (1, "sha512"):
            print(f"a claim of version {version}, digests by {digests}:")
            signed = Signed(Signer(keys[0], [certificate_of(keys[0])]), picture, version=version, digests=digests)
            first = check_signed(run, signed)
            check_changed_claim(run, signed, first)
            check_changed_bytes(run, signed)
            check_chain(run, signed, keys[1])
    print(f"all as it should be, asked of {program}" + ("" if run.has_validate else ", which has no command validate yet"))


if __name__ == "__main__":
    main()
