#!/usr/bin/env python3
"""Shows examples/judge/judge.py each algorithm and each word, and has c2 read what it prints.

    judge_cases.py JUDGE C2      runs JUDGE (judge.py) and C2 on files that are made and signed here; prints a table

Each row is a cause, the word that the judge must print of it (`silent` where it must print none), and what C2's `questions` and
`validate` say with that verdict file, which is compared too. The first difference ends the run with status 1. A command or a
container that C2 doesn't have yet is shown as `-`.
"""

import datetime
import os
import subprocess
import sys
import tempfile

from cryptography import x509
from cryptography.hazmat.primitives import hashes, serialization
from cryptography.hazmat.primitives.asymmetric import ec, ed25519, rsa

from make_store import box
from sign_photo import LABEL, LATER_LABEL, TITLE, Signed, Signer

JPEG = bytes.fromhex("ffd8ffe000104a46494600010200000100010000ffd9")
BMFF = box(b"ftyp", b"mif1\0\0\0\0mif1heic") + box(b"mdat", b"a picture")
START, MIDDLE, END = (datetime.datetime(year, 1, 1) for year in (2026, 2027, 2028))
USES = x509.ExtendedKeyUsage([x509.ExtendedKeyUsageOID.EMAIL_PROTECTION])
CODES = {
    "mismatch": "claimSignature.mismatch",
    "untrusted": "signingCredential.untrusted",
    "invalid": "signingCredential.invalid",
    "silent": "profile.verdict.missing",
}
KEYS = {
    "P-256": lambda: ec.generate_private_key(ec.SECP256R1()),
    "P-384": lambda: ec.generate_private_key(ec.SECP384R1()),
    "P-521": lambda: ec.generate_private_key(ec.SECP521R1()),
    "RSA": lambda: rsa.generate_private_key(65537, 2048),
    "Ed25519": ed25519.Ed25519PrivateKey.generate,
}
ALGORITHMS = {"ES256": "P-256", "ES384": "P-384", "ES512": "P-521", "PS256": "RSA", "PS384": "RSA", "PS512": "RSA", "EdDSA": "Ed25519"}


class Raw:
    """Bytes in a certificate's place."""

    def __init__(self, contents):
        self.contents = contents

    def public_bytes(self, _encoding):
        return self.contents


class Authority:
    """A key and its certificate, which the key itself or another authority has signed."""

    def __init__(self, name, above=None):
        self.name, self.key = name, KEYS["P-256"]()
        self.certificate = (above or self).certify(name, self.key.public_key(), authority=True)

    def certify(self, name, key, authority=False, signs=True, uses=USES):
        named = lambda it: x509.Name([x509.NameAttribute(x509.NameOID.COMMON_NAME, it)])
        usage = x509.KeyUsage(signs and not authority, False, False, False, False, authority, False, False, False)
        extensions = [(x509.BasicConstraints(authority, None), True)]
        # A certificate without the right to sign has another one, since one with no usage at all isn't a certificate.
        extensions += [(usage if signs else x509.KeyUsage(False, False, True, False, False, False, False, False, False), True)]
        extensions += [(uses, False)] if uses and not authority else []
        builder = x509.CertificateBuilder(named(self.name), named(name), key, x509.random_serial_number(), START, END)
        for extension, critical in extensions:
            builder = builder.add_extension(extension, critical)
        return builder.sign(self.key, hashes.SHA256())


class Cases:
    """The files to be judged: name, what they show, contents, and the word."""

    def __init__(self):
        self.root = Authority("Root")
        self.middle = Authority("Middle", self.root)
        self.keys = {kind: make() for kind, make in KEYS.items()}

    def signer(self, algorithm="ES256", kind=None, chain=None, protects_chain=False, **certificate):
        key = self.keys[kind or ALGORITHMS[algorithm]]
        if chain is None:
            chain = [self.middle.certify("Signer", key.public_key(), **certificate), self.middle.certificate]
        return Signer(key, chain, algorithm, protects_chain)

    def right(self):
        """Signatures that hold, of certificates that lead to the anchor."""
        for algorithm, kind in ALGORITHMS.items():
            yield f"{algorithm}, a key of {kind}", Signed(self.signer(algorithm), JPEG)
        yield "ES256 by a key of P-384", Signed(self.signer("ES256", "P-384"), JPEG)
        yield "certificates in the protected header", Signed(self.signer(protects_chain=True), JPEG)
        direct = self.root.certify("Signer", self.keys["P-256"].public_key())
        yield "one certificate, right below the anchor", Signed(self.signer(chain=[direct]), JPEG)
        yield "a BMFF file", Signed(self.signer(), BMFF)
        for media, what in (JPEG, "a JPEG"), (BMFF, "a BMFF file"):
            yield f"{what} with a claim of version 1", Signed(self.signer(), media, version=1)
            yield f"{what} with digests by SHA-384", Signed(self.signer(), media, digests="sha384")
            yield f"{what} of version 1 with digests by SHA-512", Signed(self.signer("ES512"), media, version=1, digests="sha512")

    def wrong(self):
        """Other causes, the word of each, and its file."""
        signed = Signed(self.signer(), JPEG)
        changed = signed.claim.replace(TITLE.encode(), b"B" + TITLE.encode()[1:])
        turned = signed.signature[:-1] + bytes([signed.signature[-1] ^ 1])
        yield "mismatch", "a changed claim", signed.bytes.replace(signed.claim, changed)
        yield "mismatch", "a changed signature", signed.bytes.replace(signed.signature, turned)
        other = self.middle.certify("Signer", self.keys["P-384"].public_key())
        yield "mismatch", "another key's certificate", Signed(self.signer(chain=[other, self.middle.certificate]), JPEG).bytes
        for what, elsewhere in ("another anchor", Authority("Elsewhere")), ("another anchor of the same name", Authority("Root")):
            stranger = elsewhere.certify("Signer", self.keys["P-256"].public_key())
            yield "untrusted", what, Signed(self.signer(chain=[stranger, elsewhere.certificate]), JPEG).bytes
        lone = self.middle.certify("Signer", self.keys["P-256"].public_key())
        yield "untrusted", "the certificate between is missing", Signed(self.signer(chain=[lone]), JPEG).bytes
        yield "invalid", "no certificate", Signed(self.signer(chain=[]), JPEG).bytes
        yield "invalid", "no certificate but other bytes", Signed(self.signer(chain=[Raw(b"bytes")]), JPEG).bytes
        yield "invalid", "an authority's certificate", Signed(self.signer(authority=True), JPEG).bytes
        yield "invalid", "a certificate that isn't for signatures", Signed(self.signer(signs=False), JPEG).bytes
        serving = x509.ExtendedKeyUsage([x509.ExtendedKeyUsageOID.SERVER_AUTH])
        yield "invalid", "a certificate of a web server", Signed(self.signer(uses=serving), JPEG).bytes
        yield "invalid", "a certificate without uses", Signed(self.signer(uses=None), JPEG).bytes
        below = Authority("Middle", self.root)
        below.certificate = self.root.certify("Middle", below.key.public_key())
        signer = below.certify("Signer", self.keys["P-256"].public_key())
        yield "invalid", "a signer's certificate in an authority's place", Signed(self.signer(chain=[signer, below.certificate]), JPEG).bytes
        odd = Signer(self.keys["P-256"], [self.keys_certificate("RSA")])
        yield "invalid", "ES256 beside the certificate of an RSA key", Signed(odd, JPEG).bytes
        unknown = self.signer()
        unknown.protected = bytes.fromhex("a101382e")
        yield "silent", "an algorithm that the judge doesn't know (ES256K)", Signed(unknown, JPEG).bytes

    def twice(self):
        """Files that were signed twice: the words on the earlier and the later signature."""
        stranger = Authority("Elsewhere").certify("Signer", self.keys["P-256"].public_key())
        strange = self.signer(chain=[stranger])
        earlier, other = Signed(self.signer(), JPEG), Signed(strange, JPEG)
        later = self.signer("PS256")
        yield ["approved", "approved"], "signed twice", Signed(later, JPEG, earlier).bytes
        yield ["untrusted", "approved"], "signed twice, first by a stranger", Signed(later, JPEG, other).bytes
        yield ["approved", "untrusted"], "signed twice, at last by a stranger", Signed(strange, JPEG, earlier).bytes
        for earlier_version, version in (1, 1), (1, 2), (2, 1):
            earlier = Signed(self.signer(), JPEG, version=earlier_version, digests="sha512")
            yield ["approved", "approved"], f"version {version} over version {earlier_version}", Signed(later, JPEG, earlier, version).bytes
        yield ["approved", "approved"], "a BMFF file that was signed twice", Signed(later, BMFF, Signed(self.signer(), BMFF)).bytes

    def changed_media(self):
        """Files that were changed outside their stores: the code of `validate`, which approved signatures don't hide."""
        signed = Signed(self.signer(), JPEG).bytes
        yield "assertion.dataHash.mismatch", "a changed byte of the picture", signed[:19] + b"x" + signed[20:]
        signed = Signed(self.signer(), BMFF).bytes
        yield "assertion.bmffHash.mismatch", "a changed byte of a BMFF file", signed.replace(b"a picture", b"A picture")

    def keys_certificate(self, kind):
        return self.root.certify("Signer", self.keys[kind].public_key())


class Run:
    """Runs the judge and c2 over a file, and prints a row of the table."""

    def __init__(self, judge, program, folder, anchor):
        self.judge, self.program, self.folder = judge, program, folder
        self.media, self.verdicts = os.path.join(folder, "media"), os.path.join(folder, "verdicts")
        self.anchors = os.path.join(folder, "anchors.pem")
        with open(self.anchors, "wb") as file:
            file.write(anchor.public_bytes(serialization.Encoding.PEM))

    def judged(self, contents, at=MIDDLE):
        """What the judge prints and exits with on a file of these contents; the verdict file is written."""
        with open(self.media, "wb") as file:
            file.write(contents)
        words = [sys.executable, self.judge, "--anchors", self.anchors, "--at", f"{at.isoformat()}Z", self.media]
        done = subprocess.run(words, capture_output=True, text=True, check=False)
        with open(self.verdicts, "w", encoding="ascii") as file:
            file.write(done.stdout)
        return done

    def check_left_out(self, what, contents):
        done = self.judged(contents)
        self.compare(what, (done.stdout, done.returncode, done.stderr.count("left out")), ("", 1, 1), done.stderr)
        print(f"{what:50} left out")

    def check(self, what, words, contents, at=MIDDLE, status=0, answer="valid"):
        """A file, the word on each of its manifests in the order of the store, and what `validate` says where all are approved."""
        done = self.judged(contents, at)
        printed = done.stdout.split()[1::2]
        self.compare(what, (printed, done.returncode), ([word for word in words if word != "silent"], status), done.stderr)
        asked, validated = self.c2("questions"), self.c2("validate")
        for word in reversed(words):
            answer = answer if word == "approved" else f"failing {CODES[word]}"
            if word != "approved":
                break
        print(f"{what:50} {' '.join(words):20} {self.asked(what, words, asked):20} {self.validated(what, answer, validated)}")

    def c2(self, command):
        done = subprocess.run([self.program, command, self.media, self.verdicts], capture_output=True, text=True, check=False)
        absent = done.returncode == 4 or done.stdout == "refused NotMedia 0\n"
        return None if absent else done.stdout

    def asked(self, what, words, lines):
        """The verdicts that `questions` gives, which must be the judge's own, the last manifest's first."""
        if lines is None:
            return "-"
        labels = [LABEL, LATER_LABEL][: len(words)]
        expected = [f"{label} {word}" for label, word in zip(labels, words)]
        self.compare(f"questions: {what}", [line.split(" ", 1)[1] for line in reversed(lines.splitlines())], expected, lines)
        return " ".join(words)

    def validated(self, what, answer, line):
        """The first words that `validate` gives: `valid`, or a code."""
        if line is None:
            return "-"
        self.compare(f"validate: {what}", line.split()[: len(answer.split())], answer.split(), line)
        return answer

    def compare(self, what, found, expected, more):
        if found != expected:
            print(f"differs: {what}\n    {found}\n    instead of {expected}\n{more}")
            sys.exit(1)


def main():
    judge, program = map(os.path.abspath, sys.argv[1:])
    cases = Cases()
    with tempfile.TemporaryDirectory() as folder:
        run = Run(judge, program, folder, cases.root.certificate)
        print(f"{'cause':50} {'judge':20} {'questions':20} validate")
        for what, signed in cases.right():
            run.check(what, ["approved"], signed.bytes)
        for word, what, contents in cases.wrong():
            run.check(what, [word], contents, status=1 if word == "silent" else 0)
        signed = Signed(cases.signer(), JPEG).bytes
        run.check("expired: a day after the certificates end", ["invalid"], signed, END + datetime.timedelta(1))
        run.check("a day before the certificates begin", ["invalid"], signed, START - datetime.timedelta(1))
        for words, what, contents in cases.twice():
            run.check(what, words, contents)
        for code, what, contents in cases.changed_media():
            run.check(what, ["approved"], contents, answer=f"failing {code}")
        for what, contents in ("no manifest store", JPEG), ("no media file", b"a text"), ("an empty file", b""):
            run.check_left_out(what, contents)
    print("all as it should be")


if __name__ == "__main__":
    main()
