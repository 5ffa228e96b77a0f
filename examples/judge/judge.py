#!/usr/bin/env python3
"""An example of a judge for c2: checks the signatures of media files, and prints a verdict file.

    judge.py --anchors ANCHORS.pem [--at TIME] MEDIA.. > VERDICTS

MEDIA are JPEG or BMFF files, and manifest stores that lie in files of their own. For each manifest whose signature can be asked about, one line `ID WORD`:

    approved    the signature holds, and its certificate leads to one of the anchors at the time
    mismatch    the signature doesn't hold over the claim
    invalid     the certificates are missing, malformed, expired, or not fit for signing
    untrusted   the certificates lead to none of the anchors

What it can't read gets no line, so that c2's verdict stays `silent`, and a line on standard error; the status is 1 then. TIME is
as in 2026-11-27T12:00:00Z; without it the certificates are looked at as of now.

This is an example and nothing of c2: no promise is proved of it. Its answers are those of the Python package `cryptography`,
which checks signatures, of OpenSSL, which validates chains of certificates, and of the anchors that it is given.
"""

import argparse
import datetime
import mmap
import sys

import cbor
from cryptography import x509
from cryptography.exceptions import InvalidSignature, UnsupportedAlgorithm
from cryptography.hazmat.primitives import hashes
from cryptography.hazmat.primitives.asymmetric import ec, ed25519, padding, rsa
from cryptography.hazmat.primitives.asymmetric.utils import encode_dss_signature
from OpenSSL import crypto
from questions import Unreadable, questions_of

ALGORITHM, X5CHAIN = ("uint", 1), ("uint", 33)
# The algorithms of COSE (RFC 9053, section 2, and RFC 8230) that C2PA allows: the kind of key, and the hash.
ALGORITHMS = {
    -7: ("ES256", ec.EllipticCurvePublicKey, hashes.SHA256()),
    -35: ("ES384", ec.EllipticCurvePublicKey, hashes.SHA384()),
    -36: ("ES512", ec.EllipticCurvePublicKey, hashes.SHA512()),
    -37: ("PS256", rsa.RSAPublicKey, hashes.SHA256()),
    -38: ("PS384", rsa.RSAPublicKey, hashes.SHA384()),
    -39: ("PS512", rsa.RSAPublicKey, hashes.SHA512()),
    -8: ("EdDSA", ed25519.Ed25519PublicKey, None),
}
CURVES = ec.SECP256R1, ec.SECP384R1, ec.SECP521R1
FEWEST_RSA_BITS = 2048
# A certificate that signs claims says one of these uses: protection of e-mail, signing of documents, signing of C2PA claims.
SIGNING_USES = {"1.3.6.1.5.5.7.3.4", "1.3.6.1.5.5.7.3.36", "1.3.6.1.4.1.62558.2.1"}
# OpenSSL's answers that say that a chain doesn't reach an anchor (X509_STORE_CTX_get_error(3)): no certificate above it is
# found, or the one of that name didn't sign it (7). All others are faults of the certificates.
NO_ANCHOR = {2, 7, 18, 19, 20, 21, 27}
MANY_FILES = 100


class Unfit(Exception):
    """Certificates that no signature of a claim can rest on; the text says why."""


def verdict(question, anchors):
    """The word on a question, and the reason."""
    header = item_fields(question.protected)
    name, kind, digest = algorithm_of(header)
    try:
        chain = chain_of(header, question.unprotected)
        key = key_of(chain[0], name, kind)
        if not holds(key, digest, question.signature, question.signed):
            return "mismatch", "the signature doesn't hold over the claim"
        check_fit(chain[0])
    except Unfit as reason:
        return "invalid", str(reason)
    return chain_verdict(chain, anchors)


def item_fields(encoded):
    """The pairs of the protected header, which is a map inside bytes, or no bytes at all."""
    try:
        item = cbor.read_whole(encoded) if encoded else ("map", ())
    except cbor.NotCbor as reason:
        raise Unreadable(f"no protected header: {reason}") from None
    if item[0] != "map":
        raise Unreadable("no protected header: no map")
    return item


def value_of(item, key):
    return next((value for name, value in item[1] if name == key), None)


def algorithm_of(header):
    """The signature's algorithm, which only the protected header may say."""
    value = value_of(header, ALGORITHM)
    number = -1 - value[1] if value and value[0] == "nint" else None
    if number not in ALGORITHMS:
        raise Unreadable(f"an algorithm that this judge doesn't know: {value and value[1]}")
    return ALGORITHMS[number]


def chain_of(protected, unprotected):
    """The certificates of header 33 (RFC 9360), the signer's first."""
    found = [value for value in (value_of(protected, X5CHAIN), value_of(unprotected, X5CHAIN)) if value is not None]
    if len(found) != 1:
        raise Unfit("the certificates are given twice" if found else "no certificate")
    members = found[0][1] if found[0][0] == "list" else (found[0],)
    if not members or any(member[0] != "bytes" for member in members):
        raise Unfit("header 33 holds no certificates")
    try:
        return [x509.load_der_x509_certificate(member[1]) for member in members]
    except (ValueError, x509.InvalidVersion, UnsupportedAlgorithm) as reason:
        raise Unfit(f"a malformed certificate: {reason}") from None


def key_of(certificate, name, kind):
    """The signer's key, where it is one for the algorithm."""
    try:
        key = certificate.public_key()
    except UnsupportedAlgorithm as reason:
        raise Unreadable(f"a key that the library doesn't know: {reason}") from None
    except ValueError as reason:
        raise Unfit(f"a malformed key: {reason}") from None
    if not isinstance(key, kind):
        raise Unfit(f"a key that isn't one for {name}")
    if kind is ec.EllipticCurvePublicKey and not isinstance(key.curve, CURVES):
        raise Unfit(f"a key on the curve {key.curve.name}")
    if kind is rsa.RSAPublicKey and key.key_size < FEWEST_RSA_BITS:
        raise Unfit(f"a key of {key.key_size} bits")
    return key


def holds(key, digest, signature, message):
    """Whether a signature is the key's over a message."""
    try:
        if isinstance(key, ed25519.Ed25519PublicKey):
            key.verify(signature, message)
        elif isinstance(key, rsa.RSAPublicKey):
            key.verify(signature, message, padding.PSS(padding.MGF1(digest), digest.digest_size), digest)
        else:
            # COSE has the two numbers of a signature side by side, each as long as one of the key's (RFC 9053, section 2.1).
            width = (key.key_size + 7) // 8
            if len(signature) != 2 * width:
                return False
            numbers = (int.from_bytes(half, "big") for half in (signature[:width], signature[width:]))
            key.verify(encode_dss_signature(*numbers), message, ec.ECDSA(digest))
    except InvalidSignature:
        return False
    return True


def check_fit(certificate):
    """Whether a certificate is one for signing claims (C2PA Technical Specification, X.509 certificates)."""
    try:
        found = {extension.oid: extension.value for extension in certificate.extensions}
    except (ValueError, x509.DuplicateExtension, x509.UnsupportedGeneralNameType) as reason:
        raise Unfit(f"malformed extensions: {reason}") from None
    constraints, usage, uses = (found.get(kind.oid) for kind in (x509.BasicConstraints, x509.KeyUsage, x509.ExtendedKeyUsage))
    if certificate.version is not x509.Version.v3:
        raise Unfit("no certificate of version 3")
    if constraints is not None and constraints.ca:
        raise Unfit("the signer's certificate is that of an authority")
    if usage is None or not usage.digital_signature:
        raise Unfit("the signer's certificate isn't for digital signatures")
    if not SIGNING_USES & {use.dotted_string for use in uses or ()}:
        raise Unfit("the signer's certificate isn't for signing claims, documents or e-mail")


def chain_verdict(chain, anchors):
    """The word on a chain of certificates, by OpenSSL's validation of paths (RFC 5280, section 6)."""
    try:
        signer, *others = map(crypto.X509.from_cryptography, chain)
        crypto.X509StoreContext(anchors, signer, others).verify_certificate()
    except crypto.X509StoreContextError as error:
        number, depth, text = error.errors
        return "untrusted" if number in NO_ANCHOR else "invalid", f"certificate {depth} of the chain: {text}"
    except crypto.Error:
        return "invalid", "a malformed certificate"
    return "approved", "the signature holds, and the chain leads to an anchor"


def anchors_of(name, at):
    """The anchors of a file of certificates, any of which ends a chain, whether it has signed itself or not."""
    with open(name, "rb") as file:
        blocks = file.read().split(b"-----BEGIN CERTIFICATE-----")[1:]
    anchors = crypto.X509Store()
    for block in blocks:
        anchors.add_cert(crypto.load_certificate(crypto.FILETYPE_PEM, b"-----BEGIN CERTIFICATE-----" + block))
    anchors.set_time(at)
    anchors.set_flags(crypto.X509StoreFlags.PARTIAL_CHAIN)
    return anchors


def moment(text):
    """A time as text, in the zone that it says or else in UTC; OpenSSL wants it without its zone."""
    time = datetime.datetime.fromisoformat(text)
    return time.astimezone(datetime.timezone.utc).replace(tzinfo=None) if time.tzinfo else time


def verdicts(name, anchors):
    """The id, the word and the reason for each question of a media file, and each reason why there is none."""
    try:
        with open(name, "rb") as file, mmap.mmap(file.fileno(), 0, access=mmap.ACCESS_READ) as media:
            for question in questions_of(media):
                yield judged(question, anchors)
    except (OSError, ValueError, Unreadable) as reason:
        yield None, None, str(reason)


def judged(question, anchors):
    if isinstance(question, Unreadable):
        return None, None, str(question)
    try:
        return question.id, *verdict(question, anchors)
    except Unreadable as reason:
        return None, None, f"manifest {question.label}: {reason}"


def words():
    parser = argparse.ArgumentParser(description="Checks the signatures of media files and prints a verdict file for c2.")
    parser.add_argument("--anchors", required=True, help="the certificates that are trusted, in PEM")
    parser.add_argument("--at", type=moment, default=moment(datetime.datetime.now(datetime.timezone.utc).isoformat()))
    parser.add_argument("media", nargs="+")
    given = parser.parse_args()
    try:
        given.anchors = anchors_of(given.anchors, given.at)
    except (OSError, crypto.Error) as reason:
        parser.error(f"the anchors can't be read: {reason}")
    return given


def main():
    given, status, printed = words(), 0, set()
    shows_progress = len(given.media) > MANY_FILES and sys.stderr.isatty()
    for number, name in enumerate(given.media, 1):
        if shows_progress:
            print(f"\r{number} of {len(given.media)}", end="", file=sys.stderr, flush=True)
        for identity, word, reason in verdicts(name, given.anchors):
            if word != "approved":
                print(f"judge: {name}: {word or 'left out'}: {reason}", file=sys.stderr)
            if word is None:
                status = 1
            elif identity not in printed:
                printed.add(identity)
                print(identity, word)
    if shows_progress:
        print(file=sys.stderr)
    sys.exit(status)


if __name__ == "__main__":
    main()
